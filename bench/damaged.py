"""Maps that were mended by hand, and mistakes that a check of mended maps has to refuse.

A mistake is a function of a source of numbers and a mended map. It gives the mended map with the mistake in it, or None
where that has nothing to make it with.
"""
import collections
import json
import pathlib
import re

from mended import Old, paths_told, places_text
from topology import Arcs, Collection, differences, edges, read, saved_text, segment, segments_of, walks_of, with_features

# The text of a map, the text that it was mended to, the report, and the text of the places.
Mended = collections.namedtuple("Mended", "old text report places")

WORKED = pathlib.Path(__file__).resolve().parent / "worked_maps.txt"
KINDS = "short", "repeats", "on", "cross", "path", "parts", "area"
COUNTED = {"path": "paths", "area": "areas"}
# The frame of a worked map: texts that have to stay as they are, and a `bbox` that goes.
FRAME = (
    '{"note": {"x" :[1.50, "\\u00e9"]}, "type":"Topology","transform":{"scale":[0.50,1e-3],"translate":[-7,2.0]},'
    '"bbox":[0,0,1,1],"objects":{"l\\u00e4nder":{"type":"GeometryCollection","id":7,"geometries":['
    '{"type":"Point", "coordinates":[1.0,2e3]},%s,{"type":"GeometryCollection","properties":{},"geometries":[%s],"of":1}]},'
    '"none":{"type":null,"properties":{"a" : 1}}},"arcs":%s}'
)
FEATURE = '{"arcs":%s,"type":"%s","style":{"fill" : "no\\u006ee"},"properties":{"n":%d.0},"id":"%s\\n"}'


# ---- worked maps

def positions(text):
    return [tuple(map(int, position.split())) for position in text.split(",")]


def polygons_of(text):
    """The polygons of a line behind `in` or `out`."""
    return [[positions(ring) for ring in rings.split(" less ")] for rings in text.split(";") if rings.strip()]


def framed(features):
    """A topology with these features and much that has to stay, each ring an arc of its own."""
    arcs, texts = [], []
    for number, polygons in enumerate(features):
        indexes = []
        for rings in polygons:
            indexes.append([[len(arcs) + k] for k in range(len(rings))])
            arcs += [differences([*ring, ring[0]]) for ring in rings]
        form, shape = ("Polygon", indexes[0]) if len(indexes) == 1 else ("MultiPolygon", indexes)
        texts.append(FEATURE % (json.dumps(shape), form, number, "ABC"[number]))
    return FRAME % (texts[0], ",".join(texts[1:]), json.dumps(arcs))


def lines_of(report):
    """The lines of a report, without the last one."""
    return report.split("\n")[:-2]


def lines_text(lines):
    """The report of these lines, with the counts behind them."""
    found = [line.split()[0] for line in lines]
    counts = " ".join(f"{COUNTED.get(kind, kind)} {found.count(kind)}" for kind in KINDS)
    return "\n".join([*lines, f"counts {counts}", ""])


def changed(text, put):
    """The text with its features changed by a function of their numbers and them."""
    return saved_text(with_features(read(text), put))


def worked_maps(topology_of=framed):
    """The name of each worked map, and how it is mended, where its features stand in such a topology."""
    page = re.sub(r"^#.*\n", "", WORKED.read_text(), flags=re.M).strip()
    for block in page.split("\n\n"):
        name, *rows = block.split("\n")
        before = [polygons_of(row[3:]) for row in rows if row.startswith("in")]
        after = [polygons_of(row[4:]) for row in rows if row.startswith("out")]
        report = [row for row in rows if not row.startswith(("in", "out"))]
        text = topology_of(before)

        def put(number, feature):
            feature.polygons = (after + [[]])[number]
            if feature.form == '"Polygon"' and len(feature.polygons) != 1:
                feature.form = '"MultiPolygon"'

        places = places_text(Old(text), paths_told(report))
        yield name, Mended(text, changed(text, put), lines_text(report), places)


# ---- mistakes in the rings

def in_rings(text, change):
    """The text with each ring changed."""

    def put(_, feature):
        feature.polygons = [[change(ring) for ring in rings] for rings in feature.polygons]

    return changed(text, put)


def through(text, s, q):
    """The text with a position put into a segment, in each ring that has it."""
    return in_rings(text, lambda ring: [w for a, b in edges(ring) for w in ((a, q) if segment(a, b) == s else (a,))])


def vertices_of(text):
    return sorted({p for ring in walks_of(read(text)) for p in ring})


def middles(text):
    """The segments with the position nearest to the middle, where that is no end."""
    segments = sorted({s for ring in walks_of(read(text)) for s in segments_of(ring)})
    found = {s: tuple((a + b) // 2 for a, b in zip(*s)) for s in segments}
    return {s: q for s, q in found.items() if q not in s}


def vertex_moved(draw, it):
    vertices, step = vertices_of(it.text), draw.choice([(0, 1), (1, 0), (-1, 0), (0, -1), (3, 5)])
    p = draw.choice(vertices or [None])
    q = p and (p[0] + step[0], p[1] + step[1])
    if p is None or q in vertices:
        return None
    return it._replace(text=in_rings(it.text, lambda ring: [q if w == p else w for w in ring]))


def vertex_left_out(draw, it):
    p = draw.choice(vertices_of(it.text) or [None])
    return p and it._replace(text=in_rings(it.text, lambda ring: [w for w in ring if w != p]))


def vertex_put_in(draw, it):
    found = middles(it.text)
    s = draw.choice(list(found) or [None])
    return s and it._replace(text=through(it.text, s, found[s]))


def in_polygons(is_fit, change):
    """The mistake that others are in the place of one polygon that fits; it changes the rings by a source of numbers."""

    def mistake(draw, it):
        features = enumerate(read(it.text).features)
        found = [(f, p) for f, feature in features for p, rings in enumerate(feature.polygons) if is_fit(rings)]
        at = draw.choice(found or [None])

        def put(number, feature):
            if number == at[0]:
                feature.polygons[at[1] : at[1] + 1] = change(draw, feature.polygons[at[1]])

        return at and it._replace(text=changed(it.text, put))

    return mistake


def has_holes(rings):
    return len(rings) > 1


def are_long(rings):
    return rings and all(len(ring) > 3 for ring in rings)


def shorter(draw, rings):
    at = draw.randrange(len(rings))
    return [[*rings[:at], rings[at][1:], *rings[at + 1 :]]]


def spiked(_, rings):
    a, b = rings[0][:2]
    return [[[a, b, (2 * b[0] - a[0], 2 * b[1] - a[1]), b, *rings[0][2:]], *rings[1:]]]


def with_another(_, rings):
    return [rings, [[(10**9, 10**9), (10**9 + 1, 10**9), (10**9, 10**9 + 1)]]]


def ring_turned(draw, it):
    """A ring of a map in which no polygon was taken apart goes the other way."""
    if re.search("^parts ", it.report, re.M):
        return None
    return in_polygons(bool, lambda _, rings: [[rings[0][::-1], *rings[1:]]])(draw, it)


def features_swapped(draw, it):
    """Two features have each other's rings, where these are not the same, in another order or direction perhaps."""
    features = read(it.text).features
    rings = [{frozenset(segments_of(ring)) for rings in feature.polygons for ring in rings} for feature in features]
    one, other = draw.choices(range(len(features)), k=2)

    def put(number, feature):
        if number in (one, other):
            feature.polygons = features[one + other - number].polygons

    return None if rings[one] == rings[other] else it._replace(text=changed(it.text, put))


def part_as_hole(_, it):
    """Of two parts of a polygon the second is called a hole of the first."""
    line = re.search(r"^parts (\d+) 0 2$", it.report, re.M)

    def put(number, feature):
        if number == int(line[1]):
            feature.polygons[:2] = [feature.polygons[0] + feature.polygons[1]]

    return line and it._replace(text=changed(it.text, put), report=it.report.replace(line[0], line[0][:-1] + "1"))


# ---- mistakes in what is kept

def in_texts(pattern, new):
    """The mistake that another text is in the place of the first that is found."""

    def mistake(_, it):
        return it._replace(text=re.sub(pattern, new, it.text, count=1)) if re.search(pattern, it.text) else None

    return mistake


def form_changed(draw, it):
    """A feature of one polygon has the other form."""
    found = [n for n, feature in enumerate(read(it.text).features) if len(feature.polygons) == 1]
    at = draw.choice(found or [None])

    def put(number, feature):
        if number == at:
            feature.form = '"Polygon"' if feature.form == '"MultiPolygon"' else '"MultiPolygon"'

    return it._replace(text=changed(it.text, put)) if found else None


def collection_opened(_, it):
    """What stands in a collection stands in the one around it."""
    made = read(it.text)
    for _, geometry in made.layers:
        inner = [n for n, item in enumerate(getattr(geometry, "items", [])) if isinstance(item, Collection)]
        for at in inner:
            geometry.items[at : at + 1] = geometry.items[at].items
            return it._replace(text=saved_text(made))
    return None


class Apart(Arcs):
    """Arcs of which each ring has its own, also where borders are common."""

    def ring(self, ring):
        self.list.append(tuple([*ring, ring[0]]))
        return [len(self.list) - 1]


def border_twice(_, it):
    return it._replace(text=saved_text(read(it.text), Apart([])))


def arc_cut_in_two(draw, it):
    """An arc ends at a vertex that is no junction."""
    made = read(it.text)
    arcs = Arcs(walks_of(made))
    arcs.cuts.add(draw.choice(sorted({*vertices_of(it.text)} - arcs.cuts) or [None]))
    return it._replace(text=saved_text(made, arcs))


# ---- mistakes in the report

def with_path(lines, path):
    """The lines with one of a path more, in its place."""
    line, bent = " ".join(map(str, ("path", *(c for p in path for c in p)))), KINDS.index("path")
    kinds = {it: KINDS.index(it.split()[0]) for it in lines if it != "opens"}
    before = [it for it in lines if kinds.get(it, -1) < bent]
    paths = [it for it in lines if kinds.get(it) == bent] + [line]
    paths.sort(key=lambda it: [int(word) for word in it.split()[1:]])
    return before + paths + [it for it in lines if kinds.get(it, -1) > bent]


def path_put_in(draw, it):
    """A segment has a path along a position that is no vertex and no crossing, also in the rings."""
    led = {tuple(line.split()[k] for k in (1, 2, -2, -1)) for line in lines_of(it.report) if line.startswith("path ")}
    known = Old(it.old).known()
    found = {s: q for s, q in middles(it.text).items() if q not in known and tuple(map(str, s[0] + s[1])) not in led}
    s = draw.choice(list(found) or [None])
    if not s:
        return None
    lines = with_path(lines_of(it.report), (s[0], found[s], s[1]))
    return it._replace(text=through(it.text, s, found[s]), report=lines_text(lines))


def path_led_off(draw, it):
    """A position of a path lies elsewhere, in the rings too."""
    paths = [[int(n) for n in line.split()[1:]] for line in lines_of(it.report) if line.startswith("path ")]
    path = draw.choice(paths or [None])
    if not path:
        return None
    p = path[2], path[3]
    q = p[0], p[1] + 2 + path[-2] - path[0] + abs(path[-1] - path[1])
    inner = re.compile(rf"(?<= ){p[0]} {p[1]}(?= -?\d)")
    lines = [inner.sub(f"{q[0]} {q[1]}", line) if line.startswith("path ") else line for line in lines_of(it.report)]
    return it._replace(text=in_rings(it.text, lambda ring: [q if w == p else w for w in ring]), report=lines_text(lines))


def line_left_out(draw, it):
    lines = it.report.split("\n")
    del lines[draw.randrange(len(lines) - 1)]
    return it._replace(report="\n".join(lines))


def line_left_uncounted(draw, it):
    """A line is left out, and not counted either."""
    lines = lines_of(it.report)
    del lines[draw.randrange(len(lines))]
    return it._replace(report=lines_text(lines))


def line_twice(draw, it):
    lines = it.report.split("\n")
    at = draw.randrange(len(lines) - 1)
    return it._replace(report="\n".join(lines[: at + 1] + lines[at:]))


def lines_swapped(draw, it):
    lines = lines_of(it.report)
    at = draw.randrange(len(lines))
    lines[at], lines[at - 1] = lines[at - 1], lines[at]
    return it._replace(report=lines_text(lines))


def number_changed(draw, it):
    at = draw.choice([*re.finditer(r"\d+", it.report)])
    return it._replace(report=it.report[: at.start()] + str(int(at[0]) + 1) + it.report[at.end() :])


# ---- mistakes in the places

def in_places(pattern, new):
    """The mistake that another text is in the place of the last that is found."""

    def mistake(_, it):
        found = [*re.finditer(pattern, it.places)]
        return it._replace(places=it.places[: found[-1].start()] + new + it.places[found[-1].end() :]) if found else None

    return mistake


A_PATH = r',\{"type":"LineString","properties":\{"number":[0-9]+,"features":\[[0-9,]*\]\},"arcs":\[[0-9]+\]\}'
MISTAKES = {
    "a vertex moved": vertex_moved,
    "a vertex left out": vertex_left_out,
    "a vertex put in": vertex_put_in,
    "segments lost from one ring": in_polygons(are_long, shorter),
    "a spike kept": in_polygons(bool, spiked),
    "a hole left out": in_polygons(has_holes, lambda _, rings: [rings[:-1]]),
    "a polygon left out": in_polygons(bool, lambda _, rings: []),
    "a polygon put in": in_polygons(bool, with_another),
    "a hole as a polygon": in_polygons(has_holes, lambda _, rings: [rings[:1], rings[1:]]),
    "a hole before its outer ring": in_polygons(has_holes, lambda _, rings: [rings[::-1]]),
    "a part as another's hole": part_as_hole,
    "a ring turned": ring_turned,
    "the rings of two features swapped": features_swapped,
    "an id changed": in_texts(r'"id":"A', '"id":"B'),
    "an id left out": in_texts(r'"id":"[^"]*",', ""),
    "an escape in an id written out": in_texts(r'("id":"[^"]*)\\n', r"\1\\u000a"),
    "a number written otherwise": in_texts(r'"n":0\.0', '"n":0'),
    "a Point written otherwise": in_texts(r'"Point", ', '"Point",'),
    "a member left out": in_texts(r',"style":\{[^}]*\}', ""),
    "the transform written otherwise": in_texts(r"0\.50", "0.5"),
    "a layer renamed": in_texts(r'"l\\u00e4nder"', '"länder"'),
    "a layer left out": in_texts(r',"none":\{[^}]*\}\}', ""),
    "a space put in": in_texts(r'"arcs":', '"arcs": '),
    "a form changed": form_changed,
    "a collection opened": collection_opened,
    "a border written twice": border_twice,
    "an arc cut in two": arc_cut_in_two,
    "a path led off": path_led_off,
    "a path along another position": path_put_in,
    "a line left out": line_left_out,
    "a line neither told nor counted": line_left_uncounted,
    "a line told twice": line_twice,
    "two lines swapped": lines_swapped,
    "a number of the report changed": number_changed,
    "places under another transform": in_places(r'"transform":', '"transform": '),
    "a path left out of the places": in_places(A_PATH, ""),
    "a position left out of the places": in_places(r",\[[^]]*\](?=\]\]\})", ""),
    "a feature left out of the places": in_places(r"(?<=[0-9]),[0-9]+(?=\]\})", ""),
    "a feature put into the places": in_places(r'(?<="features":\[)', "0,"),
    "features not told": in_places(r',"features":\[[0-9,]*\]', ""),
    "the paths not placed": in_places(r',"paths":\{"type":"GeometryCollection","geometries":\[[^]]+.*?\]\}', ""),
}
