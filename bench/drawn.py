"""A second drawing of maps, written from docs/PICTURES.md and the constants of the picture: what `border_show` has to write
for a map, or for what an edit did to it, byte for byte.

Numbers are Python's, so nothing overflows. What a conflict is it takes from the model of second_opinion.py; a map of more
segments than are compared in pairs has to open.
"""
import collections
import decimal
import itertools
import json
import re
from math import gcd
from xml.sax.saxutils import escape

from second_opinion import conflict_text, do_conflict, segments_of

WIDTH, MARGIN, ROW, ACROSS, DOWN = 1000, 20, 20, 960, 720
LABEL, RISE, LETTER, PIXEL, BEYOND, RADIUS, MOST_PAIRED = 1300, 1000, 720, 100, 10, 14, 1500
# The least and the most parts of a pixel, and how many of them there are for all positions together.
COARSE, FINE_PARTS, ALL_PARTS = 1, 100, 2_000_000
# How many of the finest parts a unit of the map has, how many ten-thousandths a whole; how many bytes of a name and of a
# title are shown.
FINE, RATIO, MOST_BYTES, MOST_TITLE = 10**24, 10_000, 48, 76
QUOTES = {'"': "&quot;", "'": "&apos;", "\r": "&#13;"}

# What XML 1.0 has no character for (2.2).
FORBIDDEN = re.compile("[^\t\n\r\x20-\ud7ff\ue000-\ufffd\U00010000-\U0010ffff]")

STYLE = """<style>
path{fill:#d9d4b8;fill-opacity:.5;stroke:#555;fill-rule:evenodd;stroke-linejoin:round}
path.kept{stroke:#999}
path.changed{fill:#f2b800;stroke:#999}
path.lost{fill:#d55e00;fill-opacity:.25;stroke:none}
path.gone,path.conflict{fill:none;stroke:#d55e00}
path.new{fill:none;stroke:#0072b2}
path.named{fill:none;stroke:#222}
path.bar{fill:none;stroke:#222}
rect.gap{fill:#dcecf5}
circle{fill:none;stroke:#d55e00;stroke-width:2}
text{font-family:sans-serif;font-size:13px;fill:#222}
text.name{font-size:11px;text-anchor:middle;paint-order:stroke;stroke:#fff;stroke-width:3px}
text.number{text-anchor:end;font-size:12px}
text.head{font-weight:bold}
text.gone{fill:#a84a00}
text.new{fill:#005a8c}
</style>
<rect width="100%" height="100%" fill="#fff"/>
"""


def cut(part, whole):
    """A quotient, rounded toward 0."""
    return abs(part) // abs(whole) * (1 if (part < 0) == (whole < 0) else -1)


def text(style, x, y, words):
    return f'<text class="{style}" x="{x}" y="{y}">{escape(words, QUOTES)}</text>\n'


# ---- maps

# A feature: its number, what is shown of its id, its polygons, and what it is called.
Feature = collections.namedtuple("Feature", "number name polygons title")


def rings_of(arcs, indexes):
    """The positions of a ring of arc indexes (TopoJSON 1.0, 2.1.4), from the least one on, without the last one."""
    ring = []
    for index in indexes:
        ring += (arcs[index] if index >= 0 else arcs[~index][::-1])[:-1]
    least = ring.index(min(ring))
    return ring[least:] + ring[:least]


def arcs_of(topology):
    """The positions of the arcs on the grid: under a transform each position is a difference (TopoJSON 1.0, 2.1.2)."""
    arcs = [[(x, y) for x, y in arc] for arc in topology["arcs"]]
    if topology.get("transform"):
        arcs = [list(itertools.accumulate(arc, lambda one, other: (one[0] + other[0], one[1] + other[1]))) for arc in arcs]
    return arcs


def leaves_of(geometry):
    """The geometries of a layer that are no collections, in the order of the text."""
    if geometry["type"] != "GeometryCollection":
        return [geometry]
    return [leaf for item in geometry["geometries"] for leaf in leaves_of(item)]


def first_bytes(words, most=MOST_BYTES):
    """What is shown of a text: at most so many bytes, and three dots where these are not all; U+FFFD for what XML lacks."""
    if len(words.encode()) > most:
        words = words.encode()[:most].decode(errors="ignore") + "\u2026"
    return FORBIDDEN.sub("\ufffd", words)


def title_of(leaf, name):
    """What a feature is called: by the first string called `name` among its properties, or else by its id."""
    named = [value for key, value in (leaf.get("properties") or {}).items()
             if key in ("name", "Name", "NAME") and isinstance(value, str)]
    return first_bytes(named[0]) if named else name


def called_by(leaf):
    """What the id of a geometry stands for: a string for itself, anything else for its text."""
    name = leaf.get("id")
    if isinstance(name, (str, decimal.Decimal)):
        return first_bytes(str(name))
    return name if name is None else first_bytes(json.dumps(name, separators=(",", ":")))


def features_of(topology, names=None):
    """The features. Names are given where the ids of the topology are written otherwise than Python writes them."""
    arcs, found = arcs_of(topology), []
    leaves = [leaf for layer in topology["objects"].values() for leaf in leaves_of(layer)]
    for number, leaf in enumerate(leaves):
        polygons = {"Polygon": [leaf.get("arcs")], "MultiPolygon": leaf.get("arcs"), None: []}[leaf["type"]]
        polygons = [[rings_of(arcs, ring) for ring in rings] for rings in polygons]
        name = called_by(leaf) if names is None else names[number]
        found.append(Feature(number, name, polygons, title_of(leaf, name)))
    return found


def twice_area(ring):
    return sum(x * v - u * y for (x, y), (u, v) in zip(ring, ring[1:] + ring[:1]))


def is_between(a, b, c):
    """Whether b lies on the segment from a to c."""
    turn = (b[0] - a[0]) * (c[1] - a[1]) - (b[1] - a[1]) * (c[0] - a[0])
    return turn == 0 and all(min(a[i], c[i]) <= b[i] <= max(a[i], c[i]) for i in (0, 1))


def corners(ring):
    """The corners of a ring, counter-clockwise from the least."""
    kept = [b for a, b, c in zip(ring[-2:] + ring, ring[-1:] + ring, ring) if not is_between(a, b, c)]
    if twice_area(kept) < 0:
        kept.reverse()
    least = kept.index(min(kept))
    return kept[least:] + kept[:least]


def straight(feature):
    found = [[corners(rings[0]), *sorted(map(corners, rings[1:]))] for rings in feature.polygons]
    return feature._replace(polygons=sorted(found))


def area_of(polygons):
    return sum(abs(twice_area(rings[0])) - sum(abs(twice_area(hole)) for hole in rings[1:]) for rings in polygons)


# ---- the part of the grid that is drawn

def box_of(features):
    """The least and the greatest coordinates of features, or None without a ring."""
    points = [point for feature in features for rings in feature.polygons for ring in rings for point in ring]
    (x0, x1), (y0, y1) = ((min(axis), max(axis)) for axis in zip(*points)) if points else ((0, 0), (0, 0))
    return (x0, y0, x1, y1) if points else None


def about(box, share):
    """The part about a box, with a margin of a share of its greater extent, and a unit: its least corner, width and height."""
    x0, y0, x1, y1 = box
    margin = max(x1 - x0, y1 - y0) // share + 1
    return x0 - margin, y0 - margin, x1 - x0 + 2 * margin, y1 - y0 + 2 * margin


def square(x, y, width):
    """The square of this width about a position: of an odd width the greater half is right of it and above."""
    return x - width // 2, y - width // 2, width, width


def named(features, before, text):
    """The feature that a text names, and its number in the map that is drawn: by an id there, by one before the edit, or by a
    number."""
    for numbered, among in (True, features), (False, before or []):
        found = [each for each in among if each.name == text]
        if found:
            return found[0], found[0].number if numbered else None
    number = int(text.removeprefix("#"))
    return features[number], number


# ---- the place of the map in the picture

def fine(number):
    """A number in the finest parts, of which a unit has 10^24."""
    with decimal.localcontext(decimal.Context(prec=1000)):
        return int(decimal.Decimal(number) * FINE)


def cosine(thousandths):
    """Near the cosine of so many thousandths of a degree, in ten-thousandths: (32400 - 4 d d) / (32400 + d d) of d degrees."""
    square, half_turn = thousandths**2, 180_000**2
    return min(max(cut((half_turn - 4 * square) * RATIO, half_turn + square), 500), RATIO)


def sides_of(box):
    """The least and the greatest x, and the least and the greatest y, of a box."""
    return ((box[0], box[2]), (box[1], box[3])) if box else ((0, 0), (0, 0))


class Units:
    """What a unit of the grid is on the map's own scale: of a map in this box, of which this part is drawn, or all."""

    def __init__(self, transform, box, part=None):
        self.words, self.square, self.ratio = " grid units", "square grid units", RATIO
        self.across = self.upward = FINE
        if transform:
            scale, translate = (list(map(fine, transform[name])) for name in ("scale", "translate"))
            ends = [[zero + unit * end for end in sides] for unit, zero, sides in zip(scale, translate, sides_of(box))]
            self.words, self.square = " units", "square units"
            self.across, self.upward = map(abs, scale)
            if box and all(abs(end) <= most * FINE for most, sides in zip((180, 90), ends) for end in sides):
                self.words, self.square = "\u00b0 of longitude", "square degrees"
                least, most = (part[1], part[1] + part[3]) if part else (box[1], box[3])
                middle = cut(2 * translate[1] + scale[1] * (least + most), 2)
                self.ratio = cosine(cut(middle, FINE // 1000))


class Layout:
    """Where a part of the grid lies in the picture, in so many parts of a pixel."""

    def __init__(self, part, units, parts=PIXEL):
        self.part, self.units, self.parts = part, units, parts
        self.x, self.y, self.across, self.up = part
        across = max(1, self.across * units.ratio // RATIO)
        high = self.up * ACROSS // across
        self.width = ACROSS if high <= DOWN else max(1, min(across * DOWN // self.up, ACROSS))
        self.height = max(1, min(high, DOWN))
        self.left, self.top = MARGIN + (ACROSS - self.width) // 2, MARGIN + ROW

    def fine_for(self, *maps):
        """The same, as fine as the map with the most positions here may be drawn."""
        rings = ([ring for feature in features for rings in feature.polygons for ring in rings] for features in maps)
        most = max(sum(self.has(position) for ring in each for position in ring) for each in rings)
        return Layout(self.part, self.units, max(COARSE, min(FINE_PARTS, ALL_PARTS // max(1, most))))

    def point(self, position):
        x, y = position
        down = self.up - (y - self.y)
        return cut((x - self.x) * self.width * self.parts, self.across), cut(down * self.height * self.parts, self.up)

    def pixel(self, point):
        return self.left + cut(point[0], self.parts), self.top + cut(point[1], self.parts)

    def has(self, position):
        return self.x <= position[0] <= self.x + self.across and self.y <= position[1] <= self.y + self.up

    def meets(self, feature):
        """Whether the part has a common point with the box of a feature."""
        box = feature and box_of([feature])
        return bool(box) and box[0] <= self.x + self.across and self.x <= box[2] and box[1] <= self.y + self.up and self.y <= box[3]

    def depths(self):
        """How far inside each side of the box a point is outside which nothing is drawn: ten pixels beyond the view."""
        beyond = BEYOND * self.parts
        right, bottom = self.width * self.parts + beyond, self.height * self.parts + beyond
        return (lambda p: p[0] + beyond), (lambda p: right - p[0]), (lambda p: p[1] + beyond), (lambda p: bottom - p[1])

    def cut_ring(self, ring):
        """The points of a ring, without what is beyond that box; along its sides where something was cut off. A ring at one
        point goes on to the next one."""
        points = [self.point(position) for position in ring]
        points = [point for index, point in enumerate(points) if index == 0 or point != points[index - 1]]
        if len(points) == 1:
            points.append((points[0][0] + 1, points[0][1]))
        if all(depth(point) >= 0 for depth in self.depths() for point in points):
            return points
        for depth in self.depths():
            kept = []
            for one, other in zip(points[-1:] + points, points):
                kept += [crossing(depth, one, other)] if (depth(one) < 0) != (depth(other) < 0) else []
                kept += [other] if depth(other) >= 0 else []
            points = kept
        return points

    def ring(self, ring):
        """The same without those of which both neighbours are on a level line with them, or on an upright one, on two sides."""
        points = self.cut_ring(ring)
        inner = [b for a, b, c in zip(points, points[1:], points[2:])
                 if not any(a[i] == b[i] == c[i] and (b[j] - a[j]) * (c[j] - b[j]) >= 0 for i, j in ((0, 1), (1, 0)))]
        return points[:1] + inner + points[max(1, len(points) - 1):]

    def rings(self, feature):
        """The rings of a feature that are not all beyond it."""
        return [points for rings in feature.polygons for ring in rings if (points := self.ring(ring))]

    def line(self, one, other):
        """A line as far as it is not beyond that box."""
        ends = self.point(one), self.point(other)
        for depth in self.depths():
            inside = [depth(end) >= 0 for end in ends]
            if not any(inside):
                return ""
            if not all(inside):
                met = crossing(depth, *ends)
                ends = (ends[0], met) if inside[0] else (met, ends[1])
        return "" if ends[0] == ends[1] else data_of([ends])[:-1]


def crossing(depth, one, other):
    """Where the line between two points on different sides meets a side, rounded toward the first."""
    part, whole = depth(one), depth(one) - depth(other)
    return tuple(start + cut((end - start) * part, whole) for start, end in zip(one, other))


def bar(layout):
    """The scale bar: 1, 2 or 5 times a power of ten of units, at most a sixth of the width of the map."""
    span = layout.across * max(1, layout.units.across)
    length = max(digit * 10 ** zeros for digit in (1, 2, 5) for zeros in range(40) if digit * 10 ** zeros <= span // 6)
    start = WIDTH - MARGIN - length // (span // layout.width)
    whole = f"{length // FINE:,}" if length >= FINE else "0." + str(length).rjust(24, "0").rstrip("0")
    return f'<path class="bar" d="M{start} 24v6H980v-6"/>\n' + text("number", start - 6, 30, whole + layout.units.words)


def step(one, other):
    """A line from a point to another one, as short as it can be written: a minus sign needs no space before it."""
    right, down = other[0] - one[0], other[1] - one[1]
    if right == 0 or down == 0:
        return f"v{down}" if right == 0 else f"h{right}"
    return f"l{right}{'' if down < 0 else ' '}{down}"


def data_of(rings):
    return "".join(f"M{points[0][0]} {points[0][1]}" + "".join(map(step, points, points[1:])) + "z" for points in rings)


def path(layout, look, feature):
    title = f"<title>{escape(called(feature), QUOTES)}</title>"
    style = "" if look == "plain" else f' class="{look}"'
    return f'<path{style} d="{data_of(layout.rings(feature))}">{title}</path>\n' if layout.meets(feature) else ""


def lines(layout, look, data):
    """A path that is no feature: thick lines, dashed where they are gone."""
    dashed = f' stroke-dasharray="{7 * layout.parts}"' if look == "gone" else ""
    return f'<path class="{look}" stroke-width="{3 * layout.parts}"{dashed} d="{data}"/>\n'


def called(feature):
    return f"#{feature.number}" if feature.name is None else f"#{feature.number} {feature.name}"


# ---- labels

def at(down, one, other):
    """Where a line that is not level is at a distance from the top, or at its nearest end."""
    down = min(max(down, min(one[1], other[1])), max(one[1], other[1]))
    return one[0] + cut((other[0] - one[0]) * (down - one[1]), other[1] - one[1])


def widest(rings, top, bottom, width):
    """The widest stretch of a row that is inside the rings and that no line of theirs meets."""
    passages, middle = [], top + cut(bottom - top, 2)
    for ring in rings:
        for one, other in zip(ring[-1:] + ring, ring):
            if max(one[1], other[1]) < top or bottom < min(one[1], other[1]):
                continue
            ends = [one[0], other[0]] if one[1] == other[1] else [at(top, one, other), at(bottom, one, other)]
            passages.append((min(ends), max(ends), (one[1] <= middle) != (other[1] <= middle)))
    best, reach, inside = None, None, False
    for left, right, passed in sorted(passages):
        if inside:
            start, end = max(reach, 0), min(left, width)
            if end - start > (best[1] - best[0] if best else 0):
                best = start, end
        reach = right if reach is None else max(reach, right)
        inside ^= passed
    return best


def rows_of(layout, rings):
    """From where to where, from the top, rings are as far as they are shown."""
    heights, most = [y for ring in rings for _, y in ring], layout.height * PIXEL
    return min((max(y, 0) for y in heights), default=most), max((min(y, most) for y in heights), default=0)


def letters(words):
    """How many characters a text has, each from U+0800 on twice."""
    return sum(1 + (ord(letter) >= 0x800) for letter in words)


def label_rows(layout, feature):
    """The tops of the nine rows of a feature and where each is widest inside it, the nearest to the middle first."""
    rings, rows = layout.rings(feature), []
    first, last = rows_of(layout, rings)
    room = last - first - LABEL
    for part in (4, 3, 5, 2, 6, 1, 7, 0, 8) if room >= 0 else ():
        top = first + cut(room * part, 8)
        stretch = widest(rings, top, top + LABEL, layout.width * PIXEL)
        rows += [(top, *stretch)] if stretch else []
    return rows


def place_of(rows, width):
    """The upper left corner of a label of this width: in the first row that has a quarter more room, or else in the widest, if
    it fits there."""
    roomy = [row for row in rows if row[2] - row[1] >= width + width // 4]
    for top, left, right in roomy[:1] or sorted(rows, key=lambda row: row[1] - row[2])[:1]:
        if width <= right - left:
            return top, left + (right - left - width) // 2
    return None


def labels(layout, features):
    drawn, taken = "", []
    for feature in sorted(features, key=lambda each: (-area_of(each.polygons), each.number)):
        rows = label_rows(layout, feature)
        for words in (called(feature), f"#{feature.number}"):
            width = (letters(words) + 1) * LETTER
            place = place_of(rows, width)
            if place:
                top, left = place
                if not any(top < b and t < top + LABEL and left < r and l < left + width for t, b, l, r in taken):
                    taken.append((top, top + LABEL, left, left + width))
                    drawn += text("name", *layout.pixel((left + width // 2, top + RISE)), words)
                break
    return drawn


# ---- what an edit did

def runs_of(features):
    """The longest runs along straight lines that the borders make up, by line."""
    lines, joined = {}, {}
    for ring in (ring for feature in features for rings in feature.polygons for ring in rings):
        for one, other in zip(ring[-1:] + ring, ring):
            low, high = min(one, other), max(one, other)
            right, up = high[0] - low[0], high[1] - low[1]
            step = gcd(right, up)
            right, up = right // step, up // step
            lines.setdefault((right, up, right * low[1] - up * low[0]), set()).add((low, high))
    for line, parts in lines.items():
        runs = []
        for low, high in sorted(parts):
            if runs and low <= runs[-1][1]:
                runs[-1] = runs[-1][0], max(runs[-1][1], high)
            else:
                runs.append((low, high))
        joined[line] = runs
    return joined


def borders(layout, look, these, others):
    """The parts of borders that lie on none of the others, line by line."""
    these, others, data = runs_of(these), runs_of(others), ""
    for line in sorted(these):
        for low, high in these[line]:
            for start, end in others.get(line, []):
                if start < high and low < end:
                    data += layout.line(low, start) if low < start else ""
                    low = max(low, end)
            data += layout.line(low, high) if low < high else ""
    return lines(layout, look, data)


def is_seen(layout, one, other):
    """Whether what a feature gained or lost fills a pixel at least: it lies in an odd number of the rings of both."""
    rings = layout.rings(one) + layout.rings(other)
    top, bottom = rows_of(layout, rings)
    for down in range(0, DOWN * PIXEL, PIXEL):
        stretch = widest(rings, down, down + PIXEL, layout.width * PIXEL) if top <= down + PIXEL and down < bottom else None
        if stretch and stretch[1] - stretch[0] >= PIXEL:
            return True
    return False


def changes_of(old, new):
    """The changed features as pairs, by number."""
    texts = [{(each.name, str(each.polygons)) for each in features} for features in (new, old)]
    gone, made = ([each for each in features if (each.name, str(each.polygons)) not in others]
                  for features, others in zip((old, new), texts))
    pairs = []
    for key in "polygons", "name":
        for one in list(gone):
            other = next((each for each in made if getattr(each, key) == getattr(one, key)), None)
            if other:
                pairs.append((one, other))
                gone.remove(one)
                made.remove(other)
    pairs += [(one, None) for one in gone] + [(None, other) for other in made]
    return sorted(pairs, key=lambda pair: ((pair[1] or pair[0]).number, pair[1] is not None))


def first_digits(number, count):
    """The first digits of a number, and how many follow them."""
    return int(str(number)[:count]), max(0, len(str(number)) - count)


def area_text(units, twice):
    """An area in square units, to nine digits, of which twice as much on the grid is this; computed from the first twelve
    digits of each factor."""
    if units.square == "square grid units" and abs(twice) < 2 * 10**12:
        return f"{abs(twice) // 2:,}" + (".5" if twice % 2 else "")
    product, power = 5, -49
    for factor in (abs(twice), units.across, units.upward):
        digits, more = first_digits(factor, 12)
        product, power = product * digits, power + more
    digits, more = first_digits(product, 9)
    if digits == 0:
        return "0"
    with decimal.localcontext(decimal.Context(prec=60)):
        area = decimal.Decimal(digits).scaleb(power + more).normalize()
    if -6 <= area.adjusted() < 12:
        return f"{area:,f}"
    digits = "".join(map(str, area.as_tuple().digits))
    return digits[0] + "." * (len(digits) > 1) + digits[1:] + f"e{area.adjusted()}"


def table_head(top, units):
    drawn = text("gone", 20, top, "borders gone (dashed)") + text("new", 220, top, "borders new")
    drawn += text("plain", 360, top, "changed features filled, gone ones pale") + text("number", 980, top, "areas in " + units.square)
    heads = [("head", 20, "edit"), ("head number", 130, "number"), ("head", 145, "feature"), ("head number", 600, "area before"),
             ("head number", 740, "area after"), ("head number", 880, "difference"), ("head number", 980, "%")]
    return drawn + "".join(text(style, x, top + 20, words) for style, x, words in heads)


def areas(y, units, one, other):
    """The areas of a feature before and after, and their difference."""
    before, after = (area_of(each.polygons) if each else None for each in (one, other))
    drawn = "" if before is None else text("number", 600, y, area_text(units, before))
    drawn += "" if after is None else text("number", 740, y, area_text(units, after))
    if before is None or after is None or before == after:
        return drawn
    sign = "-" if after < before else "+"
    share = abs(cut((after - before) * 10000, before)) if before else None
    drawn += text("number", 880, y, sign + area_text(units, after - before))
    return drawn + text("number", 980, y, "" if share is None else f"{sign}{share // 100}.{share % 100:02}%")


def table(top, units, pairs):
    drawn = table_head(top, units)
    for y, (one, other) in enumerate(pairs[:100]):
        y, shown = top + 40 + 20 * y, other or one
        is_renamed = one and other and one.polygons == other.polygons
        edit = "new" if one is None else "gone" if other is None else "renamed" if is_renamed else "changed"
        drawn += text(edit if edit in ("new", "gone") else "plain", 20, y, edit) + text("number", 130, y, f"#{shown.number}")
        if is_renamed:
            ids = ("no id" if each.name is None else each.name for each in (one, other))
            drawn += text("plain", 145, y, " \u2192 ".join(ids))
        else:
            drawn += text("plain", 145, y, shown.title or "") + areas(y, units, one, other)
    if len(pairs) > 100:
        drawn += text("plain", 20, top + 40 + 20 * 100, f"others: {len(pairs) - 100}")
    return drawn + (text("plain", 20, top + 40, "no feature") if not pairs else "")


# ---- pages

def first_conflict(features):
    """The least pair of segments in conflict, or None."""
    rings = (ring for feature in features for rings in feature.polygons for ring in rings)
    segments = sorted({each for ring in rings for each in segments_of(ring)})
    if len(segments) > MOST_PAIRED:
        return None
    return next((pair for pair in itertools.combinations(segments, 2) if do_conflict(*pair)), None)


def marks(layout, outlined, conflict):
    """What is drawn over the borders: the outline of the feature that is named, and the segments in conflict."""
    drawn = lines(layout, "named", data_of(layout.rings(outlined))) if outlined else ""
    return drawn + (lines(layout, "conflict", "".join(layout.line(*each) for each in conflict)) if conflict else "")


def fault(layout, conflict):
    """A circle about the middle of what the boxes of two segments share, where it is shown, and the line that names them."""
    if not conflict:
        return ""
    ends = [[sorted(end[axis] for end in each) for each in conflict] for axis in (0, 1)]
    middle = tuple(cut(max(least for least, _ in axis) + min(most for _, most in axis), 2) for axis in ends)
    x, y = layout.pixel(layout.point(middle))
    circle = f'<circle cx="{x}" cy="{y}" r="{RADIUS}"/>\n' if layout.has(middle) else ""
    return circle + text("gone", 20, layout.top + layout.height + ROW, conflict_text(conflict))


def page(title, layout, body, over, rest, rows):
    height = layout.top + layout.height + ROW + ROW * rows + MARGIN
    return (f'<svg xmlns="http://www.w3.org/2000/svg" width="{WIDTH}" height="{height}" viewBox="0 0 {WIDTH} {height}">\n' + STYLE
            + text("head", 20, 30, first_bytes(title, MOST_TITLE)) + bar(layout) + f'<svg x="{layout.left}" y="{layout.top}" width="{layout.width}" '
            f'height="{layout.height}" viewBox="0 0 {layout.width * layout.parts} {layout.height * layout.parts}">\n'
            f'<rect class="gap" width="100%" height="100%"/>\n<g stroke-width="{layout.parts}">\n' + body + "</g>\n</svg>\n" + over + rest + "</svg>\n")


def part_of(features, before, at, feature):
    """The part that is drawn, and the number of the feature that is outlined."""
    if at:
        return square(*at), None
    if feature:
        found, number = named(features, before, feature)
        return about(box_of([found]), 4), number
    return about(box_of(features + (before or [])), 40), None


def whole(topology):
    """The features of a map, and where they lie in its picture."""
    features = features_of(topology)
    box = box_of(features)
    return features, Layout(about(box, 40), Units(topology.get("transform"), box))


def map_page(title, topology, ids, names=None, at=None, feature=None):
    """The page of a map: of its square `at` (x, y, width), or of the surroundings of a feature that a text names."""
    features = features_of(topology, names)
    conflict = first_conflict(features)
    part, number = part_of(features, None, at, feature)
    layout = Layout(part, Units(topology.get("transform"), box_of(features), part if at or feature else None))
    drawn = layout.fine_for(features)
    body = "".join(path(drawn, "plain", each) for each in features)
    body += marks(drawn, None if number is None else features[number], conflict)
    title += f": {feature}" if feature else ""
    return page(title, drawn, body, labels(layout, features) if ids else "", fault(layout, conflict), 0)


def change_page(title, before, after, ids, names=(None, None), at=None, feature=None):
    """The page of an edit, of a part of it as of a map. The list has the changes of which the part shows some,
    and all where it is the whole map."""
    old, new = (features_of(*each) for each in zip((before, after), names))
    conflict, (part, number) = first_conflict(new), part_of(new, old, at, feature)
    units = Units(after.get("transform"), box_of(old + new), part if at or feature else None)
    old, new, layout = list(map(straight, old)), list(map(straight, new)), Layout(part, units)
    drawn = layout.fine_for(old, new)
    pairs = changes_of(old, new)
    seen = [(one, other) for one, other in pairs if not (one and other) or is_seen(layout, one, other)]
    filled = {other.number for _, other in seen if other}
    body = "".join(path(drawn, "lost", one) for one, other in pairs if other is None)
    body += "".join(path(drawn, "changed" if each.number in filled else "kept", each) for each in new)
    body += borders(drawn, "gone", [one for one, _ in seen if one], new)
    body += borders(drawn, "new", [other for _, other in seen if other], old)
    body += marks(drawn, None if number is None else new[number], conflict)
    is_whole = not (at or feature)
    listed = [pair for pair in pairs if is_whole or any(layout.meets(each) for each in pair)]
    rows = max(1, min(len(listed), 100)) + 2 + (len(listed) > 100)
    top = layout.top + layout.height + 2 * ROW
    over = (labels(layout, new) if ids else "") + fault(layout, conflict)
    title += f": {feature}" if feature else ""
    return page(title, drawn, body, over, table(top, units, listed), rows + 1)


def loads(words):
    """The topology that a text is, with its decimals as they are."""
    return json.loads(words, parse_float=decimal.Decimal)


def read(name):
    """The topology in a file."""
    with open(name, encoding="utf-8") as file:
        return loads(file.read())
