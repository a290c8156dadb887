"""Checks a mended map: its text and the report, beside the text of the map as it was.

Everything is worked out here from definitions, in whole numbers, and shares nothing with the program. The report is
believed in one thing, which path a segment has, and only where it is such a path as there may be:

    opens     the new rings have three positions or more and none twice, and no two of their segments conflict
    paths     a path leads from the lesser end of its segment to the greater, near it and ever further along; what is put
              in is an end of a segment that bounds something, or the rounded crossing of two of these; where none
              of these conflict there is no path
    rings     a polygon whose rings are simple once they are led along the paths has these, and nothing else; any other
              stands as polygons that have together exactly the segments that stood an odd number of times, each once
    text      all else is as it was, byte for byte, and written as docs/FORMATS.md says of the saved text
    report    every other line is worked out anew, and has to stand in its place
    places    the topology of the places is worked out anew, with a line for each path
    parts     of a polygon that was taken apart holes lie directly in their outer rings, and outer rings in none of these;
              rings that were there stay, others turn as the outer ring did, and holes the other way. No promise says so
"""
import collections
import itertools
import json
import os
import re

from topology import Unreadable, differences, edges, from_least, read, saved_text, segment, segments_of, walks_of, with_features

PATH = re.compile(r"path( -?[0-9]+ -?[0-9]+){3,}")


class Wrong(Exception):
    """What is wrong with a mended map."""


def demand(holds, why):
    if not holds:
        raise Wrong(why)


# ---- positions and segments

def orient(a, b, c):
    return (b[0] - a[0]) * (c[1] - a[1]) - (b[1] - a[1]) * (c[0] - a[0])


def is_in_box(p, s):
    (ax, ay), (bx, by) = s
    return ax <= p[0] <= bx and min(ay, by) <= p[1] <= max(ay, by)


def is_near(q, s):
    """Whether the unit square around a position meets the segment."""
    (ax, ay), (bx, by) = s
    return is_in_box(q, s) and 2 * abs(orient(*s, q)) <= abs(bx - ax) + abs(by - ay)


def along(s, q):
    """How far along the segment a position stands."""
    (ax, ay), (bx, by) = s
    return (q[0] - ax) * (bx - ax) + (q[1] - ay) * (by - ay)


def rounded_crossing(s, t):
    """Where two segments that cross do so, a half rounded upwards."""
    before, behind = abs(orient(*t, s[0])), abs(orient(*t, s[1]))
    whole = before + behind
    return tuple((2 * (a * whole + (b - a) * before) + whole) // (2 * whole) for a, b in zip(*s))


def do_cross(s, t):
    a, b, c, d = orient(*s, t[0]), orient(*s, t[1]), orient(*t, s[0]), orient(*t, s[1])
    return (a < 0 < b or b < 0 < a) and (c < 0 < d or d < 0 < c)


def is_within(p, s):
    """Whether a position lies on the segment and is none of its ends."""
    return p not in s and orient(*s, p) == 0 and is_in_box(p, s)


def size_of(s):
    """The least number of bits that has the width and the height of a segment."""
    return max(s[1][0] - s[0][0], abs(s[1][1] - s[0][1])).bit_length()


def cells_of(s, size):
    """The cells of a grid that the box of a segment has something of; a cell's side has so many bits."""
    (ax, ay), (bx, by) = s
    for x in range(ax >> size, (bx >> size) + 1):
        for y in range(min(ay, by) >> size, (max(ay, by) >> size) + 1):
            yield size, x, y


def close_pairs(segments):
    """Each two segments that have a cell in common, on the grid whose cells are as large as the larger of the two."""
    cells, sizes = {}, []
    ordered = sorted(segments, key=size_of, reverse=True)
    least = size_of(ordered[len(ordered) // 2]) if ordered else 0
    for s in ordered:
        size = max(size_of(s), least)
        if size not in sizes:
            sizes.append(size)
        for t in {t for each in sizes for cell in cells_of(s, each) for t in cells.get(cell, ())}:
            yield s, t
        for cell in cells_of(s, size):
            cells.setdefault(cell, []).append(s)


def meetings(segments):
    """The ends of segments that lie within others, each with that one, and the segments that cross, the lesser one first."""
    touches, crossings = set(), set()
    for s, t in close_pairs(segments):
        if s[0][0] > t[1][0] or t[0][0] > s[1][0]:
            continue
        if do_cross(s, t):
            crossings.add((min(s, t), max(s, t)))
        touches.update((p, t) for p in s if is_within(p, t))
        touches.update((p, s) for p in t if is_within(p, s))
    return sorted(touches), sorted(crossings)


# ---- walks

def is_simple(walk):
    """Whether no position stands twice, and there are three or more."""
    return len(walk) >= 3 and len({*walk}) == len(walk)


def times(walks):
    return collections.Counter(s for walk in walks for s in segments_of(walk))


def odd_segments(walks):
    return {s for s, count in times(walks).items() if count % 2}


def bounding(walks):
    """The segments of a polygon that bound something."""
    return {*times(walks)} if all(map(is_simple, walks)) else odd_segments(walks)


def laid(paths, walk):
    """The walk, led along the paths."""
    led = []
    for a, b in edges(walk):
        inner = paths.get(segment(a, b), [])
        led += [a, *(inner if a < b else inner[::-1])]
    return led


def area2(walk):
    return sum(a[0] * b[1] - b[0] * a[1] for a, b in edges(walk))


def area_of(polygons):
    """Twice the area of polygons: of their outer rings less their holes, whichever way they turn."""
    rings = ((abs(area2(walk)), at) for walks in polygons for at, walk in enumerate(walks))
    return sum(area if at == 0 else -area for area, at in rings)


def swept_along(s, inner):
    """Twice the area of the triangles of each step along a path and its end."""
    way = [s[0], *inner, s[1]]
    return sum(abs(orient(p, q, s[1])) for p, q in zip(way, way[1:]))


def swept_of(polygons, paths):
    """What the edges of polygons sweep over as they are led along the paths."""
    segments = (s for walks in polygons for walk in walks for s in segments_of(walk))
    return sum(swept_along(s, paths[s]) for s in segments if s in paths)


class Old:
    """A map as it was, and what meets in it."""

    def __init__(self, text):
        self.map = read(text)
        self.polygons = [
            (f, p, walks) for f, feature in enumerate(self.map.features) for p, walks in enumerate(feature.polygons)
        ]
        self.bounding = {s for _, _, walks in self.polygons for s in bounding(walks)}
        self.touches, self.crossings = meetings({s for walk in walks_of(self.map) for s in segments_of(walk)})
        self.having = collections.defaultdict(set)
        for f, _, walks in self.polygons:
            for it in itertools.chain.from_iterable([*walk, *segments_of(walk)] for walk in walks):
                self.having[it].add(f)

    def features_with(self, *these):
        """The property that tells the features which have one of these vertices or segments."""
        return {"features": sorted(set().union(*(self.having[it] for it in these)))}

    def known(self):
        """What may be put into a segment."""
        crossings = {rounded_crossing(s, t) for s, t in self.crossings if s in self.bounding and t in self.bounding}
        return {p for s in self.bounding for p in s} | crossings

    def needs_paths(self):
        """Whether segments that bound something conflict."""
        ends = {p for s in self.bounding for p in s}
        touches = any(p in ends and s in self.bounding for p, s in self.touches)
        return touches or any(s in self.bounding and t in self.bounding for s, t in self.crossings)


# ---- opens

def check_opens(new):
    for walk in walks_of(new):
        demand(is_simple(walk), f"the ring {walk[:3]}.. is not simple")
    touches, crossings = meetings({s for walk in walks_of(new) for s in segments_of(walk)})
    demand(not touches, f"vertices lie on segments still: {touches[:1]}")
    demand(not crossings, f"segments cross still: {crossings[:1]}")


# ---- paths

def paths_told(lines):
    """The paths of a report: the positions between the ends of each segment."""
    found = [line for line in lines if line.startswith("path ")]
    demand(all(map(PATH.fullmatch, found)), "a path that is none, or has less than three positions")
    numbers = [[int(number) for number in line.split()[1:]] for line in found]
    paths = [list(zip(it[::2], it[1::2])) for it in numbers]
    segments = [(path[0], path[-1]) for path in paths]
    demand(all(s < t for s, t in zip(segments, segments[1:])), "the paths do not ascend")
    return {(path[0], path[-1]): path[1:-1] for path in paths}


def check_paths(old, paths):
    demand(not paths or old.needs_paths(), "a path, and no conflict")
    known = old.known() if paths else set()
    for s, inner in paths.items():
        demand(s in old.bounding, f"a path of {s}, which bounds nothing")
        far = [along(s, q) for q in (s[0], *inner, s[1])]
        demand(all(a < b for a, b in zip(far, far[1:])), f"the path of {s} goes back")
        for q in inner:
            demand(is_near(q, s), f"the path of {s} goes along {q}, which is not near")
            demand(q in known, f"the path of {s} goes along {q}, which is no vertex and no crossing")


# ---- polygons

def does_count(w, a, b):
    """Whether an edge lies to the right of a position, as the even-odd rule counts it."""
    return (a[1] > w[1]) != (b[1] > w[1]) and (orient(a, b, w) > 0) == (b[1] > a[1])


def holds(outer, ring):
    """Whether a ring lies inside another, where no segments conflict and none is common."""
    middle = ring[0][0] + ring[1][0], ring[0][1] + ring[1][1]
    doubled = [(2 * x, 2 * y) for x, y in outer]
    return sum(does_count(middle, a, b) for a, b in edges(doubled)) % 2 == 1


def box_of(ring):
    xs, ys = zip(*ring)
    return min(xs), min(ys), -max(xs), -max(ys)


def check_nesting(parts, where):
    """That holes lie directly in their outer rings, and outer rings in no other part."""
    rings = [(number, ring, box_of(ring)) for number, rings in enumerate(parts) for ring in rings]
    around = []
    for number, ring, box in rings:
        boxes = ((n, other) for n, other, larger in rings if other is not ring and all(map(int.__le__, larger, box)))
        around.append([(n, other) for n, other in boxes if holds(other, ring)])
    depths = {id(ring): len(outers) for (_, ring, _), outers in zip(rings, around)}
    for (number, ring, _), outers in zip(rings, around):
        outer = parts[number][0]
        if ring is outer:
            demand(len(outers) % 2 == 0, f"{where}: the outer ring {ring[:3]}.. lies in another part")
        else:
            direct = (number, outer) in outers and len(outers) == depths[id(outer)] + 1
            demand(direct, f"{where}: the hole {ring[:3]}.. does not lie directly in its outer ring")


def check_turns(walks, led, parts, where):
    """That rings that were there stay as they were, and that others turn as the outer ring did, holes the other way."""
    there, was, now = collections.defaultdict(list), area2(walks[0]), area2(led[0])
    for walk in filter(is_simple, led):
        there[frozenset(segments_of(walk))].append(from_least(walk))
    for rings in parts:
        for ring in rings:
            same = there.get(frozenset(segments_of(ring)))
            demand(not same or from_least(ring) in same, f"{where}: the ring {ring[:3]}.. turns the other way now")
            if not same and was * now > 0:
                turns = (area2(ring) > 0) == (was > 0)
                demand(turns == (ring is rings[0]), f"{where}: the ring {ring[:3]}.. turns the wrong way")


def taken(polygons, count):
    """The first polygons, up to as many segments; they are taken from the list."""
    parts = []
    while count > 0 and polygons:
        parts.append(polygons.pop(0))
        count -= sum(map(len, parts[-1]))
    return parts


def check_parts(walks, led, parts, where):
    """That these polygons may stand in the place of one whose walks are not all rings."""
    demand(all(parts), f"{where}: a part without rings")
    found, wanted = times([ring for rings in parts for ring in rings]), odd_segments(led)
    lost = [*wanted - found.keys()] or [s for s, count in found.items() if count > 1 or s not in wanted]
    demand(not lost, f"{where}: {lost[:1]} stands not as often as it must")
    check_nesting(parts, where)
    check_turns(walks, led, parts, where)


def check_polygons(old, new, paths):
    """That each polygon stands as it was led along the paths, or in parts; how many parts, of those."""
    demand(len(old.map.features) == len(new.features), f"{len(new.features)} features")
    left, parted = [list(feature.polygons) for feature in new.features], []
    for f, p, walks in old.polygons:
        led, where = [laid(paths, walk) for walk in walks], f"polygon {p} of feature {f}"
        if all(map(is_simple, led)):
            rings = [from_least(ring) for ring in left[f].pop(0)] if left[f] else None
            demand(rings == [from_least(ring) for ring in led], f"{where} is another one")
        else:
            parts = taken(left[f], len(odd_segments(led)))
            check_parts(walks, led, parts, where)
            parted.append((f, p, len(parts)))
    demand(not any(left), "there are more polygons than there were")
    return parted


# ---- the text

def check_text(old, new, text):
    """That the text is that of the old map with the new rings, byte for byte."""

    def put(number, feature):
        feature.polygons = new.features[number].polygons
        if feature.form == '"Polygon"' and len(feature.polygons) != 1:
            feature.form = '"MultiPolygon"'

    wanted = saved_text(with_features(old.map, put))
    if text != wanted:
        at = max(0, len(os.path.commonprefix([text, wanted])) - 20)
        raise Wrong(f"the text has {text[at:at + 60]!r}, and not {wanted[at:at + 60]!r}")


# ---- the report

def told(*numbers):
    """Numbers, positions and segments as a line has them."""
    return " ".join(told(*it) if isinstance(it, (tuple, list)) else str(it) for it in numbers)


def ring_findings(old):
    """The rings of fewer than three positions, and the positions that a ring passes more than once."""
    places = [((f, p, r), walk) for f, p, walks in old.polygons for r, walk in enumerate(walks)]
    often = [(at, sorted(p for p, count in collections.Counter(walk).items() if count > 1)) for at, walk in places]
    return [it for it in places if len(it[1]) < 3], [(at, p) for at, positions in often for p in positions]


def finding_lines(old):
    """What stops the map from opening."""
    short, repeats = ring_findings(old)
    short = [f"short {told(at)}" for at, _ in short]
    repeats = [f"repeats {told(at, p)}" for at, p in repeats]
    touches = [f"on {told(p)} / {told(s)}" for p, s in old.touches]
    return short, repeats, touches, [f"cross {told(s)} / {told(t)}" for s, t in old.crossings]


def area_lines(old, new, paths):
    """How areas change, and how much borders sweep over."""
    both = enumerate(zip(old.map.features, new.features))
    changes = [(f, area_of(a.polygons), area_of(b.polygons), swept_of(a.polygons, paths)) for f, (a, b) in both]
    return [f"area {told(it)}" for it in changes if it[1] != it[2] or it[3]]


def report_lines(old, new, paths, parted):
    """The report, line by line."""
    findings = finding_lines(old)
    bent = [f"path {told(s[0], *inner, s[1])}" for s, inner in sorted(paths.items())]
    kinds = *findings, bent, [f"parts {told(it)}" for it in parted], area_lines(old, new, paths)
    names = "short", "repeats", "on", "cross", "paths", "parts", "areas"
    counts = " ".join(f"{name} {len(lines)}" for name, lines in zip(names, kinds))
    return [*([] if any(findings) else ["opens"]), *itertools.chain(*kinds), f"counts {counts}"]


def check_report(lines, wanted):
    for line, other in itertools.zip_longest(lines, wanted):
        demand(line == other, f"the report has {line!r}, and not {other!r}")


# ---- the places

def points_of(old):
    """A point for each finding that has a place."""
    short, repeats = ring_findings(old)
    in_ring = lambda at: dict(zip(("feature", "polygon", "ring"), at))
    found = {
        "short": [(in_ring(at), walk[:1]) for at, walk in short],
        "repeats": [(in_ring(at), [p]) for at, p in repeats],
        "on": [(old.features_with(p), [p]) for p, _ in old.touches],
        "cross": [(old.features_with(*pair), [rounded_crossing(*pair)]) for pair in old.crossings],
    }
    for kind, places in found.items():
        for n, (whose, positions) in enumerate(places):
            properties = {"kind": kind, "number": n, **whose}
            yield from ({"type": "Point", "properties": properties, "coordinates": [*p]} for p in positions)


def places_of(old, paths):
    """The layers of the places, of the segments and of the paths, and the arcs."""
    sides = [("on", n, s) for n, (_, s) in enumerate(old.touches)]
    sides += [("cross", n, s) for n, pair in enumerate(old.crossings) for s in pair]
    ways = [[s[0], *inner, s[1]] for s, inner in sorted(paths.items())]
    properties = [{"kind": kind, "number": n, **old.features_with(s)} for kind, n, s in sides]
    properties += [{"number": n, **old.features_with((way[0], way[-1]))} for n, way in enumerate(ways)]
    lines = [{"type": "LineString", "properties": it, "arcs": [k]} for k, it in enumerate(properties)]
    layers = {"places": [*points_of(old)], "segments": lines[: len(sides)], "paths": lines[len(sides) :]}
    arcs = [differences(arc) if old.map.transform else arc for arc in ([*(s for _, _, s in sides), *ways])]
    objects = {name: {"type": "GeometryCollection", "geometries": them} for name, them in layers.items()}
    return objects, [[[*p] for p in arc] for arc in arcs]


def places_text(old, paths):
    objects, arcs = (json.dumps(it, separators=(",", ":")) for it in places_of(old, paths))
    transform = f',"transform":{old.map.transform}' if old.map.transform else ""
    return f'{{"type":"Topology"{transform},"objects":{objects},"arcs":{arcs}}}'


def check_places(old, paths, text):
    wanted = places_text(old, paths)
    if text != wanted:
        at = max(0, len(os.path.commonprefix([text, wanted])) - 20)
        raise Wrong(f"the places have {text[at:at + 60]!r}, and not {wanted[at:at + 60]!r}")


# ---- all of it

def check(old_text, new_text, report, places):
    """What is wrong with a mended map, by the texts of the map before and after, the report and the places; None where
    nothing is."""
    try:
        old, new = Old(old_text), read(new_text)
        paths = paths_told(report.splitlines())
        check_paths(old, paths)
        check_opens(new)
        parted = check_polygons(old, new, paths)
        check_text(old, new, new_text)
        demand(report.endswith("\n"), "the report ends within a line")
        check_report(report[:-1].split("\n"), report_lines(old, new, paths, parted))
        check_places(old, paths, places)
    except (Wrong, Unreadable) as why:
        return str(why)
    return None
