"""What is told of the overlaps and gaps of a map that opens, worked out side by side from the definitions.

A side of a segment is held by a polygon where a way from it to the right, or to the left, crosses the polygon's rings an
odd number of times: so the right side, which is the upper one of a horizontal segment, is tried at the middle of the
segment, with all coordinates doubled, and the left side differs from it by how often the segment stands in the polygon.
Faces are found by going around them, at each vertex along the next border clockwise; a way round that turns right
is the inside of a face that lies around it, which a way to the right finds. Nothing here is shared with the program:
it goes neither around a face nor from a middle.

`python3 bench/covering.py MAP [--layer NAME].. [--width W] [--area N] [--most N] [--places FILE]` prints the report, and
writes the places.
"""
import argparse
import collections
import fractions
import functools
import itertools
import json
import math
import pathlib

from topology import Collection, Feature, differences, edges, read, segment

KINDS = "overlap", "twice", "gap", "lake"
USUAL = 1000
# Lengths are counted in 65,536ths of a unit.
PARTS = 1 << 16

# A face that is told: what kind it is, its features, twice its area, its length, its name, and its sides.
Found = collections.namedtuple("Found", "kind features area length name sides")


def orient(a, b, c):
    return (b[0] - a[0]) * (c[1] - a[1]) - (b[1] - a[1]) * (c[0] - a[0])


def term(a, b):
    return a[0] * b[1] - b[0] * a[1]


def area_of(rings):
    """Twice the area of a polygon as the editor answers it: of its outer ring less those of its holes."""
    areas = [abs(sum(term(a, b) for a, b in edges(ring))) for ring in rings]
    return areas[0] - sum(areas[1:]) if areas else 0


def length_of(s):
    """The length of a segment, in 65,536ths of a unit and rounded down."""
    (ax, ay), (bx, by) = s
    return math.isqrt(((ax - bx) ** 2 + (ay - by) ** 2) * PARTS**2)


class Heights:
    """Finds what has something at a height: each thing lies in one or two steps of a ladder whose steps are as high as it."""

    def __init__(self, things):
        """The things: each with its least and its greatest height."""
        self.ladders = collections.defaultdict(lambda: collections.defaultdict(list))
        for low, high, thing in things:
            size = (high - low).bit_length()
            for step in range(low >> size, (high >> size) + 1):
                self.ladders[size][step].append(thing)

    def at(self, height):
        return itertools.chain.from_iterable(ladder.get(height >> size, ()) for size, ladder in self.ladders.items())


class Layer:
    """A layer's borders, which polygons hold their sides, and its faces."""

    def __init__(self, name, polygons):
        """The polygons: each with the number of its feature, its number in that, and its rings."""
        self.name, self.polygons = name, polygons
        uses = collections.defaultdict(collections.Counter)
        for number, (_, _, rings) in enumerate(polygons):
            for ring in rings:
                for a, b in edges(ring):
                    uses[segment(a, b)][number] += 1
        odd = {s: {p for p, count in found.items() if count % 2} for s, found in uses.items()}
        self.bounds = {s: found for s, found in odd.items() if found}
        self.borders = sorted(self.bounds)
        self.heights = Heights((min(s[0][1], s[1][1]), max(s[0][1], s[1][1]), s) for s in self.borders)
        self.held = self.holders()
        self.faces, self.outside = self.faces_of()

    # ---- who holds a side

    def holders(self):
        """By side, which is an edge that has the side on its left, the polygons that hold it."""
        held = {}
        for s in self.borders:
            low, high = upward(s)
            right = self.holding((low[0] + high[0], low[1] + high[1]))
            held[high, low] = right
            held[low, high] = right ^ self.bounds[s]
        return held

    def holding(self, middle):
        """The polygons that hold a position of the doubled grid, by the even-odd rule."""
        found = set()
        for s in self.heights.at(middle[1] // 2):
            low, high = sorted(s, key=lambda p: p[1])
            if 2 * low[1] <= middle[1] < 2 * high[1]:
                doubled = [(2 * p[0], 2 * p[1]) for p in (low, high)]
                if orient(*doubled, middle) > 0:
                    found ^= self.bounds[s]
        return frozenset(found)

    # ---- faces

    def faces_of(self):
        """The faces, each a set of sides; and the sides of the outside."""
        ways, around = self.ways()
        face_of = {side: number for number, way in enumerate(ways) for side in way}
        into = {}
        for number, way in enumerate(ways):
            if sum(term(a, b) for a, b in way) < 0:
                side = self.to_the_right(max(a for a, _ in way))
                into[number] = face_of[side] if side else None
        faces, outside = collections.defaultdict(set), set()
        for number, way in enumerate(ways):
            at = number
            while at in into:
                at = into[at]
            (outside if at is None else faces[at]).update(way)
        return list(faces.values()), outside

    def ways(self):
        """The ways round, each a list of sides: behind a side comes the next one clockwise from the way back."""
        leaving = collections.defaultdict(list)
        for a, b in self.held:
            leaving[a].append(b)
        for at, ends in leaving.items():
            ends.sort(key=functools.cmp_to_key(functools.partial(turn, at)))
        place = {(at, end): n for at, ends in leaving.items() for n, end in enumerate(ends)}
        left, ways = set(self.held), []
        for side in sorted(self.held):
            way = []
            while side in left:
                left.remove(side)
                way.append(side)
                a, b = side
                side = b, leaving[b][place[b, a] - 1]
            ways += [way] * bool(way)
        return ways, leaving

    def to_the_right(self, at):
        """The side that a way to the right meets first, from a hair above a position; None where it meets none."""
        found = []
        for s in self.heights.at(at[1]):
            low, high = sorted(s, key=lambda p: p[1])
            if low[1] <= at[1] < high[1] and orient(low, high, at) > 0:
                slope = fractions.Fraction(high[0] - low[0], high[1] - low[1])
                found.append((low[0] + slope * (at[1] - low[1]), slope, (low, high)))
        return min(found)[2] if found else None

    # ---- what is told

    def features(self, polygons):
        return sorted({self.polygons[p][0] for p in polygons})

    def found(self):
        """The faces that two polygons hold or none, by their least sides."""
        return [self.told(face) for face in sorted(self.faces, key=self.least)]

    def least(self, face):
        return min(map(in_order, face))

    def told(self, face):
        """The face, or None where one polygon holds it."""
        holders = {self.held[side] for side in face}
        if len(holders) > 1:
            raise AssertionError(f"the sides of a face are held by {holders}")
        holders = holders.pop()
        if len(holders) == 1:
            return None
        features = self.features(holders or set().union(*(self.held[b, a] for a, b in face)))
        kind = KINDS[(0 if holders else 2) + (len(features) < 2)]
        sides = sorted(face, key=in_order)
        area = sum(term(a, b) for a, b in face)
        return Found(kind, features, area, sum(map(length_of, face)), (*sides[0][0], *sides[0][1]), sides)

    def uneven(self):
        """The polygons whose area by their rings is not that by the even-odd rule: feature, polygon, one area, the other."""
        by_sides = collections.Counter()
        for (a, b), holders in self.held.items():
            by_sides.update(dict.fromkeys(holders, term(a, b)))
        for number, (feature, polygon, rings) in enumerate(self.polygons):
            if area_of(rings) != by_sides[number]:
                yield feature, polygon, area_of(rings), by_sides[number]

    def sums(self):
        """Twice the areas: of all polygons, held too often, covered, in gaps, within."""
        times = [(len(holders), term(*side)) for side, holders in self.held.items()]
        total = sum(count * area for count, area in times)
        over = sum((count - 1) * area for count, area in times if count)
        gaps = sum(term(*side) for face in self.faces for side in face if not self.held[side])
        within = -sum(term(*side) for side in self.outside)
        if total - over + gaps != within or any(self.held[side] for side in self.outside):
            raise AssertionError("the areas of the faces do not add up")
        return total, over, total - over, gaps, within


def upward(s):
    """A segment directed upwards, a horizontal one to the left: so its left side is the one on its left, and the lower."""
    return s if (s[0][1], -s[0][0]) < (s[1][1], -s[1][0]) else s[::-1]


def in_order(side):
    """What sides stand in the order of: by their segments, and of two of one segment its left side first."""
    s = segment(*side)
    return s, side != upward(s)


def half(d):
    return d[1] < 0 or (d[1] == 0 and d[0] < 0)


def turn(at, p, q):
    """Whether the way to one position comes before that to another, counterclockwise from the right."""
    u, v = (p[0] - at[0], p[1] - at[1]), (q[0] - at[0], q[1] - at[1])
    return half(u) - half(v) or -term(u, v)


# ---- the report

def features_within(geometry):
    """The features of a layer's object, in the order of the text."""
    if isinstance(geometry, Feature):
        yield geometry
    elif isinstance(geometry, Collection):
        for item in geometry.items:
            yield from features_within(item)


def layers_of(text):
    """The layers of a map, in the order of its text."""
    number = itertools.count()
    for name, geometry in read(text).layers:
        polygons = []
        for feature in features_within(geometry):
            at = next(number)
            polygons += [(at, p, rings) for p, rings in enumerate(feature.polygons)]
        yield Layer(name, polygons)


def width_of(found):
    """The width of a face, rounded up."""
    return -(-PARTS * found.area // found.length)


class Asked:
    """What is asked of a report: the names of layers, or none for all; the bounds, if any; how many lines of one kind."""

    def __init__(self, names=(), width=None, area=None, most=USUAL):
        self.names, self.width, self.area, self.most = names, width, area, most

    def words(self):
        """The same as arguments of the program."""
        words = [word for name in self.names for word in ("--layer", name)]
        for name, value in ("width", self.width), ("area", self.area):
            words += [f"--{name}", str(value)] * (value is not None)
        return words + ["--most", str(self.most)] * (self.most != USUAL)

    def has(self, found):
        """Whether a face is within the bounds."""
        is_narrow = self.width is None or PARTS * found.area <= self.width * found.length
        return is_narrow and (self.area is None or found.area <= self.area)


class Cover:
    """A map that opens, with what is found in its layers."""

    def __init__(self, text):
        self.transform = read(text).transform
        self.layers = [(json.loads(layer.name), layer, [it for it in layer.found() if it]) for layer in layers_of(text)]

    def looked(self, asked):
        """The layers that are asked for, and all that is found in them."""
        looked = [(layer, found) for name, layer, found in self.layers if not asked.names or name in asked.names]
        return looked, [it for _, found in looked for it in found]

    def places(self, asked):
        """The text of the places: a point for each face within the bounds, and a line for each of its sides."""
        _, found = self.looked(asked)
        layers, arcs = {"places": [], "borders": []}, []
        for kind in KINDS:
            told = [it for it in found if it.kind == kind and asked.has(it)]
            for number, it in enumerate(told):
                properties = {"kind": kind, "number": number, "features": it.features, "area": it.area, "width": width_of(it)}
                layers["places"].append({"type": "Point", "properties": properties, "coordinates": it.name[:2]})
                lines = [[len(arcs) + n] for n in range(len(it.sides))]
                layers["borders"].append({"type": "MultiLineString", "properties": properties, "arcs": lines})
                arcs += [differences(side) if self.transform else side for side in it.sides]
        objects = {name: {"type": "GeometryCollection", "geometries": them} for name, them in layers.items()}
        transform = f',"transform":{self.transform}' if self.transform else ""
        return f'{{"type":"Topology"{transform},"objects":{compact(objects)},"arcs":{compact(arcs)}}}'

    def report(self, asked):
        """The lines of the report, and the status; no lines where a layer has not that name."""
        if not {name for name, _, _ in self.layers}.issuperset(asked.names):
            return [], 2
        looked, found = self.looked(asked)
        lines, counts = [], {}
        for kind in KINDS:
            told = [it for it in found if it.kind == kind and asked.has(it)]
            lines += [f"{kind} {spaced(it.features)} / {it.area} {width_of(it)} / {spaced(it.name)}" for it in told[:asked.most]]
            counts[kind] = len(told)
        uneven = [it for layer, _ in looked for it in layer.uneven()]
        lines += [f"uneven {spaced(it)}" for it in uneven[:asked.most]]
        counts["uneven"] = len(uneven)
        lines += wide_lines(found)
        lines += ["sum {} over {} covered {} gaps {} within {} ".format(*layer.sums()) + layer.name for layer, _ in looked]
        lines.append("counts " + " ".join(f"{kind} {count}" for kind, count in counts.items()))
        return lines, 1 if any(count for kind, count in counts.items() if kind != "lake") else 0


def compact(value):
    return json.dumps(value, separators=(",", ":"))


def spaced(numbers):
    return " ".join(map(str, numbers))


def wide_lines(found):
    """How many faces of each kind there are of each width, in powers of two."""
    wide = collections.Counter((1 << (width_of(it) - 1).bit_length(), it.kind) for it in found)
    for bound in sorted({bound for bound, _ in wide}):
        yield f"wide {bound} " + " ".join(f"{kind} {wide[bound, kind]}" for kind in KINDS)


def main():
    words = argparse.ArgumentParser(description=__doc__, formatter_class=argparse.RawDescriptionHelpFormatter)
    words.add_argument("map", type=pathlib.Path)
    words.add_argument("--layer", action="append", default=[], help="a layer that is looked at; all, where none is named")
    words.add_argument("--width", type=int, help="the greatest width of a face that is told")
    words.add_argument("--area", type=int, help="the greatest area of one, twice as large")
    words.add_argument("--most", type=int, default=USUAL, help="how many lines of one kind (%(default)s)")
    words.add_argument("--places", type=pathlib.Path, help="the file of the places")
    given = words.parse_args()
    cover = Cover(given.map.read_text(encoding="utf-8"))
    asked = Asked(given.layer, given.width, given.area, given.most)
    lines, status = cover.report(asked)
    if given.places and lines:
        given.places.write_text(cover.places(asked), encoding="utf-8")
    print("\n".join(lines))
    return status


if __name__ == "__main__":
    raise SystemExit(main())
