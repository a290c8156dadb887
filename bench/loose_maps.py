"""Makes maps that are read but need not open: real ones made coarser or simpler, and drawn ones.

A drawn map has some polygons on a small grid, with rings that cross, touch, repeat a position, collapse, or have a stretch
in common with others; features with ids and properties of all kinds, collections in collections, Points; with a transform
and without one; and arcs that are shared, gone along backwards, or used by no ring.
"""
import decimal
import heapq
import json

from mended import orient
from topology import differences, entries, read

FAR = 10**12


# ---- maps made of others

def with_arcs(text, arcs, times=1):
    """The text with other arcs, and with the scale of its transform so many times as large."""
    members = {name: [token, value] for name, token, value in entries(text.strip())}
    old = members.get("transform", ["", "null"])
    transform = json.loads(old[1], parse_float=decimal.Decimal, parse_int=decimal.Decimal)
    if transform and times != 1:
        scale = ",".join(str(times * number) for number in transform["scale"])
        old[1] = f'{{"scale":[{scale}],"translate":[{",".join(map(str, transform["translate"]))}]}}'
    members["arcs"][1] = json.dumps([differences(arc) if transform else arc for arc in arcs], separators=(",", ":"))
    return "{" + ",".join(f"{token}:{value}" for token, value in members.values()) + "}"


def coarsened(text, width):
    """The map on a coarser grid, by a power of two, on which it is at most so wide, each position at the nearest one."""
    arcs = read(text).arcs
    reach = max((max(it) - min(it) for it in zip(*(p for arc in arcs for p in arc))), default=0)
    step = 1 << max(0, (reach // width).bit_length())
    return with_arcs(text, [[tuple((2 * c + step) // (2 * step) for c in p) for p in arc] for arc in arcs], step)


def sparse(text, step):
    """The map with every so many-th position of an arc left out."""
    arcs = read(text).arcs
    return with_arcs(text, [[p for n, p in enumerate(arc[:-1]) if n % step != step - 1] + arc[-1:] for arc in arcs])


def simplified(text, share):
    """The map with one of so many positions of an arc left, those with the largest triangles (Visvalingam and Whyatt)."""
    return with_arcs(text, [thinned(arc, 2 + (len(arc) - 2) // share) for arc in read(text).arcs])


def thinned(arc, count):
    """An arc with so many positions left."""
    before, after = list(range(-1, len(arc) - 1)), list(range(1, len(arc) + 1))

    def area(n):
        return abs(orient(arc[before[n]], arc[n], arc[after[n]]))

    queue = [(area(n), n) for n in range(1, len(arc) - 1)]
    heapq.heapify(queue)
    gone = set()
    while len(arc) - len(gone) > count:
        size, n = heapq.heappop(queue)
        if n in gone or size != area(n):
            continue
        gone.add(n)
        after[before[n]], before[after[n]] = after[n], before[n]
        for m in (before[n], after[n]):
            if 0 < m < len(arc) - 1:
                heapq.heappush(queue, (area(m), m))
    return [p for n, p in enumerate(arc) if n not in gone]


FORMS = {
    "as it is": lambda text: text,
    "at most 4096 wide": lambda text: coarsened(text, 4096),
    "at most 512 wide": lambda text: coarsened(text, 512),
    "at most 64 wide": lambda text: coarsened(text, 64),
    "every third position left out": lambda text: sparse(text, 3),
    "simplified to a tenth": lambda text: simplified(text, 10),
    "simplified to a quarter, at most 1024 wide": lambda text: coarsened(simplified(text, 4), 1024),
}


# ---- maps on which a search for paths may end too early

# In some round a border leaves a link that is in conflict, and another border is led onto it: that one has to be parted
# from the same segments in the next round, though no link is new that was not there before.
KNOTS = {
    "a link that changes hands": [
        [(1, 3), (8, 0), (9, 1)], [(3, 2), (10, 0), (3, 3)], [(1, 2), (10, 1), (1, 9)], [(2, 1), (6, 1), (8, 1)],
    ],
    "a link that changes hands between triangles": [
        [(0, 2), (8, 1), (1, 2)], [(1, 2), (7, 0), (-2, 1)], [(1, 2), (6, 0), (0, 3)], [(2, 0), (8, 2), (-3, 2)],
    ],
}


def in_layer(geometries, arcs):
    """The text of a map with one layer, of these geometries."""
    layer = {"type": "GeometryCollection", "geometries": geometries}
    return json.dumps({"type": "Topology", "objects": {"rings": layer}, "arcs": arcs})


def plain(rings):
    """The text of a map in which each of these rings is a feature."""
    geometries = [{"type": "Polygon", "arcs": [[n]]} for n in range(len(rings))]
    return in_layer(geometries, [[*ring, ring[0]] for ring in rings])


# ---- drawn rings

class Rings:
    """Draws closed lists of positions on a small grid, with the last position not repeated."""

    def __init__(self, draw):
        self.draw, self.made = draw, []
        self.width = draw.choice([2, 2, 3, 4, 6, 8, 12, 30, 100, 1000, FAR])

    def position(self):
        return self.draw.randint(0, self.width), self.draw.randint(0, self.width)

    def corners(self):
        return [self.position() for _ in range(self.draw.randint(1, 7))]

    def box(self):
        (a, b), (c, d) = self.position(), self.position()
        return [(a, b), (c, b), (c, d), (a, d)]

    def spiked(self):
        ring = self.box()
        return [*ring[:2], self.position(), *ring[1:]]

    def tied(self):
        """Two rings in one list, with a way from the one to the other and back."""
        outer, inner = self.box(), self.draw.choice([self.box, self.corners])()
        return [*outer, outer[0], *inner, inner[0]]

    def pinched(self):
        """Two boxes with a corner in common, gone round in one way or in both."""
        first, second = self.box(), self.box()
        x, y = first[2][0] - second[0][0], first[2][1] - second[0][1]
        moved = [(a + x, b + y) for a, b in second]
        return [*first[:2], *(moved if self.draw.random() < 0.5 else moved[:1] + moved[:0:-1]), *first[2:]]

    def steps(self):
        """A way of small steps, which comes by itself often."""
        x, y = self.position()
        ring = []
        for _ in range(self.draw.randint(3, 14)):
            ring.append((x, y))
            x, y = x + self.draw.randint(-1, 1), y + self.draw.randint(-1, 1)
        return ring

    def again(self):
        """A ring that was drawn before, the other way round, with positions left out or moved a little."""
        ring = list(self.draw.choice(self.made)) if self.made else self.corners()
        ring = ring[::-1] if self.draw.random() < 0.5 else ring
        for _ in range(self.draw.choice([0, 0, 1, 2])):
            at = self.draw.randrange(len(ring))
            (x, y), kind = ring[at], self.draw.random()
            ring[at : at + 1] = [] if kind < 0.4 and len(ring) > 1 else [(x + self.draw.randint(-1, 1), y)]
        return ring

    def beside(self):
        """A ring with a position beside a segment that was drawn before, or on it."""
        ring = self.draw.choice(self.made) if self.made else self.corners()
        at, part = self.draw.randrange(len(ring)), self.draw.randint(1, 7)
        p = tuple(a + (b - a) * part // 8 for a, b in zip(ring[at - 1], ring[at]))
        return [p, self.position(), self.position(), *([self.position()] if self.draw.random() < 0.4 else [])]

    def stretch(self):
        """A ring that has a part of a segment of another one."""
        ring = self.draw.choice(self.made) if self.made else self.corners()
        at, part = self.draw.randrange(len(ring)), self.draw.choice([2, 3, 4])
        (a, b), (c, d) = ring[at - 1], ring[at]
        along = (c - a) // part, (d - b) // part
        ends = [(a + along[0] * k, b + along[1] * k) for k in self.draw.sample(range(-1, part + 2), 2)]
        return [*ends, self.position()]

    def ring(self):
        plain = [self.corners, self.box, self.spiked, self.tied, self.pinched, self.steps]
        ring = self.draw.choice([*plain, self.again, self.beside, self.stretch])()
        self.made.append(ring)
        return ring

    def tiles(self):
        """Four cells about one position, whose corners and middles of sides one has and another may not have."""
        xs, ys = (sorted(self.draw.sample(range(max(5, self.width)), 3)) for _ in range(2))
        bent = {(x, y): (x, y + self.draw.choice([0, 0, 0, 1])) for x in xs for y in ys}
        cells = []
        for i, k in ((0, 0), (0, 1), (1, 0), (1, 1)):
            corners = [bent[xs[i + a], ys[k + b]] for a, b in ((0, 0), (1, 0), (1, 1), (0, 1))]
            middles = [tuple((a + b) // 2 for a, b in zip(p, q)) for p, q in zip(corners, corners[1:] + corners[:1])]
            both = [p for corner, middle in zip(corners, middles) for p in (corner, middle)]
            cells.append([p for n, p in enumerate(both) if n % 2 == 0 or self.draw.random() < 0.2])
        return cells


# ---- drawn texts

IDS = ['"a"', '"\\u00e9 \\"q\\"\\n"', "17", "-0.50E+3", "null", '{"x":[1, 2 ]}', '"\u00e9\u2603"', '"' + "long" * 30 + '"']
PROPERTIES = [
    '{"name":"\\ud83d\\ude00 b\\\\", "n" : 1.50}', "null", "{}", '{"a":{"b":[[],[{}]]}}', "[ ]",
    '{"x":1e400,"y":' + "9" * 30 + "}",
]
MEMBERS = [
    ('"style"', '{"a": [1,2,{}]}'), ('"\\u0061x"', "true"), ('"geometries"', "[1, 2]"), ('"bbox"', "[0,0,1,1]"),
    ('"transform"', "7"), ('"objects"', '"\\t"'), ('"\u00f6"', "false"), ('"coordinates"', "[ 0.10 ]"),
]
POINTS = [
    '{"type":"Point","coordinates":[ 1.0, 2e0]}',
    '{ "id":"\\u0070", "type":"MultiPoint","coordinates":[[0.5,-0],[1,1]],"z":null}',
]
TRANSFORMS = [
    None, None, "null", '{"scale":[0.1, 1e-7],"translate":[-5, 2.50]}', '{"translate":[0,0],"scale":[1E0,1],"of":"x"}',
]


class Texts:
    """Draws the text of a topology with these polygons, by feature."""

    def __init__(self, draw, features):
        self.draw, self.arcs, self.indexes = draw, [], {}
        self.transform = draw.choice(TRANSFORMS)
        self.has_transform = self.transform not in (None, "null")
        self.features = [self.feature(polygons) for polygons in features]

    def name(self, word):
        """A name, perhaps with a letter as an escape."""
        return f'"{word}"' if self.draw.random() < 0.9 else f'"\\u{ord(word[0]):04x}{word[1:]}"'

    def object(self, members):
        gaps = [" " * (self.draw.random() < 0.1) + "\n" * (self.draw.random() < 0.05) for _ in range(2)]
        return "{" + gaps[0] + f",{gaps[1]}".join(f"{name}:{gaps[0]}{value}" for name, value in members) + "}" + gaps[1]

    def mixed(self, members, taken=()):
        """Members with some more, in any order."""
        if self.draw.random() < 0.4:
            members.append((self.name("id"), self.draw.choice(IDS)))
        if self.draw.random() < 0.4:
            members.append((self.name("properties"), self.draw.choice(PROPERTIES)))
        more = [it for it in MEMBERS if it[0] not in taken]
        members += self.draw.sample(more, self.draw.choice([0, 0, 0, 1, 2]))
        self.draw.shuffle(members)
        return self.object(members)

    def arc(self, positions):
        """The index of an arc with these positions, which may be there already, in this direction or the other."""
        key = tuple(positions)
        if key not in self.indexes:
            is_back = self.draw.random() < 0.2
            n = len(self.arcs)
            self.arcs.append(positions[::-1] if is_back else positions)
            self.indexes[key[::-1]], self.indexes[key] = (n, ~n) if is_back else (~n, n)
        return self.indexes[key]

    def ring(self, ring):
        """The arcs of a ring, which begins anywhere and may stand still."""
        at = self.draw.randrange(len(ring))
        closed = [*ring[at:], *ring[:at], ring[at]]
        if len(closed) < 2 or self.draw.random() < 0.1:
            again = self.draw.randrange(len(closed))
            closed.insert(again, closed[again])
        cuts = sorted(self.draw.sample(range(1, len(closed) - 1), min(len(closed) - 2, self.draw.choice([0, 0, 1, 2]))))
        ends = [0, *cuts, len(closed) - 1]
        return [self.arc(closed[a : b + 1]) for a, b in zip(ends, ends[1:])]

    def feature(self, polygons):
        shape = [[self.ring(ring) for ring in rings] for rings in polygons]
        if not shape and self.draw.random() < 0.5:
            return self.mixed([(self.name("type"), "null"), *self.draw.choice([[], [(self.name("arcs"), "[7 ]")]])])
        kind, shape = ("Polygon", shape[0]) if len(shape) == 1 and self.draw.random() < 0.7 else ("MultiPolygon", shape)
        return self.mixed([(self.name("type"), f'"{kind}"'), (self.name("arcs"), json.dumps(shape))])

    def collection(self, geometries):
        members = [(self.name("type"), '"GeometryCollection"'), (self.name("geometries"), f"[{' , '.join(geometries)}]")]
        return self.mixed(members, ('"geometries"',))

    def number(self, value):
        return f"{value}.00" if self.draw.random() < 0.02 else str(value)

    def arcs_text(self):
        pairs = [differences(arc) if self.has_transform else arc for arc in self.arcs]
        return "[" + ",".join(
            "[" + ",".join(f"[{self.number(x)},{self.number(y)}]" for x, y in arc) + "]" for arc in pairs) + "]"

    def layers(self):
        """The features in layers and collections, with Points among them."""
        geometries = list(self.features)
        for _ in range(self.draw.choice([0, 0, 1, 2])):
            geometries.insert(self.draw.randint(0, len(geometries)), self.draw.choice(POINTS))
        while len(geometries) > 1 and self.draw.random() < 0.7:
            a, b = sorted(self.draw.sample(range(len(geometries) + 1), 2))
            geometries[a:b] = [self.collection(geometries[a:b])]
        layers = [(f'"layer {n}"' if n else '"\\u006c\u00e4nder"', it) for n, it in enumerate(geometries)]
        return self.object(layers if len(layers) < 4 else [('"all"', self.collection(geometries))])

    def topology(self):
        members = [(self.name("type"), '"Topology"'), (self.name("objects"), self.layers())]
        if self.draw.random() < 0.2:
            self.arcs.append([(1, 1), (0, 0), (2, 5)])
        members.append((self.name("arcs"), self.arcs_text()))
        if self.transform:
            members.append((self.name("transform"), self.transform))
        return self.mixed(members, ('"transform"', '"objects"'))


def drawn(draw):
    """The text of a drawn map."""
    rings, features = Rings(draw), []
    if draw.random() < 0.2:
        features = [[[cell]] for cell in rings.tiles()]
    for _ in range(draw.choice([1, 1, 2, 2, 3, 4]) if not features else draw.choice([0, 0, 1])):
        features.append([[rings.ring() for _ in range(draw.choice([1, 1, 1, 2, 3]))] for _ in range(draw.choice([1, 1, 2]))])
    for _ in range(draw.choice([0, 0, 0, 1])):
        features.insert(draw.randint(0, len(features)), draw.choice([[], [[]]]))
    times, by = draw.choice([(1, (0, 0)), (1, (-5, 3)), (1, (FAR - 500, 500 - FAR)), (FAR // 500, (-FAR, -FAR))])
    if rings.width == FAR:
        times, by = 2, (-FAR, -FAR)

    def put(p):
        return tuple(max(-FAR, min(FAR, times * c + b)) for c, b in zip(p, by))

    return Texts(draw, [[[[put(p) for p in ring] for ring in rings] for rings in it] for it in features]).topology()
