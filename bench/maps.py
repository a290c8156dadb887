"""Makes maps: partitions in brick order, and maps that are hard for an index of segments.

Each is planar in the strict sense, so that border_edit opens it, has whole-number coordinates, and is the same for the same
seed, size and kind. A kind is a function from how many segments there are to be, about, and a source of numbers; it gives
arcs, which are lists of positions, and features, which are lists of polygons, each a list of rings of arc indexes.
"""
import collections
import math
import multiprocessing
import pathlib
import random
import time

TOP = pathlib.Path(__file__).resolve().parent.parent
MADE = TOP / "bench" / "out"
# What the program refuses to open.
MOST_BYTES = 67_108_864
MOST_POSITIONS = 4_000_000
# Segments of half a cell's upper border, as usual, where features have twice as many, and where borders are long.
PIECES, FINE_PIECES, LONG_PIECES = 8, 16, 1024
# The greatest coordinate of a map, and that of one whose far polygon makes all else small.
REACH = 1_000_000_000
SMALL_REACH = 1_000_000
# Positions of a round ring, and how many clusters of rings there are at most.
ROUND, CLUSTERS = 64, 1000
# The greatest cell of a map of mixed sizes, which has a diamond with segments of half its size, and how many sizes there
# are, each a quarter of the one before; the least segments are almost 2^8 long in each direction.
GREATEST, SIZES = 2**31, 12
# How many diamonds a feature has.
DIAMONDS = 4

Map = collections.namedtuple("Map", "name path")
Made = collections.namedtuple("Made", "arcs features")


# ---- partitions

def border(rand, length, pieces, widest):
    """Positions from (0, 0) to (length, 0): the first number rises, and the second stays so near to the ends that
    borders that start from one junction in different directions of the grid do not meet again."""
    heights, width, spread = [0.0] * (pieces + 1), pieces, 0.3 * length
    while width > 1:
        half = width // 2
        for i in range(half, pieces, width):
            heights[i] = (heights[i - half] + heights[i + half]) / 2 + (rand() - 0.5) * spread
        width, spread = half, 0.55 * spread
    step, positions = length / pieces, [(0, 0)]
    for i in range(1, pieces):
        along = int((i + 0.7 * (rand() - 0.5)) * step)
        reach = int(min(0.8 * along, 0.8 * (length - along), widest))
        positions.append((along, max(-reach, min(reach, int(heights[i])))))
    positions.append((length, 0))
    return positions


class Bricks:
    """A partition into cells in rows, each row half a cell further on than the one below it."""

    def __init__(self, vertices, reach, rand, pieces=PIECES):
        self.rand, self.pieces = rand.random, pieces
        self.columns = max(1, round((vertices / (4 * pieces)) ** 0.5))
        self.rows = max(1, round(vertices / (4 * pieces) / self.columns))
        self.half = 2 * reach // (2 * max(self.columns + 1, self.rows))
        self.origin = -reach
        self.arcs, self.level_arcs, self.upright_arcs = [], {}, {}

    def level(self, row, place):
        """The index of the border of half a cell on the line below a row."""
        if (row, place) not in self.level_arcs:
            x, y = self.origin + place * self.half, self.origin + 2 * row * self.half
            self.level_arcs[row, place] = len(self.arcs)
            positions = border(self.rand, self.half, self.pieces, 0.4 * self.half)
            self.arcs.append([(x + a, y + b) for a, b in positions])
        return self.level_arcs[row, place]

    def upright(self, row, place):
        """The index of the border between two cells of a row."""
        if (row, place) not in self.upright_arcs:
            x, y = self.origin + place * self.half, self.origin + 2 * row * self.half
            self.upright_arcs[row, place] = len(self.arcs)
            positions = border(self.rand, 2 * self.half, 2 * self.pieces, 0.4 * self.half)
            self.arcs.append([(x + b, y + a) for a, b in positions])
        return self.upright_arcs[row, place]

    def rings(self):
        """The arc indexes of each cell's ring."""
        for row in range(self.rows):
            for column in range(self.columns):
                at = 2 * column + row % 2
                above = [~self.level(row + 1, at + 1), ~self.level(row + 1, at)]
                below = [self.level(row, at), self.level(row, at + 1)]
                yield [*below, self.upright(row, at + 2), *above, ~self.upright(row, at)]

    def made(self):
        features = [[[ring]] for ring in self.rings()]
        return Made(self.arcs, features)


def bricks(segments, rand):
    """A partition whose borders have some eight positions."""
    return Bricks(segments, REACH, rand).made()


def fine(segments, rand):
    """A partition whose features have some 128 positions, twice as many as those of bricks."""
    return Bricks(segments, REACH, rand, FINE_PIECES).made()


def outlier(segments, rand):
    """The same, and a triangle far from all else."""
    made = Bricks(segments, SMALL_REACH, rand).made()
    far = [(REACH - 9, REACH - 9), (REACH, REACH - 9), (REACH, REACH), (REACH - 9, REACH - 9)]
    return Made([*made.arcs, far], [*made.features, [[[len(made.arcs)]]]])


def long_borders(segments, rand):
    """A partition whose borders have some thousand positions."""
    return Bricks(segments, REACH, rand, LONG_PIECES).made()


# ---- maps of rings that have nothing in common

def apart_from_all(rings, together=1):
    """Rings as arcs, so many of them to a feature."""
    features = [[[[i]] for i in range(at, min(at + together, len(rings)))] for at in range(0, len(rings), together)]
    return Made([[*ring, ring[0]] for ring in rings], features)


def round_ring(x, y, radius):
    turns = (2 * math.pi * i / ROUND for i in range(ROUND))
    return [(x + round(radius * math.cos(turn)), y + round(radius * math.sin(turn))) for turn in turns]


def clusters(segments, rand):
    """Rings in clusters that are small beside what lies between them."""
    count = max(1, min(CLUSTERS, segments // (4 * ROUND)))
    side = max(1, round((segments / count / ROUND) ** 0.5))
    places, width, rings = 64, 2 * REACH // 64, []
    for place in rand.sample(range(places * places), count):
        x, y = (-REACH + at * width + width // 4 + rand.randrange(width // 4) for at in divmod(place, places))
        rings += [round_ring(x + 400 * i, y + 400 * k, 180) for i in range(side) for k in range(side)]
    return apart_from_all(rings)


def diagonal(segments, rand):
    """Rings one after another along a diagonal."""
    steps = (20_000 * i for i in range(max(1, segments // ROUND)))
    return apart_from_all([round_ring(at + rand.randrange(3000), at + rand.randrange(3000), 8000) for at in steps])


def comb_ring(teeth, rand):
    """A ring of teeth that are far longer than they are wide."""
    ends = [p for i in range(teeth) for p in ((10_000 * i, 0), (10_000 * i + 5000, REACH + rand.randrange(1000)))]
    return [*ends, (10_000 * teeth, 0), (10_000 * teeth, -1000), (0, -1000)]


def comb(segments, rand):
    """One ring of long teeth."""
    return apart_from_all([comb_ring(max(1, segments // 2 - 1), rand)])


def comb_and_rings(segments, rand):
    """A ring of long teeth with half the segments, and beside it small rings with the others."""
    side = max(1, round((segments / 2 / ROUND) ** 0.5))
    step = REACH // side
    places = [(step * i - 2 * REACH, step * k + step // 2) for i in range(side) for k in range(side)]
    rings = [round_ring(x, y, 2 * step // 5) for x, y in places]
    return apart_from_all([comb_ring(max(1, segments // 4 - 1), rand), *rings])


def cells_beside(cell, size):
    """Of a cell with a diamond the cells of a quarter of its size that have nothing of it: in each quadrant two."""
    x, y = cell
    half, quarter = size // 2, size // 4
    for right in (0, 1):
        for up in (0, 1):
            for near in (0, 1):
                # in the quadrant those at the cell's corner and at its middle are off the way of the diamond
                step_x, step_y = ((near if right else 1 - near), (near if up else 1 - near))
                yield x + right * half + step_x * quarter, y + up * half + step_y * quarter


def mixed(segments, rand):
    """Diamonds of sizes from 2^8 to 2^30, each within the boxes of the segments of larger ones."""
    rings, cells, size, wanted = [], [(-REACH, -REACH)], GREATEST, segments // 4
    for left in range(SIZES, 0, -1):
        share = max(1, (wanted - len(rings)) // left)
        chosen = rand.sample(cells, min(share, len(cells)))
        half = size // 2
        for x, y in chosen:
            rings.append([(x + half, y + 1), (x + size - 1, y + half), (x + half, y + size - 1), (x + 1, y + half)])
        cells = [beside for cell in chosen for beside in cells_beside(cell, size)]
        size //= 4
    return apart_from_all(rings, DIAMONDS)


KINDS = {
    "bricks": bricks, "outlier": outlier, "clusters": clusters, "comb": comb, "comb-rings": comb_and_rings,
    "diagonal": diagonal, "mixed": mixed, "long": long_borders,
}
# Those and a partition on which all is measured where that is asked for.
ALL_KINDS = {**KINDS, "fine": fine}


# ---- their files

def arc_text(positions):
    """An arc as it is written: the first position, then differences."""
    parts, x, y = [], 0, 0
    for a, b in positions:
        parts.append(f"[{a - x},{b - y}]")
        x, y = a, b
    return "[" + ",".join(parts) + "]"


def shape_text(polygons):
    """The members of a feature that say what it is."""
    texts = ["[" + ",".join(f"[{','.join(map(str, ring))}]" for ring in rings) + "]" for rings in polygons]
    if len(texts) == 1:
        return f'"type":"Polygon","arcs":{texts[0]}'
    return f'"type":"MultiPolygon","arcs":[{",".join(texts)}]'


def make_map(path, kind, segments, seed):
    """Writes a map of this kind with about so many segments."""
    made = ALL_KINDS[kind](segments, random.Random(f"{seed} {segments} {kind}"))
    rings = (ring for polygons in made.features for rings in polygons for ring in rings)
    positions = sum(len(made.arcs[i if i >= 0 else ~i]) - 1 for ring in rings for i in ring)
    features = [f'{{"id":"{n}",{shape_text(polygons)}}}' for n, polygons in enumerate(made.features)]
    text = "".join([
        '{"type":"Topology","transform":{"scale":[1e-7,1e-7],"translate":[0,0]},',
        '"objects":{"cells":{"type":"GeometryCollection","geometries":[\n', ",\n".join(features), "]}},\n",
        '"arcs":[\n', ",\n".join(map(arc_text, made.arcs)), "]}\n",
    ])
    if len(text) > MOST_BYTES or positions > MOST_POSITIONS:
        raise ValueError(f"{segments} segments are too many: {len(text)} bytes, {positions} positions of rings")
    path.parent.mkdir(parents=True, exist_ok=True)
    part = path.with_suffix(".part")
    part.write_text(text, encoding="ascii")
    part.replace(path)


def apart(function, *given):
    """Calls a function in a process of its own, whose memory is given back with it."""
    with multiprocessing.get_context("spawn").Pool(1) as pool:
        return pool.apply(function, given)


def made_map(kind, segments, seed):
    """A map of this kind, which is made where it is not there yet."""
    name = f"{kind}-{segments}"
    path = MADE / f"{name}-seed{seed}.json"
    if not path.is_file():
        start = time.perf_counter()
        apart(make_map, path, kind, segments, seed)
        size = path.stat().st_size / 1e6
        print(f"{name:20} made in {time.perf_counter() - start:.1f} s, {size:.2f} MB", flush=True)
    return Map(name, path)
