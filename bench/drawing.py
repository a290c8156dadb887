"""Draws what a script asks of a map: vertices to move, features to cut, positions to ask about."""
import collections
import json
import pathlib
import random

from running import Failed, why

# How many vertices are drawn of one map, and the next number of a feature, at most.
MOST_DRAWN = 100_000
MOST_NUMBERS = 200_000
# How many features that follow each other are cut and joined over and over.
NEAR = 60
# How many changes are kept to be taken back, and how many lines are tried for each.
KEPT, TRIED = 1_000, 4
# How many lines of all kinds are compared.
MIXED = 2_000

Drawn = collections.namedtuple("Drawn", "vertices features cuts near segments")
# A feature's number, and the ends of a path that may cut it.
Cut = collections.namedtuple("Cut", "feature start end")


# ---- of a map's text

def positions_of(topology):
    """The positions of each arc, as whole numbers of the grid."""
    for arc in topology["arcs"]:
        x, y, positions = 0, 0, []
        for a, b in arc:
            x, y = (x + int(a), y + int(b)) if topology.get("transform") else (int(a), int(b))
            positions.append((x, y))
        yield positions


def polygons_of(geometry, features):
    """Adds the polygons of each feature below this geometry, each a list of rings of arc indexes."""
    kind = geometry["type"]
    if kind == "GeometryCollection":
        for item in geometry["geometries"]:
            polygons_of(item, features)
    elif kind == "Polygon":
        features.append([geometry["arcs"]] if geometry["arcs"] else [])
    elif kind == "MultiPolygon":
        features.append(geometry["arcs"])
    elif kind is None:
        features.append([])


def ring_of(indexes, arcs):
    """The positions of a ring, the last one not repeated."""
    ring = []
    for i in indexes:
        ring += (arcs[i] if i >= 0 else arcs[~i][::-1])[:-1]
    return ring


def cuts_of(features, arcs):
    """Of each feature with one ring, the way from its first position to the one in the middle of the ring."""
    for number, polygons in enumerate(features):
        if len(polygons) == 1 and len(polygons[0]) == 1:
            ring = ring_of(polygons[0][0], arcs)
            yield Cut(number, ring[0], ring[len(ring) // 2])


def draw(path, seed):
    """Vertices of the rings, how many features there are, paths that may cut some, from all over the map and of
    features that follow each other, and segments."""
    topology = json.loads(pathlib.Path(path).read_bytes())
    features = []
    for layer in topology["objects"].values():
        polygons_of(layer, features)
    arcs = list(positions_of(topology))
    used = {i if i >= 0 else ~i for polygons in features for rings in polygons for ring in rings for i in ring}
    vertices = sorted({place for n, arc in enumerate(arcs) if n in used for place in arc})
    rand = random.Random(seed)
    drawn = rand.sample(vertices, min(len(vertices), MOST_DRAWN))
    cuts = list(cuts_of(features, arcs))
    first = max(0, (len(cuts) - NEAR) // 2)
    near, cuts = cuts[first : first + NEAR], rand.sample(cuts, min(len(cuts), MOST_DRAWN))
    segments = [pair for n, arc in enumerate(arcs) if n in used for pair in zip(arc, arc[1:])]
    return Drawn(drawn, len(features), cuts, near, rand.sample(segments, min(len(segments), TRIED * KEPT)))


# ---- lines

def split_line(cut):
    """The line that cuts a feature."""
    (a, b), (c, d) = cut.start, cut.end
    return f'split {cut.feature} "part" {a} {b} {c} {d}'


def of_features(word, drawn, rand):
    """Gives lines of this word and the number of a feature."""
    if not drawn.features:
        raise Failed("the map has no feature")
    return lambda: f"{word} {rand.randrange(drawn.features)}"


def of_positions(drawn, rand):
    """Gives lines that ask what lies at a position, between the coordinates of the vertices."""
    if not drawn.vertices:
        raise Failed("the map has no vertex")
    (west, east), (south, north) = ((min(along), max(along)) for along in zip(*drawn.vertices))
    return lambda: f"at {rand.randint(west, east)} {rand.randint(south, north)}"


def changes_of(drawn, rand):
    """Lines that change a map, by the measure of their undo; some may be refused."""
    numbers = rand.sample(range(drawn.features), max(drawn.features - 1, 0))
    middles = [(a, b, tuple((p + q) // 2 for p, q in zip(a, b))) for a, b in drawn.segments]
    return {
        "moved": [f"move {x} {y} {x + 1} {y}" for x, y in drawn.vertices],
        "inserted": ["insert {} {} {} {} {} {}".format(*(k for p in three for k in p)) for three in middles],
        "removed": [f"remove {x} {y}" for x, y in drawn.vertices],
        "cut": [split_line(cut) for cut in drawn.cuts],
        "deleted": [f"delete {n}" for n in numbers],
    }


def mixed_lines(drawn, rand):
    """Lines of all kinds, of which many are refused: moves along a segment and beyond, also onto other vertices, cuts of
    features that were cut before, features joined with any others, undos, and questions at vertices."""
    if not drawn.segments or not drawn.features:
        return ["count", "document"]
    lines, count, ask = ["count"], 2 * drawn.features, of_positions(drawn, rand)
    for n in range(MIXED):
        (a, b), (c, d) = rand.choice(drawn.segments)
        part = rand.choice((0.1, 0.5, 1, 1.5, 4))
        x, y = a + round(part * (c - a)), b + round(part * (d - b))
        cut = rand.choice(drawn.cuts) if drawn.cuts else Cut(0, (a, b), (c, d))
        lines += rand.choice((
            [f"move {a} {b} {x} {y}", f"move {a} {b} {x + rand.randrange(9)} {y}"],
            [f"move {a} {b} {a + d - b} {b + c - a}", f"at {a} {b}"],
            [f"insert {a} {b} {c} {d} {x + rand.randrange(9)} {y}", f"remove {a} {b}", f"remove {c} {d}"],
            [split_line(cut), f"merge {cut.feature} {rand.randrange(count)}"],
            [split_line(cut), f"neighbours {cut.feature}", f"area {rand.randrange(count)}"],
            [f"merge {rand.randrange(count)} {cut.feature}", "undo", ask()],
            [f"neighbours {rand.randrange(count)}", f"area {cut.feature}", f"at {x} {y}", f"rings {cut.feature}"],
            [f"delete {rand.randrange(count)}", f'rename {rand.randrange(count)} "new"', "undo", "undo"],
        ))
        lines += ["thin 1000000"] if n == MIXED // 2 else []
    return [*lines, *(f"delete {n}" for n in range(0, count, 7)), "undo", "undo", "count", "document"]


# ---- lines that are accepted

class Moves:
    """Moves of vertices by one unit and back, of which those that are refused are left out."""

    def __init__(self, runner, path, vertices):
        self.runner, self.path = runner, path
        self.good, self.untried = [], list(reversed(vertices))

    def lines(self, vertices):
        return [line for x, y in vertices for line in (f"move {x} {y} {x + 1} {y}", f"move {x + 1} {y} {x} {y}")]

    def script(self, count):
        """So many moves, all of them accepted; where a map has too few for that, they come again."""
        wanted = max(count // 2, 1)
        while self.untried and len(self.good) < wanted:
            fresh = [self.untried.pop() for _ in range(min(wanted - len(self.good), len(self.untried)))]
            self.keep_accepted(self.good + fresh)
        if not self.good:
            raise Failed("no vertex can be moved")
        return self.lines((self.good * (wanted // len(self.good) + 1))[:wanted])

    def keep_accepted(self, tried):
        """Runs the moves of these vertices, and keeps those that are accepted."""
        done = self.runner.run(self.path, self.lines(tried))
        answers = done.out.splitlines()
        if done.status not in (0, 1) or len(answers) != 2 * len(tried):
            raise Failed(why(done))
        self.good = [place for n, place in enumerate(tried) if answers[2 * n : 2 * n + 2] == ["ok", "ok"]]


class Splits:
    """Features cut in two and joined again, of which the refused ones are left out as they are found."""

    def __init__(self, runner, path, features, cuts):
        self.runner, self.path, self.next, self.turn = runner, path, features, 0
        self.good, self.untried = [], list(reversed(cuts))

    def lines(self, cuts):
        """Each feature is joined again with the one that was cut off, which has the next number."""
        first = self.next
        self.next += len(cuts)
        return [line for n, cut in enumerate(cuts) for line in (split_line(cut), f"merge {cut.feature} {first + n}")]

    def script(self, count):
        """So many splits and merges, all of them accepted; where a map has too few for that, they come again."""
        wanted = max(count // 2, 1)
        while self.untried and len(self.good) < wanted:
            fresh = [self.untried.pop() for _ in range(min(wanted - len(self.good), len(self.untried)))]
            self.good += self.accepted(fresh)
        if not self.good:
            raise Failed("no split is accepted")
        # each goes on after those that were cut before, so that a large map is met all over
        start = self.turn % len(self.good)
        cuts = [self.good[(start + n) % len(self.good)] for n in range(min(wanted, MOST_NUMBERS - self.next))]
        if not cuts:
            raise Failed("no number of a feature is left")
        self.turn = start + len(cuts)
        return self.lines(cuts)

    def accepted(self, tried):
        """Those of these paths that cut their features, where the parts can be joined again."""
        done = self.runner.run(self.path, [split_line(cut) for cut in tried])
        answers = done.out.splitlines()
        if done.status not in (0, 1) or len(answers) != len(tried):
            raise Failed(why(done))
        return [cut for cut, answer in zip(tried, answers) if answer.startswith("ok ")]


def accepted_of(runner, map_, lines):
    """The first ones of these lines that are accepted one after another."""
    tried = lines[: TRIED * KEPT]
    done = runner.run(map_.path, tried)
    answers = done.out.splitlines()
    if done.status not in (0, 1) or len(answers) != len(tried):
        raise Failed(why(done))
    good = [line for line, answer in zip(tried, answers) if answer.startswith("ok")]
    if not good:
        raise Failed("no change is accepted")
    return good[:KEPT]
