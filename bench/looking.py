#!/usr/bin/env python3
"""Compares what the built border_mend tells of drawn maps with a search over all pairs.

Each map has some drawn rings on a small grid, so that many are short or pass twice through a position, have vertices on
others' sides, or cross. What border_mend must tell, and what its file of places must have, is worked out here from
docs/FORMATS.md alone: every vertex against every segment, and every segment against every other. Where it tells
`opens`, border_edit has to open the map, and nowhere else; where it does not, border_edit's fault has to be one that
was told. A line at the end counts maps and faults.
"""
import argparse
import fractions
import itertools
import json
import math
import pathlib
import random
import subprocess
import tempfile

TOP = pathlib.Path(__file__).resolve().parent.parent
MEND = TOP / "crates/border_mend/out/border_mend"
EDIT = TOP / "crates/border_edit/out/border_edit"


def turn(a, b, c):
    """Which way the line through a and b is left at c: the sign of twice the area of the triangle."""
    area = (b[0] - a[0]) * (c[1] - a[1]) - (b[1] - a[1]) * (c[0] - a[0])
    return (area > 0) - (area < 0)


def is_within(p, a, b):
    """Whether p lies on the segment and is none of its ends."""
    inside = min(a[0], b[0]) <= p[0] <= max(a[0], b[0]) and min(a[1], b[1]) <= p[1] <= max(a[1], b[1])
    return p not in (a, b) and inside and turn(a, b, p) == 0


def cross(s, t):
    """Whether the ends of each segment lie on different sides of the other."""
    return turn(*s, t[0]) * turn(*s, t[1]) < 0 and turn(*t, s[0]) * turn(*t, s[1]) < 0


def walk_of(ring):
    """A closed ring of positions with equal neighbours once, and without the last one."""
    once = [p for p, _ in itertools.groupby(ring)]
    return once[:-1]


def told(p):
    return f"{p[0]} {p[1]}"


def findings(features):
    """What is found in these features, each a list of polygons, each a list of walks: the short walks, the positions
    that are passed more than once, the vertices on segments, the pairs of segments that cross."""
    walks = []
    for f, polygons in enumerate(features):
        for p, rings in enumerate(polygons):
            walks += [((f, p, r), walk) for r, walk in enumerate(rings)]
    short = [(at, walk) for at, walk in walks if len(walk) < 3]
    repeats = [(at, p) for at, walk in walks for p in sorted(set(walk)) if walk.count(p) > 1]
    vertices = sorted({p for _, walk in walks for p in walk})
    edges = {tuple(sorted(e)) for _, walk in walks for e in zip(walk, walk[1:] + walk[:1]) if e[0] != e[1]}
    segments = sorted(edges)
    on = [(p, s) for p in vertices for s in segments if is_within(p, *s)]
    crossing = [(s, t) for s, t in itertools.combinations(segments, 2) if cross(s, t)]
    return short, repeats, on, crossing


def report(features):
    """What border_mend must tell of these features."""
    short, repeats, on, crossing = findings(features)
    lines = ["short %d %d %d" % at for at, _ in short]
    lines += ["repeats %d %d %d %d %d" % (*at, *p) for at, p in repeats]
    lines += [f"on {told(p)} / {told(s[0])} {told(s[1])}" for p, s in on]
    lines += [f"cross {told(s[0])} {told(s[1])} / {told(t[0])} {told(t[1])}" for s, t in crossing]
    counts = f"counts short {len(short)} repeats {len(repeats)} on {len(on)} cross {len(crossing)}"
    return (lines or ["opens"]) + [counts]


def crossing_of(s, t):
    """Where two segments cross, rounded to whole numbers, a half upwards."""
    (a, b), (c, d) = s, t
    along, beside = (b[0] - a[0], b[1] - a[1]), (d[0] - c[0], d[1] - c[1])
    whole = along[0] * beside[1] - along[1] * beside[0]
    part = fractions.Fraction((c[0] - a[0]) * beside[1] - (c[1] - a[1]) * beside[0], whole)
    return [math.floor(a[k] + part * along[k] + fractions.Fraction(1, 2)) for k in range(2)]


def encoded(arc, transform):
    """The positions of an arc: under a transform the first one, and then differences."""
    if not transform:
        return [list(p) for p in arc]
    return [list(arc[0])] + [[q[0] - p[0], q[1] - p[1]] for p, q in zip(arc, arc[1:])]


def having(features, *these):
    """The property that tells the features which have one of these vertices, or of these segments as edges."""
    has = lambda walk, it: it in walk or any(it in (e, e[::-1]) for e in zip(walk, walk[1:] + walk[:1]))
    walks = [[walk for walks in polygons for walk in walks] for polygons in features]
    return {"features": [n for n, them in enumerate(walks) if any(has(walk, it) for walk in them for it in these)]}


def places(features, transform):
    """The topology that border_mend must write of these features."""
    short, repeats, on, crossing = findings(features)
    rings = lambda at: dict(zip(("feature", "polygon", "ring"), at))
    points = [("short", n, rings(at), walk[0]) for n, (at, walk) in enumerate(short) if walk]
    points += [("repeats", n, rings(at), p) for n, (at, p) in enumerate(repeats)]
    points += [("on", n, having(features, p), p) for n, (p, _) in enumerate(on)]
    points += [("cross", n, having(features, *pair), crossing_of(*pair)) for n, pair in enumerate(crossing)]
    lines = [("on", n, s) for n, (_, s) in enumerate(on)]
    lines += [("cross", n, s) for n, pair in enumerate(crossing) for s in pair]
    located = [
        {"type": "Point", "properties": {"kind": kind, "number": n, **at}, "coordinates": list(p)}
        for kind, n, at, p in points
    ]
    led = [
        {"type": "LineString", "properties": {"kind": kind, "number": n, **having(features, s)}, "arcs": [k]}
        for k, (kind, n, s) in enumerate(lines)
    ]
    layers = {"places": located, "segments": led}
    layers = {name: {"type": "GeometryCollection", "geometries": them} for name, them in layers.items()}
    arcs = [encoded(s, transform) for _, _, s in lines]
    return {"type": "Topology", **({"transform": transform} if transform else {}), "objects": layers, "arcs": arcs}


def drawn(draw, most=4, side=6):
    """A drawn topology, and its features as walks: at most so many, on a grid of such a side."""
    arcs, features, geometries = [], [], []
    transform = draw.choice([None, {"scale": [0.5, 0.001], "translate": [-1.25, 50]}])
    for _ in range(draw.randint(1, most)):
        polygons = []
        for _ in range(draw.randint(1, 2)):
            rings = []
            for _ in range(draw.randint(1, 2)):
                corners = [(draw.randint(0, side), draw.randint(0, side)) for _ in range(draw.randint(1, 5))]
                rings.append(corners + corners[:1])
            polygons.append(rings)
        features.append([[walk_of(ring) for ring in rings] for rings in polygons])
        numbers = []
        for rings in polygons:
            numbers.append([[len(arcs) + k] for k in range(len(rings))])
            arcs += [encoded(ring, transform) for ring in rings]
        geometries.append({"type": "MultiPolygon", "arcs": numbers})
    layer = {"type": "GeometryCollection", "geometries": geometries}
    map = {"type": "Topology", "transform": transform, "objects": {"drawn": layer}, "arcs": arcs}
    return map, features


def first_fault(lines):
    """How border_edit may name what stops a map of which border_mend tells these lines."""
    kinds = {"short": "open: ring short", "repeats": "open: ring repeats", "on": "open: conflict", "cross": "open: conflict"}
    return {kinds[line.split()[0]] for line in lines[:-1]}


def fault_of(map, features, folder):
    """What is wrong with the programs' answers to this map; None where nothing is."""
    path, script, out, located = (folder / name for name in ("map.json", "script.txt", "out.json", "places.json"))
    path.write_text(json.dumps(map))
    script.write_text("")
    wanted = report(features)
    ran = subprocess.run([MEND, path, "--most", "4000000", "--places", located], capture_output=True, text=True)
    status = 0 if wanted[0] == "opens" else 1
    if ran.stdout.splitlines() != wanted or ran.returncode != status or ran.stderr:
        return f"told {ran.stdout!r} {ran.stderr!r}, status {ran.returncode}, and not {wanted}"
    topology = places(features, map["transform"])
    if json.loads(located.read_text()) != topology:
        return f"placed {located.read_text()!r}, and not {topology}"
    edited = subprocess.run([EDIT, path, script, "--out", out], capture_output=True, text=True)
    if status == 0:
        return None if edited.returncode == 0 else f"opens, but border_edit says {edited.stderr!r}"
    named = edited.returncode == 2 and any(edited.stderr.startswith(it) for it in first_fault(wanted))
    return None if named else f"{wanted[:-1]}, but border_edit ends with {edited.returncode} {edited.stderr!r}"


def main():
    words = argparse.ArgumentParser(description=__doc__, formatter_class=argparse.RawDescriptionHelpFormatter)
    words.add_argument("--maps", type=int, default=1000, help="how many maps are drawn")
    words.add_argument("--seed", type=int, default=1, help="what they are drawn from")
    given = words.parse_args()
    draw, faults, opening = random.Random(given.seed), 0, 0
    with tempfile.TemporaryDirectory() as name:
        for number in range(given.maps):
            map, features = drawn(draw)
            fault = fault_of(map, features, pathlib.Path(name))
            opening += report(features)[0] == "opens"
            if fault:
                faults += 1
                print(f"map {number}: {fault}")
    print(f"{given.maps} maps, {opening} of which open, {faults} faults")
    return 1 if faults else 0


if __name__ == "__main__":
    raise SystemExit(main())
