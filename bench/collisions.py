#!/usr/bin/env python3
"""Opens a map whose positions have one hash under a fixed seed, and beside it a map of positions that are drawn.

The program finds a vertex by its position in a hash table. Its positions are hashed under a seed that each run takes
from the system. Were they hashed under the fixed seed of FoldHasher, whoever makes a map could pick positions that all
have one hash: each would be compared with all before it, and opening would take time that grows with the square of
their number. This script makes such a map, counts what the fixed seed would have cost, and shows that the program takes
no longer for it than for one that nobody picked.

The hash multiplies twice, for x and for y, and y goes into what is left after x. So for each x there is one y for which
the second multiplication is that of (0, 0), and with it all 64 bits of the hash; this y is in range for one x of some
nine million. bench/collisions finds them in a moment, since the x that come into question lie one of two steps apart,
or both. It also puts positions into a table like that of IndexMap, under the fixed seed, and counts how many groups of
twelve places are looked at, and how many keys are compared.

Both maps are of triangles beside each other, each a feature, none with a position of another. They have the same x, and
the second one has its y drawn. For each there is one line: its positions, the groups and the keys of the table under
the fixed seed, and the processor seconds of a run of border_edit with an empty script, and of one of border_export, each the
least of several runs.

The programs have to stand already (`rt ci` leaves them); others can be named. Without the compiler g++ nothing is
measured, and the status is 0. Else it is 0 where the first map takes at most 1.5 times as long as the second one.
"""
import argparse
import os
import pathlib
import random
import shutil
import subprocess
import sys
import tempfile

from maps import apart_from_all, arc_text, shape_text
from running import Failed, Runner, spent_by_children

TOP = pathlib.Path(__file__).resolve().parent.parent
PROGRAM, EXPORT = (TOP / "crates" / name / "out" / name for name in ("border_edit", "border_export"))
SOURCE = TOP / "bench" / "collisions" / "main.cpp"
COMPILER = ["g++", "-std=c++17", "-O2", "-Wall", "-Wextra"]
# The greatest coordinate, and how many positions of one hash are looked for at most: there are few more.
REACH, MOST_POSITIONS = 10**12, 200_000
# How many times as long as the other map the first one may take.
MOST_TIMES = 1.5


def found(tool, count):
    """Positions of one hash under the fixed seed, each with an x of its own."""
    done = subprocess.run([tool, "find", str(count)], stdout=subprocess.PIPE, text=True, check=True)
    return [tuple(map(int, line.split())) for line in done.stdout.splitlines()]


def counted(tool, rings):
    """How many groups are looked at, and how many keys compared, under the fixed seed."""
    text = "".join(f"{x} {y}\n" for ring in rings for x, y in ring)
    done = subprocess.run([tool, "count"], input=text, stdout=subprocess.PIPE, text=True, check=True)
    return [int(word) for word in done.stdout.split()]


def triangles(positions):
    """Triangles that do not meet: in upright strips, of three positions after each other upwards."""
    ordered, width = sorted(positions), 3 * max(1, round((len(positions) / 3) ** 0.5))
    for at in range(0, len(ordered), width):
        strip = sorted(ordered[at : at + width], key=lambda position: position[1])
        yield from (strip[i : i + 3] for i in range(0, len(strip), 3))


def write_map(path, rings):
    """Writes a map with a feature for each ring."""
    made = apart_from_all(rings)
    features = ",\n".join(f"{{{shape_text(polygons)}}}" for polygons in made.features)
    path.write_text("".join([
        '{"type":"Topology","transform":{"scale":[1e-7,1e-7],"translate":[0,0]},',
        '"objects":{"cells":{"type":"GeometryCollection","geometries":[\n', features, "]}},\n",
        '"arcs":[\n', ",\n".join(map(arc_text, made.arcs)), "]}\n",
    ]), encoding="ascii")


def maps_made(folder, tool, options):
    """The path of each map, with what its line begins with."""
    picked = found(tool, options.positions // 3 * 3)
    draw = random.Random(options.seed)
    drawn = [(x, draw.randint(-REACH, REACH)) for x, _ in picked]
    for name, positions in (("of one hash", picked), ("drawn", drawn)):
        rings = list(triangles(positions))
        path = folder / f"{name}.json"
        write_map(path, rings)
        groups, keys = counted(tool, rings)
        yield path, f"{name:12} {len(positions):>7} positions {groups:>14,} groups {keys:>14,} keys"


def exported(options, folder, path):
    """The processor seconds that border_export takes."""
    start = spent_by_children()
    words = [options.export, path, "--out", folder / "areas.geojson"]
    done = subprocess.run(words, stderr=subprocess.PIPE, text=True, timeout=options.limit, check=False)
    if done.returncode:
        raise Failed(f"border_export ends with status {done.returncode}: {done.stderr.strip()}")
    return spent_by_children() - start


def seconds_of(options, folder, paths):
    """The processor seconds that each map takes, in border_edit and in border_export, the least of several runs in turn."""
    runner = Runner(options.program, options.limit, folder)
    runs = lambda path: (runner.accepted(path, []).seconds, exported(options, folder, path))
    rounds = [[runs(path) for path in paths] for _ in range(options.runs)]
    return [tuple(map(min, zip(*each))) for each in zip(*rounds)]


def measured(options, folder):
    """Prints the line of each map, and gives the status."""
    tool = folder / "collisions"
    subprocess.run([*COMPILER, "-o", tool, SOURCE], check=True)
    paths, lines = zip(*maps_made(folder, tool, options))
    try:
        picked, drawn = seconds_of(options, folder, paths)
    except Failed as reason:
        print(*lines, f"failed: {reason}", sep="\n")
        return 1
    for line, (opened, written) in zip(lines, (picked, drawn)):
        print(f"{line} {opened:8.3f} s, {written:.3f} s as GeoJSON")
    times = [one / max(other, 1e-9) for one, other in zip(picked, drawn)]
    is_alike = max(times) <= MOST_TIMES
    told = "" if is_alike else f", more than {MOST_TIMES}"
    print(f"the first one takes {times[0]:.2f} times as long, {times[1]:.2f} as GeoJSON{told}")
    return 0 if is_alike else 1


def positions_given(text):
    count = int(text)
    if not 3 <= count <= MOST_POSITIONS:
        raise argparse.ArgumentTypeError(f"from 3 to {MOST_POSITIONS}")
    return count


def options_given():
    parser = argparse.ArgumentParser(description=__doc__, formatter_class=argparse.RawDescriptionHelpFormatter)
    add = parser.add_argument
    add("--program", type=pathlib.Path, default=PROGRAM, help="border_edit (%(default)s)")
    add("--export", type=pathlib.Path, default=EXPORT, help="border_export (%(default)s)")
    add("--positions", type=positions_given, default=100_000, metavar="N",
        help=f"of each map, as far as they make whole triangles; at most {MOST_POSITIONS} (%(default)s)")
    add("--runs", type=int, default=5, help="of the program on each map (%(default)s)")
    add("--limit", type=float, default=300, help="seconds after which a run is ended and has failed (%(default)s)")
    add("--seed", type=int, default=1, help="of what is drawn (%(default)s)")
    return parser.parse_args()


def main():
    options = options_given()
    if not shutil.which(COMPILER[0]):
        print(f"{COMPILER[0]} is not there, nothing is measured")
        return 0
    for program in options.program, options.export:
        if not os.access(program, os.X_OK):
            print(f"{program}: not there, nothing is measured; --help says how to build it")
            return 1
    options.program, options.export = options.program.resolve(), options.export.resolve()
    with tempfile.TemporaryDirectory(prefix="border_edit-collisions-") as name:
        return measured(options, pathlib.Path(name))


if __name__ == "__main__":
    sys.exit(main())
