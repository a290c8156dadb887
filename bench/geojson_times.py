#!/usr/bin/env python3
"""Times GeoJSON: how long border_mend takes to make a map of it, and border_export to write it again.

The text is made here: a partition in brick order, in degrees of seven decimals, as GDAL writes it. Beside it stands the
topology that it is, whose arcs are its rings, one each, with the same coordinates: border_mend has to make the same bytes of
both, and for GeoJSON it should take at most twice as long. Then border_export writes the map, and should write at least 40
MB of text a second; a map of that text has to be the same bytes again.

Runs of each kind take turns, and the least of each counts. There is a line for each kind, with the seconds on a processor
and by the clock, and the most memory. The status is 1 where bytes differ or a bar is missed.
"""
import argparse
import collections
import os
import pathlib
import random
import subprocess
import sys
import tempfile
import time

import maps
import running

MEGABYTE = 1_000_000
# Decimals of the coordinates, and bytes that a position takes with its brackets, about.
DECIMALS, BYTES = 7, 29
# How many times as long the topology GeoJSON may take, and how many MB a second have to be written.
MOST_TIMES, LEAST_RATE = 2, 40

Run = collections.namedtuple("Run", "processor clock memory")


def rings_of(megabytes):
    """The rings of a partition that has so many megabytes as GeoJSON."""
    # each segment is in two rings
    made = maps.bricks(megabytes * MEGABYTE // BYTES // 2, random.Random(1))
    for polygons in made.features:
        ring = []
        for index in polygons[0][0]:
            ring += (made.arcs[index] if index >= 0 else made.arcs[~index][::-1])[:-1]
        yield [*ring, ring[0]]


def coordinate(number):
    """A whole number of the grid in degrees."""
    return f"{number / 10**DECIMALS:.{DECIMALS}f}"


def ring_text(ring):
    return "[" + ", ".join(f"[{coordinate(x)}, {coordinate(y)}]" for x, y in ring) + "]"


def write(folder, megabytes):
    """The paths of the GeoJSON and of its topology, how many features they have, and how many positions."""
    geojson, topology = folder / "areas.geojson", folder / "areas.json"
    count = positions = 0
    with open(geojson, "w") as areas, open(topology, "w") as objects, open(folder / "arcs", "w+") as arcs:
        areas.write('{\n"type": "FeatureCollection",\n"name": "areas",\n"features": [')
        objects.write('{"type":"Topology","objects":{"areas":{"type":"GeometryCollection","geometries":[')
        for number, ring in enumerate(rings_of(megabytes)):
            text, comma = ring_text(ring), "," if number else ""
            head = f'"id": {number}, "properties": {{ "name": "cell {number}", "people": {number * 37 % 100_003} }}'
            areas.write(f'{comma}\n{{ "type": "Feature", {head}, "geometry": {{ "type": "Polygon", "coordinates": [ {text} ] }} }}')
            objects.write(f'{comma}{{"type":"Polygon",{head},"arcs":[[{number}]]}}')
            arcs.write(comma + text)
            count, positions = count + 1, positions + len(ring)
        areas.write("\n]\n}\n")
        arcs.seek(0)
        objects.write(']}},"arcs":[')
        while piece := arcs.read(1 << 20):
            objects.write(piece)
        objects.write("]}")
    return geojson, topology, count, positions


def ran(*words):
    """A run of a program, with status 0."""
    begun = time.perf_counter()
    child = subprocess.Popen(words, stdout=subprocess.DEVNULL, env={**running.PAGES, **os.environ})
    _, status, used = os.wait4(child.pid, 0)
    if status:
        raise SystemExit(f"{words[0]} ends with status {os.waitstatus_to_exitcode(status)}")
    return Run(used.ru_utime + used.ru_stime, time.perf_counter() - begun, used.ru_maxrss / 1000)


def least(runs):
    return Run(*map(min, zip(*runs)))


def told(what, run, more):
    print(f"{what:22} {run.processor:6.2f} s of a processor {run.clock:6.2f} s {run.memory:5.0f} MB  {more}", flush=True)


def measured(options, folder):
    """Runs all, and gives the status."""
    geojson, topology, count, positions = write(folder, options.megabytes)
    sizes = [path.stat().st_size / MEGABYTE for path in (geojson, topology)]
    print(f"GeoJSON of {sizes[0]:.1f} MB, its topology of {sizes[1]:.1f}: {count:,} features, {positions:,} positions", flush=True)
    made, of_topology, back, again = (folder / name for name in ("made.json", "of_topology.json", "back.geojson", "again.json"))
    words = [[options.mend, geojson, "--out", made], [options.mend, topology, "--out", of_topology], [options.export, made, "--out", back]]
    there, beside, out = (least(runs) for runs in zip(*([ran(*each) for each in words] for _ in range(options.runs))))
    ran(options.mend, back, "--out", again)
    times, written = there.processor / beside.processor, back.stat().st_size / MEGABYTE
    rate = written / out.processor
    told("GeoJSON to a map", there, f"{times:.2f} times the topology (wanted: at most {MOST_TIMES})")
    told("its topology to a map", beside, "")
    told("the map to GeoJSON", out, f"{written:.1f} MB, {rate:.0f} a second (wanted: at least {LEAST_RATE})")
    texts = [path.read_bytes() for path in (made, of_topology, again)]
    is_same = texts[0] == texts[1] == texts[2]
    print("the maps are the same" if is_same else "the maps differ")
    return 0 if is_same and times <= MOST_TIMES and rate >= LEAST_RATE else 1


def main():
    words = argparse.ArgumentParser(description=__doc__, formatter_class=argparse.RawDescriptionHelpFormatter)
    running.add_programs(words, "mend", "export")
    words.add_argument("--megabytes", type=int, default=60, help="of the GeoJSON, about (%(default)s)")
    words.add_argument("--runs", type=int, default=3, help="of each kind (%(default)s)")
    options = words.parse_args()
    with tempfile.TemporaryDirectory() as folder:
        return measured(options, pathlib.Path(folder))


if __name__ == "__main__":
    sys.exit(main())
