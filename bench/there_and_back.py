#!/usr/bin/env python3
"""Takes maps from GeoJSON to the editor's grid and back, and compares what comes back with what went in.

A topology is made GeoJSON by `ogr2ogr` first, a text for each layer and each way in which GDAL writes coordinates. Then
border_mend makes a map of the text, and border_export a text of the map. What comes back has to have the same Features in
order: each id, property and member as the same text; each ring and point with the same coordinates, as decimals, wherever
the ring begins and in whichever direction, but for what border_mend told that it changed: a ring with a `path` or a
polygon with `parts`, a line, and coordinates that it rounded. GDAL has to list the same layer, reference system, fields,
feature ids and values in both. Made a map again, the text has to come back byte for byte, in its own and in either
direction. Nothing is taken from the programs or from their definitions. There is a line for each text, with its counts,
and one for each difference; the status is 0 where there is none.
"""
import argparse
import fractions
import itertools
import json
import pathlib
import re
import subprocess
import sys
import tempfile

import running
from topology import entries, items

KINDS = {"Polygon", "MultiPolygon"}
# More decimals than any number has that is looked at.
EXACTLY = 40
FORMS = {f"{count} decimals": ["-lco", f"COORDINATE_PRECISION={count}"] for count in (2, 6, 15)}
FORMS["RFC 7946"] = ["-lco", "RFC7946=YES"]


class Differs(Exception):
    """What is not as it was."""


def ran(*words):
    return subprocess.run([str(word) for word in words], capture_output=True, text=True, timeout=600)


def must(*words):
    done = ran(*words)
    if done.returncode:
        raise Differs(f"{pathlib.Path(words[0]).name} ends with status {done.returncode}: {done.stderr.strip()[:200]}")
    return done.stdout


# ---- the texts

def features(text):
    """The Features of a collection, each with its members by name, as texts."""
    root = {name: value for name, _, value in entries(text.strip())}
    return [{name: value for name, _, value in entries(item)} for item in items(root["features"])]


def others(members, known):
    return {name: value for name, value in members.items() if name not in known}


def numbers(position):
    return tuple(fractions.Fraction(token) for token in items(position))


def rounded(number, digits):
    """A number with so many decimals: halves up."""
    scale = 10**digits
    return fractions.Fraction((2 * number * scale + 1) // 2, scale)


def corners_of(ring, digits):
    """The corners of a ring on a grid of so many decimals, each once, from the least on, in the direction that comes first."""
    positions = (tuple(rounded(number, digits) for number in numbers(position)) for position in items(ring))
    corners = [corner for corner, _ in itertools.groupby(positions)]
    if len(corners) > 1 and corners[0] == corners[-1]:
        corners.pop()
    at = corners.index(min(corners)) if corners else 0
    turned = corners[at:] + corners[:at]
    return min(turned, turned[:1] + turned[:0:-1])


def polygons(kind, coordinates, digits):
    """The polygons of a geometry on the grid, each as a list of rings."""
    found = [coordinates] if kind == "Polygon" else items(coordinates)
    return [[corners_of(ring, digits) for ring in items(polygon)] for polygon in found]


def flat(coordinates, digits):
    """All numbers of a point, or of several."""
    return [rounded(fractions.Fraction(token), digits) for token in re.findall(r"[^\[\],\s]+", coordinates)]


class Told:
    """What border_mend told that it changed."""

    def __init__(self, report):
        found = [line.split(" ") for line in report.splitlines()]
        self.digits = next((int(line[3]) for line in found if line[0] == "decimals"), 0)
        self.paths = {frozenset([(line[1], line[2]), (line[-2], line[-1])]) for line in found if line[0] == "path"}
        self.parts = {int(line[1]) for line in found if line[0] == "parts"}

    def names(self, ring):
        """Whether a segment of the ring was led along a path."""
        scale = 10**self.digits
        corners = [tuple(str(int(z * scale)) for z in corner) for corner in ring]
        return any(frozenset(pair) in self.paths for pair in zip(corners, corners[1:] + corners[:1]))


def compare_shape(before, after, told, number):
    """How many rings of a geometry are the same, and how many were changed as it was told."""
    kind = json.loads(before["type"])
    if number in told.parts:
        return 0, 1
    if after["type"] != before["type"]:
        raise Differs(f"{after['type']} and not {before['type']}")
    if kind not in KINDS:
        if flat(before["coordinates"], told.digits) != flat(after["coordinates"], EXACTLY):
            raise Differs(f"{after['coordinates'][:80]} and not {before['coordinates'][:80]}")
        return 1, 0
    one = polygons(kind, before["coordinates"], told.digits)
    other = polygons(kind, after["coordinates"], EXACTLY)
    if list(map(len, one)) != list(map(len, other)):
        raise Differs("other rings")
    same = changed = 0
    for ring, back in zip(itertools.chain(*one), itertools.chain(*other)):
        if ring == back:
            same += 1
        elif told.names(ring):
            changed += 1
        else:
            raise Differs(f"ring {ring[:3]} and {back[:3]}")
    return same, changed


def compare(text, back, told):
    """The counts of Features, and of rings and points that are the same and that were changed as it was told."""
    before, after = features(text), features(back)
    if len(before) != len(after):
        raise Differs(f"{len(after)} Features and not {len(before)}")
    counts, number = [0, 0], 0
    for one, other in zip(before, after):
        if one.get("id") != other.get("id") or one.get("properties", "null") != other.get("properties"):
            raise Differs(f"{other} and not {one}"[:300])
        known = ("type", "id", "properties", "geometry", "bbox")
        if others(one, known) != others(other, known):
            raise Differs(f"members {others(other, known)}"[:200])
        if "null" in (one["geometry"], other["geometry"]):
            is_line = "LineString" in one["geometry"]
            if one["geometry"] != other["geometry"] and not is_line:
                raise Differs("a geometry is gone")
            number += 1
            continue
        shapes = [{name: value for name, _, value in entries(side["geometry"])} for side in (one, other)]
        known = ("type", "coordinates", "bbox")
        if others(shapes[0], known) != others(shapes[1], known):
            raise Differs("members of a geometry")
        found = compare_shape(*shapes, told, number)
        counts = [a + b for a, b in zip(counts, found)]
        number += json.loads(shapes[0]["type"]) in KINDS
    return len(before), *counts


def listed(path):
    """What GDAL lists of a file, but for its name, its extent and what it makes of geometries."""
    said = must("ogrinfo", "-ro", "-al", "-geom=NO", path)
    return [line for line in said.splitlines() if not re.match(r"INFO: Open|\s+using driver|Extent|Geometry:", line)]


# ---- the way

class Way:
    def __init__(self, programs, folder):
        self.mend, self.export, self.folder = programs["mend"], programs["export"], folder

    def there(self, text, name):
        report = must(self.mend, text, "--drop", "lines,heights", "--most", 4000000, "--out", self.folder / name)
        return Told(report)

    def back(self, name, text, *more):
        must(self.export, self.folder / name, "--out", self.folder / text, *more)
        return (self.folder / text).read_bytes()

    def go(self, text):
        """What came of a text: its counts."""
        told = self.there(text, "map.json")
        back = self.back("map.json", "back.geojson")
        counts = compare(text.read_text(), back.decode(), told)
        if listed(text) != listed(self.folder / "back.geojson"):
            raise Differs("GDAL lists something else")
        self.there(self.folder / "back.geojson", "again.json")
        if self.back("again.json", "again.geojson") != back:
            raise Differs("the second text is another one")
        kept = self.back("map.json", "kept.geojson", "--winding", "keep")
        self.there(self.folder / "kept.geojson", "again.json")
        if self.back("again.json", "again.geojson", "--winding", "keep") != kept:
            raise Differs("the second text that keeps directions is another one")
        return counts


def system_of(path, layer):
    """A reference system that a layer may have: degrees, or metres."""
    extent = re.search(r"Extent: \((.*)\) - \((.*)\)", must("ogrinfo", "-ro", "-so", path, layer))
    least, greatest = ([float(z) for z in side.split(", ")] for side in extent.groups())
    is_degrees = all(abs(z) <= most for side in (least, greatest) for z, most in zip(side, (180, 90)))
    return "EPSG:4326" if is_degrees else "EPSG:32618"


def texts_of(path, folder):
    """The texts of GeoJSON that a file is or that are made of it, with what each is called."""
    text = path.read_text()
    if '"Topology"' not in text[:200]:
        yield path.name, path
        return
    objects = next(value for name, _, value in entries(text.strip()) if name == "objects")
    layers = [name for name, _, _ in entries(objects)]
    for layer, (form, words) in itertools.product(layers, FORMS.items()):
        made = folder / "areas.geojson"
        made.unlink(missing_ok=True)
        must("ogr2ogr", "-f", "GeoJSON", "-a_srs", system_of(path, layer), *words, made, path, layer)
        yield f"{path.name} {layer}, {form}", made


def main():
    words = argparse.ArgumentParser(description=__doc__.split("\n", 1)[0])
    running.add_programs(words, "mend", "export")
    words.add_argument("maps", nargs="+", type=pathlib.Path, help="topologies, or texts of GeoJSON")
    given = words.parse_args()
    count = wrong = 0
    for path in given.maps:
        with tempfile.TemporaryDirectory() as name:
            folder = pathlib.Path(name)
            for what, text in texts_of(path, folder):
                count += 1
                try:
                    found, same, changed = Way(vars(given), folder).go(text)
                    print(f"{what}: {found} Features, {same} rings and points, {changed} changed as it was told")
                except Differs as differs:
                    wrong += 1
                    print(f"{what}: {differs}")
    print(f"{count - wrong} came back, {wrong} not")
    return 1 if wrong else 0


if __name__ == "__main__":
    sys.exit(main())
