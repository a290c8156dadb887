#!/usr/bin/env python3
"""Has topojson-client, the library that makers of web maps read TopoJSON with, read what the built programs write.

For each map border_mend writes its places and the map that it is mended to, border_edit saves the mended map, and
border_cover writes where its overlaps and gaps are. Each layer of each of these files is turned into GeoJSON twice: by
`feature` of topojson-client, which node runs, and here, by the rules of TopoJSON 1.0 (2.1.2 to 2.1.4, 2.2). Both have
to be the same: ids, properties, kinds of geometry, and every coordinate to the last bit. Where border_mend refuses a
map, that is told and no fault.

topojson-client stands in Debian's package node-topojson-client, and any copy of it will do (--client). A line at the end
counts files, layers, features and faults.
"""
import argparse
import itertools
import json
import pathlib
import subprocess
import tempfile

TOP = pathlib.Path(__file__).resolve().parent.parent
MEND = TOP / "crates/border_mend/out/border_mend"
EDIT = TOP / "crates/border_edit/out/border_edit"
COVER = TOP / "crates/border_cover/out/border_cover"
CLIENT = "/usr/share/nodejs/topojson-client"
LAYERS = """
const client = require(process.argv[1]);
const map = JSON.parse(require("fs").readFileSync(process.argv[2], "utf8"));
const layers = Object.entries(map.objects).map(([name, layer]) => [name, client.feature(map, layer)]);
process.stdout.write(JSON.stringify(layers));
"""


# ---- what a topology is as GeoJSON

class Shown:
    """The layers of a topology as GeoJSON."""

    def __init__(self, topology):
        transform = topology.get("transform", {"scale": [1, 1], "translate": [0, 0]})
        self.axes = list(zip(transform["scale"], transform["translate"]))
        self.is_delta = "transform" in topology
        self.arcs = [self.walk(arc) for arc in topology["arcs"]]

    def point(self, position):
        """A position off the grid."""
        return [number * scale + translate for number, (scale, translate) in zip(position, self.axes)]

    def walk(self, arc):
        """The positions of an arc; with a transform each but the first is the difference to the one before it."""
        columns = [itertools.accumulate(column) if self.is_delta else column for column in zip(*arc)]
        return [self.point(position) for position in zip(*columns)]

    def line(self, numbers):
        """The positions along arcs; where two meet, their common position once."""
        walks = [self.arcs[n] if n >= 0 else self.arcs[~n][::-1] for n in numbers]
        return walks[0][:1] + [position for walk in walks for position in walk[1:]]

    def rings(self, polygon):
        return [self.line(ring) for ring in polygon]

    def geometry(self, item):
        """A geometry with coordinates in the place of arcs."""
        kind = item["type"]
        if kind == "GeometryCollection":
            return {"type": kind, "geometries": [self.geometry(inner) for inner in item["geometries"]]}
        shapes = {
            "Point": lambda: self.point(item["coordinates"]),
            "MultiPoint": lambda: [self.point(position) for position in item["coordinates"]],
            "LineString": lambda: self.line(item["arcs"]),
            "MultiLineString": lambda: [self.line(numbers) for numbers in item["arcs"]],
            "Polygon": lambda: self.rings(item["arcs"]),
            "MultiPolygon": lambda: [self.rings(polygon) for polygon in item["arcs"]],
        }
        return {"type": kind, "coordinates": shapes[kind]()} if kind in shapes else None

    def feature(self, item):
        named = {"id": item["id"]} if "id" in item else {}
        return {"type": "Feature", **named, "properties": item.get("properties", {}), "geometry": self.geometry(item)}

    def layer(self, item):
        if item["type"] != "GeometryCollection":
            return self.feature(item)
        return {"type": "FeatureCollection", "features": [self.feature(inner) for inner in item["geometries"]]}


def count(layer):
    return len(layer.get("features", [layer]))


# ---- the files

class Tally:
    def __init__(self):
        self.files = self.layers = self.features = self.faults = 0

    def fault(self, path, what):
        self.faults += 1
        print(f"{path}: {what}")

    def compare(self, client, path):
        """Compares the layers of a file as topojson-client and as this script have them."""
        self.files += 1
        done = subprocess.run(["node", "-e", LAYERS, client, path], capture_output=True, text=True)
        if done.returncode:
            return self.fault(path, done.stderr.strip()[-300:])
        topology = json.loads(path.read_text())
        shown = Shown(topology)
        for (name, theirs), (own, item) in zip(json.loads(done.stdout), topology["objects"].items(), strict=True):
            layer = shown.layer(item)
            self.layers += 1
            self.features += count(layer)
            if name != own or theirs != layer:
                self.fault(path, f"layer {own} differs")


def run(words):
    return subprocess.run(list(map(str, words)), capture_output=True, text=True)


def check(tally, client, path, folder):
    """Has a map mended, its places written, the mended map saved, and its overlaps and gaps written, and all four read."""
    places, mended, saved, faces = (folder / name for name in ("places.json", "mended.json", "saved.json", "faces.json"))
    done = run([MEND, path, "--places", places, "--out", mended])
    if done.returncode:
        print(f"{path}: {done.stderr.strip()}")
        return
    script = folder / "script.txt"
    script.write_text("")
    done = run([EDIT, mended, script, "--out", saved])
    if done.returncode:
        tally.fault(path, f"border_edit: {done.stderr.strip()}")
        return
    done = run([COVER, mended, "--most", "0", "--places", faces])
    if done.returncode > 1:
        tally.fault(path, f"border_cover: {done.stderr.strip()}")
        return
    for written in (places, mended, saved, faces):
        tally.compare(client, written)


def main():
    parser = argparse.ArgumentParser(description=__doc__, formatter_class=argparse.RawDescriptionHelpFormatter)
    parser.add_argument("maps", nargs="+", type=pathlib.Path, help="maps in TopoJSON 1.0")
    parser.add_argument("--client", default=CLIENT, help="the folder of topojson-client (%(default)s)")
    options = parser.parse_args()
    tally = Tally()
    for path in options.maps:
        with tempfile.TemporaryDirectory() as folder:
            check(tally, options.client, path, pathlib.Path(folder))
    print(f"{tally.files} files, {tally.layers} layers, {tally.features} features, {tally.faults} faults")
    raise SystemExit(tally.faults > 0 or tally.layers == 0)


if __name__ == "__main__":
    main()
