#!/usr/bin/env python3
"""Compares what border_export writes with the map that it reads, and texts of GeoJSON with what comes back of them.

Of a map, the text has to be as RFC 7946 and docs/FORMATS.md say: each coordinate is worked out here, as a fraction, from
the map's own numbers, and each id, property and member is compared as the text that it is. `--drawn N` draws N maps with
odd names, numbers, shapes and members, and N texts of GeoJSON, which are made maps here, ring by ring, and have to come back
as they were. Nothing is taken from the programs or from their definitions. There is a line for each difference, and a
last one that counts; the status is 0 where there is none.
"""
import argparse
import fractions
import json
import pathlib
import random
import re
import subprocess
import sys
import tempfile

import running
from topology import entries, items

NUMBER = re.compile(r"(-?)(0|[1-9][0-9]*)(?:\.([0-9]*[1-9]))?")
MOST_DECIMALS, MOST_SCALE, MOST_TRANSLATE, MOST = 36, 10**25, 10**37, 10**12
POINTS = {"Point", "MultiPoint"}
KNOWN = {"Polygon": "arcs", "MultiPolygon": "arcs", "GeometryCollection": "geometries", "Point": "coordinates",
         "MultiPoint": "coordinates", None: None}
NOT_OF_COLLECTION = {"features", "coordinates", "geometries", "geometry"}
NOT_OF_FEATURE = {"coordinates", "geometries", "features", "arcs"}
NOT_OF_GEOMETRY = {"type", "bbox", "coordinates", "geometries", "geometry", "properties", "features"}


class Refused(Exception):
    """Why a map can't be written, as the program has to say it."""


class Differs(Exception):
    """What is not as it has to be."""


def demand(right, what):
    if not right:
        raise Differs(what)


# ---- numbers

def fraction_of(token):
    """A number of a map, exactly."""
    return fractions.Fraction(token)


def decimals_of(value):
    """How many decimals a fraction has."""
    return next(k for k in range(10**4) if (value * 10**k).denominator == 1)


def written(token):
    """A number of the text: an exact decimal in its shortest form."""
    found = NUMBER.fullmatch(token)
    demand(found and token != "-0", f"number {token}")
    return fractions.Fraction(token), len(found[3] or "")


# ---- a map

class Map:
    """A topology by its texts: layers, transform, arcs as positions."""

    def __init__(self, text):
        root = {name: value for name, _, value in entries(text.strip())}
        self.members = [m for m in entries(text.strip()) if m[0] not in ("type", "transform", "objects", "arcs", "bbox")]
        self.layers = entries(root["objects"])
        self.transform = root.get("transform", "null")
        self.axes, self.decimals = None, 0
        self.arcs = [self.arc(arc) for arc in items(root["arcs"])]

    def read_transform(self):
        """The scale and the translation of each axis."""
        if self.transform == "null":
            return
        members = {name: value for name, _, value in entries(self.transform)}
        tokens = [items(members[name]) for name in ("scale", "translate")]
        if any(re.search("[eE][+-]?[0-9]{4}", token) for pair in tokens for token in pair):
            raise Refused("open: bad member transform")
        scale, translate = [[fraction_of(token) for token in pair] for pair in tokens]
        self.axes = list(zip(scale, translate))
        self.decimals = max(decimals_of(value) for value in scale + translate)
        unit = 10**self.decimals
        if self.decimals > MOST_DECIMALS or any(
                not 0 < abs(s * unit) <= MOST_SCALE or abs(t * unit) > MOST_TRANSLATE for s, t in self.axes):
            raise Refused("open: bad member transform")

    def arc(self, text):
        found, before = [], (0, 0)
        for pair in items(text):
            x, y = (int(fraction_of(token)) for token in items(pair))
            before = (x, y) if self.transform == "null" else (before[0] + x, before[1] + y)
            found.append(before)
        return found

    def ring(self, text):
        """The corners of a ring, from the least one on."""
        found = []
        for index in (int(fraction_of(token)) for token in items(text)):
            for corner in self.arcs[index] if index >= 0 else self.arcs[~index][::-1]:
                if not found or found[-1] != corner:
                    found.append(corner)
        found = found[:-1]
        at = found.index(min(found)) if found else 0
        return found[at:] + found[:at]

    def where(self, corner):
        """Where a corner lies."""
        if not self.axes:
            return tuple(fractions.Fraction(z) for z in corner)
        return tuple(z * scale + translate for z, (scale, translate) in zip(corner, self.axes))


def twice_area(ring):
    return sum(a[0] * b[1] - b[0] * a[1] for a, b in zip(ring, ring[1:] + ring[:1]))


def geometries(value):
    """The geometry objects of a layer that have no others in them, each as a dict of name, token and value."""
    members = members_of(value)
    if kind_of(members) == "GeometryCollection":
        for item in items(members["geometries"][1]):
            yield from geometries(item)
    else:
        yield members


def members_of(value):
    """The members of an object by their names: the token of each, and its value."""
    return {name: (token, inside) for name, token, inside in entries(value)}


def kind_of(members):
    return json.loads(members["type"][1])


def others_of(members):
    """The members that are neither known nor a `bbox`."""
    known = {"type", "id", "properties", "bbox", KNOWN[kind_of(members)]}
    return {name: pair for name, pair in members.items() if name not in known}


def refuse_names(members, names):
    """The first member with one of these names is at fault."""
    for name, pair in members.items():
        if name in names:
            raise Refused(f"open: bad member {pair[0][1:-1]}")


def longest_side(topology):
    """The longest side of the box of a segment of any ring."""
    longest = 0
    for _, _, layer in topology.layers:
        for members in geometries(layer):
            for ring in rings_of(members):
                corners = topology.ring(ring)
                for a, b in zip(corners, corners[1:] + corners[:1]):
                    longest = max(longest, abs(a[0] - b[0]), abs(a[1] - b[1]))
    return longest


def rings_of(members):
    kind = kind_of(members)
    if kind == "Polygon":
        return items(members["arcs"][1])
    if kind == "MultiPolygon":
        return [ring for polygon in items(members["arcs"][1]) for ring in items(polygon)]
    return []


def decimals_for(topology, asked):
    """How many decimals have to be written."""
    if not topology.axes:
        return 0
    least = min(abs(scale) for scale, _ in topology.axes)
    needed = next(k for k in range(MOST_DECIMALS + 1) if fractions.Fraction(1, 10**k) <= least)
    if asked is not None:
        if asked < needed:
            raise Refused(f"few decimals {asked} of {needed}")
        return min(asked, topology.decimals)
    bound = least / (16 * max(1, longest_side(topology)))
    return next((k for k in range(topology.decimals) if fractions.Fraction(1, 10**k) <= bound), topology.decimals)


# ---- the comparison

class Comparison:
    """A text beside the map that it is of."""

    def __init__(self, topology, asked):
        self.map, self.asked = topology, asked
        self.named = self.layer()
        topology.read_transform()
        self.decimals = decimals_for(topology, asked.get("decimals"))
        self.texts = {}

    def number(self, token, exact):
        value, count = written(token)
        demand(count <= self.decimals, f"{token} has more than {self.decimals} decimals")
        away = value - exact
        half = fractions.Fraction(1, 2 * 10**self.decimals)
        demand(away == 0 if self.decimals >= self.map.decimals else -half < away <= half, f"{token} is not near {exact}")

    def corner(self, text, corner):
        """A position: near where the corner lies, and the same text wherever that corner stands."""
        demand(self.texts.setdefault(corner, text) == text, f"{corner} is {text} and {self.texts[corner]}")
        tokens = items(text)
        demand(len(tokens) == 2 and text == f"[{tokens[0]},{tokens[1]}]", f"position {text}")
        for token, exact in zip(tokens, self.map.where(corner)):
            self.number(token, exact)

    def ring(self, text, arcs, is_outer):
        corners = self.map.ring(arcs)
        area = twice_area([self.map.where(corner) for corner in corners])
        if not self.asked.get("keep") and (area < 0 if is_outer else area > 0):
            corners = corners[:1] + corners[:0:-1]
        positions = items(text)
        demand(len(positions) == len(corners) + bool(corners), f"{len(positions)} positions of {len(corners)}")
        for position, corner in zip(positions, corners + corners[:1]):
            self.corner(position, corner)

    def polygon(self, text, arcs):
        rings, wanted = items(text), items(arcs)
        demand(len(rings) == len(wanted), "rings")
        for i, (ring, ring_arcs) in enumerate(zip(rings, wanted)):
            self.ring(ring, ring_arcs, i == 0)

    def position(self, text, kept):
        """A position of a point."""
        tokens, wanted = items(text), items(kept)
        demand(len(tokens) == len(wanted) and tokens[2:] == wanted[2:], f"point {text}")
        for token, whole, (scale, translate) in zip(tokens, wanted, self.map.axes):
            self.number(token, int(fraction_of(whole)) * scale + translate)

    def point(self, text, kept, kind):
        if not self.map.axes:
            demand(text == kept, f"point {text}")
            return
        pairs = zip([text], [kept]) if kind == "Point" else zip(items(text), items(kept))
        if kind == "MultiPoint":
            demand(len(items(text)) == len(items(kept)), f"points {text}")
        for position, wanted in pairs:
            self.position(position, wanted)

    def geometry(self, text, members):
        kind = kind_of(members)
        if kind is None:
            demand(text == "null", f"geometry {text}")
            return
        found = entries(text)
        demand(found[0][1:] == ('"type"', json.dumps(kind)), f"type {text:.60}")
        name, value = found[1][1:]
        inside = members[KNOWN[kind]][1]
        demand(name == ('"geometries"' if kind == "GeometryCollection" else '"coordinates"'), f"coordinates {text:.60}")
        if kind == "GeometryCollection":
            demand(len(items(value)) == len(items(inside)), "geometries")
            for one, item in zip(items(value), items(inside)):
                self.geometry(one, members_of(item))
        elif kind in POINTS:
            self.point(value, inside, kind)
        elif kind == "Polygon":
            self.polygon(value, inside)
        else:
            demand(len(items(value)) == len(items(inside)), "polygons")
            for one, arcs in zip(items(value), items(inside)):
                self.polygon(one, arcs)
        own = entries(members["geometry"][1]) if "geometry" in members else []
        demand([m[1:] for m in found[2:]] == [m[1:] for m in own], f"members of {text:.60}")

    def feature(self, text, members):
        wanted = [('"type"', '"Feature"')]
        if "id" in members:
            wanted.append(('"id"', members["id"][1]))
        wanted.append(('"properties"', members["properties"][1] if "properties" in members else "null"))
        found = [m[1:] for m in entries(text)]
        demand(found[: len(wanted)] == wanted and found[len(wanted)][0] == '"geometry"', f"begin of {text:.80}")
        self.geometry(found[len(wanted)][1], members)
        others = [pair for name, pair in others_of(members).items() if name != "geometry"]
        demand(found[len(wanted) + 1 :] == others, f"end of {text:.80}")

    def collection(self, text):
        """The whole text, of a map that is not refused."""
        kept, is_collection, members, features = self.parts()
        wanted = [('"type"', '"FeatureCollection"')]
        if not any(m[0] == "name" for m in kept):
            wanted.append(('"name"', self.named[0]))
        wanted += [(f'"{name}"', members[name][1]) for name in ("id", "properties") if is_collection and name in members]
        wanted += [m[1:] for m in kept]
        found = [m[1:] for m in entries(text)]
        demand(found[:-1] == wanted and found[-1][0] == '"features"', f"members {found[:-1]}"[:200])
        lines = items(found[-1][1])
        demand(len(lines) == len(features), f"{len(lines)} features of {len(features)}")
        self.compare_lines(text, lines)
        for line, item in zip(lines, features):
            self.feature(line, members_of(item))

    @staticmethod
    def compare_lines(text, lines):
        """Each Feature is a line."""
        begin = text.index("\n") if lines else len(text) - len("]}\n")
        body = "".join(("\n" if i == 0 else ",\n") + line for i, line in enumerate(lines))
        demand(text[begin:] == body + ("\n]}\n" if lines else "]}\n"), "lines")

    # ---- why a map is refused

    def refuse(self):
        """The first reason, in the order of the text that would be written."""
        kept, _, _, features = self.parts()
        if any(m[0] == "name" for m in kept) and json.loads(self.named[0]) != "features":
            raise Refused("open: duplicate name")
        refuse_names({name: pair for name, *pair in kept}, NOT_OF_COLLECTION)
        for number, item in enumerate(features):
            members = members_of(item)
            self.refuse_geometry(members, number, False)
            refuse_names(others_of(members), NOT_OF_FEATURE | ({"geometry"} if kind_of(members) is None else set()))

    def refuse_geometry(self, members, number, is_within):
        kind = kind_of(members)
        if is_within and (kind is None or set(others_of(members)) - {"geometry"} or {"id", "properties"} & set(members)):
            raise Refused(f"nested {number}")
        if kind == "GeometryCollection":
            for item in items(members["geometries"][1]):
                self.refuse_geometry(members_of(item), number, True)
        if kind is not None and "geometry" in members:
            token, value = members["geometry"]
            if not value.startswith("{"):
                raise Refused(f"open: bad member {token[1:-1]}")
            refuse_names(members_of(value), NOT_OF_GEOMETRY)

    # ---- what there is to write

    def parts(self):
        """The members of the collection, whether the layer is one, its own members, and its geometries."""
        value = self.named[1]
        members = members_of(value)
        is_collection = kind_of(members) == "GeometryCollection"
        kept = [m for m in entries(value) if m[0] not in ("type", "id", "properties", "geometries", "bbox")] if is_collection else []
        has = {m[0] for m in kept} | ({"id", "properties"} & set(members) if is_collection else set())
        kept += [m for m in self.map.members if m[0] not in has]
        features = list(self.flattened(items(members["geometries"][1]))) if is_collection else [value]
        return kept, is_collection, members, features

    def layer(self):
        """The layer that is asked for."""
        asked = self.asked.get("layer")
        found = [(token, value) for name, token, value in self.map.layers if asked in (None, name)]
        if len(found) != 1:
            raise Refused("several layers" if found else "no layer")
        return found[0]

    def flattened(self, found):
        for item in found:
            members = members_of(item)
            if self.asked.get("flatten") and kind_of(members) == "GeometryCollection":
                yield from self.flattened(items(members["geometries"][1]))
            else:
                yield item


def words_of(asked):
    words = []
    for name in "layer", "decimals":
        if asked.get(name) is not None:
            words += [f"--{name}", str(asked[name])]
    return words + ["--winding", "keep"] * bool(asked.get("keep")) + ["--flatten"] * bool(asked.get("flatten"))


class Program:
    """The program, run in a folder of its own."""

    def __init__(self, path, folder):
        self.path, self.map, self.file = path, pathlib.Path(folder) / "map.json", pathlib.Path(folder) / "areas.geojson"

    def export(self, text, asked):
        """What it writes of a map, and what it says."""
        self.map.write_text(text, encoding="utf-8")
        self.file.unlink(missing_ok=True)
        done = subprocess.run([self.path, str(self.map), "--out", str(self.file), *words_of(asked)], capture_output=True, check=False)
        if done.returncode == 0:
            return self.file.read_bytes().decode(), ""
        return None, done.stderr.decode().strip()


def difference(program, text, asked):
    """What differs between a map and what is written of it; None where nothing does."""
    found, said = program.export(text, asked)
    try:
        comparison = Comparison(Map(text), asked)
        comparison.refuse()
        if found is None:
            return f"says {said}"
        comparison.collection(found)
    except Refused as why:
        return None if said == str(why) else f"says {said or 'nothing'}, and not {why}"
    except Differs as what:
        return str(what)
    return None


# ---- drawn maps

class Drawing:
    """Draws maps and texts of GeoJSON."""

    NAMES = ['"a"', '"n\\u0061me"', '"\u00e9 \\"x\\""', '"title"', '"crs"', '"x y"', '"geometry"', '"\\ud83d\\ude00"', '"id2"']
    VALUES = ["1", "-0.0", "1e400", '"\\ud800"', "null", '{ "a" : [1.50, true] }', "[]", '"\u00fc\\n"', "12345678901234567890.000"]
    SCALES = ["1", "0.1", "1e-2", "1E+1", "0.0003600036000360004", "-0.25", "3.6e-7", "1.000001000001e-6", "0.30", "7"]
    SHIFTS = ["0", "-180", "0.05", "-1.50e1", "1e3", "123456.789", "-0.000"]

    def __init__(self, seed):
        self.draw = random.Random(seed)
        self.arcs, self.delta = [], False

    def members(self, taken=(), most=2):
        names = [n for n in self.draw.sample(self.NAMES, self.draw.randint(0, most)) if json.loads(n) not in ("geometry", "name", *taken)]
        return [f"{self.space()}{name}{self.space()}:{self.space()}{self.draw.choice(self.VALUES)}" for name in names]

    def space(self):
        return self.draw.choice(["", "", "", " ", "\n "])

    def ring(self, x, y):
        """A ring about a place, cut into arcs or not, turned either way."""
        size = self.draw.choice([1, 3, 10, 1000])
        corners = [(x, y), (x + size, y + self.draw.randint(0, size - 1)), (x + size, y + size), (x, y + size)]
        corners = corners[: self.draw.randint(3, 4)]
        at = self.draw.randrange(len(corners))
        corners = corners[at:] + corners[:at]
        if self.draw.random() < 0.5:
            corners.reverse()
        corners.append(corners[0])
        cut = self.draw.randint(1, len(corners) - 2) if self.draw.random() < 0.4 else 0
        parts = [corners[: cut + 1], corners[cut:]] if cut else [corners]
        return "[" + ",".join(str(self.arc(part)) for part in parts) + "]"

    def arc(self, corners):
        """The index of a new arc, in its direction or the other."""
        is_reversed = self.draw.random() < 0.3
        self.arcs.append(corners[::-1] if is_reversed else corners)
        return ~(len(self.arcs) - 1) if is_reversed else len(self.arcs) - 1

    def arc_text(self, corners):
        if self.delta:
            corners = corners[:1] + [(b[0] - a[0], b[1] - a[1]) for a, b in zip(corners, corners[1:])]
        return "[" + ",".join(f"[{x},{self.space()}{y}]" for x, y in corners) + "]"

    def place(self):
        return [self.draw.randint(-10**4, 10**4) * self.draw.choice([1, 1, 10**7]) for _ in "xy"]

    def polygon(self):
        x, y = self.place()
        holes = [self.ring(x + 5000 * (i + 1), y) for i in range(self.draw.choice([0, 0, 1, 2]))]
        return "[" + ",".join([self.ring(x, y), *holes]) + "]"

    def position(self):
        numbers = [str(z) + self.draw.choice(["", "", ".0"]) for z in self.place()] + self.draw.choice([[], [], ["7.50"], ['"h"', "1e2"]])
        return "[" + f",{self.space()}".join(numbers[self.draw.choice([0, 0, 0, 0, 0]) :]) + "]"

    def inside(self, kind):
        if kind == "Polygon":
            return '"arcs":' + self.draw.choice([self.polygon(), self.polygon(), "[]"])
        if kind == "MultiPolygon":
            return '"arcs":[' + ",".join(self.polygon() for _ in range(self.draw.randint(0, 3))) + "]"
        if kind == "Point":
            return '"coordinates":' + self.draw.choice([self.position(), self.position(), "[ ]"])
        return '"coordinates":[' + ",".join(self.position() for _ in range(self.draw.randint(0, 3))) + "]"

    def geometry(self, is_within, depth=0):
        """A geometry object of a map."""
        kind = self.draw.choice(["Polygon"] * 4 + ["MultiPolygon"] * 2 + ["Point", "MultiPoint", "GeometryCollection", None])
        parts = [f'"type":{self.space()}{json.dumps(kind)}']
        bare = is_within and self.draw.random() < 0.97
        if kind == "GeometryCollection" and depth < 3:
            inner = [self.geometry(True, depth + 1) for _ in range(self.draw.randint(0, 2))]
            parts.append('"geometries":[' + ",".join(inner) + "]")
        elif kind == "GeometryCollection":
            parts.append('"geometries":[]')
        elif kind:
            parts.append(self.inside(kind))
        elif is_within and bare:
            parts[0], kind = '"type":"Polygon"', "Polygon"
            parts.append('"arcs":[]')
        if not bare:
            parts += [f'"id":{self.draw.choice(self.VALUES)}'] * self.draw.randint(0, 1)
            parts += [f'"properties":{self.draw.choice(self.VALUES)}'] * self.draw.randint(0, 1)
            parts += self.members()
        if kind and self.draw.random() < 0.2:
            parts.append('"geometry":{' + ",".join(self.members(("title",))) + "}")
        if self.draw.random() < 0.1:
            parts.append('"bbox":[0,0,1,1]')
        if self.draw.random() < 0.01:
            parts.append(self.draw.choice(['"features":1', '"\\u0063oordinates2":1', '"geometries2":1']))
        self.draw.shuffle(parts)
        return "{" + f",{self.space()}".join(parts) + "}"

    def map(self):
        """The text of a map, and what is asked of it."""
        self.arcs, self.delta = [], self.draw.random() < 0.8
        layers = []
        for name in self.draw.sample(['"land"', '"\\u0062"', '"features"', '"\u00e9"'], self.draw.choice([1, 1, 1, 2])):
            found = [self.geometry(False) for _ in range(self.draw.randint(0, 5))]
            head = ['"type":"GeometryCollection"', '"geometries":[' + ",".join(found) + "]", *self.members()]
            if name == '"features"' and self.draw.random() < 0.5:
                head.append('"name":{"en":1}')
            layers.append(f"{name}:{{{','.join(head)}}}" if self.draw.random() < 0.9 else f"{name}:{self.geometry(False)}")
        parts = ['"type":"Topology"', '"objects":{' + ",".join(layers) + "}", *self.members()]
        if self.delta:
            scale, translate = [",".join(self.draw.choice(kind) for _ in "xy") for kind in (self.SCALES, self.SHIFTS)]
            parts.append(f'"transform":{{"scale":[{scale}],{self.space()}"translate":[{translate}]}}')
        parts.append('"arcs":[' + ",".join(map(self.arc_text, self.arcs)) + "]")
        asked = {"keep": self.draw.random() < 0.3, "flatten": self.draw.random() < 0.2}
        asked["decimals"] = self.draw.choice([None, None, 36, 0, 3, 7])
        if self.draw.random() < 0.3:
            asked["layer"] = self.draw.choice(["land", "b", "features", "é", "no"])
        return "{" + f",{self.space()}".join(parts) + "}", asked


# ---- texts of GeoJSON, there and back

class Text:
    """A text of GeoJSON with so many decimals, as it is drawn, and the map that it is: a ring an arc."""

    def __init__(self, drawing):
        self.draw = drawing
        self.decimals = drawing.draw.randint(0, 9)
        self.arcs, self.features, self.objects = [], [], []
        for _ in range(drawing.draw.randint(0, 6)):
            self.feature()

    def number(self, whole):
        """A whole number of the grid, as a decimal in one of its forms."""
        digits = str(abs(whole)).rjust(self.decimals + 1, "0")
        at = len(digits) - self.decimals
        text = digits[:at] + ("." + digits[at:] if self.decimals else "")
        if self.decimals and self.draw.draw.random() < 0.5:
            text = text.rstrip("0").rstrip(".")
        return ("-" if whole < 0 else "") + text

    def ring(self):
        x, y = self.draw.place()
        corners = [(x, y), (x + 9, y + 1), (x + 7, y + 8)]
        at = self.draw.draw.randrange(3)
        corners = corners[at:] + corners[:at]
        if self.draw.draw.random() < 0.5:
            corners.reverse()
        corners.append(corners[0])
        self.arcs.append(corners)
        return "[" + ",".join(f"[{self.number(x)}, {self.number(y)}]" for x, y in corners) + "]", f"[{len(self.arcs) - 1}]"

    def polygon(self):
        rings = [self.ring() for _ in range(self.draw.draw.randint(1, 3))]
        return tuple("[" + ",".join(part) + "]" for part in zip(*rings))

    def feature(self):
        draw = self.draw.draw
        head = [f'"id":{draw.choice(["1", chr(34) + "x" + chr(34), "-2.50"])}'] * draw.randint(0, 1)
        head.append(f'"properties":{draw.choice(Drawing.VALUES)}')
        others, own = self.draw.members(), self.draw.members(("title",)) if draw.random() < 0.3 else []
        kind = draw.choice(["Polygon", "Polygon", "MultiPolygon", "Point", None])
        if kind == "Polygon":
            text, arcs = self.polygon()
        elif kind == "MultiPolygon":
            found = [self.polygon() for _ in range(draw.randint(1, 3))]
            text, arcs = ("[" + ",".join(part) + "]" for part in zip(*found))
        elif kind == "Point":
            pos = self.draw.place()
            text, arcs = "[" + ",".join(map(self.number, pos)) + "]", f"[{pos[0]},{pos[1]}]"
        else:
            own = []
        geometry = "null"
        if kind:
            geometry = "{" + ",".join([f'"type":"{kind}"', f'"coordinates":{text}', *own]) + "}"
        self.features.append("{" + ",".join(['"type":"Feature"', *head, f'"geometry":{geometry}', *others]) + "}")
        shape = [] if kind is None else [f'"coordinates":{arcs}' if kind == "Point" else f'"arcs":{arcs}']
        inside = ['"geometry":{' + ",".join(own) + "}"] if own else []
        self.objects.append("{" + ",".join([f'"type":{json.dumps(kind)}', *head, *shape, *others, *inside]) + "}")

    def map(self):
        transform = f'"transform":{{"scale":[1e-{self.decimals},1e-{self.decimals}],"translate":[0,0]}},' if self.decimals else ""
        self.draw.delta = bool(self.decimals)
        arcs = ",".join(map(self.draw.arc_text, self.arcs))
        return (f'{{"type":"Topology",{transform}"objects":{{"features":{{"type":"GeometryCollection",'
                f'"geometries":[{",".join(self.objects)}]}}}},"arcs":[{arcs}]}}')


def coordinates_differ(before, after):
    """Whether rings or points are other ones: as decimals, wherever a ring begins."""
    if not before.startswith("["):
        return fractions.Fraction(before) != fractions.Fraction(after)
    one, other = items(before), items(after)
    if one and one[0].startswith("[") and not items(one[0])[0].startswith("["):
        ring, back = ([tuple(map(fractions.Fraction, items(p))) for p in side] for side in (one, other))
        at = ring.index(min(ring))
        return ring[at:-1] + ring[:at] + [ring[at]] != back
    return len(one) != len(other) or any(map(coordinates_differ, one, other))


def back_differs(program, drawing):
    """What differs between a drawn text and what comes back of it."""
    text = Text(drawing)
    found, said = program.export(text.map(), {"keep": True})
    if found is None:
        return f"says {said}"
    back = items(entries(found)[-1][2])
    if len(back) != len(text.features):
        return f"{len(back)} features of {len(text.features)}"
    for before, after in zip(text.features, back):
        one, other = ([m[1:] for m in entries(side)] for side in (before, after))
        if [m for m in one if m[0] != '"geometry"'] != [m for m in other if m[0] != '"geometry"']:
            return f"{before:.100} and {after:.100}"
        shapes = [dict(side)['"geometry"'] for side in (one, other)]
        if "null" in shapes:
            if shapes != ["null", "null"]:
                return f"{before:.100} and {after:.100}"
            continue
        one, other = ([m[1:] for m in entries(side)] for side in shapes)
        if one[0] != other[0] or one[2:] != other[2:] or coordinates_differ(one[1][1], other[1][1]):
            return f"{shapes[0]:.100} and {shapes[1]:.100}"
    return None


def main():
    words = argparse.ArgumentParser(description=__doc__.split("\n", 1)[0])
    running.add_programs(words, "export")
    words.add_argument("maps", nargs="*", help="maps that are exported with several arguments")
    words.add_argument("--drawn", type=int, default=0, metavar="N", help="how many maps and texts are drawn (%(default)s)")
    words.add_argument("--seed", type=int, default=1, help="of what is drawn (%(default)s)")
    given = words.parse_args()
    count = wrong = 0

    def tell(what, differs):
        nonlocal count, wrong
        count += 1
        if differs:
            wrong += 1
            print(f"{what}: {differs}")

    with tempfile.TemporaryDirectory() as folder:
        program = Program(given.export, folder)
        for path in given.maps:
            text = pathlib.Path(path).read_text(encoding="utf-8")
            layers = [name for name, _, _ in Map(text).layers]
            for layer in layers:
                for asked in {}, {"keep": True}, {"decimals": 36}, {"flatten": True, "decimals": 12}:
                    tell(f"{path} {layer} {words_of(asked)}", difference(program, text, {"layer": layer, **asked}))
        for i in range(given.drawn):
            drawing = Drawing(f"{given.seed} {i}")
            text, asked = drawing.map()
            differs = difference(program, text, asked)
            tell(f"drawn map {i} {words_of(asked)} {text if differs else ''}", differs)
            tell(f"drawn text {i}", back_differs(program, drawing))
    print(f"{count - wrong} without a difference, {wrong} with one")
    return 1 if wrong else 0


if __name__ == "__main__":
    sys.exit(main())
