#!/usr/bin/env python3
"""Runs border_export on hostile texts: damaged ones, deep ones, huge numbers, names of one hash, very many small things.

A map that has all that a layer may have is cut after each byte, has each byte replaced by drawn ones, and has values left
out, doubled and exchanged. Rows of other texts are made to be as hard to read or to write as may be. Of each text
bench/second_reader.py tells the fault that border_edit has to name, with its place; what is then no fault, but can't be
GeoJSON, is told here, by docs/MENDING.md; and what is written is compared with the map as bench/exported.py does. Where
there is a fault the status is 2, standard error has its line, and FILE is as it was; else the status is 0 and FILE is whole.
Nothing else may stand beside it, and no run may last long. Nothing is taken from the programs or from their definitions.

bench/program.py runs this too, with fewer texts. There is one line for each text that differs; the status is 0 where none does.
"""
import argparse
import os
import pathlib
import random
import re
import subprocess
import sys
import tempfile

import exported
import running
import second_reader as second
from exported import NOT_OF_COLLECTION, NOT_OF_FEATURE, NOT_OF_GEOMETRY, Refused

# Numbers of any length are read here.
sys.set_int_max_str_digits(0)
OLD = b"what stood here before\n" * 100
# Seconds that a run may last on a busy machine.
LIMIT = 60
# How many members, layers, rings, features and points the rows have that have many.
MANY = 4000
# What a byte is replaced by: one of these, and one of all.
BYTES = b'[]{},:"0-9.eE+\\ntu'
# What a value is replaced by, and what a name is.
PIECES = [b"0", b"-1", b"5", b"1e0", b"null", b"[]", b"{}", b'""', b"[[]]", b'"Polygon"', b'"Point"', b"[0,1.5]", b"[1000000000001,0]"]
NAMES = [b'"name"', b'"\\u006eame"', b'"features"', b'"coordinates"', b'"geometries"', b'"geometry"', b'"arcs"', b'"id"', b'"type"', b'"bbox"',
         b'"properties"', b'"x"', b'"\\ud800"', b'"n"', b'""']
# The front of names that have one hash under the fixed seed of FoldHasher, whatever the 8 bytes behind it are.
OF_ONE_HASH = "vael51bfy6vcb6a2A3<F0~[k"

HEAD = '{"type":"Topology","objects":{"a":'
ARCS = '},"arcs":[[[0,0],[4,0],[4,4],[0,0]]]}'
DELTA = '},"transform":{"scale":[1e-1,1e-1],"translate":[0,0]},"arcs":[[[0,0],[4,0],[0,4],[-4,-4]]]}'
# A map with all that a layer may have.
WHOLE = (
    '{"bbox":[0,0,9,9], "type":"Topology","transform":{"scale":[0.1,-1e-2],"translate":[-7,2.50]},"crs":{"n\\u00e9":[1.50]},'
    '"objects":{"l\\u00e4nder":{"geometries":[{"type":"Polygon","id":"A\u00e9","properties":{"n":[1, {}]},"arcs":[[0,1]]},'
    '{"arcs":[[[2,-1]],[[3],[4]]],"type":"MultiPolygon","geometry":{"crs":{"b":1}},"style":"x"},{"type":null},'
    '{"type":"GeometryCollection","geometries":[{"type":"Point","coordinates":[3,-4,7.5]},{"type":"Polygon","arcs":[]}]},'
    '{"coordinates":[[1,2],[3.0,4]],"type":"MultiPoint","id":-0.0}],"type":"GeometryCollection","note":null}},'
    '"arcs":[[[9,0],[0,9]],[[9,9],[-9,0],[0,-9],[9,0]],[[9,0],[9,0],[0,9],[-9,0]],[[30,0],[9,0],[0,9],[-9,0],[0,-9]],'
    '[[32,2],[1,0],[0,1],[-1,-1]]]}'
)


# ---- what a text is to come to

def fault_of(text):
    """Why a text is no map, or its value."""
    second.read(text)
    return second.scanned(text)


def refuse(members, names):
    for word, (name, _) in members.items():
        if word in names:
            raise Refused(f"open: bad member {second.shown(name)}")


def kind_of(members):
    kind = members["type"][1]
    return None if kind.kind == "null" else kind.decoded()


def others_of(members):
    known = {"type", "id", "properties", "bbox", exported.KNOWN[kind_of(members)]}
    return {word: pair for word, pair in members.items() if word not in known}


class Layer:
    """The layer of a map that is asked for, as far as it may not be written."""

    def __init__(self, root, asked):
        self.root, self.asked = second.named(root), asked
        layers = second.named(self.root["objects"][1])
        if asked.get("layer") is not None:
            if asked["layer"] not in layers:
                raise Refused("no layer")
            self.name = asked["layer"]
        elif len(layers) != 1:
            raise Refused("several layers" if layers else "no layer")
        else:
            self.name = next(iter(layers))
        self.value = layers[self.name][1]
        self.has_transform = "transform" in self.root and self.root["transform"][1].kind != "null"

    def refuse(self):
        """The first reason in the order of the text that would be written."""
        members = second.named(self.value)
        is_collection = kind_of(members) == "GeometryCollection"
        kept = others_of(members) if is_collection else {}
        taken = {*kept, *({"id", "properties"} & set(members) if is_collection else ())}
        taken |= {"type", "transform", "objects", "arcs", "bbox"}
        kept = {**kept, **{word: pair for word, pair in self.root.items() if word not in taken}}
        if "name" in kept and self.name != "features":
            raise Refused("open: duplicate name")
        refuse(kept, NOT_OF_COLLECTION)
        items = members["geometries"][1].inside if is_collection else [self.value]
        for number, item in enumerate(self.flattened(items) if self.asked.get("flatten") else items):
            self.feature(second.named(item), number)

    def flattened(self, items):
        for item in items:
            members = second.named(item)
            if kind_of(members) == "GeometryCollection":
                yield from self.flattened(members["geometries"][1].inside)
            else:
                yield item

    def feature(self, members, number):
        self.geometry(members, number, False)
        refuse(others_of(members), NOT_OF_FEATURE | ({"geometry"} if kind_of(members) is None else set()))

    def geometry(self, members, number, is_within):
        kind = kind_of(members)
        if is_within and (kind is None or set(others_of(members)) - {"geometry"} or {"id", "properties"} & set(members)):
            raise Refused(f"nested {number}")
        if kind == "GeometryCollection":
            for item in members["geometries"][1].inside:
                self.geometry(second.named(item), number, True)
        elif kind in exported.POINTS:
            self.point(members, 1 if kind == "Point" else 2)
        if kind is not None and "geometry" in members:
            name, value = members["geometry"]
            if value.kind != "object":
                raise Refused(f"open: bad member {second.shown(name)}")
            refuse(second.named(value), NOT_OF_GEOMETRY)

    def point(self, members, depth):
        """A list of numbers, or a list of these; with a transform the first two have to be on the grid."""
        try:
            value = second.demand(members, "coordinates", "list", lambda value: second.are_lists(value, depth))
        except second.Fault as fault:
            raise Refused(f"open: {fault}") from None
        for position in [value] if depth == 1 else value.inside:
            for number in position.inside[:2] if self.has_transform else ():
                whole = number.whole()
                if whole is None or abs(whole) > exported.MOST:
                    raise Refused(f"open: {'not whole' if whole is None else 'out of range'} at {number.at}")


def verdict(text, asked):
    """What has to be said of a text; None where it has to be written."""
    try:
        root = fault_of(text)
        layer = Layer(root, asked)
        topology = exported.Map(text.decode())
        topology.read_transform()
        exported.decimals_for(topology, asked.get("decimals"))
        layer.refuse()
    except second.Fault as fault:
        return f"open: {fault}"
    except Refused as why:
        return str(why)
    return None


class Place:
    """A folder with a map and FILE."""

    def __init__(self, program, folder):
        self.program, self.folder = program, pathlib.Path(folder)
        self.map, self.file = self.folder / "map.json", self.folder / "areas.geojson"

    def differs(self, text, asked):
        """What differs of a run on a text; None where nothing does."""
        self.map.write_bytes(text)
        self.file.write_bytes(OLD)
        words = [self.program, self.map, "--out", self.file, *exported.words_of(asked)]
        try:
            done = subprocess.run(words, capture_output=True, timeout=LIMIT, check=False)
        except subprocess.TimeoutExpired:
            return f"it runs over {LIMIT} seconds"
        wanted = verdict(text, asked)
        status, said = (0, "") if wanted is None else (2, wanted + "\n")
        if (done.returncode, done.stdout, done.stderr.decode()) != (status, b"", said):
            return f"status {done.returncode} and {done.stderr.decode()!r:.200}, and not {status} and {said!r:.200}"
        if sorted(os.listdir(self.folder)) != [self.file.name, self.map.name]:
            return f"it leaves {os.listdir(self.folder)}"
        found = self.file.read_bytes()
        if wanted is not None:
            return None if found == OLD else f"FILE is {found[:80]}"
        try:
            exported.Comparison(exported.Map(text.decode()), asked).collection(found.decode())
        except exported.Differs as what:
            return str(what)
        return None


# ---- damaged texts

def cuts():
    text = WHOLE.encode()
    for size in range(len(text)):
        yield f"cut after {size}", text[:size]


def replaced(draw):
    """The map with each byte replaced."""
    text = WHOLE.encode()
    for at in range(len(text)):
        for byte in draw.choice(BYTES), draw.randrange(256):
            yield f"byte {at} is {byte:02x}", text[:at] + bytes([byte]) + text[at + 1 :]


def values_of(value):
    """A value and all that stand in it."""
    yield value
    for inside in value.inside:
        for one in inside if isinstance(inside, tuple) else (inside,):
            yield from values_of(one)


def reshaped(draw, count):
    """The map with a value left out, doubled, or in the place of another one; a name or two are other ones."""
    text = WHOLE.encode()
    values = list(values_of(second.scanned(text)))
    names = [name for value in values if value.kind == "object" for name, _ in value.inside]
    for number in range(count):
        value, other = draw.sample(values, 2)
        made = draw.choice([b"", value.bytes + b"," + value.bytes, other.bytes, draw.choice(PIECES), draw.choice(PIECES)])
        changes = [(name, draw.choice(NAMES)) for name in draw.sample(names, draw.randint(1, 2))]
        yield f"reshaped {number}", changed(text, draw.choice([[(value, made)], changes, changes]))


def changed(text, changes):
    """A text with others in the place of some of its values."""
    for value, made in sorted(changes, key=lambda change: -change[0].at):
        text = text[: value.at] + made + text[value.end :]
    return text


# ---- rows

def in_layer(items, tail=ARCS):
    return HEAD + '{"type":"GeometryCollection","geometries":[' + items + "]}" + tail


def numbered(row, count):
    """Rows with numbers in them, and commas between."""
    return ",".join(row.replace("#", f"{number:08}") for number in range(count))


def deep(most):
    """Texts whose innermost bracket is the one of this level."""
    def nest(inside, levels, pair="[]"):
        return pair[0] * levels + inside + pair[1] * levels

    yield "properties", in_layer('{"type":null,"properties":' + nest("", most - 5) + "}")
    yield "properties of objects", in_layer('{"type":null,"properties":' + '{"a":' * (most - 6) + "{}" + "}" * (most - 6) + "}")
    yield "a further number of a point", in_layer('{"type":"Point","coordinates":[1,2,' + nest("", most - 6) + "]}", DELTA)
    yield "a coordinate of a point", in_layer('{"type":"Point","coordinates":[1,' + nest("", most - 6) + "]}", DELTA)
    yield "coordinates", in_layer('{"type":"MultiPoint","coordinates":' + nest("", most - 5) + "}", DELTA)
    yield "a member", HEAD + '{"type":null}' + ARCS[:-1] + ',"m":' + nest("", most - 1) + "}"
    yield "within a geometry", in_layer('{"type":"Polygon","arcs":[[0]],"geometry":{"m":' + nest("", most - 6) + "}}")
    half = (most - 3) // 2
    collections = '{"type":"GeometryCollection","geometries":['
    point = '{"type":"Point","coordinates":[1,2]}' if most % 2 else ""
    yield "collections", HEAD + collections * half + point + "]}" * half + ARCS
    yield "a layer's type", HEAD + nest("", most - 2) + ARCS
    yield "open brackets", "[" * most
    yield "a ring", in_layer('{"type":"Polygon","arcs":' + nest("", most - 5) + "}")


def numbers():
    """Coordinates, indexes and numbers of the transform that are as large, as long or as small as they may be, and more."""
    nines, zeros = "9" * 5000, "0" * 5000
    for text in ("1000000000000", "1000000000001", "-1000000000000", "-1000000000001", "1." + zeros, "1." + zeros + "1", nines, "-" + nines,
                 "1e2", "-0", "0.0", "1e999999999999", "9" * 200_000):
        for tail in ARCS, DELTA:
            yield f"a point at {text:.20}", in_layer('{"type":"Point","coordinates":[%s,%s,%s]}' % (text, text, text), tail)
        arc = '"arcs":[[[0,0],[%s,0],[4,4],[0,0]]]}' % text
        yield f"a corner at {text:.20}", in_layer('{"type":"Polygon","arcs":[[0]]}', "}," + arc)
        yield f"an index {text:.20}", in_layer('{"type":"Polygon","arcs":[[%s]]}' % text)
    for text in ("1e36", "1e-36", "1e-37", "1e25", "1e26", "-1e25", "0", "0e5", "-0.0", "1e999", "1e-999", "1e1000", "1e-0036", "1e+36", nines,
                 "0." + zeros, "0." + "0" * 35 + "1", "0." + "0" * 36 + "1", "1." + zeros, "0.1e-35", "10e-37", "1e99999999999"):
        for at in range(4):
            pairs = ["1", "1", "0", "0"]
            pairs[at] = text
            transform = '"transform":{"scale":[%s,%s],"translate":[%s,%s]},' % tuple(pairs)
            delta = DELTA[:2] + transform + DELTA[DELTA.index('"arcs"') :]
            yield f"number {at} of the transform is {text:.20}", in_layer('{"type":"Polygon","arcs":[[0]]}', delta)


def many(count):
    """Very many small things."""
    name = f'"{OF_ONE_HASH}#"'
    member, polygon = f"{name}:0", '{"type":"Polygon","arcs":[[0]]}'
    yield "members of one hash", HEAD + polygon + ARCS[:-1] + "," + numbered(member, count) + "}"
    yield "layers of one hash", HEAD + polygon + "," + numbered(f"{name}:{polygon}", count // 4) + ARCS
    yield "a layer's members of one hash", HEAD + '{"type":"GeometryCollection","geometries":[],' + numbered(member, count) + "}" + ARCS
    yield "both", HEAD + '{"type":"GeometryCollection","geometries":[],' + numbered(member, count) + "}" + ARCS[:-1] + "," + numbered(member, count) + "}"
    yield "a feature's members of one hash", in_layer(polygon[:-1] + "," + numbered(member, count) + "}")
    yield "properties of one hash", in_layer('{"type":null,"properties":{' + numbered(member, count) + "}}")
    yield "members of one hash within a geometry", in_layer(polygon[:-1] + ',"geometry":{' + numbered(member, count) + "}}")
    yield "one of them twice", in_layer(polygon[:-1] + ',"geometry":{' + numbered(member, count) + f",{member.replace('#', '00000007')}" + "}}")
    yield "a point's members", in_layer('{"type":"Point","coordinates":[1,2],' + numbered(member, count) + "}", DELTA)
    yield "names that are one but for an escape", in_layer(polygon[:-1] + "," + numbered('"a#":0', 1000) + ',"\\u006100000999":0}')
    yield "empty rings", in_layer('{"type":"Polygon","arcs":[' + numbered("[]", count) + "]}")
    yield "empty polygons", in_layer('{"type":"MultiPolygon","arcs":[' + numbered("[]", count) + "]}")
    yield "rings of one arc", in_layer('{"type":"MultiPolygon","arcs":[' + numbered("[[0]]", count) + "]}")
    yield "features of one ring", in_layer(numbered(polygon, count // 4))
    yield "features without geometry", in_layer(numbered('{"type":null}', count))
    yield "collections", in_layer(numbered('{"type":"GeometryCollection","geometries":[]}', count))
    yield "points", in_layer('{"type":"MultiPoint","coordinates":[' + numbered("[1,2]", count) + "]}", DELTA)
    yield "points without numbers", in_layer('{"type":"MultiPoint","coordinates":[' + numbered("[]", count) + "]}", DELTA)
    yield "a wrong one at their end", in_layer('{"type":"MultiPoint","coordinates":[' + numbered("[1,2]", count) + ",[1,2.5]]}", DELTA)
    yield "arcs of nothing", in_layer(polygon, ARCS[:-2] + "," + numbered("[]", 5) + "]}")
    yield "arcs of one position", in_layer(polygon, ARCS[:-2] + ",[[0,0]]]}")
    yield "arcs of a number", in_layer(polygon, ARCS[:-2] + ",0]}")
    yield "unused arcs", in_layer(polygon, ARCS[:-2] + "," + numbered("[[0,0],[0,0]]", count) + "]}")
    yield "a position many times", in_layer(polygon, ARCS[:-7] + numbered("[0,0]", count) + "]]}")
    yield "a position many times, and no other", in_layer(polygon, '},"arcs":[[' + numbered("[0,0]", count) + "]]}")
    yield "a long text", in_layer('{"type":null,"id":"' + "\\u00e9" * count + "x" * 1_000_000 + '"}')
    yield "a long name", HEAD.replace('"a"', '"' + "a" * 1_000_000 + '"') + '{"type":null}' + ARCS
    yield "much space", in_layer(" " * 1_000_000 + '{"type":null}' + "\n" * 1_000_000)
    yield "nothing", ""
    yield "a mark before the text", "\ufeff" + in_layer(polygon)
    yield "a zero byte behind it", in_layer(polygon) + "\0"


def rows(count):
    """Texts with what they are, and what is asked of each."""
    for most in 99, 100, 101, 102:
        yield from ((f"{most} levels: {what}", text, {}) for what, text in deep(most))
    yield from ((what, text, {}) for what, text in numbers())
    for what, text in many(count):
        yield what, text, {}
        if "one hash" in what or "collections" in what:
            yield f"{what}, taken apart", text, {"flatten": True, "layer": "a"}


def texts(seed, count, size):
    """All texts, with what they are, and what is asked of each: so many that are drawn, and rows of so many things."""
    draw = random.Random(seed)
    asks = [{}, {}, {"keep": True}, {"flatten": True}, {"decimals": 3}, {"decimals": 1}, {"layer": "länder"}, {"layer": "x"}]
    for what, text, asked in rows(size):
        yield what, text.encode(), asked
    for source in cuts(), replaced(draw), reshaped(draw, count):
        for what, text in source:
            yield what, text, draw.choice(asks)


def told(program, seed=1, count=600, size=MANY):
    """Runs all, writes what differs, and counts the runs and those that differ."""
    runs = wrong = 0
    with tempfile.TemporaryDirectory() as folder:
        place = Place(program, folder)
        for what, text, asked in [("whole", WHOLE.encode(), {}), *texts(seed, count, size)]:
            runs += 1
            differs = place.differs(text, asked)
            if differs:
                wrong += 1
                print(f"border_export, {what} {exported.words_of(asked)}: {differs}", flush=True)
    return runs, wrong


def main():
    words = argparse.ArgumentParser(description=__doc__, formatter_class=argparse.RawDescriptionHelpFormatter)
    running.add_programs(words, "export")
    words.add_argument("--reshaped", type=int, default=600, metavar="N", help="how many texts are drawn so (%(default)s)")
    words.add_argument("--many", type=int, default=MANY, metavar="N", help="of things of one kind in a text (%(default)s)")
    words.add_argument("--seed", type=int, default=1, help="of what is drawn (%(default)s)")
    given = words.parse_args()
    runs, wrong = told(given.export, given.seed, given.reshaped, given.many)
    print(f"{runs} hostile texts, {wrong} differ")
    return 1 if wrong else 0


if __name__ == "__main__":
    sys.exit(main())
