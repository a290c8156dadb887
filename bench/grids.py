#!/usr/bin/env python3
"""Checks what the built border_mend makes of coordinates with decimals, beside the same map on whole numbers.

Each map is a real or a drawn one whose positions were divided by powers of ten and moved by small fractions, written
as decimals in many ways, with and without third numbers, with lines and with points. Its grid is worked out here by
exact fractions, from docs/MENDING.md alone, and the map is written once more with whole numbers on that grid, also of
its points. Both are mended: the saved bytes must be the same, their points as they were worked out, and so the reports
but for what they tell of the grid. A line at the end counts maps and faults.
"""
import argparse
import decimal
import fractions
import json
import math
import pathlib
import random
import re
import subprocess
import sys
import tempfile

import loose_maps
from topology import Unreadable, after_space, differences, entries, read, sums, values

TOP = pathlib.Path(__file__).resolve().parent.parent
REACH = 10**12
PLACES = 24
NUMBER = r"-?[0-9][0-9.eE+-]*"

decimal.getcontext().prec = 100


# ---- a map with decimals

class Blurred:
    """A map of which each position is another one, with decimals."""

    def __init__(self, draw, text):
        self.draw, self.text, self.places = draw, text, draw.choice([0, 1, 1, 2, 3, 6, 9, 17, 25])
        self.members = {name: [token, value] for name, token, value in entries(text.strip())}
        old = self.members.get("transform", ["", "null"])[1]
        self.transform = None if old == "null" else old
        self.made, self.heights, self.is_whole = {}, draw.random() < 0.3, True
        self.further = draw.random() < 0.5 and self.heights
        self.lines = draw.choice([0, 0, 1, 2])
        self.points = [self.point() for _ in range(draw.choice([0, 0, 1, 2]))]
        step = draw.choice([1, 1, 10, 1000])
        arcs = [[self.position(p, step) for p in arc] for arc in read(text).arcs]
        self.pairs = [differences(arc) if self.transform else arc for arc in arcs]

    def position(self, p, step):
        if p not in self.made:
            self.made[p] = tuple(self.coordinate(c, step) for c in p)
        return self.made[p]

    def coordinate(self, c, step):
        part = self.draw.choice([0, 0, 5, self.draw.randrange(10**self.places)]) if self.places else 0
        return fractions.Fraction(c, step) + fractions.Fraction(part, 10**self.places * 10)

    def point(self):
        """A Point or a MultiPoint, perhaps in a collection."""
        positions = [self.place() for _ in range(self.draw.choice([1, 1, 2, 3]))]
        text = f'{{ "coordinates":[{",".join(positions)}],"type":"MultiPoint"}}'
        if len(positions) == 1 and self.draw.random() < 0.8:
            text = f'{{"type" : "\\u0050oint","properties":{{"type":"Point"}},"coordinates":{positions[0]}}}'
        return text if self.draw.random() < 0.7 else f'{{"geometries":[{text}],"type":"GeometryCollection"}}'

    def place(self):
        """A position of a point, perhaps with a height, and seldom with what is no number."""
        numbers = [self.way(self.far_or_near()) for _ in range(2)]
        if self.draw.random() < 0.01:
            numbers[self.draw.randrange(2)] = self.draw.choice(["null", '"1"', "[1]"])
        return "[" + ", ".join(numbers + ["7.50"] * (self.draw.random() < 0.2)) + "]"

    def far_or_near(self):
        """A coordinate of a point: often a half of the last decimal that is kept, and seldom near the greatest."""
        kind, parts = self.draw.random(), 10 ** self.draw.choice([0, 1, 2, 5, 9, 24, 26])
        if kind < 0.04:
            return fractions.Fraction(self.draw.choice([-1, 1]) * (REACH * 10 + self.draw.randint(-9, 9)), 10 * parts)
        reach = 60 if kind < 0.6 else 10**9
        return fractions.Fraction(self.draw.randint(-reach, reach), 2 * parts)

    def objects(self, has_lines):
        """The layers, with drawn points, and drawn lines or what is left of these, before all others."""
        left = '{"type" : null, "id":7,"properties":{"type":"LineString","arcs":[0]} }'
        line = '{"type" : "LineString", "id":7,"arcs" : [0],"properties":{"type":"LineString","arcs":[0]} }'
        several = '{"type":"GeometryCollection","geometries":[{ "arcs":[[0],[-1]],"\\u0074ype":"MultiLineString"}]}'
        empty = '{"type":"GeometryCollection","geometries":[{ "type":null}]}'
        made = [(line, left), (several, empty)][: self.lines]
        named = [f'"line {n}":{pair[not has_lines]}' for n, pair in enumerate(made)]
        more = ",".join(named + [f'"point {n}":{point}' for n, point in enumerate(self.points)])
        inside = self.members["objects"][1].strip()[1:]
        return "{" + more + ("," if more and not inside.lstrip().startswith("}") else "") + inside

    def written(self):
        """Its text, and how many positions have further numbers."""
        count, lines = 0, []
        for arc in self.pairs:
            pairs = []
            for x, y in arc:
                more = self.further and self.draw.random() < 0.5
                count += more
                pairs.append(f"[{self.number(x)},{self.number(y)}{',7.5' * more}]")
            lines.append(f"[{','.join(pairs)}]")
        return with_members(self.members, {"arcs": f"[{','.join(lines)}]", "objects": self.objects(True)}), count

    def number(self, value):
        """A coordinate as JSON has it, and whether all so far are written as whole numbers."""
        text = self.way(value)
        self.is_whole = self.is_whole and re.fullmatch(r"-?[0-9]+([.]0+)?", text) is not None
        return text

    def way(self, value):
        """The number, in one of the ways that JSON has."""
        whole = decimal.Decimal(value.numerator) / decimal.Decimal(value.denominator)
        plain = format(whole, "f")
        kind = self.draw.random()
        if kind < 0.2:
            power = self.draw.randint(-3, 3)
            return format(whole.scaleb(-power), "f") + f"e{power}"
        return plain + (("." if "." not in plain else "") + "00" if kind < 0.4 else "")


def with_members(members, changed):
    """The text of an object with these values in the place of others; one that is not there stands before all."""
    more = [f'"{name}":{value}' for name, value in changed.items() if name not in members]
    kept = [f"{token}:{changed.get(name, value)}" for name, (token, value) in members.items()]
    return "{" + ",".join(more + kept) + "}"


# ---- its points

def members_at(text, at):
    """Where the values of an object's members begin and end, by their names."""
    spans = list(values(text, at + 1))
    return {json.loads(text[slice(*name)]): value for name, value in zip(spans[::2], spans[1::2])}


def geometry_spans(text, at):
    """Where the first two numbers of each position of a geometry's points begin and end, in their order."""
    found = members_at(text, at)
    kind = json.loads(text[slice(*found["type"])])
    if kind == "Point":
        yield from list(values(text, found["coordinates"][0] + 1))[:2]
    elif kind == "MultiPoint":
        for position, _ in values(text, found["coordinates"][0] + 1):
            yield from list(values(text, position + 1))[:2]
    elif kind == "GeometryCollection":
        for item, _ in values(text, found["geometries"][0] + 1):
            yield from geometry_spans(text, item)


def point_spans(text):
    """The same of all points of a topology."""
    objects = members_at(text, after_space(text, 0))["objects"][0]
    return [span for layer, _ in members_at(text, objects).values() for span in geometry_spans(text, layer)]


# ---- its grid

def cut_number(value):
    """A number without what stands behind its 24th decimal, rounding down."""
    return fractions.Fraction(math.floor(value * 10**PLACES), 10**PLACES)


def decimals_of(value):
    """How many decimals a number has, of which those behind the 24th are cut, rounding down."""
    units = math.floor(value * 10**PLACES)
    return next(d for d in range(PLACES + 1) if units % 10 ** (PLACES - d) == 0)


def divided(number, power):
    """A number of a JSON text divided by a power of ten, as all its digits and an exponent."""
    sign, digits, exponent = decimal.Decimal(number).as_tuple()
    text = "".join(map(str, digits)).lstrip("0") or "0"
    return f"{'-' * sign}{text}e{exponent - power}"


def kept(numbers, digits, finer):
    """How many decimals numbers have, and how many of them are kept, of so many at most: as many as fit."""
    decimals, far = max(map(decimals_of, numbers), default=0), max(map(abs, numbers), default=0)
    fitting = [k for k in range(min(digits, decimals) + 1) if far * 10 ** (k + finer) <= REACH]
    return decimals, max(fitting, default=0)


class Grid:
    """The grid of a map with decimals, where so many are kept at most, and it is made finer by a power of ten. Where
    the numbers of arcs have decimals, those of points are counted, and never make it coarser."""

    def __init__(self, pairs, are_differences, point_numbers, digits, finer):
        cut = [[tuple(map(cut_number, p)) for p in arc] for arc in pairs]
        cut = [sums(arc) for arc in cut] if are_differences else cut
        all_numbers = [c for arc in cut for p in arc for c in p]
        self.fits = all(abs(c) * 10**finer <= REACH for c in all_numbers)
        self.decimals, self.digits = kept(all_numbers, digits, finer)
        self.finer = finer
        if self.decimals:
            self.decimals, of_all = kept(all_numbers + point_numbers, digits, finer)
            self.digits = max(self.digits, of_all)
        self.arcs = [[tuple(map(self.nearest, p)) for p in arc] for arc in cut]
        self.rounded = sum(any((c * 10**self.digits).denominator > 1 for c in p) for arc in cut for p in arc)

    def nearest(self, number):
        """The number on the grid, halves up."""
        return math.floor(number * 10**self.digits + fractions.Fraction(1, 2)) * 10**self.finer

    def point_number(self, text):
        """The text of a point's coordinate on the grid, or else the fault that it is told with."""
        if not self.digits + self.finer:
            return text, None
        if not re.fullmatch(NUMBER, text):
            return None, "not whole"
        number = cut_number(fractions.Fraction(text))
        if abs(number) * 10 ** (self.digits + self.finer) > REACH:
            return None, "out of range"
        return str(self.nearest(number)), None

    def point_fault(self, text):
        """What is told of the first coordinate of a point that is not put on the grid."""
        told = ((start, self.point_number(text[start:end])[1]) for start, end in point_spans(text))
        faults = (f"open: {fault} at {len(text[:start].encode())}\n" for start, fault in told if fault)
        return next(faults, None)

    def with_points(self, text):
        """The text with its points on the grid."""
        for start, end in reversed(point_spans(text)):
            text = text[:start] + self.point_number(text[start:end])[0] + text[end:]
        return text

    def written(self, blurred):
        """The text of the map with whole numbers on this grid."""
        power, changed = self.digits + self.finer, {}
        if power:
            old = json.loads(blurred.transform, parse_float=str, parse_int=str) if blurred.transform else None
            scale = [divided(n, power) for n in old["scale"]] if old else [f"1e-{power}"] * 2
            moved = old["translate"] if old else ["0", "0"]
            changed["transform"] = f'{{"scale":[{",".join(scale)}],"translate":[{",".join(moved)}]}}'
        has_transform = bool(power or blurred.transform)
        arcs = [differences(arc) if has_transform else arc for arc in self.arcs]
        changed |= {"arcs": json.dumps(arcs, separators=(",", ":")), "objects": blurred.objects(False)}
        return self.with_points(with_members(blurred.members, changed))


# ---- runs

class Mender:
    def __init__(self, program, folder):
        self.program, self.folder = program, pathlib.Path(folder)

    def ran(self, text, words):
        """The status, the report, the line on standard error, and the saved bytes."""
        path, out = self.folder / "map.json", self.folder / "saved.json"
        path.write_text(text, encoding="utf-8")
        out.unlink(missing_ok=True)
        done = subprocess.run([self.program, path, "--out", out, *words], capture_output=True, text=True, timeout=600)
        return done.returncode, done.stdout, done.stderr, out.read_bytes() if out.exists() else None


def wanted(grid, is_whole, heights, lines, report):
    """The report of the map on whole numbers, with what is told of the grid and of what was left out."""
    told = [f"decimals {grid.decimals} digits {grid.digits} rounded {grid.rounded}\n"] * (not is_whole)
    told += [f"heights {heights}\n"] * bool(heights) + [f"lines {lines}\n"] * bool(lines)
    rest = [line for line in report.splitlines(keepends=True) if line != "opens\n" or not told]
    return "".join(rest[:1] + told + rest[1:] if rest[:1] == ["opens\n"] else told + rest)


def point_numbers(text):
    """What the coordinates of points are that are numbers of less than 10^13."""
    told = [fractions.Fraction(c) for c in coordinates(text) if re.fullmatch(NUMBER, c)]
    return [cut_number(number) for number in told if abs(number) < 10 * REACH]


def coordinates(text):
    """The texts of the points' coordinates, in their order."""
    return [text[start:end] for start, end in point_spans(text)]


def fault_of(mender, blurred, digits, finer):
    """What is wrong with one map, and what was tried of it."""
    text, heights = blurred.written()
    grid = Grid(blurred.pairs, bool(blurred.transform), point_numbers(text), digits, finer)
    dropped = ["heights"] * blurred.heights + ["lines"] * bool(blurred.lines)
    words = ["--digits", str(digits), "--refine", str(finer), *(["--drop", ",".join(dropped)] if dropped else [])]
    status, report, said, saved = mender.ran(text, words)
    if not grid.fits:
        is_told = said.startswith("open: out of range at ")
        return (None if is_told else f"{said!r} of a map out of range"), "out of range"
    point_fault = grid.point_fault(text)
    if point_fault:
        is_told = (status, said, saved) == (2, point_fault, None)
        return (None if is_told else f"{said!r} in place of {point_fault!r}"), "points refused"
    whole = grid.written(blurred)
    plain = mender.ran(whole, [])
    if plain[0] != status or plain[3] != saved or plain[2] != said:
        return f"status {status} and {plain[0]}, {said!r} and {plain[2]!r}, {saved == plain[3]}", "saved"
    if saved and coordinates(saved.decode()) != coordinates(whole):
        return f"points {coordinates(saved.decode())} in place of {coordinates(whole)}", "saved"
    want = wanted(grid, blurred.is_whole, heights, blurred.lines, plain[1])
    if status == 0 and report != want:
        return f"{report[:300]!r} in place of {want[:300]!r}", "saved"
    has_moved = grid.digits + finer and point_spans(text)
    return None, "not mended" if status else "saved with points" if has_moved else "saved"


def texts(given):
    """Real maps, and drawn ones, each with its name and what it is drawn from."""
    for path in given.map:
        yield path.name, random.Random(path.name), path.read_text(encoding="utf-8")
    for number in range(given.drawn):
        draw = random.Random(f"{given.seed} {number}")
        yield f"drawn {number}", draw, loose_maps.drawn(draw)


def is_whole(path):
    """Whether a map has whole numbers."""
    try:
        read(path.read_text(encoding="utf-8"))
    except Unreadable:
        return False
    return True


def main():
    words = argparse.ArgumentParser(description=__doc__, formatter_class=argparse.RawDescriptionHelpFormatter)
    here = list(filter(is_whole, sorted((TOP / "examples").glob("*.json"))))
    mend = TOP / "crates/border_mend/out/border_mend"
    words.add_argument("map", nargs="*", type=pathlib.Path, default=here, help="real maps")
    words.add_argument("--program", default=mend, help="the mender (%(default)s)")
    words.add_argument("--drawn", type=int, default=500, help="how many maps are drawn (%(default)s)")
    words.add_argument("--seed", type=int, default=1, help="what they are drawn from (%(default)s)")
    given = words.parse_args()
    faults, counts = 0, {}
    with tempfile.TemporaryDirectory() as folder:
        mender = Mender(given.program, folder)
        for name, draw, text in texts(given):
            blurred = Blurred(draw, text)
            digits, finer = draw.choice([24, 24, 0, 1, 2, 5, 9]), draw.choice([0, 0, 0, 1, 3, 12])
            fault, kind = fault_of(mender, blurred, digits, finer)
            counts[kind] = counts.get(kind, 0) + 1
            if fault:
                faults += 1
                print(f"{name}: {fault}", flush=True)
    kinds = ", ".join(f"{kind} {n}" for kind, n in sorted(counts.items()))
    print(f"{sum(counts.values())} maps, {faults} faults; {kinds}")
    return 1 if faults else 0


if __name__ == "__main__":
    sys.exit(main())
