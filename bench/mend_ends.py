"""The ends of border_mend: with which status it ends, what it prints, what it writes, and what its arguments are read as.

Most runs are lines of bench/mend_runs.txt. What a run does not name has to stand as it stood before.
"""
import json
import pathlib
import re

from file_ends import MEND, WHOLE, Row, Text

TOP = pathlib.Path(__file__).resolve().parent.parent
PAGE = pathlib.Path(__file__).resolve().parent / "mend_runs.txt"
HELP = TOP / "crates/border_mend/src/help.rt"
VERSION = TOP / "crates/program_ends/src/lib.rt"
# How many lines of one kind a report has without --most.
USUAL = 1000
# How often a ring goes to and fro so that two have more crossings than a report may: over 4,000,000.
MANY = 2001


def sorted_lines():
    """The texts of the page by their names, and its runs."""
    lines = [line for line in PAGE.read_text(encoding="utf-8").splitlines() if line and not line.startswith("#")]
    texts = dict(line.split(" = ", 1) for line in lines if " => " not in line)
    return texts, [line for line in lines if " => " in line]


def row_of(line, texts):
    """The row of a line of the page."""
    words, end, *rest = line.split(" => ")
    report, said, fails = (rest + ["", "", ""])[:3]
    status, _, held = end.partition(" ")
    after = dict(pair.split("=") for pair in held.split() if pair != "-")
    after = {path: Text(WHOLE if name == "*" else texts[name]) for path, name in after.items()}
    before = {name: Text(text) for name, text in texts.items()}
    said = said.replace(";", "\n") if held else []
    output = None if fails else [report.replace(";", "\n"), ""]
    return Row(f"border_mend {words}{' => ' + fails if fails else ''}", MEND, words.split(" ") if words else [], int(status),
               said, before, after, output=output, fails=fails)


def told_without_map():
    """What is told where no map is looked at: the help, which begins as it must, and the version."""
    about = re.search('ABOUT: &str =\\s*"(.*)"', HELP.read_text())[1]
    version = re.search('VERSION: &str = "(.*)"', VERSION.read_text())[1]
    for words in ["--help"], ["map.json", "-h"]:
        yield Row(f"border_mend {' '.join(words)}", MEND, words, 0, "", output=[about, None])
    yield Row("border_mend --version", MEND, ["--version"], 0, "", output=[f"border_mend {version}\n", ""])


def many_findings():
    """A map with one finding more than the lines that a report usually has."""
    rings = [[[0]]] * (USUAL + 1)
    text = json.dumps({"type": "Topology", "objects": {"land": {"type": "MultiPolygon", "arcs": rings}}, "arcs": [[[0, 0]] * 2]})
    lines = [f"short 0 {n} 0\n" for n in range(USUAL + 1)]
    counts = f"counts short {USUAL + 1} repeats 0 on 0 cross 0\n"
    for words, count in (["many.json"], USUAL), (["many.json", "--most", str(USUAL + 1)], USUAL + 1):
        report = "".join(lines[:count]) + counts
        yield Row(f"border_mend {' '.join(words)}", MEND, words, 1, "", {"many.json": Text(text)}, output=[report, ""])


def comb(count, at):
    """A ring that goes to and fro so many times, each of its positions put where `at` says."""
    length = 2 * count + 10
    turns = [at(x, y) for y in range(count) for x in ((-10, length) if y % 2 else (length, -10))]
    return [*turns, turns[0]]


def too_many_findings():
    """A map of two rings with more crossings than can be listed: each of some 2,000 sides of one crosses as many."""
    rings = [comb(MANY, lambda x, y: [x, 2 * y]), comb(MANY, lambda x, y: [2 * y, x])]
    text = json.dumps({"type": "Topology", "objects": {"land": {"type": "MultiPolygon", "arcs": [[[0]], [[1]]]}}, "arcs": rings})
    for more in [], ["--most", "0"], ["--out", "many.json", "--places", "made.txt"]:
        yield Row(f"border_mend many.json {' '.join(more)}", MEND, ["many.json", *more], 2, "open: too many findings\n",
                  {"many.json": Text(text)}, output=["", ""])


def rows():
    texts, runs = sorted_lines()
    for line in runs:
        yield row_of(line, texts)
    yield from told_without_map()
    yield from many_findings()
    yield from too_many_findings()
