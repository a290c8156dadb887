"""The ends of border_show: with which status it ends, what it says, and the picture in FILE, byte for byte.

Most runs are lines of bench/show_runs.txt, whose head says what a line means. Where a picture is drawn, bench/drawn.py
draws it a second time. What a run does not name has to stand as it stood before.
"""
import os
import pathlib
import re

import drawn
from file_ends import SEED, SHOW, Row, Text

TOP = pathlib.Path(__file__).resolve().parent.parent
PAGE = pathlib.Path(__file__).resolve().parent / "show_runs.txt"
HELP = TOP / "crates/border_show/src/help.rt"
VERSION = TOP / "crates/program_ends/src/lib.rt"
FILE = "saved"
DRAWN, WRONG = "0", "64"


def sorted_lines():
    """The texts of the page by their names, and its runs."""
    lines = [line for line in PAGE.read_text(encoding="utf-8").splitlines() if line and not line.startswith("#")]
    texts = dict(line.split(" = ", 1) for line in lines if " => " not in line)
    return texts, [line for line in lines if " => " in line]


def picture(words, texts):
    """What the second drawing makes of the arguments of a run."""
    maps, ids, asked, rest = [], False, {}, list(words)
    while rest:
        word = rest.pop(0)
        if word == "--ids":
            ids = True
        elif word == "--at":
            asked["at"] = tuple(int(rest.pop(0)) for _ in "xyw")
        elif word == "--feature":
            asked["feature"] = rest.pop(0)
        else:
            maps.append(os.path.basename(word))
    topologies = [drawn.loads(texts[name]) for name in maps]
    if len(maps) == 1:
        return drawn.map_page(maps[0], topologies[0], ids, **asked)
    return drawn.change_page(" \u2192 ".join(maps), *topologies, ids, **asked)


def row_of(line, texts):
    """The row of a line of the page."""
    words, status, *said = line.split(" => ")
    words = words.split(" ")
    after = {FILE: Text(picture(words, texts))} if status == DRAWN else {}
    before = {name: Text(text) for name, text in texts.items()}
    said = [] if status == WRONG else "".join(said).replace(";", "\n")
    return Row(f"border_show {line}", SHOW, [*words, "--out", FILE], int(status), said, before, after, output=["", ""])


def drawn_nowhere(texts):
    """What is told where nothing is drawn: the help, which begins as it must, and the version; that FILE is needed; and that
    there is no seed."""
    about = re.search('ABOUT: &str =\\s*"(.*)"', HELP.read_text())[1]
    version = re.search('VERSION: &str = "(.*)"', VERSION.read_text())[1]
    for words in ["--help"], ["before.json", "-h"]:
        yield Row(f"border_show {' '.join(words)}", SHOW, words, 0, "", output=[about, None])
    yield Row("border_show --version", SHOW, ["--version"], 0, "", output=[f"border_show {version}\n", ""])
    before = {name: Text(text) for name, text in texts.items()}
    for words in ["before.json"], ["before.json", "after.json", "--ids"]:
        yield Row(f"border_show {' '.join(words)}, no FILE", SHOW, words, 64, [], before, output=["", ""])
    seedless = ["before.json", "--out", FILE]
    yield Row("border_show, no seed", SHOW, seedless, 3, "no random seed\n", before, output=["", ""], fails=SEED)


def rows():
    texts, runs = sorted_lines()
    return [*(row_of(line, texts) for line in runs), *drawn_nowhere(texts)]
