#!/usr/bin/env python3
"""Compares the answers that stand in crates/stored_reads/data with those of bench/second_reader.py.

Texts of damaged.txt and damaged_maps.txt are cut after each byte and have each byte replaced by each value, those of
pairs.txt have two bytes of any value; these three and drawn.txt are made here, and --store writes them. In the other
files each answer is compared. The page that the program has to print is made here too, from the texts of the files.
There is one line for each that differs; the status is 0 where none does.
"""
import argparse
import functools
import itertools
import multiprocessing
import pathlib
import random
import re
import sys

import second_reader as second

DATA = pathlib.Path(__file__).resolve().parent.parent / "crates/stored_reads/data"
PAGE = DATA.parent / "stdout"
# The files in the order in which the program takes them.
FILES = "scans spans drawn outlines topologies walks damaged pairs damaged_maps".split()
FILES = [f"{name}.txt" for name in FILES]
BY_HAND = {
    "scans.txt": second.of_scan,
    "spans.txt": second.of_spans,
    "outlines.txt": second.of_outline,
    "topologies.txt": second.of_read,
    "walks.txt": second.of_both,
}
WRITTEN = "# Written by bench/stored_reads.py --store, from the answers of bench/second_reader.py.\n#\n"
LIST = """# A list has runs of values with the same answer, as `00-1f json`, or `none`; in between the answer is +0. `end` stands for
# `not json` at the end of the text, and +2 for `not json` two bytes behind %s.
"""
DAMAGED = (
    """# Behind `in` stands a text; %e2 is the byte of this hexadecimal number. A line 3-5 has a list of what is answered with the
# byte at place 3 replaced by each value, which is that at place 4 and at 5 as well. The line `cuts` has what is answered
# to the first bytes, by their count.
"""
    + LIST % "the one that was replaced"
)
PAIRS = (
    """# What `scan` answers to what stands behind `in` and two bytes more: a line 00-08 has the first of them, and a list of what
# is answered for each value of the second. %22 is the byte of this hexadecimal number.
"""
    + LIST % "the start"
)
# What is answered where a byte can't stand: it is left out in lists.
USUAL = "+0"

# What numbers and strings are made of, in each form (RFC 8259, 6 and 7).
NUMBERS = [b"", b"-"], [b"0", b"7", b"10", b"9007199254740993"], [b"", b".0", b".25"], [b"", b"e0", b"E7", b"e+12", b"E-3"]
LITERALS = [b"true", b"false", b"null"]
SPACES = [b"", b"", b" ", b"\n", b"\t\r "]
# Characters of each length at both ends of their ranges, escapes, and halves of surrogate pairs.
CHARACTERS = [
    *(rb" |a|[|}|,|\"|\\|\/|\b|\f|\n|\r|\t|\u0000|\u12aB|\uD800|\udfff|\ud83d\ude00|\ud800\u0041".split(b"|")),
    *(bytes.fromhex(it) for it in "7f c280 dfbf e0a080 e180bf e282ac ed8080 ed9fbf ee8080 efbfbf f0908080 f09f9880 f1808080".split()),
    *(bytes.fromhex(it) for it in "f3bfbfbf f48fbfbf".split()),
]
ALL_KINDS = rb'[1,{"a":-1.5e+3},"\ud800' + "€".encode() + b'",true]'


# ---- the lines of a file

def coded(text):
    """Bytes as they stand in a file; space at an end would not be seen."""
    plain = lambda byte: 0x20 <= byte < 0x7F and chr(byte) not in "%@"
    told = "".join(chr(byte) if plain(byte) else f"%{byte:02x}" for byte in text)
    return re.sub(r"^ | $", "%20", told)


def decoded(text):
    return re.sub(rb"%([0-9a-f]{2})", lambda it: bytes([int(it[1], 16)]), text.encode())


def lines(name):
    """The lines of a file that have an answer: the family, the text with a gap, what stands before the answer, and it."""
    family, with_gap = "", "@"
    for line in (DATA / name).read_text().split("\n"):
        if line.startswith("== "):
            family, with_gap = line[3:], "@"
        elif line.startswith("in "):
            with_gap = line[3:]
        elif line and not line.startswith("#"):
            key, _, want = line.partition(" => ")
            yield family, with_gap, key, want


def rows(name):
    """The same of a file with a text in each line: the family, the text, and the answer."""
    for family, with_gap, piece, want in lines(name):
        front, _, end = with_gap.partition("@")
        yield family, decoded(front) + decoded(piece) + decoded(end), want


def runs(keys, answers):
    """A list of runs of the same answer, without the usual one."""
    told = []
    for answer, run in itertools.groupby(zip(keys, answers), lambda pair: pair[1]):
        run = [key for key, _ in run]
        if answer != USUAL:
            told.append(f"{range_of(run)} {answer}")
    return "; ".join(told) or "none"


def range_of(keys):
    return f"{keys[0]}-{keys[-1]}" if len(keys) > 1 else f"{keys[0]}"


# ---- texts that are damaged

def placed(answer, text, start):
    """A `not json` as it is told in a list."""
    found = re.fullmatch(r"not json at (\d+)", answer)
    if not found:
        return answer
    return "end" if int(found[1]) == len(text) else f"+{int(found[1]) - start}"


def of_bytes(of, text, place, start):
    """The list of a text with this byte replaced by each value."""
    texts = [text[:place] + bytes([byte]) + text[place + 1 :] for byte in range(256)]
    return runs([f"{byte:02x}" for byte in range(256)], [placed(of(it), it, start) for it in texts])


def cut_line(of, text):
    fronts = [text[:length] for length in range(len(text) + 1)]
    return f"cuts => {runs(range(len(text) + 1), [placed(of(it), it, 0) for it in fronts])}"


def replaced_lines(of, text):
    lists = [of_bytes(of, text, place, place) for place in range(len(text))]
    for told, run in itertools.groupby(range(len(text)), lists.__getitem__):
        yield f"{range_of(list(run))} => {told}"


def text_lines(of, is_replaced, text):
    return [f"in {coded(text)}", cut_line(of, text), *(replaced_lines(of, text) if is_replaced else [])]


def family(name, of, texts, is_replaced=True):
    yield f"\n== {name}"
    with multiprocessing.Pool() as pool:
        for lines in pool.imap(functools.partial(text_lines, of, is_replaced), texts):
            yield from lines


class Drawing(random.Random):
    """Draws JSON texts."""

    def string(self):
        return b'"%s"' % b"".join(self.choices(CHARACTERS, k=self.randrange(4)))

    def scalar(self):
        kind = self.randrange(3)
        return b"".join(map(self.choice, NUMBERS)) if kind == 0 else self.string() if kind == 1 else self.choice(LITERALS)

    def name(self):
        return self.choice(SPACES) + self.string() + self.choice(SPACES) + b":"

    def value(self, depth):
        """A value with at most so many lists and objects one in another."""
        if depth == 0 or self.randrange(3) == 0:
            made = self.scalar()
        elif self.randrange(2) == 0:
            made = b"[%s]" % b",".join(self.value(depth - 1) for _ in range(self.randrange(4)))
        else:
            made = b"{%s}" % b",".join(self.name() + self.value(depth - 1) for _ in range(self.randrange(4)))
        return self.choice(SPACES) + made + self.choice(SPACES)


def drawn():
    """A hundred texts that are neither very short nor long."""
    draw = Drawing(1)
    texts = (draw.value(3) for _ in itertools.count())
    return list(itertools.islice((text for text in texts if 8 <= len(text) <= 64), 100))


def maps():
    return [text for name, text, _ in rows("topologies.txt") if name == "maps"]


def damaged():
    of = second.of_scan
    nested = [text for name, text, _ in rows("scans.txt") if name.startswith("at most a hundred levels")]
    strings = [front + it + end for it in CHARACTERS for front, end in ((b'"', b'"'), (b'{"', b'":0}'))]
    yield from family("maps, cut", of, maps(), False)
    yield from family("levels, cut", of, nested, False)
    yield from family("values of all kinds", of, [ALL_KINDS])
    yield from family("numbers", of, map(b"".join, itertools.product(*NUMBERS)))
    yield from family("characters in a string and in a name", of, strings)
    yield from family("drawn texts", of, drawn())


def damaged_maps():
    yield from family("a map with all that a map may have", second.of_opening, [text for text in maps() if b"transform" in text])


def pairs():
    for name, front in (("alone", b""), ("in a list", b"["), ("in a string", b'"')):
        yield f"\n== two bytes {name}"
        yield f"in {coded(front)}"
        place = len(front) + 1
        lists = [of_bytes(second.of_scan, front + bytes([first, 0]), place, 0) for first in range(256)]
        for told, run in itertools.groupby(range(256), lists.__getitem__):
            yield f"{range_of([f'{first:02x}' for first in run])} => {told}"


def spans():
    yield "\n== drawn texts"
    for text in drawn():
        yield f"{coded(text)} => {second.of_spans(text)}"


MADE = {"damaged.txt": (DAMAGED, damaged), "damaged_maps.txt": (DAMAGED, damaged_maps), "pairs.txt": (PAIRS, pairs), "drawn.txt": (None, spans)}


def head_of(name):
    """What is said of drawn.txt stands in spans.txt."""
    return MADE[name][0] or "# The values of drawn texts, as spans.txt has them.\n"


def made(name):
    return WRITTEN + head_of(name) + "\n".join(MADE[name][1]()) + "\n"


# ---- what the program tells

def ends(key):
    first, _, last = key.partition("-")
    return first, last or first


def count(name, with_gap, key):
    """How many texts a line is about."""
    if name in ("damaged.txt", "damaged_maps.txt"):
        first, last = ends(key)
        return len(decoded(with_gap)) + 1 if key == "cuts" else 256 * (int(last) - int(first) + 1)
    if name == "pairs.txt":
        first, last = ends(key)
        return 256 * (int(last, 16) - int(first, 16) + 1)
    return 1


def counts(name):
    """The families of a file, and how many texts each has."""
    found = {}
    for title, with_gap, key, _ in lines(name):
        found[title] = found.get(title, 0) + count(name, with_gap, key)
    return found


def page():
    """What stored_reads prints where each answer is as stored."""
    all_counts = {name: counts(name) for name in FILES}
    for name, found in all_counts.items():
        yield name
        yield from (f"  {title}: {texts}, as stored" for title, texts in found.items())
    yield f"in all {sum(sum(found.values()) for found in all_counts.values())}, as stored"


def page_text():
    return "\n".join(page()) + "\n"


def store():
    for name in MADE:
        (DATA / name).write_text(made(name))
    PAGE.write_text(page_text())


def faults_by_hand():
    for name, of in BY_HAND.items():
        for title, text, want in rows(name):
            found = of(text)
            if found != want:
                yield f"{name}: {title}: {coded(text)}: {want} is stored, {found} is found"


def faults_made():
    for name in MADE:
        if (DATA / name).read_text() != made(name):
            yield f"{name}: not as it is made here"
    if PAGE.read_text() != page_text():
        yield "stdout: not what the files lead to"


def main():
    parser = argparse.ArgumentParser(description=__doc__, formatter_class=argparse.RawDescriptionHelpFormatter)
    parser.add_argument("--store", action="store_true", help="write what is made here, in place of comparing it")
    is_stored = parser.parse_args().store
    if is_stored:
        store()
    found = [*faults_by_hand(), *([] if is_stored else faults_made())]
    print(*found, f"{len(found)} differ", sep="\n")
    return 1 if found else 0


if __name__ == "__main__":
    sys.exit(main())
