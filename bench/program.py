#!/usr/bin/env python3
"""Runs the built program border_edit to each of its ends, and looks at FILE before and after; and runs border_mend,
border_show, border_cover and border_export to each of theirs (bench/mend_ends.py, bench/show_ends.py,
bench/cover_ends.py, bench/export_ends.py), all programs on files of all kinds (bench/file_ends.py), all with each
growth of their memory refused in turn (bench/growths.py), and border_export on hostile texts (bench/export_hostile.py).

Tests of the crates call what `main` calls. Here the program itself is called: with arguments, on files, on devices
that are full, with little memory, and with a terminal as standard error. The rows of bench/edit_ends.txt are run, and
those below, of which are compared the status, the answers, what is on standard error, and what FILE holds at the end,
and FILE2 where one is named; and no other file may be left.

Without a C compiler the ends without a seed, and those where an allocation is refused, are left out, and that is said.

The programs have to stand already (`rt ci` leaves them); others can be named. There is one line for
each end that differs, and a last one that counts them; the status is 0 where none does.
"""
import argparse
import collections
import contextlib
import os
import pathlib
import pty
import re
import resource
import subprocess
import sys
import tempfile

import cover_ends
import edit_ends
import export_ends
import export_hostile
import file_ends
import growths
import mend_ends
import running
import show_ends

TOP = pathlib.Path(__file__).resolve().parent.parent
DATA = TOP / "crates/border_edit/data"

# What FILE holds before, and what it is to hold at the end: that, or the saved map.
BEFORE = "what was saved before\n" * 100
KEPT, SAVED = "kept", "saved"

# What `--version` prints.
HELP = (TOP / "crates/edit_program/src/help.rt").read_text()
SHARED = (TOP / "crates/program_ends/src/lib.rt").read_text()
VERSION = "border_edit " + re.search('VERSION: &str = "(.*)"', SHARED).group(1) + "\n"

# What a second line says at a terminal, after the path of the file that the first one is about.
ADVICE = {
    "not json": "it is cut off or damaged there, or is no JSON file",
    "not a topology": "it is no TopoJSON topology, whose `type` is `Topology`",
    "not whole": "`border_mend MAP --out NEW` puts its coordinates on a grid of whole numbers",
    "conflict": "`border_mend MAP` lists all that keeps it from opening; with `--out NEW` it mends the map",
    "read": "can it be read? Look at its name and its permissions",
    "write": "can it be written? Look at its folder, its permissions and the space on the disk",
    "formats": "docs/FORMATS.md says what a map may have",
}

# What stands on standard error, or standard output, where its text is not fixed: something.
SOME = object()

FIELDS = "what words status answers said file output memory given listed terminal unseeded program"
Row = collections.namedtuple("Row", FIELDS, defaults=(*(None,) * 6, "edit"))

FILES = {
    "squares.json": (DATA / "two_squares.json").read_text(),
    "accepted.txt": "move 10 10 12 12\narea 0\n",
    "refused.txt": "move 1 1 2 2\narea 0\n",
    "bad.txt": "mend 1 1\n",
    "cut.json": "{",
    "other.json": '{"type":"FeatureCollection"}',
    "halves.json": '{"type":"Topology","objects":{"a":{"type":"Polygon","arcs":[[0]]}},"arcs":[[[0,0.5],[1,0],[1,1],[0,0.5]]]}',
    "no_number.json": '{"type":"Topology","objects":{"a":{"type":"Polygon","arcs":[[0]]}},"arcs":[[[0,"1"],[1,0],[1,1],[0,"1"]]]}',
    "crossing.json": '{"type":"Topology","objects":{"a":{"type":"Polygon","arcs":[[0]]}},'
                     '"arcs":[[[0,0],[10,10],[10,0],[0,10],[0,0]]]}',
    "long.txt": "document\n" * 100,
    "undone.txt": "move 0 0 1 1\nmove 10 10 12 12\nundo\nundo\n",
    "cut.txt": "move 10 10 12 12\narea 0",
    "cut_refused.txt": "move 10 10 12 12\nmove 1 1 2 2",
    "cut_comment.txt": "move 10 10 12 12\n# the end",
    "cut_return.txt": "move 10 10 12 12\r\narea 0\r",
    "empty.txt": "",
    "mixed.txt": "# corners\r\n\nmove 1 1 2 2\r\ndocument\narea 0\n\r\n mend\narea 9",
}
# Scripts of 2 MB, which come through a pipe: a question, a refused and a bad line in turn; and one bad line after another.
# And less memory than the list of the second one takes.
LINES, BAD_LINES, LITTLE = 210_000, 1_000_000, 20_000_000
LONG = {"three.txt": "area 0\nmove 900 900 1 1\nmend\n" * (LINES // 3), "many.txt": "x\n" * BAD_LINES}
# Lines that cut along as many positions as a path may have, and along one more; the id of both is no JSON string.
PATHS = ['split 0 "\\q" ' + " ".join(f"{n} 0" for n in range(length)) for length in (256, 257)]
LONG["paths.txt"] = "\n".join(PATHS) + "\n"
# What is listed of mixed.txt.
LISTED = ("3\trefused no vertex\tmove 1 1 2 2\t1 1\n7\tbad line\t mend\tspace at the start\n"
          "8\trefused no feature\tarea 9\t9\n")


def ends():
    """The ends of the program."""
    def words(map_file, script, out="saved.json", *more):
        return [map_file, script, "--out", out, *more]

    yield Row("accepted", words("squares.json", "accepted.txt"), 0, "ok\n240\n", "", SAVED)
    yield Row("refused", words("squares.json", "refused.txt"), 1, "refused no vertex\n200\n", "", SAVED)
    yield Row("bad line", words("squares.json", "bad.txt"), 1, "bad line\n", "", SAVED)
    yield Row("not opened", words("cut.json", "accepted.txt"), 2, "", "open: not json at 1\n", KEPT)
    yield Row("no map", words("none.json", "accepted.txt"), 3, "", "map fault\n", KEPT)
    yield Row("a folder as map", words(".", "accepted.txt"), 3, "", "map fault\n", KEPT)
    yield Row("no script", words("squares.json", "none.txt"), 3, "", "script fault\n", KEPT)
    yield Row("a folder as script", words("squares.json", "."), 3, "", "script fault\n", KEPT)
    yield Row("no map and no script", words("none.json", "none.txt"), 3, "", "map fault\n", KEPT)
    yield Row("no script, bad map", words("cut.json", "none.txt"), 3, "", "script fault\n", KEPT)
    for script in "accepted.txt", "refused.txt", "bad.txt", "long.txt":
        full = words("squares.json", script)
        yield Row(f"full output, {script}", full, 3, None, "write fault\n", KEPT, output="/dev/full")
    for script, answers in ("accepted.txt", "ok\n240\n"), ("refused.txt", "refused no vertex\n200\n"):
        for out in "/dev/full", "none/saved.json", ".":
            yield Row(f"{out}, {script}", words("squares.json", script, out), 3, answers, "save fault\n", KEPT)
    large = words("large.json", "accepted.txt")
    yield Row("large map", large, 2, "", "open: too large bytes\n", KEPT)
    yield Row("large map, little memory", large, 3, "", "out of memory\n", KEPT, memory=50_000_000)
    one, two = (words("squares.json", "undone.txt", "saved.json", "--undo", number) for number in "12")
    yield Row("one change kept", one, 1, "ok\n" * 3 + "refused nothing to undo\n", "", SAVED)
    yield Row("two changes kept", two, 0, "ok\n" * 4, "", SAVED)
    more = words("squares.json", "accepted.txt", "saved.json", "more")
    for wrong in [], ["squares.json"], ["squares.json", "accepted.txt"], more:
        yield Row(f"usage {wrong}", wrong, 64, "", SOME, KEPT)
    for number in "0", "1001", "-1", "two", "":
        wrong = words("squares.json", "accepted.txt", "saved.json", "--undo", number)
        yield Row(f"--undo {number!r}", wrong, 64, "", SOME, KEPT)
    yield Row("help", ["--help"], 0, SOME, "", KEPT)
    yield Row("version", ["--version"], 0, VERSION, "", KEPT)
    for script, answers in ("accepted.txt", "ok\n240\n"), ("refused.txt", "refused no vertex\n200\n"):
        status = 1 if "refused" in answers else 0
        yield Row(f"piped {script}", words("squares.json", "-"), status, answers, "", SAVED, given=script)
    yield Row("an empty pipe", words("squares.json", "-"), 0, "", "", SAVED)

    def listing(script, list_file="list.txt", out="saved.json"):
        return words("squares.json", script, out, "--refused", list_file)

    yield Row("listed", listing("mixed.txt"), 1, SOME, "", SAVED, listed=LISTED)
    yield Row("listed, piped", listing("-"), 1, SOME, "", SAVED, given="mixed.txt", listed=LISTED)
    yield Row("nothing to list", listing("accepted.txt"), 0, "ok\n240\n", "", SAVED, listed="")
    yield Row("not opened, nothing listed", ["cut.json", *listing("mixed.txt")[1:]], 2, "", "open: not json at 1\n", KEPT, listed=BEFORE)
    yield Row("no FILE, nothing listed", listing("mixed.txt", out="."), 3, SOME, "save fault\n", KEPT, listed=BEFORE)
    for script in "accepted.txt", "mixed.txt":
        for list_file in ".", "none/list.txt":
            yield Row(f"{list_file}, {script}", listing(script, list_file), 3, SOME, "refused fault\n", SAVED)
    yield Row("a full list", listing("mixed.txt", "/dev/full"), 3, SOME, "refused fault\n", SAVED)
    yield Row("one FILE for both", listing("mixed.txt", "saved.json"), 64, "", SOME, KEPT)
    yield from long_lists(listing)

    yield from strict_ends(words)

    progress = words("squares.json", "refused.txt", "saved.json", "--progress")
    answers, opening, saving = "refused no vertex\n200\n", "opening squares.json\n", "saving saved.json\n"
    yield Row("progress", progress, 1, answers, opening + saving, SAVED, terminal=True)
    yield Row("progress to no terminal", progress, 1, answers, "", SAVED)
    yield Row("no progress", progress[:-1], 1, answers, "", SAVED, terminal=True)
    unopened = words("cut.json", "refused.txt", "saved.json", "--progress")
    said = f"opening cut.json\nopen: not json at 1\ncut.json: {ADVICE['not json']}\n"
    yield Row("progress, not opened", unopened, 2, "", said, KEPT, terminal=True)
    yield from advised_ends(words, listing)

    for map_file, script in ("squares.json", "accepted.txt"), ("none.json", "none.txt"):
        yield Row(f"no seed, {map_file}", words(map_file, script), 3, "", "no random seed\n", KEPT, unseeded=True)


def long_lists(listing):
    """Lists of scripts of 2 MB: one of lines of three kinds; and one of so many rows that there is no memory for them. A list
    that lacks rows is written nowhere, and FILE stays; without the list the same script needs no more memory. And a list of
    the longest paths."""
    answers = "200\nrefused no vertex\nbad line\n" * (LINES // 3)
    rows = [f"{n + 1}\trefused no vertex\tmove 900 900 1 1\t900 900\n{n + 2}\tbad line\tmend\tunknown word\n" for n in range(1, LINES, 3)]
    yield Row("a long script, listed", listing("-"), 1, answers, "", SAVED, given="three.txt", listed="".join(rows))
    yield Row("many rows, little memory", listing("-"), 3, None, "out of memory\n", KEPT, given="many.txt", memory=LITTLE)
    told = f"1\tbad line\t{PATHS[0]}\tnot a JSON string\n2\tbad line\t{PATHS[1]}\ttoo many arguments\n"
    yield Row("long paths", listing("-"), 1, "bad line\n" * 2, "", SAVED, given="paths.txt", listed=told)
    bad = "bad line\n" * BAD_LINES
    yield Row("no rows, little memory", listing("-")[:-2], 1, bad, "", SAVED, given="many.txt", memory=LITTLE)


def advised_ends(words, listing):
    """Ends at a terminal, where a second line says what can be done."""
    refused = "refused no vertex\n200\n"
    for map_file, status, said, advice in (
        ("cut.json", 2, "open: not json at 1", "not json"), ("other.json", 2, "open: not a topology", "not a topology"),
        ("halves.json", 2, "open: not whole at 79", "not whole"),
        ("crossing.json", 2, "open: conflict 0 0 10 10 / 0 10 10 0", "conflict"), ("none.json", 3, "map fault", "read"),
    ):
        told = f"{said}\n{map_file}: {ADVICE[advice]}\n"
        yield Row(f"advice, {map_file}", words(map_file, "refused.txt"), status, "", told, KEPT, terminal=True)
    for script, out, list_file, answered, kept, said, path, advice in (
        ("none.txt", "saved.json", "list.txt", "", KEPT, "script fault", "none.txt", "read"),
        ("refused.txt", ".", "list.txt", refused, KEPT, "save fault", ".", "write"),
        ("refused.txt", "saved.json", "none/list.txt", refused, SAVED, "refused fault", "none/list.txt", "write"),
    ):
        told = f"{said}\n{path}: {ADVICE[advice]}\n"
        yield Row(f"advice, {said}", listing(script, list_file, out), 3, answered, told, kept, terminal=True)
    full = words("squares.json", "refused.txt")
    yield Row("no advice, full output", full, 3, None, "write fault\n", KEPT, output="/dev/full", terminal=True)
    yield from mending_advised()
    yield from drawing_advised()
    yield from exporting_advised()
    yield from covering_advised()


def mending_advised():
    """The same of border_mend, which advises nobody to mend; of two files it does not say which can't be written."""
    opens = "opens\ncounts short 0 repeats 0 on 0 cross 0"
    mended = f"{opens} paths 0 parts 0 areas 0\n"
    for words, status, report, said, path, advice in (
        (["cut.json"], 2, "", "open: not json at 1", "cut.json", "not json"),
        (["no_number.json"], 2, "", "open: not whole at 79", "no_number.json", "formats"),
        (["no_number.json", "--out", "saved.json"], 2, "", "open: not whole at 79", "no_number.json", "formats"),
        (["none.json", "--out", "saved.json"], 3, "", "map fault", "none.json", "read"),
        (["squares.json", "--places", "."], 3, f"{opens}\n", "save fault", ".", "write"),
        (["squares.json", "--out", "."], 3, mended, "save fault", ".", "write"),
        (["squares.json", "--out", "saved.json", "--places", "."], 3, mended, "save fault", None, None),
    ):
        told = f"{said}\n" + (f"{path}: {ADVICE[advice]}\n" if path else "")
        yield Row(f"border_mend {' '.join(words)}, advice", words, status, report, told, KEPT, terminal=True, program="mend")


def drawing_advised():
    """The same of border_show, which does not say which of two maps can't be read."""
    for words, status, said, path, advice in (
        (["cut.json", "--out", "saved.json"], 2, "open: not json at 1", "cut.json", "not json"),
        (["halves.json", "--out", "saved.json"], 2, "open: not whole at 79", "halves.json", "not whole"),
        (["none.json", "--out", "saved.json"], 3, "map fault", "none.json", "read"),
        (["squares.json", "--out", "."], 3, "save fault", ".", "write"),
        (["cut.json", "squares.json", "--out", "saved.json"], 2, "open: not json at 1", None, None),
        (["squares.json", "cut.json", "--out", "saved.json"], 2, "open: not json at 1", None, None),
        (["squares.json", "none.json", "--out", "saved.json"], 3, "map fault", None, None),
        (["squares.json", "--feature", "9", "--out", "saved.json"], 1, "no feature: none has this id or number", None, None),
    ):
        told = f"{said}\n" + (f"{path}: {ADVICE[advice]}\n" if path else "")
        yield Row(f"border_show {' '.join(words)}, advice", words, status, "", told, KEPT, terminal=True, program="show")


def exporting_advised():
    """The same of border_export, which names no file where the layer can't be written."""
    for words, status, said, path, advice in (
        (["cut.json", "--out", "saved.json"], 2, "open: not json at 1", "cut.json", "not json"),
        (["halves.json", "--out", "saved.json"], 2, "open: not whole at 79", "halves.json", "not whole"),
        (["none.json", "--out", "saved.json"], 3, "map fault", "none.json", "read"),
        (["squares.json", "--out", "."], 3, "save fault", ".", "write"),
        (["squares.json", "--layer", "none", "--out", "saved.json"], 2, "no layer", None, None),
    ):
        told = f"{said}\n" + (f"{path}: {ADVICE[advice]}\n" if path else "")
        yield Row(f"border_export {' '.join(words)}, advice", words, status, "", told, KEPT, terminal=True, program="export")


def covering_advised():
    """The same of border_cover, which names no file where a layer is not there."""
    report = 'sum 400 over 0 covered 400 gaps 0 within 400 "land"\ncounts overlap 0 twice 0 gap 0 lake 0 uneven 0\n'
    for words, status, answers, said, path, advice in (
        (["squares.json"], 0, report, "", None, None),
        (["squares.json", "--places", "."], 3, report, "save fault", ".", "write"),
        (["cut.json"], 2, "", "open: not json at 1", "cut.json", "not json"),
        (["halves.json"], 2, "", "open: not whole at 79", "halves.json", "not whole"),
        (["crossing.json"], 2, "", "open: conflict 0 0 10 10 / 0 10 10 0", "crossing.json", "conflict"),
        (["none.json"], 3, "", "map fault", "none.json", "read"),
        (["squares.json", "--layer", "none"], 2, "", "no layer", None, None),
    ):
        told = (f"{said}\n" if said else "") + (f"{path}: {ADVICE[advice]}\n" if path else "")
        yield Row(f"border_cover {' '.join(words)}, advice", words, status, answers, told, KEPT, terminal=True, program="cover")


def strict_ends(words):
    """The ends with --strict, beside those without it, of the same scripts."""
    def strict(script, *more, out="saved.json"):
        return words("squares.json", script, out, "--strict", *more)

    moved, refused = "ok\n240\n", "refused no vertex\n200\n"
    one, cut = "not saved: 1 line was refused\n", "not saved: the last line of the script has no line feed\n"
    for script, answers, status, said in (
        ("cut.txt", moved, 0, cut), ("cut_refused.txt", "ok\nrefused no vertex\n", 1, one),
        ("cut_comment.txt", "ok\n", 0, cut), ("cut_return.txt", "ok\nbad line\n", 1, one),
        ("refused.txt", refused, 1, one), ("bad.txt", "bad line\n", 1, one),
    ):
        yield Row(f"not strict, {script}", words("squares.json", script), status, answers, "", SAVED)
        yield Row(f"strict, {script}", strict(script), 1, answers, said, KEPT)
        yield Row(f"strict, piped {script}", strict("-"), 1, answers, said, KEPT, given=script)
        yield Row(f"strict, {script}, no FILE", strict(script, out="."), 1, answers, said, KEPT)
        yield Row(f"strict, {script}, with progress", strict(script, "--progress"), 1, answers, said, KEPT)
    for script, answers in ("accepted.txt", moved), ("empty.txt", ""):
        yield Row(f"strict, {script}", strict(script), 0, answers, "", SAVED)
        yield Row(f"strict, piped {script}", strict("-"), 0, answers, "", SAVED, given=script)
        yield Row(f"strict, {script}, no FILE", strict(script, out="."), 3, answers, "save fault\n", KEPT)
    yield Row("strict, not opened", ["cut.json", *strict("refused.txt")[1:]], 2, "", "open: not json at 1\n", KEPT)
    yield Row("strict, no script", strict("none.txt"), 3, "", "script fault\n", KEPT)
    yield Row("strict, full output", strict("refused.txt"), 3, None, "write fault\n", KEPT, output="/dev/full")
    listing = "--refused", "list.txt"
    many = "not saved: 3 lines were refused\n"
    yield Row("strict, listed", strict("mixed.txt", *listing), 1, SOME, many, KEPT, listed=LISTED)
    yield Row("strict, nothing to list", strict("accepted.txt", *listing), 0, moved, "", SAVED, listed="")
    yield Row("strict, no list", strict("refused.txt", "--refused", "."), 3, refused, "refused fault\n", KEPT)


def unseeded(folder):
    """A library with which a program is given no random bytes."""
    return file_ends.compiled(file_ends.UNSEEDED, folder / "unseeded.so")


def put_files(folder):
    for name, text in FILES.items():
        (folder / name).write_text(text)
    (folder / "saved.json").write_text(BEFORE)
    (folder / "list.txt").write_text(BEFORE)
    with open(folder / "large.json", "wb") as large:
        large.truncate(67_108_865 + 100)


def differs(wanted, text):
    return not text if wanted is SOME else wanted is not None and text != wanted


def left_over(folder):
    """The files that a run has left beside those that it was to write."""
    known = {*FILES, "saved.json", "list.txt", "large.json", "answers", "unseeded.so"}
    return sorted(set(os.listdir(folder)) - known)


def file_ended(folder):
    text = (folder / "saved.json").read_text()
    if text == BEFORE:
        return KEPT
    return SAVED if text.startswith('{"type":"Topology"') and text.endswith("]}") else text


def shown(terminal):
    """What a terminal was sent, once nothing writes to it; it puts a carriage return before each line feed."""
    pieces = []
    with open(terminal, "rb", buffering=0) as sent, contextlib.suppress(OSError):  # the end is an error on Linux
        while piece := sent.read(1 << 16):
            pieces.append(piece)
    return b"".join(pieces).decode().replace("\r\n", "\n")


def ran(program, row, folder):
    """The status of a run, and what stands on standard error: a pipe, or a terminal."""
    def limit():
        if row.memory:
            resource.setrlimit(resource.RLIMIT_AS, (row.memory, row.memory))

    env = {**os.environ, "LD_PRELOAD": str(unseeded(folder))} if row.unseeded else None
    given = {**FILES, **LONG}[row.given].encode() if row.given else b""
    how = {"input": given, "cwd": folder, "timeout": 60, "preexec_fn": limit, "env": env}
    with open(row.output or folder / "answers", "wb") as output:
        if not row.terminal:
            done = subprocess.run([program, *row.words], stdout=output, stderr=subprocess.PIPE, **how)
            return done.returncode, done.stderr.decode()
        ours, theirs = pty.openpty()
        try:
            done = subprocess.run([program, *row.words], stdout=output, stderr=theirs, **how)
        finally:
            os.close(theirs)
        return done.returncode, shown(ours)


def faults(program, row):
    """What differs of an end, or None."""
    with tempfile.TemporaryDirectory() as name:
        folder = pathlib.Path(name)
        put_files(folder)
        status, said = ran(program, row, folder)
        answers = None if row.output else (folder / "answers").read_text()
        file, listed, left = file_ended(folder), (folder / "list.txt").read_text(), left_over(folder)
        if status != row.status:
            return f"status {status}, and not {row.status}: {said}"
        if differs(row.answers, answers):
            return f"answers {answers!r}"
        if differs(row.said, said):
            return f"on standard error {said!r}"
        if file != row.file:
            return f"FILE is {file!r:.60}, and not {row.file}"
        if listed != (BEFORE if row.listed is None else row.listed):
            return f"FILE2 is {listed!r:.60}"
        if left:
            return f"it leaves {left}"
    return None


def main():
    words = argparse.ArgumentParser(description=__doc__.split("\n", 1)[0])
    running.add_programs(words, "edit", "show", "mend", "cover", "export")
    programs = vars(words.parse_args())
    rows = [*file_ends.rows(), *mend_ends.rows(), *show_ends.rows(), *cover_ends.rows(), *export_ends.rows()]
    parts = [file_ends.told(programs, rows), edit_ends.told(programs["edit"])]
    # fewer and smaller texts than that script has by itself, which takes longer than all of this
    parts.append(export_hostile.told(programs["export"], count=300, size=1000))
    if file_ends.compiler():
        parts.append(growths.told(programs))
    else:
        print("no compiler: the ends without a seed or memory are left out")
    count, wrong = map(sum, zip(*parts))
    for row in ends():
        if row.unseeded and not file_ends.compiler():
            continue
        count += 1
        fault = faults(programs[row.program], row)
        if fault:
            wrong += 1
            print(f"{row.what}: {fault}")
    print(f"{count - wrong} passed, {wrong} failed")
    return 1 if wrong else 0


if __name__ == "__main__":
    sys.exit(main())
