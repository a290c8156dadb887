#!/usr/bin/env python3
"""border_edit, but for what the file CUES says: a test makes it end, or answer wrongly, at a line of its choice.

Each line of CUES is COUNT<TAB>WHAT<TAB>LINE. For COUNT times at LINE the program ends before it answers, if WHAT is
`end`, or before the last byte of its answer, if WHAT is `late`; else its answer is WHAT. The program itself, in
REAL_BORDER_EDIT, answers all other lines.
"""
import os
import pathlib
import sys

sys.path.insert(0, str(pathlib.Path(__file__).resolve().parent.parent / "server"))

from child import Child


def cue(path, line):
    """What is done at a line; its count is one less afterwards."""
    rows = [row.split("\t", 2) for row in path.read_text().splitlines()] if path.exists() else []
    for row in rows:
        if row[2] == line and row[0] != "0":
            row[0] = str(int(row[0]) - 1)
            path.write_text("".join("\t".join(each) + "\n" for each in rows))
            return row[1]
    return None


def main():
    real = Child(os.environ["REAL_BORDER_EDIT"], sys.argv[1])
    for line in sys.stdin:
        line = line.rstrip("\n")
        what = cue(pathlib.Path(os.environ["CUES"]), line)
        if what == "end":
            real.end()
            sys.exit("out of memory")
        answer = b"".join(real.document()).decode() if line == "document" else real.ask([line])[0]
        if what == "late":
            print(answer[:-1], end="", flush=True)
            real.end()
            sys.exit("out of memory")
        print(what or answer, flush=True)


main()
