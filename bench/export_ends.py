"""The ends of border_export: with which status it ends, what it says, and the text in FILE, byte for byte.

A run is a line of bench/export_runs.txt, whose head says what a line means. What a run does not name has to stand as it
stood before.
"""
import pathlib
import re

from file_ends import EXPORT, SEED, Row, Text

TOP = pathlib.Path(__file__).resolve().parent.parent
PAGE = pathlib.Path(__file__).resolve().parent / "export_runs.txt"
HELP = TOP / "crates/border_export/src/help.rt"
VERSION = TOP / "crates/program_ends/src/lib.rt"
FILE = "saved"
WRONG = "64"
LINE_FEED = "⏎"


def sorted_lines():
    """The texts of the page by their names, and its runs."""
    lines = [line for line in PAGE.read_text(encoding="utf-8").splitlines() if line and not line.startswith("#")]
    texts = dict(line.split(" = ", 1) for line in lines if " => " not in line)
    return {name: text.replace(LINE_FEED, "\n") for name, text in texts.items()}, [line for line in lines if " => " in line]


def row_of(line, texts):
    """The row of a line of the page."""
    words, status, *rest = line.split(" => ")
    made, said = (rest + ["", ""])[:2]
    words = words.split(" ") if words else []
    after = {FILE: Text(texts[made])} if made else {}
    before = {name: Text(text) for name, text in texts.items()}
    told = [] if status == WRONG else said + "\n" if said else ""
    return Row(f"border_export {line}", EXPORT, [*words, "--out", FILE], int(status), told, before, after, output=["", ""])


def told_without_map():
    """What is told where no map is looked at: the help, which begins as it must, and the version; and without FILE."""
    about = re.search('ABOUT: &str =\\s*"(.*)"', HELP.read_text())[1]
    version = re.search('VERSION: &str = "(.*)"', VERSION.read_text())[1]
    for words in ["--help"], ["map.json", "-h"]:
        yield Row(f"border_export {' '.join(words)}", EXPORT, words, 0, "", output=[about, None])
    yield Row("border_export --version", EXPORT, ["--version"], 0, "", output=[f"border_export {version}\n", ""])
    yield Row("border_export squares.json", EXPORT, ["squares.json"], 64, [], output=["", ""])
    yield Row("border_export without a seed", EXPORT, ["squares.json", "--out", FILE], 3, "no random seed\n", output=["", ""], fails=SEED)


def rows():
    texts, runs = sorted_lines()
    for line in runs:
        yield row_of(line, texts)
    yield from told_without_map()


def main():
    import argparse

    import file_ends
    import running

    parser = argparse.ArgumentParser(description=__doc__)
    running.add_programs(parser, "export")
    count, wrong = file_ends.told({"export": parser.parse_args().export}, list(rows()))
    print(f"{count} runs, {wrong} wrong")
    return wrong > 0


if __name__ == "__main__":
    raise SystemExit(main())
