#!/usr/bin/env python3
"""Lists the functions of the program that have over five parameters, or a contract of over ten lines.

A line for each crate that has any: its name, and each function with its parameters where they are over five, and the
lines of its contract where they are over ten. Crates of tests are left out: their functions pass on what a test owns.
docs/ARCHITECTURE.md says why for each.
"""
import pathlib
import re

TOP = pathlib.Path(__file__).resolve().parent.parent
MOST_PARAMETERS, MOST_LINES = 5, 10
TESTS = re.compile(r"_trials$|^trials_|^stored_|^test_aids$|^library_example$")
OPENS, CLOSES = "([{<", ")]}>"


def closing(text, at):
    """Where the bracket that opens at this place is closed; an arrow closes none."""
    depth = 0
    for place in range(at, len(text)):
        if text[place] in OPENS:
            depth += 1
        elif text[place] in CLOSES and text[place - 1 : place + 1] not in ("->", "=>"):
            depth -= 1
            if depth == 0:
                return place
    raise ValueError("a bracket that is not closed")


def parameters(text):
    """How many there are between these brackets."""
    count, at, is_begun = 0, 0, False
    while at < len(text):
        if text[at] in OPENS:
            at = closing(text, at)
        elif text[at] == ",":
            count, is_begun = count + is_begun, False
        is_begun = is_begun or not (text[at].isspace() or text[at] == ",")
        at += 1
    return count + is_begun


def contract_lines(text):
    """How many lines stand between a signature and its body, from the first clause on."""
    lines = [it.strip() for it in text.split("\n")[1:]]
    body = next((at for at, it in enumerate(lines) if it in ("{", "") or it.endswith(";")), 0)
    return body if lines and re.match(r"requires|ensures", lines[0]) else 0


def functions(text):
    """Each function of a file with its parameters and the lines of its contract."""
    text = re.sub(r"//.*", "", text)
    for found in re.finditer(r"\bfn (\w+)", text):
        opened = found.end()
        if text[opened] == "<":
            opened = closing(text, opened) + 1
        closed = closing(text, opened)
        yield found[1], parameters(text[opened + 1 : closed]), contract_lines(text[closed:])


def told(name, count, lines):
    """A function with what it has too many of, or nothing."""
    said = [f"{count} parameters"] * (count > MOST_PARAMETERS) + [f"{lines} lines"] * (lines > MOST_LINES)
    return f"{name} ({', '.join(said)})" if said else ""


def main():
    for crate in sorted((TOP / "crates").iterdir()):
        files = [] if TESTS.search(crate.name) else sorted((crate / "src").rglob("*.rt"))
        found = [told(*it) for file in files if "tests" not in file.parts and file.stem != "tests" for it in functions(file.read_text("utf-8"))]
        if any(found):
            print(f"{crate.name}: {', '.join(it for it in found if it)}")


if __name__ == "__main__":
    main()
