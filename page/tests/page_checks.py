"""Checks of a page: a line for each, and how many passed and failed."""
import json

COUNTS = {"passed": 0, "failed": 0}


def same(name, found, expected):
    """A check: what was found is what is expected."""
    is_same = found == expected
    COUNTS["passed" if is_same else "failed"] += 1
    print(f"ok      {name}" if is_same else f"FAILED  {name}: {found!r} is not {expected!r}", flush=True)


def true(name, found, why=""):
    """A check: something holds."""
    COUNTS["passed" if found else "failed"] += 1
    print(f"ok      {name}" if found else f"FAILED  {name} {why}", flush=True)


def act_of(page):
    """The lines of the newest act."""
    log = page.js("return editor.log")
    return [entry["line"] for entry in log if entry["act"] == log[-1]["act"]]


def verbs(lines):
    return [line.split(" ")[0] for line in lines]


def is_map(page, name):
    """A check: what is drawn is the map of border_edit."""
    same(f"{name}: the drawing is the map", page.check(), None)


def document(page):
    return page.later("editor.talk.text('document')")


def put(folder, name, text):
    """A file with a text, or with a value as JSON."""
    path = folder / name
    path.write_text(text if isinstance(text, str) else json.dumps(text))
    return path
