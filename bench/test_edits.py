#!/usr/bin/env python3
"""Tests bench/edits.py on a small repository, with a stand-in for the toolchain that proves nothing.

First the comparison: each row changes a repository whose page is full, and says how the comparison ends. Then the
trying: each row changes the same repository further, tries edits, and says which were tried and what the page has. Then
what is read of a check that edits share, and which edits share one. The last line is `N passed, M failed`.
"""
import os
import pathlib
import re
import shutil
import subprocess
import sys
import tempfile

import together

HERE = pathlib.Path(__file__).resolve().parent
REFUSED, MISSED = "refused, as it must be: src/lib.rt:1:1", "NOT REFUSED: the crate is still proved"
# An edit of this repository is what the stand-in says of it.
FILES = {
    "crates.txt": "one:\ntwo: one\n", "HANDLES": "Handles allowed: none.\n",
    "crates/one/src/lib.rt": "one", "crates/one/specs/One.antt": "one", "crates/one/proofs/deep/Answers.antt": "one",
    "crates/one/inner-edits/a.edit": f"{REFUSED} a", "crates/one/inner-edits/b.edit": f"{REFUSED} b",
    "crates/one/must-fail/gate.edit": REFUSED,
    "crates/two/src/lib.rt": "two", "crates/two/inner-edits/c.edit": REFUSED, "crates/two/must-fail/gate.edit": REFUSED,
}
# Tries what stands in must-fail of each crate below it, as `rt must-fail` does, and leaves a file of its own, as that
# does where it is ended. An edit that kills ends what called it.
STAND_IN = """#!/bin/sh
[ "$1" = version ] && exec echo "$KIT logic"
[ "$1" = check ] && exit
touch "$TMPDIR/left"
for edit in crates/*/must-fail/*.edit; do
    name=$(basename "$(dirname "$(dirname "$edit")")")/$(basename "$edit")
    echo "$name" >>"$TRIED"
    said=$(cat "$edit")
    [ "$said" = kill ] && kill -TERM $PPID && exit 1
    echo "rt: must-fail $name: $said"
done
"""
PAGE = "bench/edits.txt"
OLD, OLD_EDIT, OLD_KIT = (f"not tried since the {what} changed" for what in ("crate", "edit", "kit"))
NEW, GONE = "not tried", "a row, and no edit"
A, B = (f"crates/one/inner-edits/{name}.edit" for name in "ab")


class Repository:
    """A small repository in which edits are tried and compared."""

    def __init__(self, folder):
        self.folder = folder

    def make(self):
        for name, text in {**FILES, "kit/rt": STAND_IN, "bench/edits.py": (HERE / "edits.py").read_text(),
                           "bench/together.py": (HERE / "together.py").read_text()}.items():
            self.put(name, text)
        (self.folder / "kit/rt").chmod(0o755)
        return self

    def copy(self, name):
        return Repository(shutil.copytree(self.folder, self.folder.parent / name))

    def put(self, name, text):
        path = self.folder / name
        path.parent.mkdir(parents=True, exist_ok=True)
        path.write_text(text)

    def remove(self, name):
        path = self.folder / name
        shutil.rmtree(path) if path.is_dir() else path.unlink()

    def change(self, pattern, text):
        """Changes the page."""
        found, times = re.subn(pattern, text, self.page(), flags=re.M)
        assert times, f"the page has no {pattern}"
        self.put(PAGE, found)

    def page(self):
        path = self.folder / PAGE
        return path.read_text() if path.exists() else ""

    def rows(self):
        return [(line.split()[0], line.split(" ", 4)[4]) for line in self.page().splitlines() if "/" in line.split()[0]]

    def waiting(self):
        return re.search("^to try:(.*)", self.page(), re.M)[1].split()

    def ran(self, *words, kit="kit-1"):
        self.rooms().mkdir(exist_ok=True)
        own = {"PATH": f"{self.folder}/kit:{os.environ['PATH']}", "KIT": kit, "TRIED": f"{self.folder}/tried",
               "TMPDIR": str(self.rooms())}
        command = [sys.executable, self.folder / "bench/edits.py", *words]
        return subprocess.run(command, env={**os.environ, **own}, capture_output=True, text=True)

    def rooms(self):
        """Where it makes files of its own, none of which is left."""
        return self.folder / "rooms"

    def tried(self):
        """The edits that were tried since it was last asked."""
        path = self.folder / "tried"
        found = path.read_text().replace(".edit\n", "\n").split() if path.exists() else []
        path.unlink(missing_ok=True)
        return found


def to_try(crates):
    """A change of the page that puts crates among those that are to try."""
    return lambda it: it.change("^to try:", f"to try: {crates}")


def rows_out(pattern):
    return lambda it: it.change(rf"^{pattern} .*\n", "")


def verdict(name, said):
    return lambda it: it.change(rf"^({name} \S+ \S+ \S+) .*", rf"\1 {said}")


def put(name, text):
    return lambda it: it.put(name, text)


def remove(name):
    return lambda it: it.remove(name)


def each(*changes):
    return lambda it: [change(it) for change in changes]


def nothing(it):
    pass


CHANGED = [f"one/a: {OLD}", f"one/b: {OLD}"]
# What is changed, the faults that are told, and how many edits are refused, have failed, and are to try.
COMPARED = [
    ("nothing", nothing, [], (3, 0, 0)),
    ("a file that no proof reads", put("crates/one/data/map", "new"), [], (3, 0, 0)),
    ("a gate edit", put("crates/one/must-fail/gate.edit", "new"), [], (3, 0, 0)),
    ("a comment in a source", put("crates/one/src/lib.rt", "/// what it is\none"), [], (3, 0, 0)),
    ("a comment in a proof", put("crates/one/proofs/deep/Answers.antt", "  -- why\none"), [], (3, 0, 0)),
    ("code behind a comment", put("crates/one/src/lib.rt", "/// what it is\nnew"), CHANGED, (1, 2, 0)),
    ("a source", put("crates/one/src/lib.rt", "new"), CHANGED, (1, 2, 0)),
    ("a definition", put("crates/one/specs/One.antt", "new"), CHANGED, (1, 2, 0)),
    ("an answer", put("crates/one/proofs/deep/Answers.antt", ""), CHANGED, (1, 2, 0)),
    ("a new file", put("crates/one/specs/New.antt", ""), CHANGED, (1, 2, 0)),
    ("a lost file", remove("crates/one/specs/One.antt"), CHANGED, (1, 2, 0)),
    ("a name", each(remove("crates/one/specs/One.antt"), put("crates/one/specs/Two.antt", "one")), CHANGED,
     (1, 2, 0)),
    ("an edit", put(A, "new"), [f"one/a: {OLD_EDIT}"], (2, 1, 0)),
    ("an edit that went", remove(A), [f"one/a: {GONE}"], (2, 1, 0)),
    ("a new edit", put("crates/one/inner-edits/d.edit", REFUSED), [f"one/d: {NEW}"], (3, 1, 0)),
    ("a new crate", put("crates/new/inner-edits/d.edit", REFUSED), [f"new/d: {NEW}"], (3, 1, 0)),
    ("a crate that went", remove("crates/two"), [f"two/c: {GONE}"], (2, 1, 0)),
    ("a crate that the page lacks", rows_out("one/.*"), [f"one/a: {NEW}", f"one/b: {NEW}"], (1, 2, 0)),
    ("a row that is lacking", rows_out("one/b"), [f"one/b: {NEW}"], (2, 1, 0)),
    ("a row", verdict("one/a", "NOT REFUSED"), ["one/a: NOT REFUSED"], (2, 1, 0)),
    ("a row", verdict("one/a", "BAD EDIT"), ["one/a: BAD EDIT"], (2, 1, 0)),
    ("a row", verdict("one/a", "refused at a limit"), [], (3, 0, 0)),
    ("the kit in a row", lambda it: it.change("^one/a kit-1", "one/a kit-0"), [f"one/a: {OLD_KIT}"],
     (2, 1, 0)),
    ("the page", remove(PAGE), [f"one/a: {NEW}", f"one/b: {NEW}", f"two/c: {NEW}"], (0, 3, 0)),
    ("all crates and rows", each(remove("crates"), rows_out(".*/.*")), [], (0, 0, 0)),
    ("a crate to try", each(rows_out("one/a"), to_try("one")), [], (2, 0, 1)),
    ("two crates to try", each(rows_out(".*/.*"), to_try("one two")), [], (0, 0, 3)),
    ("the source of a crate to try", each(put("crates/one/src/lib.rt", "new"), to_try("one")), [], (1, 0, 2)),
    ("the source of another", each(put("crates/one/src/lib.rt", "new"), rows_out("two/c"), to_try("two")), CHANGED,
     (0, 2, 1)),
    ("a row of a crate to try", each(verdict("one/a", "NOT REFUSED"), rows_out("one/b"), to_try("one")),
     ["one/a: NOT REFUSED"], (1, 1, 1)),
    ("a crate to try that was tried", to_try("one"), ["to try: one, of which each edit was tried: leave it out"],
     (3, 1, 0)),
    ("a crate to try that is none", to_try("three"), ["to try: three, which has no inner edits"], (3, 1, 0)),
]
MANY = [f"many/{number:02}" for number in range(20)]


def put_many(text_of):
    return lambda it: [it.put(f"crates/many/inner-edits/{name[5:]}.edit", text_of(name)) for name in MANY]


# What is changed, the words, the edits that are tried, how it ends, what rows the page has then that are not `refused`,
# and the crates that are to try.
TRIED = [
    ("nothing", nothing, ["two"], ["two/c"], 0, {"one/a": None, "one/b": None}, ["one", "two"], ["one"]),
    ("nothing", nothing, [], ["one/a", "one/b"], 0, {}, None, []),
    ("nothing", nothing, [], [], 0, {}, None, []),
    ("nothing", nothing, ["--anew", "two"], ["two/c"], 0, {}, None, []),
    ("a source", put("crates/one/src/lib.rt", "new"), ["two"], [], 0, {}, None, []),
    ("nothing more", nothing, [], ["one/a", "one/b"], 0, {}, None, []),
    ("an edit", put(B, MISSED), [], ["one/b"], 1, {"one/b": "NOT REFUSED"}, None, []),
    ("nothing", nothing, ["one"], [], 1, {"one/b": "NOT REFUSED"}, None, []),
    ("nothing", nothing, ["two"], [], 0, {"one/b": "NOT REFUSED"}, None, []),
    ("an edit", put(B, "BAD EDIT: it"), [], ["one/b"], 1, {"one/b": "BAD EDIT"}, None, []),
    ("an edit", put(B, "refused, as it must be (only by a limit of the prover): it"), [],
     ["one/b"], 0, {"one/b": "refused at a limit"}, None, []),
    ("an edit", put(B, "refused, as it must be (only because a proof file names it): it"), [],
     ["one/b"], 0, {"one/b": "refused for a name"}, None, []),
    ("an edit", each(put(B, "NOT TRIED: it was killed"), rows_out("one/b")), [], ["one/b"], 1,
     {"one/b": None}, ["one"], ["one"]),
    ("edits that went", each(remove(A), remove(B)), ["two"], [], 0, {}, None, []),
    ("nothing", nothing, [], [], 0, {}, None, []),
    ("many edits, of which one ends it", put_many(lambda name: "kill" if name == "many/11" else REFUSED), ["many"],
     MANY[:12], 128 + 15, {name: None for name in MANY[8:]}, ["many"], ["many"]),
    ("that edit", put("crates/many/inner-edits/11.edit", REFUSED), [], MANY[8:], 0, {}, None, []),
    ("nothing", nothing, ["three"], [], 2, {}, None, []),
]

# Where an edit stands, what a check of the crate `one` says of its functions, and what that says of the edit.
BY_ANOTHER = "not proved; it calls `one::put`, which is not proved"
SHARED = [
    ([("", "put")], {"one::put": "no holes"}, "NOT REFUSED"),
    ([("", "put")], {"one::Set::put": "not proved; it stands on `proofs.put.Answers.returns`, which antt refuses"},
     "refused"),
    ([("", "put")], {"one::put": "not proved; it stands on `proofs.add.Answers.returns`, which antt refuses"}, None),
    ([("", "put")], {"one::put": "depends on a hole in `proofs.add.Answers.returns`"}, None),
    ([("", "put")], {"one::put": "no proof: `search` did not prove `returns`"}, "refused"),
    ([("", "put")], {"one::put": "no proof: it calls `one::add`, which is not proved"}, None),
    ([("", "put")], {"one::put": "could not tell"}, None),
    ([("", "put")], {"one::put": BY_ANOTHER}, None),
    ([("", "put")], {}, None),
    ([("", "put")], {"one::output": "not proved", "one::put": "no holes"}, "NOT REFUSED"),
    ([("", "put")], {"two::put": "not proved"}, None),
    ([("a::b", "put")], {"one::a::put": "not proved"}, None),
    ([("a::b", "put")], {"one::a::b::Set::put": "not proved"}, "refused"),
    ([("", "new")], {"one::Set::new": "no holes", "one::Map::new": "not proved"}, "refused"),
    ([("", "put"), ("", "add")], {"one::put": "no holes", "one::add": "not proved"}, "refused"),
    ([("", "put"), ("", "add")], {"one::put": "no holes", "one::add": BY_ANOTHER}, None),
]
# The functions that edits stand in, and which of them share a check.
ROUNDS = [
    (["put"], [["0"]]),
    (["put", "add"], [["0", "1"]]),
    (["put", "put", "add"], [["0", "2"], ["1"]]),
    (["put", "put", "put"], [["0"], ["1"], ["2"]]),
]


class Checks:
    passed = failed = 0

    def check(self, what, found, wanted):
        if found == wanted:
            self.passed += 1
        else:
            self.failed += 1
            print(f"FAILED {what}: {found!r}, and not {wanted!r}")


def check_compared(checks, full):
    for number, (what, change, faults, counts) in enumerate(COMPARED, 1):
        made = full.copy(f"compared {number}")
        change(made)
        done = made.ran("--compare")
        told = done.stdout.splitlines()
        found = [line for line in told[:-1] if not re.fullmatch(r"\w+: \d+ of \d+ refused(, \d+ not tried)?", line)]
        passed, failed, _ = counts
        last, status = "{} passed, {} failed, {} to try".format(*counts), 0 if passed and not failed else 1
        checks.check(f"compared {number}, {what}", (found, told[-1:], done.returncode), (faults, [last], status))


def check_unread(checks, full):
    made = full.copy("unread")
    made.put(PAGE, made.page() + "<<<<<<< HEAD\n")
    done = made.ran("--compare")
    found = done.stdout, done.stderr, done.returncode
    checks.check("a line that is no row", found, ("", f"{PAGE}:6: this is no row\n", 1))


def edits_of(made):
    return sorted(f"{path.parts[-3]}/{path.stem}" for path in made.folder.glob("crates/*/inner-edits/*.edit"))


def check_tried(checks, made):
    made.put(PAGE, "to try: one two\n")
    for number, (what, change, words, tried, status, others, waits, waiting) in enumerate(TRIED, 1):
        change(made)
        if waits:
            made.change("^to try:.*", " ".join(["to try:", *waits]))
        done = made.ran(*words)
        wanted = {**{name: "refused" for name in edits_of(made)}, **others}
        rows = sorted((name, said) for name, said in wanted.items() if said)
        found = made.tried(), done.returncode, made.rows(), made.waiting(), list(made.rooms().iterdir())
        checks.check(f"tried {number}, {what}, {words}", found, (tried, status, rows, waiting, []))
    gate = [(made.folder / "crates" / name / "must-fail/gate.edit").read_text() for name in ("one", "two")]
    checks.check("the gate's edits are left alone", gate, [REFUSED, REFUSED])


def changes_at(places):
    return [together.Change("src/lib.rt", "", "", place) for place in places]


def check_shared(checks):
    for places, said, verdict in SHARED:
        checks.check(f"shared, {said}", together.verdict_of("one", changes_at(places), said), verdict)
    for names, rounds in ROUNDS:
        edits = {str(number): changes_at([("", name)]) for number, name in enumerate(names)}
        checks.check(f"rounds of {names}", together.in_rounds(edits), rounds)
    # (one is told when no other is tried with it that is not told yet, and lost never)
    edits, tries = {name: changes_at([("", name)]) for name in ("one", "other", "lost")}, []
    found = together.told_in_passes(edits, lambda left, names: tries.append(sorted(left)) or {
        name: "refused" for name in names if name == "other" or name == "one" and "other" not in left})
    checks.check("what passes tell", (found, tries), ({"one": "refused", "other": "refused"}, [
        ["lost", "one", "other"], ["lost", "one"], ["lost"]]))
    sources = {"src/lib.rt": "fn add() {\n    1\n}\n\nfn put() {\n    2\n}\n", "src/a/b.rt": "fn new() {\n    2\n}\n"}
    with tempfile.TemporaryDirectory() as folder:
        edit = pathlib.Path(folder, "it.edit")
        for file, old, wanted in [("lib", "2", [("", "put")]), ("a/b", "2", [("a::b", "new")]), ("lib", "4", None),
                                  ("lib", "}", None), ("c", "2", None)]:
            text = f"file: src/{file}.rt\nold: {old}\nnew: 3\n"
            edit.write_text(text)
            changes = together.changes_of(edit, sources)
            checks.check(f"where an edit stands, {text}", changes and [change.place for change in changes], wanted)


def main():
    checks = Checks()
    with tempfile.TemporaryDirectory() as folder:
        full = Repository(pathlib.Path(folder).resolve() / "full").make()
        empty = full.copy("empty")
        full.ran()
        check_compared(checks, full)
        check_unread(checks, full)
        check_tried(checks, empty)
    check_shared(checks)
    print(f"{checks.passed} passed, {checks.failed} failed")
    return 1 if checks.failed else 0


if __name__ == "__main__":
    sys.exit(main())
