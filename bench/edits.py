#!/usr/bin/env python3
"""Tries the edits of inner calls, each of which the prover must refuse, and keeps a page of what came of them.

An edit puts a mistake into a function, and shows that its contract lets it through no more. Those of calls that a
reader relies on stand in crates/NAME/must-fail, and `rt ci` tries them. A call that only crates of this repository
make is proved to do for them: with a contract that lets a mistake through that matters, one of them would not be
proved. What shows that its contract says more than that stands in crates/NAME/inner-edits, and is tried by hand when
the crate changes:

    python3 bench/edits.py NAME..            what was not tried on what stands, of these crates, or of all
    python3 bench/edits.py --anew NAME..     all edits of these crates
    python3 bench/edits.py --compare         tries none, and compares the page with the sources

The page is bench/edits.txt. It has a row for each edit that was tried: its name, the kit, a sum of the crate's sources,
a sum of the edit's text, and the verdict. The sources are the files of the crate's src, specs and proofs, without lines
of comment. Those of the crates below are not among them, though the crate is proved from their contracts and
definitions: where a definition changes that its contracts cite, its edits are tried --anew. A crate after `to try:` has
edits that were not tried yet.

To try edits, the crates are copied, and each is proved by `rt check`, so that a try begins with what that kept. Then
these edits are put in the place of the others, and `rt must-fail` called. RT_JOBS=1 has it try one at a time. The page
is written after every eighth edit, so that not much is lost where this is ended. The status is 0 where each of them is
refused.

With --together edits of different functions are first tried in one check (bench/together.py), which costs a crate
about its proof; what that can't tell is then tried as ever.

--compare fails, with a line for each, where an edit was not tried on what stands (unless its crate is to try), or was
not refused; where a row has no edit, and where a crate is to try that has no edits, or none that is untried. The last
line counts the edits that are refused on what stands, what failed, and what is to try.
"""
import argparse
import collections
import hashlib
import os
import pathlib
import re
import shutil
import signal
import subprocess
import sys
import tempfile

import together

TOP = pathlib.Path(__file__).resolve().parent.parent
PAGE = "bench/edits.txt"
HEAD = "# What came of the inner edits, written by bench/edits.py. Its --help says what a row has.\n"
WAITING = "to try:"
# How many edits are tried before the page is written.
PORTION = 8

# What an edit was tried on, and what came of it.
Row = collections.namedtuple("Row", "kit sources text verdict")
ROW = re.compile(r"(\w+/\S+) (\S+) ([0-9a-f]{16}) ([0-9a-f]{16}) ([A-Za-z ]+)")
# What `rt must-fail` says of an edit, and the verdict of the page. An edit that it did not try gets no row.
SAID = re.compile(r"must-fail (\w+)/(\S+)\.edit: (.*)")
VERDICTS = [
    ("refused, as it must be (only by a limit", "refused at a limit"),
    ("refused, as it must be (only because a proof file names", "refused for a name"),
    ("refused, as it must be", "refused"),
    ("NOT REFUSED", "NOT REFUSED"),
    ("BAD EDIT", "BAD EDIT"),
]


# ---- what stands

def kit():
    """The first word of what the toolchain says of itself."""
    return subprocess.run(["rt", "version"], stdout=subprocess.PIPE, check=True, text=True).stdout.split()[0]


def sum_of(pieces):
    return hashlib.sha256(repr(pieces).encode()).hexdigest()[:16]


def code_of(path):
    """A file without its lines of comment, which no proof reads."""
    return [line for line in path.read_bytes().splitlines() if not line.strip().startswith((b"//", b"--"))]


def sum_of_sources(crate):
    """A sum of the names and the code of the files of a crate that its proof reads."""
    files = sorted(path for part in ("src", "specs", "proofs") for path in (crate / part).rglob("*") if path.is_file())
    return sum_of([(str(path.relative_to(crate)), code_of(path)) for path in files])


def inner_edits(top):
    """The crates that have inner edits, each with its edits' names."""
    found = collections.defaultdict(list)
    for path in sorted(top.glob("crates/*/inner-edits/*.edit")):
        found[path.parts[-3]].append(path.stem)
    return found


def what_stands(top, crate, names, kit):
    """What an edit has to be tried on, for each of a crate."""
    sources = sum_of_sources(top / "crates" / crate)
    folder = top / "crates" / crate / "inner-edits"
    return {f"{crate}/{name}": (kit, sources, sum_of((folder / f"{name}.edit").read_bytes())) for name in names}


# ---- the page

class Page:
    """The page: the rows of the edits that were tried, and the crates that are to try."""

    def __init__(self, top):
        self.top, self.rows, self.waiting = top, {}, set()
        path = top / PAGE
        for number, line in enumerate(path.read_text().splitlines() if path.exists() else [], 1):
            row = ROW.fullmatch(line)
            if row:
                self.rows[row[1]] = Row(*row.groups()[1:])
            elif line.startswith(WAITING):
                self.waiting = set(line[len(WAITING):].split())
            elif not line.startswith("#"):
                sys.exit(f"{PAGE}:{number}: this is no row")

    def write(self):
        """Writes the page, without rows of edits and names of crates that are gone."""
        edits = inner_edits(self.top)
        there = {f"{crate}/{name}" for crate, names in edits.items() for name in names}
        self.rows = {name: row for name, row in self.rows.items() if name in there}
        self.waiting = {crate for crate in self.waiting if crate in edits}
        rows = [" ".join([name, *row]) for name, row in sorted(self.rows.items())]
        text = HEAD + " ".join([WAITING, *sorted(self.waiting)]) + "\n" + "".join(row + "\n" for row in rows)
        path = self.top / PAGE
        path.with_suffix(".new").write_text(text)
        os.replace(path.with_suffix(".new"), path)

    def lack(self, name, stands):
        """Why an edit counts for nothing as it stands; None where it was tried."""
        row = self.rows.get(name)
        if row is None:
            return "not tried"
        changed = [what for what, then, now in zip(("the kit", "the crate", "the edit"), row, stands) if then != now]
        return f"not tried since {changed[0]} changed" if changed else None

    def is_refused(self, name):
        return self.rows[name].verdict.startswith("refused")


# ---- the comparison

def compared(page, kit):
    """Lines that tell how page and sources differ, and how many edits are refused, have failed, and are to try."""
    edits, lines, faults, refused, waiting = inner_edits(page.top), [], [], 0, 0
    for crate, names in edits.items():
        stands = what_stands(page.top, crate, names, kit)
        lacks = {name: lack for name in stands if (lack := page.lack(name, stands[name]))}
        good = [name for name in stands if name not in lacks and page.is_refused(name)]
        faults += [f"{name}: {page.rows[name].verdict}" for name in stands if name not in lacks and name not in good]
        if crate not in page.waiting:
            faults += [f"{name}: {lack}" for name, lack in lacks.items()]
        elif not lacks:
            faults.append(f"{WAITING} {crate}, of which each edit was tried: leave it out")
        refused, waiting = refused + len(good), waiting + (len(lacks) if crate in page.waiting else 0)
        lines.append(f"{crate}: {len(good)} of {len(stands)} refused" + (f", {len(lacks)} not tried" if lacks else ""))
    there = {f"{crate}/{name}" for crate, names in edits.items() for name in names}
    faults += [f"{name}: a row, and no edit" for name in page.rows if name not in there]
    faults += [f"{WAITING} {crate}, which has no inner edits" for crate in sorted(page.waiting - set(edits))]
    return lines + faults, (refused, len(faults), waiting)


def compare(top, kit):
    lines, (refused, failed, waiting) = compared(Page(top), kit)
    print("\n".join([*lines, f"{refused} passed, {failed} failed, {waiting} to try"]))
    return 1 if failed or not refused else 0


# ---- trying

def link(one, other):
    """Another name for a file that was built, since these are large; a copy of others, and on another disk."""
    try:
        if "/out/" not in one:
            raise OSError
        os.link(one, other)
    except OSError:
        shutil.copy2(one, other)


def copy_crates(top, room):
    """A copy of the crates, without edits."""
    left = shutil.ignore_patterns("incremental", "must-fail", "inner-edits")
    shutil.copytree(top / "crates", room / "crates", ignore=left, copy_function=link)
    for file in ["crates.txt", "HANDLES"]:
        shutil.copy(top / file, room / file)


def how_in(room):
    """How `rt` is called in a copy: what it leaves when it is ended is removed with the copy."""
    return {"env": {**os.environ, "TMPDIR": str(room.parent)}, "stdout": subprocess.PIPE, "text": True}


def verdicts(crate, room):
    """What came of the edits of a crate in a copy. What is said of them is passed on."""
    found = {}
    with subprocess.Popen(["rt", "must-fail", crate], cwd=room, **how_in(room)) as child:
        try:
            for line in child.stdout:
                print(line, end="", flush=True)
                said = SAID.search(line)
                verdict = said and next((verdict for begin, verdict in VERDICTS if said[3].startswith(begin)), None)
                if verdict:
                    found[f"{said[1]}/{said[2]}"] = verdict
        except BaseException:
            child.terminate()
            raise
    return found


def try_portion(top, crate, names, room, kit):
    """Tries edits of a crate in a copy of the crates, and writes what came of them."""
    folders = room / "crates" / crate / "inner-edits", room / "crates" / crate / "must-fail"
    for folder in folders:
        shutil.rmtree(folder, ignore_errors=True)
        folder.mkdir()
        for name in names:
            shutil.copy(top / "crates" / crate / "inner-edits" / f"{name}.edit", folder)
    stands = what_stands(room, crate, names, kit)
    found = verdicts(crate, room)
    # (another run may have written the page meanwhile)
    page = Page(top)
    page.rows.update({name: Row(*stands[name], found[name]) for name in stands if name in found})
    page.write()


def try_together(top, crate, names, room, kit):
    """Tries edits of a crate together, and returns the names of those of which that told nothing."""
    folder = room / "crates" / crate / "inner-edits"
    shutil.copytree(top / "crates" / crate / "inner-edits", folder, dirs_exist_ok=True)
    stands = what_stands(room, crate, names, kit)
    found = {f"{crate}/{name}": verdict for name, verdict in together.tried(crate, folder.parent, names).items()}
    page = Page(top)
    page.rows.update({name: Row(*stands[name], found[name]) for name in stands if name in found})
    page.write()
    return [name for name in names if f"{crate}/{name}" not in found]


def try_crate(top, crate, names, room, kit, anew, is_together):
    """Tries edits of a crate, those that were not tried on what stands or all. Returns whether all are refused then."""
    page, stands = Page(top), what_stands(top, crate, names, kit)
    untried = [name for name in names if anew or page.lack(f"{crate}/{name}", stands[f"{crate}/{name}"])]
    if untried and not room.exists():
        copy_crates(top, room)
    if untried and is_together:
        untried = try_together(top, crate, untried, room, kit)
    if untried:
        # (where that fails, `rt must-fail` says why)
        subprocess.run(["rt", "check"], cwd=room / "crates" / crate, **how_in(room))
    for start in range(0, len(untried), PORTION):
        try_portion(top, crate, untried[start:start + PORTION], room, kit)
    page, stands = Page(top), what_stands(top, crate, names, kit)
    is_tried = not any(page.lack(name, stands[name]) for name in stands)
    if is_tried:
        page.waiting.discard(crate)
    page.write()
    return is_tried and all(page.is_refused(name) for name in stands)


def main(words=None, top=TOP):
    parser = argparse.ArgumentParser(description=__doc__, formatter_class=argparse.RawDescriptionHelpFormatter)
    parser.add_argument("names", nargs="*", metavar="NAME", help="a crate; all that have inner edits, if none is named")
    parser.add_argument("--anew", action="store_true", help="tries each edit, also where it was tried on what stands")
    parser.add_argument("--together", action="store_true", help="tries edits of different functions in one check")
    parser.add_argument("--compare", action="store_true", help="tries none: compares the page with the sources")
    options = parser.parse_args(words)
    edits = inner_edits(top)
    for name in options.names:
        if name not in edits:
            parser.error(f"{name} is no crate with inner edits: {' '.join(edits)}")
    if options.compare:
        return compare(top, kit())
    signal.signal(signal.SIGTERM, lambda number, _: sys.exit(128 + number))
    with tempfile.TemporaryDirectory() as folder:
        room = pathlib.Path(folder, "copy")
        refused = [try_crate(top, name, edits[name], room, kit(), options.anew, options.together)
                   for name in options.names or edits]
    return 0 if all(refused) else 1


if __name__ == "__main__":
    sys.exit(main())
