#!/usr/bin/env python3
"""Tells what the gate costs, in minutes of a processor: by crate, and by what is done in it.

    proof    the proof of a crate
    tests    the proof of its tests, with the crate once more
    begun    the check that its must-fail edits begin with
    edits    the checks of those, one for each edit

`python3 bench/gate.py` runs `rt ci --anew` at the top of the repository, looks once a second at what the prover's
processes have used, and prints a table, the dearest crate first, and the dearest edits. What a check uses in its last
second is not in it. With words, `python3 bench/gate.py rt ci` say, these are run in its place. The status is that of
the run.

A check is dearer where others take the same processor: so nothing else should run beside it.
"""
import argparse
import collections
import os
import pathlib
import re
import subprocess
import sys
import threading

TOP = pathlib.Path(__file__).resolve().parent.parent
PROC = pathlib.Path("/proc")
TICKS = os.sysconf("SC_CLK_TCK")
KINDS = ["proof", "tests", "begun", "edits"]
# How often the processes are looked at, in seconds, and how many edits are told.
PAUSE, TOLD = 1, 12

Check = collections.namedtuple("Check", "crate kind edit")


def check_of(words, folder):
    """What a command of the prover checks, from its words and the folder that it runs in; None for another one."""
    name = re.search(r"--crate-name (\w+)", words)
    if name is None:
        return None
    begun = re.search(r"--incremental \S+/(\w+)(?: |$)", words)
    if "/rt-edit-" in folder:
        if begun is None:
            return Check(name[1], "edits", None)
        return Check(name[1], "edits", int(begun[1])) if begun[1].isdigit() else Check(name[1], "begun", None)
    return Check(name[1], "tests" if " --test" in words else "proof", None)


def fields_of(process):
    """What the system tells of a process in one line, from its state on."""
    return (process / "stat").read_text().rsplit(")", 1)[1].split()


def seconds_of(process):
    """The processor seconds that a process itself has used. What a check does in other processes is seen as theirs."""
    return sum(int(field) for field in fields_of(process)[11:13]) / TICKS


def is_of(process, first):
    """Whether a process is `first`, or one that this one began, or one that those began."""
    while process.name not in ("0", "1"):
        if process.name == str(first):
            return True
        process = PROC / fields_of(process)[1]
    return False


def provers(first):
    """The processes of the prover that `first` began, each with a name that no other one has, and what it checks."""
    for process in PROC.iterdir():
        if not process.name.isdigit():
            continue
        try:
            words = (process / "cmdline").read_bytes().replace(b"\0", b" ").decode(errors="replace")
            if words.split(" ", 1)[0].endswith("/rattle") and is_of(process, first):
                begun = fields_of(process)[19]
                yield process, (process.name, begun), check_of(words, os.readlink(process / "cwd"))
        except (OSError, IndexError):
            pass


class Used:
    """The seconds that each check has used, of those that a process began."""

    def __init__(self, first):
        self.first, self.checks, self.seconds = first, {}, {}

    def look(self):
        for process, name, check in provers(self.first):
            try:
                used = seconds_of(process)
            except (OSError, IndexError):
                continue
            if check is not None:
                self.checks[name] = check
                self.seconds[name] = max(used, self.seconds.get(name, 0))

    def by(self, key):
        found = collections.Counter()
        for name, check in self.checks.items():
            found[key(check)] += self.seconds[name]
        return found


def name_of(edit):
    """The name of an edit, which the gate numbers in the order of their names."""
    crate, number = edit
    names = sorted(path.stem for path in (TOP / "crates" / crate / "must-fail").glob("*.edit"))
    return f"{crate}/{names[number]}" if number < len(names) else f"{crate}/{number}"


def row(name, minutes):
    return f"{name:20}" + "".join(f"{minutes[kind]:8.1f}" for kind in KINDS) + f"{sum(minutes.values()):8.1f}"


def table(used):
    """The lines of the tables."""
    kinds = used.by(lambda check: (check.crate, check.kind))
    crates = collections.defaultdict(collections.Counter)
    for (crate, kind), seconds in kinds.items():
        crates[crate][kind] = seconds / 60
    yield f"{'minutes':20}" + "".join(f"{kind:>8}" for kind in KINDS) + f"{'sum':>8}"
    for crate in sorted(crates, key=lambda crate: -sum(crates[crate].values())):
        yield row(crate, crates[crate])
    yield row("all", sum(crates.values(), collections.Counter()))
    edits = used.by(lambda check: (check.crate, check.edit))
    dearest = [(seconds, edit) for edit, seconds in edits.items() if edit[1] is not None]
    for seconds, edit in sorted(dearest, reverse=True)[:TOLD]:
        yield f"{seconds / 60:8.1f}  {name_of(edit)}"


def main():
    parser = argparse.ArgumentParser(description=__doc__, formatter_class=argparse.RawDescriptionHelpFormatter)
    parser.add_argument("command", nargs=argparse.REMAINDER, help="what is run: rt ci --anew, if nothing is said")
    command = parser.parse_args().command or ["rt", "ci", "--anew"]
    used, done = Used(os.getpid()), threading.Event()

    def watch():
        while not done.wait(PAUSE):
            used.look()

    watching = threading.Thread(target=watch)
    watching.start()
    try:
        status = subprocess.run(command, cwd=TOP).returncode
    finally:
        done.set()
        watching.join()
    print("\n".join(table(used)))
    return status


if __name__ == "__main__":
    sys.exit(main())
