#!/usr/bin/env python3
"""Mends maps with the built border_mend, and checks each mended map and its report beside the map as it was.

The maps are those that were mended by hand; those that are named, or real ones of this repository, each as it is, on
coarser grids and with fewer vertices, so that rings cross, repeat a position and collapse; and drawn ones. Of each

    border_mend ends with status 0 and writes nothing on standard error,
    the mended map, the report and the places are what bench/mended.py says that they have to be,
    border_edit opens the mended map, and saves the same bytes after an empty script,
    border_mend leaves the mended map as it is, and tells that it opens,
    where the map opened as it was, border_edit saves it as the bytes that it was mended to.

Before that the check itself is tried: it has to take the maps that were mended by hand, and to refuse each of them with a
mistake in it. With --damage each mended map that was drawn is given so many mistakes too, which have to be refused.

There is a line for each map with a name, one for each drawn map with a fault, and one that counts. The status is 0 where
nothing is wrong. A drawn map with a fault is left in bench/out.
"""
import argparse
import collections
import pathlib
import random
import re
import shutil
import subprocess
import tempfile
import time

import damaged
import loose_maps
from mended import check

TOP = pathlib.Path(__file__).resolve().parent.parent
FOLDERS = TOP / "examples", TOP / "crates/stored_runs/data"
MOST = "4000000"
# How many seconds a program may take.
LIMIT = 600
# How often each mistake is made in each map that was mended by hand.
TRIES = 5
COUNTED = re.compile(r"([a-z]+) ([0-9]+)")
UNTOUCHED = "opens\ncounts short 0 repeats 0 on 0 cross 0 paths 0 parts 0 areas 0\n"


class Failed(Exception):
    """How a program ended, where that is not well."""


class Programs:
    """The two programs, and a folder for their files."""

    def __init__(self, mend, edit, folder):
        self.mender, self.editor, self.folder = mend, edit, pathlib.Path(folder)
        self.script = self.file("script", b"")

    def file(self, name, content):
        path = self.folder / name
        path.write_bytes(content)
        return path

    def ran(self, program, words, out):
        """What a program writes to standard output, and what it saves."""
        if out not in words:
            out.unlink(missing_ok=True)
        done = subprocess.run([program, *words, "--out", out], capture_output=True, timeout=LIMIT)
        if done.returncode or done.stderr or not out.exists():
            why = done.stderr.decode(errors="replace").strip()[:300]
            raise Failed(f"{pathlib.Path(program).name} ends with status {done.returncode}: {why}")
        return done.stdout.decode(), out.read_bytes()

    def mend(self, path, out):
        return self.ran(self.mender, [path, "--most", MOST, "--places", self.folder / "places.json"], out)

    def edit(self, path):
        """What a map is saved as after an empty script."""
        return self.ran(self.editor, [path, self.script], self.folder / "edited.json")[1]

    def mended(self, text, in_place=False):
        """How a map is mended, and what is wrong with that; in place the map itself is written over."""
        path, out = self.file("map.json", text.encode()), self.file("mended.json", text.encode())
        report = saved = places = ""
        try:
            report, saved = self.mend(out if in_place else path, out)
            places = (self.folder / "places.json").read_text(encoding="utf-8")
            fault = check(text, saved.decode(), report, places) or self.unsettled(path, out, report, saved)
        except (Failed, ValueError, subprocess.TimeoutExpired) as why:
            fault = str(why)
        return damaged.Mended(text, saved and saved.decode(errors="replace"), report, places), fault

    def unsettled(self, path, out, report, saved):
        """Where a mended map does not open as what it is, or is not mended to itself; None where it is."""
        if self.edit(out) != saved:
            return "border_edit opens the mended map, and saves other bytes"
        if report.startswith("opens\n") and self.edit(path) != saved:
            return "the map opened, and border_edit saves it as other bytes"
        report, again = self.mend(out, self.folder / "again.json")
        return None if (report, again) == (UNTOUCHED, saved) else f"mended again it changes, or is told to: {report[:200]}"


# ---- the check itself

def mistakes_in(draw, mended, names):
    """Those of some mistakes that could be made in a mended map, and those of them that the check takes."""
    made, taken = [], []
    for name in names:
        changed = damaged.MISTAKES[name](draw, mended)
        if changed and changed != mended:
            made.append(name)
            taken += [name] if check(*changed) is None else []
    return made, taken


def trial_of_check(seed):
    """What is wrong with the check: a map mended by hand that it refuses, a mistake that it takes or that was not made."""
    faults, made, draw = [], [], random.Random(seed)
    for name, mended in damaged.worked_maps():
        fault = check(*mended)
        more, taken = mistakes_in(draw, mended, TRIES * list(damaged.MISTAKES))
        faults += [f"{name}: {fault}"] * bool(fault) + [f"{name}: {it} is not refused" for it in taken]
        made += more
    faults += [f"{name} was never made" for name in damaged.MISTAKES if name not in made]
    print(f"the check: {len(made)} mistakes of {len({*made})} kinds in maps mended by hand, {len(faults)} faults", flush=True)
    return faults


# ---- maps

def maps_here():
    """The maps of this repository, those of one name once."""
    return list({path.name: path for folder in FOLDERS for path in sorted(folder.glob("*.json"))}.values())


def named_maps(paths):
    """The maps that were mended by hand, those that are hard to mend, and these in each form, with their names."""
    for name, mended in damaged.worked_maps():
        yield name, mended.old
    for name, rings in loose_maps.KNOTS.items():
        yield name, loose_maps.plain(rings)
    for path in paths:
        text = path.read_text(encoding="utf-8")
        for form, made in loose_maps.FORMS.items():
            yield f"{path.name}, {form}", made(text)


def mended_maps(programs, maps):
    """A line for each map with a name; the faults and the reports."""
    faults, reports = [], []
    for name, text in maps:
        start = time.perf_counter()
        mended, fault = programs.mended(text)
        counts = (mended.report.splitlines() or ["no report"])[-1]
        print(f"{name}: {counts}: {fault or 'as it must be'} ({time.perf_counter() - start:.1f} s)", flush=True)
        faults += [fault] if fault else []
        reports.append(mended.report)
    return faults, reports


def drawn_map(programs, seed, number, mistakes):
    """What is wrong with a drawn map, its report, and how many mistakes were made in it."""
    draw = random.Random(f"{seed} {number}")
    text = loose_maps.drawn(draw)
    (mended, fault), made = programs.mended(text, in_place=number % 2 == 1), []
    faults = [fault] if fault else []
    if mistakes and not fault:
        made, taken = mistakes_in(draw, mended, draw.choices(list(damaged.MISTAKES), k=mistakes))
        faults = [f"{name} is not refused" for name in taken]
    if faults:
        kept = TOP / "bench/out" / f"drawn-{seed}-{number}.json"
        kept.parent.mkdir(exist_ok=True)
        kept.write_text(text, encoding="utf-8")
        print(f"drawn {number}: {faults[0]}; the map is {kept}", flush=True)
    return faults, mended.report, len(made)


def drawn_maps(programs, count, seed, mistakes):
    """The same of drawn maps, and how many mistakes were made in them."""
    done = [drawn_map(programs, seed, number, mistakes) for number in range(count)]
    return [fault for faults, _, _ in done for fault in faults], [report for _, report, _ in done], sum(it[2] for it in done)


def counted(reports):
    """How many maps opened, and the counts of all reports added."""
    added = collections.Counter()
    for report in reports:
        found = COUNTED.findall(report.rpartition("counts ")[2])
        added.update({name: int(number) for name, number in found})
    opened = sum(report.startswith("opens\n") for report in reports)
    return f"{len(reports)} maps, {opened} of which open; " + " ".join(f"{name} {number}" for name, number in added.items())


def main():
    words = argparse.ArgumentParser(description=__doc__, formatter_class=argparse.RawDescriptionHelpFormatter)
    words.add_argument("map", nargs="*", type=pathlib.Path, help="real maps; those of this repository where none is named")
    words.add_argument("--program", default=TOP / "crates/border_mend/out/border_mend", help="the mender (%(default)s)")
    words.add_argument("--edit", default=TOP / "crates/border_edit/out/border_edit", help="the editor (%(default)s)")
    words.add_argument("--drawn", type=int, default=1000, help="how many maps are drawn (%(default)s)")
    words.add_argument("--seed", type=int, default=1, help="what they are drawn from (%(default)s)")
    words.add_argument("--damage", type=int, default=0, help="how many mistakes are made in each drawn map (%(default)s)")
    given = words.parse_args()
    for program in (given.program, given.edit):
        if not shutil.which(program):
            words.error(f"{program} is not there")
    faults = trial_of_check(given.seed)
    for fault in faults:
        print(fault)
    with tempfile.TemporaryDirectory() as folder:
        programs = Programs(given.program, given.edit, folder)
        named, reports = mended_maps(programs, named_maps(given.map or maps_here()))
        drawn, more, made = drawn_maps(programs, given.drawn, given.seed, given.damage)
    faults += named + drawn
    print(f"{counted(reports + more)}; {made} mistakes in drawn maps; {len(faults)} faults")
    return 1 if faults else 0


if __name__ == "__main__":
    raise SystemExit(main())
