#!/usr/bin/env python3
"""Kills the built programs border_edit and border_export while they write 40 MB, and looks what is left.

The map is made here: a partition whose features have long properties, so that it is large and soon opened. border_edit saves
it over itself, border_export as GeoJSON over another text. An undisturbed run tells what the new text is, and how long its
parts take. Then each run begins with the old text as FILE, and is killed: most runs at a moment drawn from the time in which
FILE is written, which begins once something in its folder changes, and some at a moment drawn from the whole run. FILE has
to be the old text or the new one, whole. What stands beside it is counted and removed; its name has to have FILE's name in
it, and that of the repository.

The last line of each program counts how the runs ended. The status is 1 where a text was lost, where something beside FILE
does not say whose it is, or where no run was killed while it wrote, so that nothing was tried.
"""
import argparse
import collections
import json
import os
import pathlib
import random
import subprocess
import sys
import tempfile
import time

import maps
import running

# Segments of the map, and what is put into its features.
SEGMENTS = 20_000
MEGABYTE = 1_000_000
# Which share of the runs is killed at a moment of the whole run.
ANYWHERE = 0.1
# How long to wait before the folder is looked at again, and how long for a run to begin writing, in seconds.
PAUSE, LATE = 0.0002, 120
SCRIPT = "delete 0\n"

Times = collections.namedtuple("Times", "begins ends")


def make_map(path, size):
    """A map of about so many bytes."""
    made = json.loads(maps.made_map("bricks", SEGMENTS, 1).path.read_text())
    features = made["objects"]["cells"]["geometries"]
    text = "x" * (size // len(features))
    for feature in features:
        feature["properties"] = {"text": text}
    path.write_text(json.dumps(made, separators=(",", ":")), encoding="ascii")


class Place:
    """The folder of FILE, the text that FILE has before, and the program and its arguments that write it."""

    def __init__(self, file, old, words):
        self.folder, self.file, self.old, self.words = file.parent, file, old, words
        self.folder.mkdir()
        self.put_old()

    def put_old(self):
        self.file.write_bytes(self.old)
        self.first = self.signs()

    def signs(self):
        """What changes in the folder once FILE is written."""
        found = self.file.stat()
        return os.listdir(self.folder), found.st_ino, found.st_size

    def started(self):
        return subprocess.Popen(self.words, stdin=subprocess.DEVNULL, stdout=subprocess.DEVNULL, stderr=subprocess.PIPE)

    def has_begun(self, child):
        """Waits until FILE is being written, and answers whether it was before the program ended."""
        late = time.perf_counter() + LATE
        while child.poll() is None and time.perf_counter() < late:
            if self.signs() != self.first:
                return True
            time.sleep(PAUSE)
        return False

    def times(self):
        """How many seconds an undisturbed run takes until it writes FILE, and until it has ended."""
        start = time.perf_counter()
        child = self.started()
        self.has_begun(child)
        begins = time.perf_counter() - start
        _, said = child.communicate()
        if child.returncode or said:
            raise SystemExit(f"the program ended with status {child.returncode}: {said.decode()}")
        return Times(begins, time.perf_counter() - start)

    def killed(self, draw, times):
        """Kills a run, and answers how: while it wrote FILE, or anywhere."""
        child = self.started()
        if draw.random() < ANYWHERE:
            time.sleep(draw.uniform(0, times.ends))
        elif self.has_begun(child):
            time.sleep(draw.uniform(0, 1.1 * (times.ends - times.begins)))
        child.kill()
        child.communicate()

    def left(self):
        """What stands beside FILE; it is removed."""
        names = [name for name in os.listdir(self.folder) if name != self.file.name]
        for name in names:
            (self.folder / name).unlink()
        return names


def text_left(text, old, new):
    """Which text FILE has after a run that was killed."""
    if text in (old, new):
        return "old" if text == old else "new"
    if not text:
        return "empty"
    return "a part" if new.startswith(text) or old.startswith(text) else "another text"


def is_named(name, file):
    return file.name in name and "border_edit" in name


def kill_all(place, new, runs, draw, times):
    """How many runs left each kind of text, and how often each name stood beside it."""
    found, beside = collections.Counter(), collections.Counter()
    for number in range(1, runs + 1):
        place.killed(draw, times)
        text, names = place.file.read_bytes(), place.left()
        kind = text_left(text, place.old, new)
        found[kind] += 1
        beside.update(names)
        if kind not in ("old", "new"):
            print(f"run {number}: FILE is {kind}, {len(text)} bytes", flush=True)
        if kind != "old":
            place.put_old()
    return found, beside


def told(found, beside, runs, file):
    """Says how the runs ended, and answers the status."""
    lost = runs - found["old"] - found["new"]
    strange = [name for name in beside if not is_named(name, file)]
    for name, count in beside.items():
        print(f"{count} runs left {name} beside FILE" + (", which does not say whose it is" if name in strange else ""))
    if not beside and not lost:
        print("no run was killed while it wrote FILE: nothing was tried")
    print(f"{runs} runs killed: {found['old']} left the old text, {found['new']} the new one, {lost} neither")
    return 1 if lost or strange or not beside else 0


def places(options, folder):
    """What each program writes over."""
    made, script = folder / "made.json", folder / "script.txt"
    make_map(made, options.megabytes * MEGABYTE)
    script.write_text(SCRIPT)
    old, file = made.read_bytes(), folder / "maps/map.json"
    yield Place(file, old, [options.edit, file, script, "--out", file])
    file = folder / "areas/areas.geojson"
    yield Place(file, old, [options.export, made, "--out", file])


def tried(place, options):
    """Kills one program, and answers the status."""
    times, new = place.times(), place.file.read_bytes()
    if new == place.old or place.left():
        raise SystemExit("an undisturbed run does not replace FILE, and nothing else")
    size = f"{len(new) / MEGABYTE:.1f} MB"
    print(f"{pathlib.Path(place.words[0]).name}: {size}, FILE is written from {times.begins:.2f} to {times.ends:.2f} s", flush=True)
    place.put_old()
    found, beside = kill_all(place, new, options.runs, random.Random(options.seed), times)
    return told(found, beside, options.runs, place.file)


def main():
    words = argparse.ArgumentParser(description=__doc__, formatter_class=argparse.RawDescriptionHelpFormatter)
    running.add_programs(words, "edit", "export")
    words.add_argument("--runs", type=int, default=200, help="how many runs of each program are killed (%(default)s)")
    words.add_argument("--megabytes", type=int, default=40, help="the size of the map (%(default)s)")
    words.add_argument("--seed", type=int, default=1, help="what the moments are drawn from (%(default)s)")
    words.add_argument("--folder", type=pathlib.Path, default=maps.MADE, help="on which file system (%(default)s)")
    options = words.parse_args()
    options.folder.mkdir(parents=True, exist_ok=True)
    with tempfile.TemporaryDirectory(dir=options.folder) as name:
        return max([tried(place, options) for place in places(options, pathlib.Path(name))])


if __name__ == "__main__":
    sys.exit(main())
