#!/usr/bin/env python3
"""Fills a small file system, and has the built programs write FILE, FILE2, places and pictures on it.

The file system is a tmpfs that is mounted here, which only root may do; where it can't be mounted a line says that all was
skipped, and the status is 0. Each row is a program with what it writes there: over the map that it opened, over another
file, or as a new file; with no room at all, with room for a part of the text, and with room for the text beside the old
one. After a fault the status is 3, standard error has the line of the fault, and everything on the file system is as it
was, with nothing left beside it. With room the file holds the text.

There is one line for each run that differs, and one that counts; the status is 0 where none differs.
"""
import argparse
import collections
import contextlib
import pathlib
import signal
import subprocess
import sys
import tempfile

import maps
import running

TOP = pathlib.Path(__file__).resolve().parent.parent
SIZE, PAGE = 4 << 20, 4096
# Segments of the map, and features that lie over each other, so that there is much to mend and many places.
SEGMENTS, OVERLAPS = 4000, 1000
OLD = "what stood here before\n" * 100
LINES = 8000
# The sides of a square, which cross those of the next one, and the same with a vertex at each crossing, which opens.
LOOSE = "[15,0],[0,15],[-15,0],[0,-15]"
NODED = "[5,0],[10,0],[0,10],[0,5],[-5,0],[-10,0],[0,-10],[0,-5]"

# The program, its arguments, its status where all goes well, the line of the fault, and the name that is written.
Row = collections.namedtuple("Row", "what program words status fault name")
ROWS = [
    Row("FILE = MAP", "edit", "MAP script --out MAP", 0, "save fault", "map.json"),
    Row("FILE", "edit", "MAP script --out DISK/old", 0, "save fault", "old"),
    Row("a new FILE", "edit", "MAP script --out DISK/new", 0, "save fault", "new"),
    Row("FILE2", "edit", "MAP refused --out saved.json --refused DISK/old", 1, "refused fault", "old"),
    Row("a new FILE2", "edit", "MAP refused --out saved.json --refused DISK/new", 1, "refused fault", "new"),
    Row("FILE = MAP", "mend", "LOOSE --out LOOSE", 0, "save fault", "loose.json"),
    Row("FILE", "mend", "LOOSE --out DISK/old", 0, "save fault", "old"),
    Row("a new FILE", "mend", "LOOSE --out DISK/new", 0, "save fault", "new"),
    Row("places", "mend", "LOOSE --places DISK/old", 1, "save fault", "old"),
    Row("new places", "mend", "LOOSE --places DISK/new", 1, "save fault", "new"),
    Row("a picture", "show", "MAP --out DISK/old", 0, "save fault", "old"),
    Row("a new picture", "show", "MAP --out DISK/new", 0, "save fault", "new"),
    Row("a picture of an edit", "show", "MAP LOOSE --out DISK/old", 0, "save fault", "old"),
    Row("GeoJSON", "export", "MAP --out DISK/old", 0, "save fault", "old"),
    Row("new GeoJSON", "export", "MAP --out DISK/new", 0, "save fault", "new"),
    Row("places of faces", "cover", "NODED --places DISK/old", 1, "save fault", "old"),
    Row("new places of faces", "cover", "NODED --places DISK/new", 1, "save fault", "new"),
]


@contextlib.contextmanager
def mounted(folder):
    """Mounts a small file system, where that is allowed; why not, where it is not."""
    disk = folder / "disk"
    disk.mkdir()
    words = ["mount", "-t", "tmpfs", "-o", f"size={SIZE}", "tmpfs", disk]
    done = subprocess.run(words, stderr=subprocess.PIPE, text=True)
    if done.returncode:
        yield None, done.stderr.strip()
        return
    try:
        yield disk, None
    finally:
        subprocess.run(["umount", disk], check=True)


def square(number, steps):
    """A square that has a corner of the next one within it."""
    return f"[[{10 * number},{10 * number}],{steps}]"


def squares_map(steps):
    """A map of squares that lie over each other."""
    features = ",".join(f'{{"type":"Polygon","id":{n},"arcs":[[{n}]]}}' for n in range(OVERLAPS))
    arcs = ",".join(square(n, steps) for n in range(OVERLAPS))
    return ('{"type":"Topology","transform":{"scale":[1,1],"translate":[0,0]},"objects":{"squares":{"type":"GeometryCollection",'
            f'"geometries":[{features}]}}}},"arcs":[{arcs}]}}')


class Disk:
    """The file system, with the files of a run on it."""

    def __init__(self, disk, folder):
        self.disk, self.folder = disk, folder
        self.files = {
            "map.json": maps.made_map("bricks", SEGMENTS, 1).path.read_text(), "loose.json": squares_map(LOOSE),
            "noded.json": squares_map(NODED),
            "script": "delete 0\n", "refused": "move 1 1 2 2\n" * LINES, "old": OLD,
        }

    def put(self):
        for path in self.disk.iterdir():
            path.unlink()
        for name, text in self.files.items():
            (self.disk / name).write_text(text)

    def fill(self, room):
        """Leaves so many bytes free."""
        with open(self.disk / "ballast", "wb", buffering=0) as ballast:
            with contextlib.suppress(OSError):
                while ballast.write(bytes(PAGE)):
                    pass
            ballast.truncate(max(0, ballast.tell() - room))

    def found(self):
        return {path.name: path.read_bytes() for path in self.disk.iterdir()}

    def ran(self, programs, row):
        """The status of a run, and what it wrote on standard error."""
        names = {"MAP": self.disk / "map.json", "LOOSE": self.disk / "loose.json", "NODED": self.disk / "noded.json",
                 "script": self.disk / "script", "refused": self.disk / "refused"}
        words = [names.get(word, word.replace("DISK", str(self.disk))) for word in row.words.split()]
        how = {"cwd": self.folder, "stdin": subprocess.DEVNULL, "stdout": subprocess.DEVNULL, "stderr": subprocess.PIPE}
        done = subprocess.run([programs[row.program], *words], text=True, timeout=300, **how)
        return done.returncode, done.stderr


def wrong_text(found, before, name, text):
    """What differs of the files, where this one is to hold a text and the others what they held."""
    wanted = {**before, name: text}
    return [f"{other} differs" for other in sorted({*found, *wanted}) if found.get(other) != wanted.get(other)]


def full_faults(disk, programs, row, room):
    """What differs of a run that has too little room."""
    disk.put()
    disk.fill(room)
    before = disk.found()
    status, said = disk.ran(programs, row)
    found = disk.found()
    if (status, said) != (3, row.fault + "\n"):
        yield f"status {status}, and on standard error {said!r}"
    yield from (f"{name} differs" for name in sorted({*found, *before}) if found.get(name) != before.get(name))


def text_of(disk, programs, row):
    """What a run with much room writes, and what differs of it."""
    disk.put()
    before = disk.found()
    status, said = disk.ran(programs, row)
    found = disk.found()
    text = found.get(row.name, b"")
    faults = wrong_text(found, before, row.name, text)
    if (status, said) != (row.status, ""):
        faults.append(f"status {status}, and on standard error {said!r}")
    if text in (b"", before.get(row.name)):
        faults.append("nothing is written")
    return text, faults


def roomy_faults(disk, programs, row, text):
    """What differs of a run that has room for the text beside the old one, and a page more."""
    disk.put()
    disk.fill(len(text) + 2 * PAGE)
    before = disk.found()
    status, said = disk.ran(programs, row)
    if (status, said) != (row.status, ""):
        yield f"status {status}, and on standard error {said!r}"
    yield from wrong_text(disk.found(), before, row.name, text)


def runs_of(disk, programs, row):
    """Each run of a row, with what differs of it."""
    text, faults = text_of(disk, programs, row)
    yield "much room", faults
    yield "no room", list(full_faults(disk, programs, row, 0))
    if len(text) > 2 * PAGE:
        yield "room for a half", list(full_faults(disk, programs, row, len(text) // 2))
        yield "a page too few", list(full_faults(disk, programs, row, (len(text) - 1) // PAGE * PAGE))
    yield "room for all", list(roomy_faults(disk, programs, row, text))


def tried(disk, programs):
    """Runs all rows, writes what differs, and counts the runs and those that differ."""
    count = wrong = 0
    for row in ROWS:
        for room, faults in runs_of(disk, programs, row):
            count += 1
            wrong += bool(faults)
            if faults:
                print(f"border_{row.program}, {row.what}, {room}: {'; '.join(faults)}", flush=True)
    return count, wrong


def main():
    signal.signal(signal.SIGTERM, lambda number, _: sys.exit(128 + number))  # so that the file system is taken away
    words = argparse.ArgumentParser(description=__doc__, formatter_class=argparse.RawDescriptionHelpFormatter)
    running.add_programs(words, "edit", "show", "mend", "export", "cover")
    programs = vars(words.parse_args())
    with tempfile.TemporaryDirectory() as name:
        folder = pathlib.Path(name)
        with mounted(folder) as (disk, why):
            if not disk:
                print(f"all is skipped, since no file system can be mounted here: {why}")
                return 0
            count, wrong = tried(Disk(disk, folder), programs)
    print(f"{count} runs on a full file system, {wrong} differ")
    return 1 if wrong else 0


if __name__ == "__main__":
    sys.exit(main())
