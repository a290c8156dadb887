#!/usr/bin/env python3
"""Drives the built program border_edit line by line, and times each answer; and runs the example of docs/DRIVING.md.

The program is given its script through a pipe, and each line is written only once the line before it was answered. On maps
of some 10^3 and 10^6 vertices a hundred lines of each kind are timed, from writing the line to having its answer. There
is one line for each with the median and the 99th percentile of these, in milliseconds. Each kind is timed several times,
and the best median is told, since other work on the machine only adds to it.

    move      a vertex by one unit, and back
    area      the area of a feature
    at        what is at a position

The example has to print what its page says. The status is 1 where a line has no answer, or another one than it has to
have, where a median is over 0.2 ms, or where the example prints something else.
"""
import argparse
import contextlib
import itertools
import json
import os
import pathlib
import re
import select
import statistics
import subprocess
import sys
import tempfile
import time

import maps
import running

TOP = pathlib.Path(__file__).resolve().parent.parent
PAGE = TOP / "docs/DRIVING.md"
SIZES = [1000, 1_000_000]
TIMED, WARM, ROUNDS = 100, 20, 5
# The most that a median may be, in milliseconds, and how many seconds an answer may take at the most.
BAR, LATE = 0.2, 10
OPENING = 300


class Failed(Exception):
    """Why a session could not go on."""


class Session:
    """A running program that is given lines and gives answers."""

    def __init__(self, child):
        self.child, self.kept = child, b""
        self.to, self.answers = child.stdin.fileno(), child.stdout.fileno()

    def ask(self, line, late=LATE):
        """The answer to a line."""
        os.write(self.to, line.encode() + b"\n")
        while b"\n" not in self.kept:
            if not select.select([self.answers], [], [], late)[0]:
                raise Failed(f"`{line}` had no answer in {late} seconds")
            piece = os.read(self.answers, 1 << 16)
            if not piece:
                raise Failed(f"the program ended with status {self.child.wait()}: {self.child.stderr.read().decode()}")
            self.kept += piece
        answer, _, self.kept = self.kept.partition(b"\n")
        return answer.decode()

    def seconds(self, line, wanted):
        """How long a line takes that has to have this answer."""
        start = time.perf_counter()
        answer = self.ask(line)
        spent = time.perf_counter() - start
        if not re.fullmatch(wanted, answer):
            raise Failed(f"`{line}` was answered `{answer}`")
        return spent


@contextlib.contextmanager
def session(program, path, folder):
    """A session on a map. A program that does not end by itself is ended."""
    words = [program, path, "-", "--out", folder / "saved.json"]
    env = {**running.PAGES, **os.environ}
    pipes = {"stdin": subprocess.PIPE, "stdout": subprocess.PIPE, "stderr": subprocess.PIPE}
    child = subprocess.Popen(words, bufsize=0, env=env, **pipes)
    try:
        yield Session(child)
        child.stdin.close()
        if child.wait(OPENING):
            raise Failed(f"the program ended with status {child.returncode}: {child.stderr.read().decode()}")
    finally:
        child.kill()
        child.wait()


def lines_of(path):
    """For each kind lines without end, each with what its answer has to be. The vertex that is moved is the least of the
    map, so one unit further out it is off all else."""
    made = json.loads(path.read_text())
    places = (itertools.accumulate(map(tuple, arc), lambda p, q: (p[0] + q[0], p[1] + q[1])) for arc in made["arcs"])
    x, y = min(itertools.chain.from_iterable(places))
    there, back = f"move {x} {y} {x - 1} {y}", f"move {x - 1} {y} {x} {y}"
    return {
        "move": itertools.cycle([(there, "ok"), (back, "ok")]),
        "area": itertools.cycle([("area 0", r"[0-9]+")]),
        "at": itertools.cycle([(f"at {x} {y}", r"inside: border:( [0-9]+)+")]),
    }


def latencies(run, lines):
    """The milliseconds of the lines of a kind, several times a hundred."""
    for line, wanted in itertools.islice(lines, WARM):
        run.seconds(line, wanted)
    for _ in range(ROUNDS):
        yield sorted(1000 * run.seconds(line, wanted) for line, wanted in itertools.islice(lines, TIMED))


def timed(program, size, folder):
    """Times all kinds of lines on a map, and counts those that are over the bar."""
    path, over = maps.made_map("bricks", size, 1).path, 0
    with session(program, path, folder) as run:
        print(f"bricks-{size}: {run.ask('count', OPENING)}", flush=True)
        for kind, lines in lines_of(path).items():
            best = min(latencies(run, lines), key=statistics.median)
            median, late = statistics.median(best), best[int(0.99 * TIMED) - 1]
            over += median >= BAR
            bar = ", which is too much" if median >= BAR else ""
            print(f"    {kind:5} median {median:.3f} ms, 99th percentile {late:.3f} ms{bar}", flush=True)
    return over


# ---- the example

def blocks(kind):
    """The blocks of code of a kind in the page of the example."""
    return re.findall(rf"^```{kind}\n(.*?)^```$", PAGE.read_text(), re.M | re.S)


def example_fault(program, folder):
    """What the example of docs/DRIVING.md prints wrongly, or None. It calls ./run, which is the program here."""
    (folder / "run").symlink_to(program)
    (folder / "examples").symlink_to(TOP / "examples")
    (code,), (wanted,) = blocks("python"), blocks("text")
    (folder / "example.py").write_text(code)
    done = subprocess.run([sys.executable, "example.py"], cwd=folder, capture_output=True, text=True, timeout=60)
    if (done.returncode, done.stdout, done.stderr) != (0, wanted, ""):
        return f"status {done.returncode}, {done.stdout!r}: {done.stderr}"
    return None


def main():
    words = argparse.ArgumentParser(description=__doc__, formatter_class=argparse.RawDescriptionHelpFormatter)
    running.add_programs(words, "edit")
    words.add_argument("--sizes", type=int, nargs="+", default=SIZES, help="about how many vertices maps have (%(default)s)")
    options = words.parse_args()
    with tempfile.TemporaryDirectory() as name:
        folder = pathlib.Path(name)
        try:
            over = sum([timed(options.edit, size, folder) for size in options.sizes])
            fault = example_fault(options.edit, folder)
        except (Failed, subprocess.TimeoutExpired) as why:
            print(why)
            return 1
    print(f"the example of {PAGE.name}: {fault or 'as its page says'}")
    return 1 if over or fault else 0


if __name__ == "__main__":
    sys.exit(main())
