"""Runs the parts of a test one after another, and sums what passed and failed.

What a part writes is passed on as it comes. Its last line is `N passed, M failed`. A part without such a line, or with
zeros there, has failed once, and so has one whose status says that it failed while its line does not.
"""
import os
import re
import subprocess
import sys

SUM = re.compile(rb"(\d+) passed, (\d+) failed\b.*")
# How much of the end of an output is kept to look for its last line.
KEPT = 4096


def passed_on(child):
    """Passes on what a child writes, at once, and gives its last line."""
    end = b""
    while piece := os.read(child.stdout.fileno(), 1 << 16):
        sys.stdout.buffer.write(piece)
        sys.stdout.flush()
        end = (end + piece)[-KEPT:]
    return end.rstrip(b"\n").rpartition(b"\n")[2]


def failed_once(words, why):
    print(f"{words[0]}: {why}", flush=True)
    return 0, 1


def count(words, folder, env=None):
    """How many cases of a part passed, and how many failed."""
    env = {**os.environ, "PYTHONUNBUFFERED": "1", **(env or {})}
    try:
        child = subprocess.Popen(words, cwd=folder, stdout=subprocess.PIPE, env=env)
    except OSError as error:
        return failed_once(words, f"it can't be started: {error.strerror}")
    try:
        last = passed_on(child)
    except BaseException:
        child.terminate()
        raise
    finally:
        status = child.wait()
    found = SUM.fullmatch(last)
    passed, failed = map(int, found.groups()) if found else (0, 0)
    if not passed and not failed:
        return failed_once(words, f"status {status}, and no last line that counts what passed and failed")
    return passed, failed or int(status != 0)


def told(counts):
    """Writes the sum of some counts, and gives the status that goes with it."""
    passed, failed = (sum(numbers) for numbers in zip(*counts))
    print(f"{passed} passed, {failed} failed", flush=True)
    return 1 if failed else 0
