"""Runs border_edit to the ends that bench/edit_ends.txt lists, a line a run; its head says what a line means."""
import contextlib
import json
import os
import pathlib
import pty
import subprocess
import tempfile

TABLE = pathlib.Path(__file__).with_suffix(".txt")
# A map over the limit, of a size that no text file here should have.
LARGE, LARGE_SIZE = "large.json", 67_108_865
PROGRAM, MADE = "border_edit ", " => "
LIMIT = 60


def table():
    """The texts of files by name, and the runs: where their answers go, and their line."""
    files, runs, answers = {}, [], None
    for line in TABLE.read_text().splitlines():
        if line.startswith("file "):
            _, name, text = line.split(" ", 2)
            files[name] = json.loads(text)
        elif line.startswith("answers "):
            answers = line.split(" ", 1)[1]
        elif line.startswith(PROGRAM):
            runs.append((answers, line))
        elif line and not line.startswith("#"):
            raise ValueError(f"{TABLE.name}: {line}")
    return files, runs


def put_files(files, folder):
    for name, text in files.items():
        (folder / name).write_bytes(text.encode())
    with open(folder / LARGE, "wb") as large:
        large.truncate(LARGE_SIZE)


def sent_to(terminal):
    """What a terminal was sent, once nothing writes to it."""
    pieces = []
    with open(terminal, "rb", buffering=0) as sent, contextlib.suppress(OSError):  # the end is an error on Linux
        while piece := sent.read(1 << 16):
            pieces.append(piece)
    return b"".join(pieces).replace(b"\r\n", b"\n")


def ran(program, words, answers):
    """The status of a run, and what stands on standard error: on a terminal where progress is asked for."""
    with open(answers, "wb") as output:
        if "--progress" not in words:
            done = subprocess.run([program, *words], stdout=output, stderr=subprocess.PIPE, timeout=LIMIT)
            return done.returncode, done.stderr
        ours, theirs = pty.openpty()
        try:
            done = subprocess.run([program, *words], stdout=output, stderr=theirs, timeout=LIMIT)
        finally:
            os.close(theirs)
        return done.returncode, sent_to(ours)


def text_at(path):
    try:
        return pathlib.Path(path).read_bytes()
    except OSError:
        return None


def fault(program, files, answers, line):
    """What differs of a run, or None."""
    words, wanted = line.removeprefix(PROGRAM).split(MADE)
    with tempfile.TemporaryDirectory() as name:
        folder = pathlib.Path(name)
        put_files(files, folder)
        status, said = ran(program, words.replace("@", f"{name}/").split(" "), answers or folder / "answers")
        code, held, *lines = wanted.replace("@", f"{name}/").split(" ", 2)
        path, _, text = held.partition("=")
        if status != int(code):
            return f"status {status}, and not {code}"
        if said.decode() != "".join(lines).replace(";", "\n"):
            return f"on standard error {said.decode()!r}"
        if text_at(path) != (None if text == "no" else files[text].encode()):
            return f"{path} holds {text_at(path)!r:.80}, and not {text}"
    return None


def told(program):
    """Runs all lines, writes what differs, and counts the lines and those that differ."""
    files, runs = table()
    found = [(line, fault(program, files, answers, line)) for answers, line in runs]
    for line, what in found:
        if what:
            print(f"{line}: {what}")
    return len(found), sum(what is not None for _, what in found)
