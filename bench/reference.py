"""Builds the reference, a plain C++ program for the same work, and runs it on what the program was given.

The reference (bench/reference) opens maps with all tests, answers all lines, and saves; its faults of opening have no
places. It is a yardstick for speed, and has to give the same answers and to save the same text: where it does not, the
one or the other is wrong.
"""
import contextlib
import filecmp
import pathlib
import shutil
import subprocess

from running import Failed, Runner, why

TOP = pathlib.Path(__file__).resolve().parent.parent
SOURCES = TOP / "bench" / "reference"
BUILT = TOP / "bench" / "out" / "reference"
COMPILER = ["g++", "-std=c++17", "-O2", "-static-pie", "-Wall", "-Wextra"]


def built():
    """The reference's executable, made anew where a source is newer; None, and why in a line, where it can't be made."""
    if not shutil.which(COMPILER[0]):
        print(f"{COMPILER[0]} is not there: no reference is built, and no ratio is told")
        return None
    sources = [*SOURCES.glob("*.h"), *SOURCES.glob("*.cpp")]
    if BUILT.is_file() and all(it.stat().st_mtime < BUILT.stat().st_mtime for it in sources):
        return BUILT
    BUILT.parent.mkdir(parents=True, exist_ok=True)
    done = subprocess.run([*COMPILER, "-o", BUILT, SOURCES / "main.cpp"], capture_output=True, text=True)
    if done.returncode:
        print(f"the reference does not compile, and no ratio is told: {done.stderr.strip()[:200]}")
        return None
    return BUILT


class Reference(Runner):
    """Runs the reference on what the program was given, and keeps what differs."""

    def __init__(self, program, limit, folder):
        super().__init__(program, limit, folder, "reference")
        self.scripts = self.answers = 0
        self.differing = []

    @contextlib.contextmanager
    def beside(self, path, session, *more):
        """A session of the reference that is given what one of the program is given, and ends before that; the program's
        has none where it fails."""
        with contextlib.ExitStack() as at_end:
            try:
                session.own = at_end.enter_context(self.session(path, *more))
            except Failed as reason:
                self.differing.append(str(reason))
            yield
            try:
                at_end.close()
            except Failed as reason:
                self.differing.append(str(reason))
                session.own = None

    def compare_ended(self, session):
        """Keeps what differs between a session of the program and the reference's, once both have ended."""
        if session.own:
            lines = [line for piece in session.pieces for line in piece]
            self.compare(lines, session.answers, session.own.answers, session.saved)

    def tried(self, take):
        """The seconds that `take` gives of the reference; no time where it fails."""
        try:
            return take(self)
        except Failed as reason:
            self.differing.append(str(reason))
            return float("inf")

    def run_too(self, path, lines, done, saved):
        """Runs a script of the program, some lines of which may be refused, and compares what came of it."""
        own = self.run(path, lines)
        if own.status not in (0, 1):
            self.differing.append(f"the reference ended with {why(own)}")
        else:
            self.compare(lines, done.out.splitlines(), own.out.splitlines(), saved)

    def compare(self, lines, answers, own, saved):
        """Keeps what differs of the answers to these lines, and of the maps saved after them."""
        self.scripts += 1
        self.answers += len(answers)
        differs = next((n for n, (a, b) in enumerate(zip(answers, own)) if a != b), None)
        if differs is not None:
            told = f"{answers[differs]!r:.200}, and by the reference {own[differs]!r:.200}"
            self.differing.append(f"{lines[differs]!r}: {told}")
        elif len(answers) != len(own):
            self.differing.append(f"{len(answers)} answers, and by the reference {len(own)}")
        elif not filecmp.cmp(saved, self.saved, shallow=False):
            self.differing.append(f"after {len(lines)} lines the saved map differs")

    def said(self):
        """What came of comparing since this was asked last."""
        told = f"{self.answers} answers of {self.scripts} scripts, and the maps saved after them, are the same"
        if self.differing:
            told = f"they DIFFER in {len(self.differing)} scripts, of which the first: {self.differing[0]}"
        self.scripts = self.answers = 0
        self.differing = []
        return told
