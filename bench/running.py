"""Runs a program on scripts, whole or piece by piece, and takes its processor time and memory."""
import collections
import contextlib
import ctypes
import fcntl
import os
import pathlib
import re
import resource
import signal
import struct
import subprocess
import tempfile
import termios
import threading
import time

# What `./run` starts the program with, if the caller has not set it: the C library asks the system for large pages.
PAGES = {"GLIBC_TUNABLES": "glibc.malloc.hugetlb=1:glibc.malloc.mmap_threshold=33554432"}
# The processor that sessions run on, the program's and the reference's alike: one may be slower than another.
PROCESSOR = max(os.sched_getaffinity(0))
# How long to wait before asking again whether a program has read all that was written, in seconds.
PAUSE = 0.0005

TOP = pathlib.Path(__file__).resolve().parent.parent
PROGRAMS = {"edit": "border_edit", "show": "border_show", "mend": "border_mend", "export": "border_export", "cover": "border_cover"}

Run = collections.namedtuple("Run", "seconds status out err")
Count = collections.namedtuple("Count", "instructions misses")


class Failed(Exception):
    """A measure has no number, for this reason."""


def why(done):
    """The status of a run, and what it said first."""
    answers = [line for line in done.out.splitlines() if line.startswith(("refused", "bad line"))]
    said = (done.err.strip().splitlines() or answers or [f"{done.out.count(chr(10))} answers"])[0]
    return f"status {done.status} ({said[:100]})"


def add_programs(parser, *names):
    """Gives a script an option for each of these programs, which is where `rt ci` leaves it."""
    for name in names:
        built = TOP / "crates" / PROGRAMS[name] / "out" / PROGRAMS[name]
        what = f"the program {PROGRAMS[name]} (%(default)s)"
        parser.add_argument(f"--{name}", type=os.path.abspath, default=str(built), help=what)


# ---- what the system tells of a process

def high_water(pid):
    """The most memory in use so far of a process, in bytes; 0 once it has ended."""
    try:
        found = re.search(r"VmHWM:\s*(\d+) kB", pathlib.Path(f"/proc/{pid}/status").read_text())
        return 1024 * int(found[1]) if found else 0
    except OSError:
        return 0


def state(pid):
    """The letter of what a process does: S where it waits, for a script's next piece."""
    try:
        return pathlib.Path(f"/proc/{pid}/stat").read_text().rpartition(")")[2].split()[0]
    except OSError:
        return "Z"


def clock_of(pid):
    """The clock that tells a process's processor time."""
    clock = ctypes.c_int()
    if ctypes.CDLL(None).clock_getcpuclockid(pid, ctypes.byref(clock)):
        raise Failed("its processor time is not told")
    return clock.value


def unread(pipe):
    """How many bytes of what was written into a pipe were not read yet."""
    return struct.unpack("i", fcntl.ioctl(pipe, termios.FIONREAD, bytes(4)))[0]


def spent_by_children():
    """The processor time of all programs that were run and have ended."""
    used = resource.getrusage(resource.RUSAGE_CHILDREN)
    return used.ru_utime + used.ru_stime


# ---- runs

def opened_for(child, pipe):
    """The end of a pipe that a script is written into, once the program has opened the other one."""
    while child.poll() is None:
        try:
            to = os.open(pipe, os.O_WRONLY | os.O_NONBLOCK)
            os.set_blocking(to, True)
            return open(to, "wb", buffering=0)
        except OSError:  # the program has not opened it yet
            time.sleep(0.001)
    raise Failed(f"status {child.returncode} before the script was opened")


class Session:
    """A run whose script is written piece by piece. What was written has been answered once a call has returned. It keeps
    the pieces, the processor seconds of each, what was answered and saved at the end, and the reference's session, which
    is given each piece right behind it: so what else the machine does is the same for both."""

    def __init__(self, child, script):
        self.child, self.script, self.clock = child, script, clock_of(child.pid)
        self.pieces, self.spent, self.answers, self.saved, self.own = [], [], [], None, None
        self.write(["#"])

    def write(self, lines):
        """Writes lines, and waits until all were read and the program asks for more."""
        text = memoryview("".join(line + "\n" for line in lines).encode("ascii"))
        try:
            while text:
                text = text[self.script.write(text) :]
        except BrokenPipeError:
            raise Failed("the program ended before its script did") from None
        while unread(self.script) or state(self.child.pid) != "S":
            if self.child.poll() is not None:
                raise Failed("the program ended before its script did")
            time.sleep(PAUSE)

    def seconds(self, lines):
        """The processor seconds that these lines take by themselves."""
        start = time.clock_gettime(self.clock)
        self.write(lines)
        self.pieces.append(lines)
        self.spent.append(max(time.clock_gettime(self.clock) - start, 1e-9))
        if self.own:
            with contextlib.suppress(Failed):  # its end tells of it
                self.own.seconds(lines)
        return self.spent[-1]

    def peak(self):
        """The most memory in use so far."""
        return high_water(self.child.pid)


class Runner:
    """Runs a program on scripts."""

    def __init__(self, program, limit, folder, name="saved"):
        self.words, self.limit, self.folder = [program], limit, pathlib.Path(folder)
        self.saved = self.folder / f"{name}.json"

    def run(self, path, lines, *more):
        """Runs a script on a map."""
        script = self.folder / "script"
        script.write_text("".join(line + "\n" for line in lines), encoding="ascii")
        return self.ran(path, script, *more)

    def opened(self, path):
        """Runs a script that can't be read, so that nothing comes after opening."""
        done = self.ran(path, self.folder)
        if done.status != 3 or done.err.strip() != "script fault":
            raise Failed(why(done))
        return done

    def ran(self, path, script, *more):
        """Runs the program from its start to its end, and takes the processor seconds of the whole run."""
        start = spent_by_children()
        with tempfile.TemporaryDirectory(dir=self.folder) as own:
            with self.started(path, script, own, *more) as child:
                child.wait()
            return self.told(child, own, spent_by_children() - start)

    @contextlib.contextmanager
    def started(self, path, script, own, *more):
        """A run of the program, with what it writes in a folder of its own; it is ended when it lasts too long."""
        with open(f"{own}/out", "wb") as to, open(f"{own}/err", "wb") as errors:
            words = [*self.words, path, script, "--out", self.saved, *more]
            how = {"stdin": subprocess.DEVNULL, "stdout": to, "stderr": errors, "env": {**PAGES, **os.environ}}
            child = subprocess.Popen(words, **how)
            late = threading.Timer(self.limit, child.kill)
            late.start()
            try:
                yield child
            finally:
                child.wait()
                late.cancel()

    def told(self, child, own, seconds):
        """What a run that has ended wrote."""
        if child.returncode == -signal.SIGKILL:
            raise Failed(f"it was ended, perhaps since it ran over {self.limit} seconds")
        out, err = (pathlib.Path(own, name).read_text(errors="replace") for name in ("out", "err"))
        return Run(seconds, child.returncode, out, err)

    @contextlib.contextmanager
    def session(self, path, *more):
        """A run that is given its script piece by piece, and of which every line has to be accepted."""
        with tempfile.TemporaryDirectory(dir=self.folder) as own:
            pipe = f"{own}/pipe"
            os.mkfifo(pipe)
            with self.started(path, pipe, own, *more) as child, opened_for(child, pipe) as script:
                os.sched_setaffinity(child.pid, {PROCESSOR})
                session = Session(child, script)
                yield session
            done = self.told(child, own, 0)
        session.answers, session.saved = done.out.splitlines(), self.saved
        if done.status != 0 or done.err or len(session.answers) != sum(map(len, session.pieces)):
            raise Failed(why(done))

    def accepted(self, path, lines, *more):
        """Runs a script of which every line has to be accepted."""
        done = self.run(path, lines, *more)
        if done.status != 0 or done.err or done.out.count("\n") != len(lines):
            raise Failed(why(done))
        return done


class Counter(Runner):
    """Runs the program under valgrind, which counts its instructions, and what the processor's caches would miss."""

    def __init__(self, program, limit, folder):
        super().__init__(program, limit, folder)
        self.log = self.folder / "log"
        told = ["--cache-sim=yes", "--cachegrind-out-file=/dev/null", f"--log-file={self.log}"]
        self.words = ["valgrind", "--tool=cachegrind", *told, program]

    def last(self):
        """The instructions of the last run, and the misses of the last cache."""
        found = [re.search(said + r": +([0-9,]+)", self.log.read_text()) for said in (r"I +refs", r"LL misses")]
        if not all(found):
            raise Failed("valgrind counts no instructions")
        return Count(*(int(it[1].replace(",", "")) for it in found))
