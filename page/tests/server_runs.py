"""Running ./edit, and asking it as a browser does."""
import contextlib
import http.client
import json
import os
import pathlib
import select
import signal
import subprocess
import sys
import tempfile
import time
import urllib.parse

TESTS = pathlib.Path(__file__).resolve().parent
PAGE = TESTS.parent
TOP = PAGE.parent
EDIT = TOP / "edit"
sys.path[:0] = [str(PAGE), str(PAGE / "server")]

import programs

NAMES = ("border_edit", "border_show", "border_mend", "border_export", "border_cover")
PATHS = {name: os.path.abspath(programs.find(name)[0]) for name in NAMES}
# Seconds that a request, or the start of a server, may take on a busy machine.
PATIENCE = 60


def environment(**more):
    """The environment of a server, which finds the programs that are tested here, and this Python."""
    path = os.pathsep.join([os.path.dirname(sys.executable), os.environ["PATH"]])
    given = {"PATH": path, **{name.upper(): path for name, path in PATHS.items()}, **more}
    return {**os.environ, **{name: str(value) for name, value in given.items()}}


@contextlib.contextmanager
def folder():
    """A folder for the files of a group."""
    with tempfile.TemporaryDirectory(prefix="test_server-") as name:
        yield pathlib.Path(name).resolve()


def run(name, *arguments):
    """One of the programs, run to its end."""
    return subprocess.run([PATHS[name], *map(str, arguments)], capture_output=True)


class Served:
    """A running ./edit, with its files in a folder."""

    def __init__(self, map_path, *arguments, **more):
        command = [EDIT, map_path, *map(str, arguments)]
        if not more.pop("opens_browser", False):
            command.append("--no-open")
        self.process = subprocess.Popen(command, stdout=subprocess.PIPE, stderr=subprocess.PIPE,
                                        env=environment(**more))
        self.owner = 0
        if not select.select([self.process.stdout], [], [], PATIENCE)[0]:
            self.process.kill()
        line = self.process.stdout.readline().decode().strip()
        if not line:
            raise AssertionError(f"no server: {self.process.stderr.read().decode()}")
        self.address = urllib.parse.urlsplit(line)
        self.port, self.base = self.address.port, self.address.path

    def __enter__(self):
        return self

    def __exit__(self, *_):
        # it removes what it keeps meanwhile
        if self.process.poll() is None:
            self.process.terminate()
        try:
            self.process.communicate(timeout=PATIENCE)
        except subprocess.TimeoutExpired:
            self.process.kill()
            self.process.communicate()

    def ask(self, method, path, body=None, **headers):
        """A request as it is given: status, text, and the answer itself. A header that is None is left out."""
        given = {"Host": f"127.0.0.1:{self.port}", **{name.replace("_", "-"): value for name,
                                                      value in headers.items()}}
        if body is not None:
            given.setdefault("Content-Type", "application/json")
            given.setdefault("Content-Length", str(len(body)))
        connection = http.client.HTTPConnection("127.0.0.1", self.port, timeout=PATIENCE)
        connection.putrequest(method, path, skip_host=True, skip_accept_encoding=True)
        for name, value in given.items():
            if value is not None:
                connection.putheader(name, value)
        connection.endheaders(body)
        answer = connection.getresponse()
        text = answer.read()
        connection.close()
        return answer.status, text, answer

    def get(self, name):
        """Status and text of a name below the token."""
        return self.ask("GET", self.base + name)[:2]

    def post(self, name, **given):
        """Status and answer of a request of the page that began last."""
        status, text, _ = self.ask("POST", self.base + name, json.dumps({"owner": self.owner, **given}).encode())
        return status, json.loads(text)

    def begin(self):
        """Loads the page: what it is answered."""
        _, said = self.post("begin")
        self.owner = said["owner"]
        return said

    def edit(self, *lines, act=1):
        """The answers to lines that edit, and whether they were accepted."""
        status, said = self.post("edit", act=act, lines=list(lines))
        return (said["answers"], said["accepted"]) if status == 200 else (status, said)

    def questions(self, *lines):
        """The answers to questions."""
        return self.post("ask", lines=list(lines))[1].get("answers")

    def children(self):
        """The numbers of the processes that the server has started, and that run."""
        return [int(path.parent.name) for path in pathlib.Path("/proc").glob("[0-9]*/stat")
                if parent_of(path) == self.process.pid]

    def has_ended(self, seconds):
        """Whether the server ends within some seconds."""
        with contextlib.suppress(subprocess.TimeoutExpired):
            self.process.wait(seconds)
        return self.process.poll() is not None

    def stop(self, sign=signal.SIGTERM):
        """Stops the server: its status, and what it left on standard error."""
        self.process.send_signal(sign)
        _, said = self.process.communicate(timeout=PATIENCE)
        return self.process.returncode, said.decode()


def parent_of(path):
    """The number of the process that started one; nothing where it is gone, or has ended."""
    try:
        state, parent = path.read_text().rpartition(")")[2].split()[:2]
    except OSError:
        return None
    return int(parent) if state != "Z" else None


def until(holds, seconds=PATIENCE):
    """Waits until something holds; whether it does."""
    end = time.monotonic() + seconds
    while not (does := holds()) and time.monotonic() < end:
        time.sleep(0.02)
    return bool(does)
