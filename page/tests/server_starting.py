"""The arguments of ./edit, what it says of files, and how the browser finds the page."""
import concurrent.futures
import os
import pathlib
import shutil
import signal
import socket
import stat
import subprocess
import time
from unittest import mock

from server_maps import SQUARES
from server_runs import EDIT, PATIENCE, Served, environment, folder, until

import asked
from session import MOST_BYTES

# Arguments, the status, and the last line on standard error. {here} is the folder, {port} a port that is taken.
ENDS = [
    ([], 64, "edit: the following arguments are required: MAP"),
    (["map.json", "--port", "x"], 64,
     "edit: argument --port: a port is from 1024 to 65535, or 0 for any that is free"),
    (["map.json", "--port", "80"], 64,
     "edit: argument --port: a port is from 1024 to 65535, or 0 for any that is free"),
    (["map.json", "--port", "65536"], 64,
     "edit: argument --port: a port is from 1024 to 65535, or 0 for any that is free"),
    (["map.json", "--port", "-1"], 64,
     "edit: argument --port: a port is from 1024 to 65535, or 0 for any that is free"),
    (["map.json", "--port"], 64, "edit: argument --port: expected one argument"),
    (["map.json", "--out"], 64, "edit: argument --out: expected one argument"),
    (["map.json", "--no"], 64, "edit: unrecognized arguments: --no"),
    (["map.json", "edits.txt"], 64, "edit: unrecognized arguments: edits.txt"),
    (["none.json"], 3, "edit: there is no file none.json"),
    (["none/map.json"], 3, "edit: there is no file none/map.json"),
    (["map.json/map.json"], 3, "edit: there is no file map.json/map.json"),
    (["loop.json"], 3, "edit: there is no file loop.json"),
    (["a\nb.json"], 3, "edit: there is no file a?b.json"),
    (["."], 3, "edit: . is no file"),
    (["/dev/null"], 3, "edit: /dev/null is no file"),
    (["map.json", "--out", "none/out.json"], 3, "edit: there is no folder {here}/none"),
    (["map.json", "--out", "map.json/out.json"], 3, "edit: there is no folder {here}/map.json"),
    (["map.json", "--out", "."], 3, "edit: {here} is no file"),
    (["map.json", "--out", "/dev/null"], 3, "edit: /dev/null is no file"),
    (["map.json", "--port", "{port}"], 3, "edit: port {port}: Address already in use"),
]
BROWSER = """#!/bin/sh
# what a browser is given, what its file is, and who may read it
printf '%s\\n' "$*" > "$0.arguments"
cp "${1#file://}" "$0.page"
stat -c '%a' "${1#file://}" > "$0.mode"
"""


def ends(checks):
    """Arguments and files that do not do: one line says why, and the status is that of the programs."""
    with folder() as files, socket.create_server(("127.0.0.1", 0)) as taken:
        (files / "map.json").write_text(SQUARES)
        (files / "loop.json").symlink_to("loop.json")
        (files / "tmp").mkdir()
        fill = {"here": files, "port": taken.getsockname()[1]}
        with concurrent.futures.ThreadPoolExecutor(4) as at_once:
            done = list(at_once.map(lambda row: run_edit(files, *[word.format(**fill) for word in row[0]],
                                                         TMPDIR=files / "tmp"), ENDS))
        for (arguments, status, line), end in zip(ENDS, done):
            said = end.stderr.decode().splitlines()
            checks.same(f"edit {arguments}", (end.returncode, end.stdout, said[-1:]),
                        (status, b"", [line.format(**fill)]))
            checks.same("one line, but for the usage", len(said) == 1, status == 3)
        checks.same("nothing is left", list((files / "tmp").iterdir()), [])


# Arguments, and what they say: MAP, FILE, the port, and whether no browser is opened; or the status that they end with.
READ = [
    (["m"], ("m", None, 0, False)), (["m", "--no-open"], ("m", None, 0, True)), (["--no-open", "m"], ("m", None, 0, True)),
    (["m", "--out", "o"], ("m", "o", 0, False)), (["--out", "o", "--port", "0", "m"], ("m", "o", 0, False)),
    (["m", "--port", "1024"], ("m", None, 1024, False)),
    (["m", "--port", "65535", "--no-open", "--no-open"], ("m", None, 65535, True)),
    (["m", "--out", "a", "--out", "b"], ("m", "b", 0, False)), ([""], (".", None, 0, False)),
    (["m", "--out=o"], ("m", "o", 0, False)), (["m", "--port=2000"], ("m", None, 2000, False)),
    (["m", "--"], ("m", None, 0, False)), (["--", "m"], ("m", None, 0, False)), (["--", "-m"], ("-m", None, 0, False)),
    (["-"], ("-", None, 0, False)), ([], 64), (["m", "n"], 64), (["-h"], 0), (["m", "--help"], 0), (["m", "--out"], 64),
    (["m", "--out", "-o"], 64), (["m", "--port"], 64), (["m", "--port", "1023"], 64), (["m", "--port", "65536"], 64),
    (["m", "--port", "-1"], 64), (["m", "--port", "\u00b2"], 64), (["m", "--port", "080"], 64), (["m", "--no"], 64),
    (["m", "--ou", "o"], 64),
]


def arguments(checks):
    """What arguments say."""
    with mock.patch.object(asked.Parser, "_print_message"):
        for words, said in READ:
            checks.same(f"{words}", read(words), said)


def read(words):
    """What arguments say, or the status that they end with."""
    try:
        given = asked.options(words)
    except SystemExit as end:
        return end.code
    return str(given.map), given.out and str(given.out), given.port, given.no_open


def run_edit(files, *arguments, **more):
    """./edit in a folder, run to its end."""
    return subprocess.run([EDIT, *arguments], cwd=files, env=environment(**more), capture_output=True, timeout=PATIENCE)


def programs_fail(checks):
    """border_edit can't be run, or ends at once, since memory runs out."""
    with folder() as files:
        (files / "map.json").write_text(SQUARES)
        (files / "starved").write_text("#!/bin/sh\necho 'out of memory' >&2\nexit 3\n")
        (files / "starved").chmod(0o755)
        (files / "silent").write_text("#!/bin/sh\nexit 7\n")
        (files / "silent").chmod(0o755)
        for name, line in [("starved", "edit: out of memory"), ("silent", "edit: border_edit ended with status 7")]:
            done = run_edit(files, "map.json", "--no-open", BORDER_EDIT=files / name)
            checks.same(name, (done.returncode, done.stderr.decode().splitlines()), (3, [line]))
            checks.same("the address alone, which is told while the map is opened",
                        [row.startswith(b"http://127.0.0.1:") for row in done.stdout.splitlines()], [True])
        (files / "bin").mkdir()
        for name in ("sh", "dirname"):
            (files / "bin" / name).symlink_to(shutil.which(name))
        done = subprocess.run([EDIT, "map.json"], cwd=files, env={"PATH": str(files / "bin")}, capture_output=True)
        checks.same("no python3", (done.returncode, done.stderr),
                    (3, b"edit: python3 is not there, which serves the page\n"))


def while_it_opens(checks):
    """While border_edit opens the map the page is there, and has the file. Stopping does not wait until it is open, and
    the page is told if it can't be."""
    with folder() as files:
        (files / "tmp").mkdir()
        (files / "map.json").write_text(SQUARES)
        (files / "slow").write_text("#!/bin/sh\nexec sleep 600\n")
        (files / "starved").write_text("#!/bin/sh\nsleep 3\necho 'out of memory' >&2\nexit 3\n")
        for name in ("slow", "starved"):
            (files / name).chmod(0o755)
        with Served(files / "map.json", TMPDIR=files / "tmp", BORDER_EDIT=files / "slow") as page:
            checks.same("the page", page.get("")[0], 200)
            checks.same("the file", page.get("map"), (200, SQUARES.encode()))
            child, = page.children()
            began = time.monotonic()
            checks.same("stopped", page.stop(), (0, ""))
            checks.same("at once", time.monotonic() - began < 20, True)
            checks.same("border_edit has ended", until(lambda: not pathlib.Path(f"/proc/{child}").exists(), 5), True)
            checks.same("nothing is left", list((files / "tmp").iterdir()), [])
        with Served(files / "map.json", BORDER_EDIT=files / "starved") as page:
            checks.same("why it can't be opened", page.post("begin"), (500, {"reason": "out of memory"}))
            checks.same("then the server ends", (page.has_ended(20), page.process.returncode), (True, 3))
            checks.same("and says so", page.process.stderr.read(), b"edit: out of memory\n")


def file_of_the_map(checks):
    """The file of the map is there until there are edits, also of a map that does not open, and if it is not too large."""
    with folder() as files:
        spaced = SQUARES.replace(",", " ,\n").encode()
        (files / "map.json").write_bytes(spaced)
        with Served(files / "map.json") as page:
            checks.same("as it is", page.get("map"), (200, spaced))
            checks.same("its kind", page.ask("GET", page.base + "map")[2].getheader("Content-Type"),
                        "application/json; charset=utf-8")
            page.begin()
            page.edit("move 99 99 1 1")
            checks.same("nothing once a line is in the log", page.get("map"), (200, b""))
        (files / "map.json").write_text(SQUARES[:40])
        with Served(files / "map.json") as page:
            checks.same("of a map that does not open", page.get("map"), (200, SQUARES[:40].encode()))
        with open(files / "map.json", "wb") as file:
            file.truncate(MOST_BYTES + 1)
        with Served(files / "map.json") as page:
            checks.same("not of one that is too large", page.get("map"), (200, b""))


def help_text(checks):
    """--help has each word."""
    done = subprocess.run([EDIT, "--help"], env=environment(), capture_output=True, text=True)
    checks.same("status", (done.returncode, done.stderr), (0, ""))
    for word in ("MAP", "--out FILE", "--port N", "--no-open"):
        checks.same(f"has {word}", word in done.stdout, True)


def browser(checks):
    """The browser is led to the page by a file that nobody else may read; its arguments do not have the token."""
    for name, comes in [("the page comes", True), ("it does not", False)]:
        with folder() as files:
            (files / "home").mkdir()
            (files / "map.json").write_text(SQUARES)
            (files / "browser").write_text(BROWSER)
            (files / "browser").chmod(0o755)
            with Served(files / "map.json", opens_browser=True, HOME=files / "home",
                        BROWSER=files / "browser") as page:
                token = page.base.strip("/")
                checks.same("the browser was started",
                            until((files / "browser.mode").exists) and until((files / "browser.mode").read_text),
                            True)
                arguments = (files / "browser.arguments").read_text()
                checks.same("its arguments",
                            (arguments.startswith(f"file://{files}/home/border_edit-"), token in arguments),
                            (True, False))
                checks.same("no dot before the name", pathlib.Path(arguments.strip()).name.startswith("."), False)
                checks.same("who may read the file", (files / "browser.mode").read_text(), "600\n")
                checks.same("it leads on", page.address.geturl() in (files / "browser.page").read_text(), True)
                checks.same("no process has the token among its arguments",
                            [line for line in command_lines() if token in line], [])
                checks.same("the file is there", len(list((files / "home").iterdir())), 1)
                if comes:
                    page.begin()
                    checks.same(f"{name}: the file is gone", list((files / "home").iterdir()), [])
                page.stop(signal.SIGINT)
                checks.same(f"{name}: nothing is left", list((files / "home").iterdir()), [])


def command_lines():
    """The arguments of all processes."""
    for path in pathlib.Path("/proc").glob("[0-9]*/cmdline"):
        try:
            yield path.read_bytes().replace(b"\0", b" ").decode(errors="replace")
        except OSError:
            continue


def no_home(checks):
    """Without a home folder the address is printed, and the page is there."""
    with folder() as files:
        (files / "map.json").write_text(SQUARES)
        with Served(files / "map.json", opens_browser=True, HOME=files / "none", BROWSER="true") as page:
            checks.same("it answers", page.get("document"), (200, SQUARES.encode()))


def scratch(checks):
    """What is kept meanwhile is for the user alone."""
    with folder() as files:
        (files / "tmp").mkdir()
        (files / "map.json").write_text(SQUARES)
        with Served(files / "map.json", TMPDIR=files / "tmp"):
            kept, = (files / "tmp").iterdir()
            checks.same("its mode", stat.filemode(os.stat(kept).st_mode), "drwx------")


GROUPS = [ends, arguments, programs_fail, while_it_opens, file_of_the_map, help_text, browser, no_home, scratch]
