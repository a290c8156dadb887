"""When the server ends, and what it leaves."""
import contextlib
import os
import pathlib
import signal
import time
from unittest import mock

from server_maps import SQUARES
from server_runs import Served, folder, run, until

import server as served
from address import Address
import visits

# What happens at which second, and whether it is over right afterwards.
TIMES = [
    ("before any page", [(10_000, None, False)]),
    ("a page that calls", [(0, "begin", False), (170, "hear", False), (340, "hear", False), (519, None, False),
                           (521, None, True)]),
    ("a page that is closed", [(0, "begin", False), (100, "leave", False), (104, None, False), (106, None, True)]),
    ("a page that is loaded again", [(0, "begin", False), (100, "leave", False), (103, "begin", False),
                                     (106, None, False), (282, None, False),
                                     (284, None, True)]),
    ("a page that comes back as it was", [(0, "begin", False), (100, "leave", False), (103, "hear", False),
                                          (110, None, False)]),
    ("an older page that is closed", [(0, "begin", False), (1, "begin", False), (2, "leave older", False),
                                      (100, None, False)]),
    ("its goodbye comes late", [(0, "begin", False), (100, "begin", False), (101, "leave older", False),
                                (107, None, False)]),
]


def times(checks):
    """A page is gone 5 seconds after its goodbye, or when it was silent for 180."""
    for name, events in TIMES:
        clock = mock.Mock(return_value=0)
        seen = visits.Visits(clock)
        for at, event, is_over in events:
            clock.return_value = at
            does = {"begin": seen.begin, "hear": seen.hear, "leave": lambda: seen.leave(seen.owner),
                    "leave older": lambda: seen.leave(seen.owner - 1), None: lambda: None}
            does[event]()
            checks.same(f"{name}, {event or 'looked at'} at {at} s", seen.is_over(), is_over)


def when_to_end(checks):
    """The server ends where no page is there, nothing is unsaved, and no request is under way."""
    for is_over, is_unsaved, is_busy, ends in [(True, False, False, True), (False, False, False, False),
                                               (True, True, False, False),
                                               (True, False, True, False)]:
        server = served.Server(Address(0), mock.Mock(is_unsaved=is_unsaved))
        server.visits = mock.Mock(is_over=lambda: is_over)
        if is_busy:
            server.lock.acquire()
        try:
            with mock.patch("sys.stderr"):
                server.service_actions()
            has_ended = False
        except served.NoPage:
            has_ended = True
        server.server_close()
        checks.same(f"no page {is_over}, unsaved {is_unsaved}, busy {is_busy}", has_ended, ends)


def last_page(checks):
    """The server ends with its last page, if nothing is unsaved; else it says that it stays."""
    with folder() as files:
        for name in "abcd":
            (files / f"{name}.json").write_text(SQUARES)
        with contextlib.ExitStack() as leave:
            closed, again, edited, unseen = [leave.enter_context(Served(files / f"{name}.json")) for name in "abcd"]
            for page in (closed, again, edited):
                page.begin()
            closed.edit('rename 0 "x"')
            closed.post("save")
            edited.edit('rename 0 "x"')
            began = time.monotonic()
            for page in (closed, again, edited):
                checks.same("goodbye", page.ask("POST", page.base + "leave", b'{"owner":1}',
                                                Content_Type="text/plain;charset=UTF-8")[0], 200)
            again.begin()
            checks.same("closed and saved: ends", (closed.has_ended(20), closed.process.returncode), (True, 0))
            checks.same("not before a page could be loaded again", time.monotonic() - began > visits.LEAVING - 1,
                        True)
            checks.same("nothing is said", closed.process.stderr.read(), b"")
            said = edited.process.stderr.readline().decode()
            checks.same("unsaved: says so, and how to go on",
                        ("unsaved edits" in said, edited.base in said, "Ctrl+C" in said), (True, True, True))
            checks.same("unsaved, loaded again, not opened yet: stay",
                        [page.has_ended(0) for page in (edited, again, unseen)], [False] * 3)
            checks.same("and answers", edited.begin()["log"], [{"line": 'rename 0 "x"', "answer": "ok", "act": 1}])
            edited.post("save")
            edited.ask("POST", edited.base + "leave", b'{"owner":2}')
            checks.same("once it is saved it ends", edited.has_ended(20), True)


def signals(checks):
    """Stopped by a signal, the server leaves unsaved edits as a script, border_edit ended, and no file of its own."""
    for sign in (signal.SIGINT, signal.SIGTERM, signal.SIGHUP):
        with folder() as files:
            (files / "tmp").mkdir()
            (files / "map.json").write_text(SQUARES)
            with Served(files / "map.json", TMPDIR=files / "tmp") as page:
                page.begin()
                page.edit("move 10 10 12 12", 'split 0 "C" 0 0 12 12', "move 12 12 11 11")
                page.edit("undo")
                expected = page.get("document")[1]
                children = page.children()
                checks.same("Ctrl+C in a terminal does not reach border_edit before the log is kept",
                            [os.getsid(child) == os.getsid(page.process.pid) for child in children], [False])
                status, said = page.stop(sign)
                left, = files.glob("*.txt")
                checks.same(f"{sign.name}: what it says", (status, said.splitlines()),
                            (0, [f"edit: unsaved edits stand as a script in {left}"]))
                checks.same("its name", left.name.startswith("map.json.unsaved-"), True)
                checks.same("MAP is as it was", (files / "map.json").read_text(), SQUARES)
                again = run("border_edit", files / "map.json", left, "--out", files / "again.json", "--undo", "1000")
                checks.same("the script gives the map", (again.returncode, (files / "again.json").read_bytes()),
                            (0, expected))
                checks.same("border_edit has ended", until(lambda: not any(map(is_running, children)), 5), True)
                checks.same("nothing is left", list((files / "tmp").iterdir()), [])


def nothing_unsaved(checks):
    """Stopped with nothing unsaved, it leaves nothing; unsaved edits go to the home folder if that of FILE is gone."""
    with folder() as files:
        (files / "out").mkdir()
        (files / "home").mkdir()
        (files / "map.json").write_text(SQUARES)
        for name, lines, is_gone, left in [("no edit", [], False, 0), ("a refused one", ["move 1 1 2 2"], False, 0),
                                           ("one that was taken back", ['rename 0 "x"', "undo"], False, 0),
                                           ("no folder", ['rename 0 "x"'], True, 1)]:
            with Served(files / "map.json", "--out", files / "out/out.json", HOME=files / "home") as page:
                page.begin()
                for line in lines:
                    page.edit(line)
                if is_gone:
                    (files / "out").rmdir()
                status, said = page.stop()
                checks.same(name, (status, len(said.splitlines()), len(list((files / "home").iterdir()))),
                            (0, left, left))
                checks.same("nothing beside FILE", list((files / "out").iterdir()) if not is_gone else [], [])


def is_running(number):
    """Whether there is a process of that number that has not ended."""
    try:
        return pathlib.Path(f"/proc/{number}/stat").read_text().rpartition(")")[2].split()[0] != "Z"
    except OSError:
        return False


GROUPS = [times, when_to_end, last_page, signals, nothing_unsaved]
