"""border_edit ends while it is needed."""
import contextlib
import http.client
import os
import signal

from server_maps import SQUARES
from server_runs import PATHS, TESTS, Served, folder, run, until

from child import MOST_COUNT

RENAMES = ['rename 0 "x"', 'rename 1 "y"', 'rename 0 "z"']
# When the stand-in ends: its cue, the request, its answer, and what is in the log afterwards behind the first edit.
ONCE = [
    ("a trial", "1\tend\tmove 0 0 1 1", ("try", {"line": "move 0 0 1 1"}), {"answer": "ok"}, []),
    ("the undo of a trial", "1\tend\tundo", ("try", {"line": "move 0 0 1 1"}), {"answer": "ok"}, []),
    ("the second line of three", '1\tend\trename 1 "y"', ("edit", {"act": 2, "lines": RENAMES}), ["ok", "ok", "ok"],
     RENAMES),
    ("the undo of a refused request", "1\tend\tundo", ("edit", {"act": 2, "lines": ["move 0 0 1 1", "move 9 9 1 1"]}),
     ["ok", "refused no vertex"], ["move 9 9 1 1"]),
    ("a line", "1\tend\tmove 0 0 1 1", ("edit", {"act": 2, "lines": ["move 0 0 1 1"]}), ["ok"], ["move 0 0 1 1"]),
    ("an undo", "1\tend\tundo", ("edit", {"act": 2, "lines": ["undo"]}), ["ok"], ["undo"]),
    ("a question", "1\tend\tarea 1", ("ask", {"lines": ["area 0", "area 1"]}), ["240", "200"], []),
]


@contextlib.contextmanager
def stood_in():
    """A server of the squares whose border_edit is the stand-in, and the file that tells it what to do."""
    with folder() as files:
        (files / "map.json").write_text(SQUARES)
        programs = {"BORDER_EDIT": TESTS / "server_stand_in.py", "REAL_BORDER_EDIT": PATHS["border_edit"],
                    "CUES": files / "cues"}
        with Served(files / "map.json", "--out", files / "out.json", **programs) as page:
            page.begin()
            yield page, files / "cues"


def killed(checks):
    """border_edit is killed between two requests."""
    with folder() as files:
        (files / "map.json").write_text(SQUARES)
        with Served(files / "map.json", "--out", files / "out.json") as page:
            page.begin()
            page.edit("move 10 10 12 12", 'split 0 "C" 0 0 12 12')
            # its second line is refused after the first one alone, and the log has only the second
            page.edit("move 0 0 1 1", "insert 0 0 10 0 5 0")
            page.edit("undo")
            for name, asks, answer in [("an edit", lambda: page.edit('split 1 "D" 10 0 20 10'), (["ok 3"], True)),
                                       ("questions", lambda: page.questions("area 0", "neighbours 3"),
                                        (["240", "neighbours: 0 1"])),
                                       ("a trial", lambda: page.post("try", line="move 0 0 1 1"),
                                        (200, {"answer": "ok"})),
                                       ("saving", lambda: page.post("save")[0], 200)]:
                child, = page.children()
                os.kill(child, signal.SIGKILL)
                until(lambda: child not in page.children())
                checks.same(f"killed before {name}", asks(), answer)
            (files / "edits.txt").write_bytes(page.get("script")[1])
            run("border_edit", files / "map.json", files / "edits.txt", "--out", files / "again.json")
            checks.same("the script gives the same bytes", (files / "again.json").read_bytes(),
                        (files / "out.json").read_bytes())


def ends_once(checks):
    """border_edit ends in the middle of a request: it is started again, and does the request once."""
    with stood_in() as (page, cues):
        page.edit("move 10 10 12 12")
        for name, cue, (request, given), answer, added in ONCE:
            before = [entry["line"] for entry in page.begin()["log"]]
            cues.write_text(cue + "\n")
            status, said = page.post(request, **given)
            got = said if request == "try" else said.get("answers")
            checks.same(f"ends at {name}", (status, got), (200, answer))
            checks.same("the cue was taken", cues.read_text(), cue.replace("1", "0", 1) + "\n")
            checks.same("the log", [entry["line"] for entry in page.begin()["log"]], before + added)


def ends_always(checks):
    """border_edit ends each time at the same line: the page gets the reason, and other edits go on."""
    with stood_in() as (page, cues):
        page.edit("move 10 10 12 12")
        cues.write_text("2\tend\tmove 0 0 1 1\n")
        status, said = page.post("edit", act=2, lines=["rename 0 \"x\"", "move 0 0 1 1"])
        checks.same("the reason", (status, said["reason"].endswith("out of memory")), (500, True))
        checks.same("nothing of it is in the log", [entry["line"] for entry in page.begin()["log"]],
                    ["move 10 10 12 12"])
        checks.same("edits go on", (page.edit("move 12 12 11 11"), page.questions("area 0")),
                    ((["ok"], True), ["220"]))
        cues.write_text("4\tend\tdocument\n")
        checks.same("the text can't be had", page.get("document")[0], 500)
        checks.same("nor saved", (page.post("save")[0], cues.with_name("out.json").exists()), (500, False))
        cues.unlink()
        checks.same("until it can be had again", page.post("save")[0], 200)


def ends_within(checks):
    """border_edit ends within the text of the map, of which some was sent: the connection is closed before the end."""
    with stood_in() as (page, cues):
        status, text = page.get("document")
        checks.same("the text", (status, len(text) > MOST_COUNT), (200, True))
        cues.write_text("1\tlate\tdocument\n")
        try:
            begin, is_whole = page.get("document")[1], True
        except http.client.IncompleteRead as broken:
            begin, is_whole = broken.partial, False
        checks.same("it breaks off", (0 < len(begin) < len(text), text.startswith(begin), is_whole), (True, True, False))
        checks.same("the cue was taken", cues.read_text(), "0\tlate\tdocument\n")
        checks.same("then it is there again", page.get("document"), (status, text))


def answers_differ(checks):
    """Started again, border_edit gives other answers: nothing is saved any more, and the log is not lost."""
    with stood_in() as (page, cues):
        out = cues.with_name("out.json")
        page.edit("move 10 10 12 12")
        page.post("save")
        saved = out.read_bytes()
        page.edit("move 12 12 11 11")
        cues.write_text("1\tend\tarea 0\n1\trefused sweeps\tmove 12 12 11 11\n")
        status, said = page.post("ask", lines=["area 0"])
        checks.same("refused", (status, "other ones" in said["reason"]), (500, True))
        for request, given in [("edit", {"act": 3, "lines": ["undo"]}), ("save", {}), ("save", {"force": True}),
                               ("try", {"line": "move 0 0 1 1"})]:
            checks.same(f"no {request} {given} any more", page.post(request, **given)[0], 500)
        checks.same("no text either", page.get("document")[0], 500)
        checks.same("FILE is as it was saved", out.read_bytes(), saved)
        checks.same("the script has all", page.get("script")[1].decode().splitlines()[2:],
                    ["move 10 10 12 12", "move 12 12 11 11"])


def wrong_undo(checks):
    """border_edit does not take a change back that it keeps: nothing is saved any more."""
    with stood_in() as (page, cues):
        page.edit("move 10 10 12 12")
        cues.write_text("1\trefused nothing to undo\tundo\n")
        checks.same("refused", page.post("try", line="move 0 0 1 1")[0], 500)
        checks.same("not saved", (page.post("save")[0], cues.with_name("out.json").exists()), (500, False))


GROUPS = [killed, ends_once, ends_always, ends_within, answers_differ, wrong_undo]
