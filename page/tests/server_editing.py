"""Edits, trials, questions, the log, and two pages."""
import json
import threading

from server_maps import SQUARES, of_rings, square
from server_runs import PATHS, PATIENCE, Served, folder, run

import child

# The lines of a request, their answers, whether they are accepted, and twice the areas of both squares then.
REQUESTS = [
    (["move 10 10 12 12"], ["ok"], True, ["240", "200"]),
    (["move 10 10 12 12", "move 12 12 11 11"], ["ok", "ok"], True, ["220", "200"]),
    (["move 1 1 2 2"], ["refused no vertex"], False, ["200", "200"]),
    (["move 10 10 12 12", "move 0 0 15 5"], ["ok", "refused conflict 0 10 15 5 / 10 0 12 12"], False, ["200", "200"]),
    (["move 10 10 12 12", "move 1 1"], ["ok", "bad line"], False, ["200", "200"]),
    (["move 10 10 12 12", "insert 0 0 10 0 5 0", "merge 0 0", "rename 0 \"x\""], ["ok", "ok", "refused same feature"],
     False, ["200", "200"]),
    (["thin 0"], ["ok 0"], True, ["200", "200"]),
    (["thin 0", "remove 10 10"], ["ok 0", "refused junction"], False, ["200", "200"]),
    (["move 10 10 12 12", "thin 0", "remove 10 0"], ["ok", "ok 0", "refused junction"], False, ["200", "200"]),
    (["move  10 10 12 12"], ["bad line"], False, ["200", "200"]),
    (["rename 0 \"\u00fc\\u0000\U0001d11e\""], ["ok"], True, ["200", "200"]),
    (["rename 0 \"\\ud800\""], ["bad line"], False, ["200", "200"]),
]
# Lines that are none, or more than one, or not of the kind that is asked for.
NO_LINES = ["count\nundo", "undo\nundo", "undo\r", "undo\r\nundo", "document", "count", "# x", "", " undo", "\tundo",
            "UNDO", "hello",
            "rename 0 \"" + "x" * 8192 + "\"", 5, None, ["undo"], {"undo": 1}, True, "rename 0 \"\ud800\""]
# What no request has instead of lines, an act, an owner.
NO_REQUESTS = [("edit", {"lines": []}), ("edit", {"lines": 5}), ("edit", {"lines": {"a": 1}}),
               ("edit", {"lines": "undo"}), ("edit", {}),
               ("edit", {"lines": ["undo"], "act": None}), ("edit", {"lines": ["undo"], "act": -1}),
               ("edit", {"lines": ["undo"], "act": 1.5}),
               ("edit", {"lines": ["undo"], "act": True}), ("edit", {"lines": ["undo"], "act": 10 ** 30}),
               ("edit", {"lines": ["undo", "rename 0 \"x\""]}), ("edit", {"lines": ["rename 0 \"x\"", "undo"]}),
               ("edit", {"lines": ["rename 0 \"x\""] * 251}), ("edit", {"lines": ["undo"] * 2001}),
               ("try", {}), ("try", {"line": "split 0 \"a\" 0 0 10 10"}), ("try", {"line": "rename 0 \"x\""}),
               ("try", {"line": "undo"}),
               ("try", {"line": "thin 5"}), ("try", {"line": "move 1 1 2 2\nundo"}),
               ("try", {"lines": ["move 1 1 2 2"]}),
               ("ask", {"lines": ["undo"]}), ("ask", {"lines": ["document"]}),
               ("ask", {"lines": ["move 10 10 12 12"]}),
               ("ask", {"lines": ["count"] * 2001}), ("ask", {"lines": ["count\nundo"]})]
OTHER_OWNERS = [0, 2, -1, None, "1", [1], 1.5]


def requests(checks):
    """A request is accepted whole, or nothing of it remains."""
    with folder() as files:
        (files / "map.json").write_text(SQUARES)
        with Served(files / "map.json") as page:
            page.begin()
            for lines, answers, is_accepted, areas in REQUESTS:
                checks.same(f"{lines}", page.edit(*lines), (answers, is_accepted))
                checks.same("areas then", page.questions("area 0", "area 1"), areas)
                changes = page.begin()["undos"]
                checks.same("what remains", changes,
                            len([answer for answer in answers if answer != "ok 0"]) if is_accepted else 0)
                if changes:
                    page.edit(*["undo"] * changes)
                checks.same("the text when that is taken back", page.get("document")[1], SQUARES.encode())


def no_requests(checks):
    """What is no line, or no request, is not sent to border_edit."""
    with folder() as files:
        (files / "map.json").write_text(SQUARES)
        with Served(files / "map.json") as page:
            page.begin()
            for line in NO_LINES:
                checks.same(f"line {str(line)[:14]!r}", page.post("edit", act=1, lines=[line])[0], 400)
            for name, given in NO_REQUESTS:
                checks.same(f"{name} {str(given)[:60]}", page.post(name, **{"act": 1, **given})[0], 400)
            for owner in OTHER_OWNERS:
                status, said = page.post("edit", owner=owner, act=1, lines=["rename 0 \"x\""])
                checks.same(f"owner {owner!r}", (status, said.get("closed")), (409, True))
            status, _, _ = page.ask("POST", page.base + "edit",
                                    b'{"owner":1,"act":1,"lines":["rename 1 \\"\\ud800\\""]}')
            checks.same("half a character", status, 400)
            checks.same("nothing was done", page.get("document")[1], SQUARES.encode())
            checks.same("nothing is in the log", page.begin()["log"], [])


def trials(checks):
    """A trial is answered, and not done."""
    with folder() as files:
        (files / "map.json").write_text(SQUARES)
        with Served(files / "map.json") as page:
            page.begin()
            for line, answer in [("move 10 10 12 12", "ok"), ("move 1 1 2 2", "refused no vertex"),
                                 ("insert 0 0 10 0 5 1", "ok"),
                                 ("remove 10 10", "refused junction"), ("move 1 1", "bad line")]:
                checks.same(f"trial {line}", page.post("try", line=line), (200, {"answer": answer}))
            checks.same("the text then", page.get("document")[1], SQUARES.encode())
            began = page.begin()
            checks.same("the log then", (began["log"], began["unsaved"], began["undos"]), ([], False, 0))


def counts(checks):
    """The answer to an edit has the counts of the map after it."""
    with folder() as files:
        (files / "map.json").write_text(SQUARES)
        with Served(files / "map.json") as page:
            page.begin()
            for lines, vertices in [(["insert 0 0 10 0 5 0"], 7), (["move 5 0 6 0", "move 1 1 2 2"], 7), (["undo"], 6),
                                    (["undo"], 6)]:
                said = page.post("edit", act=1, lines=lines)[1]
                checks.same(f"after {lines}", said["counts"], f"features 2 vertices {vertices} segments {vertices + 1}")
            page.edit("insert 0 0 10 0 5 0")
            checks.same("the text is that of the edited map", b"[5,0]" in page.get("document")[1], True)


def log_and_script(checks):
    """The log, of which a page that is loaded again makes all that it shows."""
    with folder() as files:
        (files / "map.json").write_text(SQUARES)
        with Served(files / "map.json", "--out", files / "out.json") as page:
            began = page.begin()
            checks.same("what a page gets", {name: began[name] for name in began if name != "proved"},
                        {"owner": 1, "name": "map.json", "out": str(files / "out.json"), "format": "TopoJSON", "over": False,
                         "socket": ["edit", "try", "ask", "alive"], "opens": True, "log": [], "counts": "features 2 vertices 6 segments 7", "unsaved": False, "undos": 0})
            page.edit("insert 0 0 10 0 5 0", "insert 10 10 0 10 5 10", act=1)
            page.edit('split 0 "C" 5 0 5 10', act=1)
            page.edit("move 5 0 6 0", "move 1 1 2 2", act=2)
            page.edit('split 1 "D" 10 0 20 10', "move 1 1 2 2", act=3)
            page.edit("undo", act=4)
            page.edit("undo", "undo", "undo", act=5)
            page.edit("thin 0", act=6)
            expected = [("insert 0 0 10 0 5 0", "ok", 1), ("insert 10 10 0 10 5 10", "ok", 1),
                        ('split 0 "C" 5 0 5 10', "ok 2", 1),
                        ("move 1 1 2 2", "refused no vertex", 2),
                        # the number 3 is used up, so its feature must be made, and taken back
                        ('split 1 "D" 10 0 20 10', "ok 3", 3), ("move 1 1 2 2", "refused no vertex", 3),
                        ("undo", "ok", 3),
                        ("undo", "ok", 4), ("undo", "refused nothing to undo", 5), ("thin 0", "ok 2", 6)]
            began = page.begin()
            checks.same("the log", [tuple(entry.values()) for entry in began["log"]], expected)
            checks.same("and its state", (began["owner"], began["undos"], began["unsaved"], began["counts"]),
                        (2, 3, True, "features 2 vertices 6 segments 7"))
            script = page.get("script")[1].decode()
            checks.same("the script", [row for row in script.splitlines() if not row.startswith("# ")],
                        [line for line, answer, _ in expected if answer.startswith("ok")])
            checks.same("its comments", script.splitlines()[2:],
                        [line if answer.startswith("ok") else f"# {answer}: {line}" for line, answer, _ in expected])
            page.post("save")
            (files / "edits.txt").write_text(script)
            again = run("border_edit", files / "map.json", files / "edits.txt", "--out", files / "again.json",
                        "--undo", "1000")
            checks.same("border_edit accepts it", (again.returncode, again.stderr), (0, b""))
            checks.same("and saves the same bytes", (files / "again.json").read_bytes(),
                        (files / "out.json").read_bytes())


def long_refusals(checks):
    """A refused line as long as lines may be is a comment of the script, and no file name ends a comment."""
    with folder() as files:
        strange = files / "a\nundo\u2028\x1b[31m.json"
        strange.write_text(SQUARES)
        with Served(strange, "--out", files / "out.json") as page:
            page.begin()
            longest = 'rename 9 "' + "\u00fc" * 4090 + 'x"'
            checks.same("bytes of the line", len(longest.encode()), 8192)
            checks.same("it is refused", page.edit(longest), (["refused no feature"], False))
            page.edit("move 10 10 12 12")
            page.post("save")
            (files / "edits.txt").write_bytes(page.get("script")[1])
            again = run("border_edit", strange, files / "edits.txt", "--out", files / "again.json")
            checks.same("the script has one line", (again.returncode, again.stdout), (0, b"ok\n"))
            checks.same("and saves the same bytes", (files / "again.json").read_bytes(),
                        (files / "out.json").read_bytes())


def many_lines(checks):
    """Neither many long lines nor many long answers fill the pipes."""
    with folder() as files:
        (files / "map.json").write_text(of_rings([[0, 0], *([number, number % 2 + 1] for number in range(1, 999)),
                                                  [999, 0]]))
        with Served(files / "map.json") as page:
            page.begin()
            answers = page.questions(*["rings 0"] * 2000)
            checks.same("2,000 rings of 1,000 positions",
                        (len(answers), len(set(answers)), len(json.loads(answers[0])[0][0])), (2000, 1, 1000))
            lines = [f'rename 0 "{"x" * 4000}{number}"' for number in range(250)]
            checks.same("250 edits of 4,000 bytes", page.edit(*lines), (["ok"] * 250, True))
            checks.same("no question is no question", page.questions(), [])
        (files / "map.json").write_text(SQUARES)
        running = child.Child(PATHS["border_edit"], files / "map.json")
        too_late = threading.Timer(PATIENCE, running.process.kill)
        too_late.start()
        ring = "[[[[0,0],[10,0],[10,10],[0,10]]]]"
        checks.same("60,000 lines", running.ask(["rings 0"] * 60_000) == [ring] * 60_000, True)
        too_late.cancel()
        running.end()


def undos(checks):
    """750 changes can be taken back, also after a request of 250 lines that was refused."""
    with folder() as files:
        (files / "map.json").write_text(SQUARES)
        with Served(files / "map.json") as page:
            page.begin()
            page.edit('rename 0 "first"')
            for begin in range(0, 1000, 250):
                page.edit(*[f'rename 0 "{number}"' for number in range(begin, begin + 250)])
            refused = page.edit(*['rename 1 "x"'] * 249, "undo x")
            checks.same("a request of 250 lines", refused, (["ok"] * 249 + ["bad line"], False))
            page.post("try", line="move 10 10 12 12")
            checks.same("751 undos", page.edit(*["undo"] * 751), (["ok"] * 750 + ["refused nothing to undo"], False))
            checks.same("750 undos", page.edit(*["undo"] * 750), (["ok"] * 750, True))
            shapes = json.loads(page.get("document")[1])["objects"]["land"]["geometries"]
            checks.same("ids then", [shape["id"] for shape in shapes], ["249", "B"])
            checks.same("one more", page.edit("undo"), (["refused nothing to undo"], False))


def two_pages(checks):
    """The newest page has the map; an older one is refused, and what it has done stays."""
    with folder() as files:
        (files / "map.json").write_text(SQUARES)
        with Served(files / "map.json", "--out", files / "out.json") as page:
            first = page.begin()["owner"]
            page.edit("move 10 10 12 12")
            second = page.begin()
            checks.same("the second page", (second["owner"], len(second["log"])), (first + 1, 1))
            for name, given in [("edit", {"act": 1, "lines": ["undo"]}), ("try", {"line": "move 0 0 1 1"}),
                                ("ask", {"lines": ["count"]}),
                                ("save", {}), ("alive", {}), ("mend", {}), ("seek", {}), ("look", {}),
                                ("looked", {"look": 1})]:
                status, said = page.post(name, owner=first, **given)
                checks.same(f"{name} of the first", (status, said.get("closed")), (409, True))
            checks.same("nothing was saved", (files / "out.json").exists(), False)
            checks.same("the second goes on", (page.questions("area 0"), page.edit("undo"), page.post("alive")),
                        (["240"], (["ok"], True), (200, {})))


def unsaved(checks):
    """Whether there is something to save, also after undos."""
    with folder() as files:
        (files / "map.json").write_text(of_rings(square(0, 10)))
        with Served(files / "map.json") as page:
            page.begin()
            for lines, is_unsaved in [(["rename 0 \"x\""], True), (["undo"], False), (["thin 0"], False),
                                      (["remove 9 9"], False),
                                      (["rename 0 \"y\"", "rename 0 \"z\""], True), ("save", False), (["undo"], True),
                                      (["undo"], True),
                                      (["rename 0 \"y\""], True)]:
                if lines == "save":
                    page.post("save")
                else:
                    checks.same(f"told after {lines}", page.post("edit", act=1, lines=lines)[1]["unsaved"],
                                is_unsaved)
                checks.same(f"unsaved after {lines}", page.begin()["unsaved"], is_unsaved)


GROUPS = [requests, no_requests, trials, counts, log_and_script, long_refusals, many_lines, undos, two_pages, unsaved]
