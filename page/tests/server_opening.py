"""Maps that do not open: their faults, their picture, and mending them."""
import json
import os
import signal

from server_maps import SQUARES, of_rings, square
from server_runs import Served, folder, run

# Two squares that lie over each other: the sides of one cross those of the other at 5 10 and 10 5.
CROSSING = of_rings(square(0, 10), square(5, 15))
CROSSES = ["cross 0 10 10 10 / 5 5 5 15", "cross 5 5 15 5 / 10 0 10 10"]
PATHS = ["path 0 10 5 10 10 10", "path 5 5 5 10 5 15", "path 5 5 10 5 15 5", "path 10 0 10 5 10 10"]
DECIMALS = of_rings([[0, 0], [1.5, 0], [1.5, 1.5], [0, 1.5]])
NO_COUNTS = "counts short 0 repeats 0 on 0 cross 0"
# Maps, what stops them, what border_mend finds, whether it can read them, and whether they can be drawn.
MAPS = [
    ("two squares over each other", CROSSING, "conflict 0 10 10 10 / 5 5 5 15",
     [*CROSSES, "counts short 0 repeats 0 on 0 cross 2"], True, True),
    ("decimals", DECIMALS, f"not whole at {DECIMALS.index('1.5')}", ["decimals 1 digits 1 rounded 0", NO_COUNTS],
     True, False),
    ("a short ring", of_rings([[0, 0], [5, 5]]), "ring short 0 0 0",
     ["short 0 0 0", "counts short 1 repeats 0 on 0 cross 0"], True, False),
    ("half a text", SQUARES[:40], "not json at 40", [], False, False),
    ("no text", "", "not json at 0", [], False, False),
    ("a list", "[]", "not a topology", [], False, False),
]


def do_not_open(checks):
    """A map that does not open: what stops it, and its picture if it can be drawn; it is not edited or saved."""
    for name, text, fault, findings, is_mendable, is_drawn in MAPS:
        with folder() as files:
            path = files / "map.json"
            path.write_text(text)
            with Served(path) as page:
                began = page.begin()
                checks.same(name, {key: began[key] for key in began if key != "proved"},
                            {"owner": 1, "name": "map.json", "out": str(path), "format": "TopoJSON", "over": True,
                             "socket": ["edit", "try", "ask", "alive"], "opens": False, "fault": fault, "findings": findings, "mendable": is_mendable})
                status, _, answer = page.ask("GET", page.base + "picture")
                checks.same("its picture", (status, answer.getheader("Content-Type") if is_drawn else ""),
                            (200, "image/svg+xml") if is_drawn else (404, ""))
                for request, given in [("edit", {"act": 1, "lines": ["undo"]}), ("try", {"line": "move 0 0 1 1"}),
                                       ("ask", {"lines": ["count"]}),
                                       ("save", {"force": True})]:
                    checks.same(f"no {request}", page.post(request, **given),
                                (409, {"reason": "the map does not open", "force": False}))
                checks.same("no text", page.get("document")[0], 409)
                if not is_mendable:
                    status, said = page.post("mend")
                    checks.same("not mended", (status, fault in said["reason"]), (409, True))
                checks.same("stopped", page.stop(), (0, ""))
                checks.same("the file is as it was", (path.read_text(),
                                                      sorted(each.name for each in files.iterdir())),
                            (text, ["map.json"]))


# Names of files, and how a picture has them.
NAMES = [("wards.json", b">wards.json<"), ("a&b <i>.json", b">a&amp;b &lt;i"), ("-x.json", b">-x.json<"),
         ("picture.svg", b">picture.svg<"), ("unwanted", b">unwanted<"), ("a\nb.json", b">a?b.json<"),
         (os.fsdecode(b"\xff.json"), b">?.json<"), ("x" * 250 + ".json", b">xxxx")]


def names(checks):
    """A picture has the name of MAP, whatever it is; then it is mended."""
    for name, drawn in NAMES:
        with folder() as files:
            (files / name).write_text(CROSSING)
            with Served(files / name, "--out", files / "out.json") as page:
                page.begin()
                status, text = page.get("picture")
                checks.same(f"name {name[:20]!r}", (status, drawn in text), (200, True))
                checks.same("mended", (page.post("mend")[1]["opens"], page.post("save")[0]), (True, 200))


def places(checks):
    """A place of a map that does not open is drawn."""
    with folder() as files:
        (files / "map.json").write_text(CROSSING)
        with Served(files / "map.json") as page:
            page.begin()
            status, said = page.post("place", x=5, y=-10, width=15)
            checks.same("a picture", (status, "<svg" in said["picture"]), (200, True))
            for given in [{}, {"x": 1, "y": 2}, {"x": 1.5, "y": 0, "width": 9}, {"x": "--ids", "y": 0, "width": 9},
                          {"x": 0, "y": 0, "width": 0}, {"x": 10 ** 12 + 1, "y": 0, "width": 9},
                          {"x": 0, "y": -10 ** 12 - 1, "width": 9}, {"x": 0, "y": 0, "width": 4 * 10 ** 12 + 1}]:
                checks.same(f"no place {given}", page.post("place", **given)[0], 400)
    with folder() as files:
        (files / "map.json").write_text(SQUARES)
        with Served(files / "map.json") as page:
            page.begin()
            checks.same("not of a map that opens", page.post("place", x=0, y=0, width=9)[0], 409)


def mended(checks):
    """A map is mended, edited and saved; the log is a script for the mended map."""
    with folder() as files:
        path = files / "map.json"
        path.write_text(CROSSING)
        with Served(path) as page:
            page.begin()
            status, said = page.post("mend")
            report = [*CROSSES, *PATHS, "counts short 0 repeats 0 on 0 cross 2 paths 4 parts 0 areas 0"]
            checks.same("mended", (status, said), (200, {"report": report, "opens": True}))
            checks.same("the file is as it was", path.read_text(), CROSSING)
            run("border_mend", path, "--out", files / "mended.json")
            checks.same("what the page draws", page.get("map"), (200, (files / "mended.json").read_bytes()))
            (files / "mended.json").unlink()
            began = page.begin()
            checks.same("it opens now", (began["opens"], began["log"], began["unsaved"], began["undos"],
                                         began["counts"]),
                        (True, [], True, 0, "features 2 vertices 10 segments 12"))
            checks.same("its rings", [json.loads(row) for row in page.questions("rings 0", "rings 1")],
                        [[[[[0, 0], [10, 0], [10, 5], [10, 10], [5, 10], [0, 10]]]],
                         [[[[5, 5], [10, 5], [15, 5], [15, 15], [5, 15], [5, 10]]]]])
            checks.same("not mended twice", page.post("mend"), (409, {"reason": "the map opens", "force": False}))
            checks.same("no picture any more", page.get("picture")[0], 404)
            checks.same("an edit", page.edit('rename 1 "x"'), (["ok"], True))
            checks.same("saved", page.post("save")[0], 200)
            checks.same("nothing is unsaved", page.begin()["unsaved"], False)
            checks.same("what did not open is kept", (files / "map.json.orig").read_text(), CROSSING)
            (files / "edits.txt").write_bytes(page.get("script")[1])
        check_script(checks, files, [])


def check_script(checks, files, arguments):
    """What is saved is what border_edit makes of the script and the map that border_mend makes."""
    made = run("border_mend", files / "map.json.orig", "--out", files / "mended.json", *arguments)
    again = run("border_edit", files / "mended.json", files / "edits.txt", "--out", files / "again.json", "--undo",
                "1000")
    checks.same("the script runs", (made.returncode, again.returncode), (0, 0))
    checks.same("and gives the same bytes", (files / "again.json").read_bytes(), (files / "map.json").read_bytes())
    told = (files / "edits.txt").read_text().splitlines()[1]
    checks.same("the script says how the map was mended", told,
                " ".join(["# It was mended: border_mend map.json --out MENDED", *arguments]))


def digits(checks):
    """Decimals are kept as asked for, and a number of them that makes no sense is refused."""
    with folder() as files:
        path = files / "map.json"
        path.write_text(DECIMALS)
        with Served(path) as page:
            page.begin()
            for given in (-1, 25, 1.5, "1", True, [1]):
                checks.same(f"digits {given!r}", page.post("mend", digits=given)[0], 400)
            status, said = page.post("mend", digits=0)
            checks.same("mended", (status, said["report"][0]), (200, "decimals 1 digits 0 rounded 3"))
            checks.same("1.5 is 2 now", page.questions("area 0"), ["8"])
            page.post("save")
            (files / "edits.txt").write_bytes(page.get("script")[1])
        check_script(checks, files, ["--digits", "0"])
    with folder() as files:
        (files / "map.json").write_text(DECIMALS)
        with Served(files / "map.json") as page:
            page.begin()
            checks.same("all decimals", (page.post("mend", digits=None)[0], page.questions("area 0")), (200, ["450"]))
            status, said = page.stop()
            checks.same("mended, not saved: what it says", (status, "unsaved edits" in said), (0, True))


def dies_after_mending(checks):
    """border_edit is killed after a map was mended: it is opened again as it was mended."""
    with folder() as files:
        (files / "map.json").write_text(CROSSING)
        with Served(files / "map.json") as page:
            page.begin()
            page.post("mend")
            page.edit('rename 1 "x"')
            text = page.get("document")[1]
            child, = page.children()
            os.kill(child, signal.SIGKILL)
            checks.same("the same text", page.get("document")[1], text)


def policy_of_pictures(checks):
    """A picture can't do anything in a browser, whatever the ids are."""
    with folder() as files:
        (files / "map.json").write_text(CROSSING.replace('"id":"0"', '"id":"<script>alert(1)</script>"'))
        with Served(files / "map.json") as page:
            _, text, answer = page.ask("GET", page.base + "picture")
            checks.same("no script in it", b"<script" in text, False)
            checks.same("its policy", answer.getheader("Content-Security-Policy").split("; "),
                        ["default-src 'none'", "style-src 'unsafe-inline'", "frame-ancestors 'none'", "sandbox"])
        (files / "map.json").write_text(SQUARES)
        with Served(files / "map.json") as page:
            checks.same("none of a map that opens", page.get("picture")[0], 404)


GROUPS = [do_not_open, names, places, mended, digits, dies_after_mending, policy_of_pictures]
