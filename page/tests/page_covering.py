"""Overlaps and gaps in the browser: looking for them, the list, the map, and when they are out of date."""
import os
import pathlib
import sys

sys.path.insert(1, str(pathlib.Path(__file__).resolve().parents[1]))

from browser import By, Keys
from page_checks import is_map, same, true
import programs

# Two layers with all kinds. The numbers are worked by hand from the rules in docs/COVERING.md.
COVERED = pathlib.Path(__file__).resolve().parent / "maps/covered.json"
# What the list says first, and where.
ROWS = {1: "1#0 and #1 overlap4,000 square grid units · width 19 grid units",
        7: "7#30 holds this twice16,000 square grid units · width 58 grid units",
        8: "8Gap between #17, #18 and #2075,200 square grid units · width 73 grid units",
        12: "12Gap between #6, #7, #8, #9 and #1014,400 square grid units · width 40 grid units",
        15: "15Lake in #3110,000 square grid units · width 50 grid units"}
KINDS = ["Overlaps (6)", "Held twice (1)", "Gaps (7)", "Lakes (3)"]
NOW, LAST = "Looked at the map as it is now.", "Out of date: the map was looked at before the last change."
# The number of a gap with islands in it, and positions: in the gap, in an island, in an overlap, in land of one.
ISLANDS, IN_GAP, IN_ISLAND, IN_OVERLAP, IN_LAND = 8, (60, 860), (290, 790), (190, 50), (50, 50)
STAND_IN = """#!/bin/sh
# border_cover, which waits while a file is there, and says what another one has
touch "$0.begun"
while [ -e "$0.wait" ]; do sleep 0.02; done
[ -e "$0.says" ] && cat "$0.says" >&2 && exit 2
exec "$REAL_BORDER_COVER" "$@"
"""
ATTACK = "<img src=x onerror=\"window.hit=1\">"
# Two triangles upon each other in the first of two layers, and one with a hole outside in the second.
HOSTILE_PAIR = {
    "type": "Topology",
    "objects": {
        ATTACK: {"type": "GeometryCollection", "geometries": [
            {"type": "Polygon", "id": ATTACK, "arcs": [[0]]}, {"type": "Polygon", "id": "</b><b>", "arcs": [[0]]}]},
        "b": {"type": "Polygon", "id": ATTACK, "arcs": [[1], [2]]}},
    "arcs": [[[0, 0], [10, 0], [10, 10], [0, 0]], [[20, 0], [30, 0], [30, 10], [20, 0]],
             [[40, 0], [50, 0], [50, 11], [40, 0]]],
}
PIXEL = ("const v = editor.view, [x, y] = v.screen(...arguments); "
         "return [...v.ctx.getImageData(Math.floor(x * v.ratio), Math.floor(y * v.ratio), 1, 1).data].slice(0, 3)")
WHOLE = "return editor.view.covered.faces.filter(face => face.shape.isWhole).length"
LAND, SEA = [0xf4, 0xef, 0xe3], [0xe9, 0xee, 0xf1]


def covering(folder):
    """Variables that name a border_cover which waits, or fails, where it is told so."""
    stand_in = folder / "cover"
    stand_in.write_text(STAND_IN)
    stand_in.chmod(0o755)
    return {"BORDER_COVER": str(stand_in), "REAL_BORDER_COVER": os.path.abspath(programs.find("border_cover")[0])}


def texts(page, selector):
    return page.js("return [...document.querySelectorAll(arguments[0])].map(each => each.textContent)", selector)


def rows(page):
    return texts(page, "#faces button")


def focused(page):
    """The number of the row that has the focus."""
    return int(page.js("return document.activeElement.querySelector('b').textContent"))


def drawn(page):
    """The numbers of the faces that are drawn."""
    return page.js("return (editor.view.covered?.faces ?? []).map(face => face.number)")


def focus_of(page):
    return page.js("return document.activeElement.id")


def is_old(page):
    return page.js("return editor.view.covered.isOld")


def done(page):
    """Waits until a look is over."""
    page.wait("!covering.isLooking")
    page.settle()


def look(page, width=None):
    """Looks for what is at most so wide."""
    if width is not None:
        page.js("document.getElementById('coverWidth').value = arguments[0]", width)
    page.element("look").click()
    done(page)


def view_box(page):
    return page.js("return editor.view.box(0)")


def test_covering(page):
    page.load()
    test_looking(page)
    test_drawn(page)
    test_list_by_keys(page)
    test_kinds(page)
    test_out_of_date(page)
    test_order_of_text(page)
    test_widths(page)
    same("nothing is written on the console", page.errors(), [])


def test_looking(page):
    same("nothing is listed at first", [page.is_shown("cover"), rows(page), drawn(page)], [False, [], []])
    page.keys("o")
    same("O opens the list, and leads to Look", [page.is_shown("cover"), focus_of(page)], [True, "look"])
    page.keys(Keys.ENTER)
    done(page)
    found = rows(page)
    same("all are listed", len(found), 17)
    same("with features, areas and widths", {number: found[number - 1] for number in ROWS}, ROWS)
    same("it says of when they are", page.text("coverAge"), NOW)
    same("and how many of each kind there are", texts(page, "#coverKinds label"), KINDS)
    same("which is said too", page.text("said"), ", ".join(KINDS))
    values = texts(page, "#sums td:nth-child(2)")
    same("the sums of each layer", values, ["863,100", "48,000", "815,100", "158,900", "974,000",
                                           "732,000", "66,000", "666,000", "78,000", "744,000"])
    a, b, c, d, e, *_ = [int(value.replace(",", "")) for value in values]
    same("they add up", [a - b, c + d], [c, e])
    same("layers are named", texts(page, "#sums h4"), ["areas", "lakes"])
    true("a notch is spoken of", "open to the outside" in page.text("sums"))
    same("how wide they are", texts(page, "#widths li"),
         ["over 16, up to 32: overlaps 3, gaps 2", "over 32, up to 64: overlaps 1, held twice 1, gaps 2, lakes 3",
          "over 64, up to 128: overlaps 2, gaps 3"])


def test_drawn(page):
    same("all are drawn", drawn(page), list(range(1, 18)))
    same("each with all of its islands", page.js(WHOLE), 17)
    page.js("document.getElementById('names').click()")
    page.settle()
    gap, overlap = page.js(PIXEL, *IN_GAP), page.js(PIXEL, *IN_OVERLAP)
    true("a gap is blue", gap[2] > gap[0] + 20, gap)
    true("an overlap is red", overlap[0] > overlap[2] + 20, overlap)
    same("an island is as it was, and so is land", [page.js(PIXEL, *IN_ISLAND), page.js(PIXEL, *IN_LAND)], [LAND, LAND])
    page.go(190, 100, 0.02)
    mark = page.js(PIXEL, 190, 100)
    true("where it is too small there is a mark", mark[0] > mark[2] + 100, mark)
    page.keys("f")
    page.settle()
    boxes = page.driver.find_elements(By.CSS_SELECTOR, "#layerList input")
    page.js("arguments[0].click()", boxes[0])
    page.settle()
    same("of a hidden layer nothing is drawn", page.js(PIXEL, *IN_GAP), SEA)
    page.js("arguments[0].click()", boxes[0])
    page.js("document.getElementById('names').click()")
    page.settle()


def test_list_by_keys(page):
    page.js("document.querySelector('#faces button').focus()")
    for _ in range(ISLANDS):
        page.keys(Keys.ARROW_DOWN)
    page.keys(Keys.ARROW_UP)
    same("arrows go along the list", focused(page), ISLANDS)
    same("and Tab comes back to where they were", texts(page, "#faces button[tabindex='0'] b"), [str(ISLANDS)])
    before = view_box(page)
    page.keys(Keys.ENTER)
    x0, y0, x1, y1 = view_box(page)
    is_seen = x0 < 40 and y0 < 540 and x1 > 360 and y1 > 860
    true("Enter shows the face, from 40 540 to 360 860", is_seen, (x0, y0, x1, y1))
    true("nearer than before", x1 - x0 < (before[2] - before[0]) / 2, (x0, x1))
    same("the row is marked", texts(page, "#faces [aria-current] b"), [str(ISLANDS)])
    said = page.text("said")
    true("a screen reader is told", said.startswith(f"Shows number {ISLANDS}: Gap between"), said)
    page.keys(Keys.END)
    same("End goes to the last one", focused(page), 17)
    page.driver.find_element(By.CSS_SELECTOR, "#faces li:nth-child(1) button").click()
    page.settle()
    x0, y0, x1, y1 = view_box(page)
    is_seen = x0 < 180 and y0 < 0 and x1 > 200 and y1 > 200
    true("a click shows the first one, from 180 0 to 200 200", is_seen and x1 - x0 < 1000, (x0, y0, x1, y1))
    page.keys("f")
    page.settle()


def test_kinds(page):
    boxes = page.driver.find_elements(By.CSS_SELECTOR, "#coverKinds input")
    boxes[0].click()
    boxes[3].click()
    page.settle()
    page.wait("document.querySelectorAll('#faces button').length === 8")
    same("of two kinds nothing is listed or drawn", drawn(page), list(range(7, 15)))
    same("numbers stay", [row[:3] for row in rows(page)[:2]], ["7#3", "8Ga"])
    boxes[0].click()
    boxes[3].click()
    page.settle()
    page.wait("document.querySelectorAll('#faces button').length === 17")
    same("and all again", drawn(page), list(range(1, 18)))


def test_out_of_date(page):
    page.later("editor.edit('delete 20')")
    page.settle()
    same("after an edit the list is out of date, and stays", [page.text("coverAge"), len(rows(page))], [LAST, 17])
    same("it is drawn paler", [is_old(page), page.element("coverAge").get_attribute("class")], [True, "old"])
    page.later("editor.edit('rename 0 \"x\"')")
    page.settle()
    same("after two edits", page.text("coverAge"), "Out of date: the map was looked at before the last 2 changes.")
    page.later("editor.undo()")
    page.later("editor.undo()")
    page.settle()
    same("once both are taken back it is the map again", [page.text("coverAge"), is_old(page)], [NOW, False])
    page.later("editor.edit('delete 20')")
    look(page)
    same("a new look", [page.text("coverAge"), rows(page)[7]],
         [NOW, "8Gap between #17 and #1876,800 square grid units · width 80 grid units"])
    page.later("editor.undo()")
    page.settle()
    same("what was edited before it is taken back", page.text("coverAge"), LAST)
    is_map(page, "looking")


def test_order_of_text(page):
    """After a split the new feature comes right after the old one in the file, but gets the highest number."""
    page.later("""editor.edit('split 0 "east" 180 200 0 0')""")
    page.settle()
    same("a part of a split", page.js("return editor.model.order.slice(0, 3)"), [0, 32, 1])
    look(page)
    found = rows(page)
    same("features go by their own numbers", [found[0], found[7]],
         ["1east and #1 overlap4,000 square grid units · width 19 grid units", ROWS[8]])
    page.later("editor.undo()")
    look(page)


def test_widths(page):
    look(page, "19")
    same("those that are at most so wide", [row.split("4,000")[0] for row in rows(page)],
         ["1#0 and #1 overlap", "2#14 and #15 overlap", "3#14, #15 and #16 overlap", "4Gap between #2, #3, #4 and #5"])
    look(page, "1")
    none = "No overlaps and no gaps that are at most 1 wide."
    same("none", [page.text("coverMore"), rows(page), drawn(page)], [none, [], []])
    for width in ("1.5", "-1", "1000000000001"):
        look(page, width)
        true(f"no width {width}", "a whole number of grid units" in page.text("coverState"), page.text("coverState"))
    look(page, "")
    same("any again", [len(rows(page)), page.is_shown("coverState")], [17, False])
    page.keys("t")
    true("while the map is thinned it is not looked at", page.js("return document.getElementById('look').disabled"))
    page.keys(Keys.ESCAPE)
    page.wait("!editor.isLocked")
    page.element("coverClear").click()
    page.settle()
    same("Clear takes all away", [page.is_shown("coverFound"), page.is_shown("coverAge"), drawn(page), focus_of(page)],
         [False, False, [], "look"])
    look(page)
    same("until the next look", [len(rows(page)), len(drawn(page))], [17, 17])


def begin_look(page, folder):
    """Begins to look, until border_cover runs, which waits."""
    begun = folder / "cover.begun"
    begun.unlink(missing_ok=True)
    (folder / "cover.wait").write_text("")
    page.element("look").click()
    for _ in range(1000):
        if begun.exists():
            break
        page.later("new Promise(done => setTimeout(done, 20))")
    page.wait("!editor.pending")


def test_covering_troubles(page, folder):
    """border_cover takes long, and fails."""
    wait, says = folder / "cover.wait", folder / "cover.says"
    page.load()
    page.keys("o")
    begin_look(page, folder)
    same("the page says that it looks", page.text("coverState"), "Looking for overlaps and gaps …")
    page.later("editor.edit('delete 20')")
    same("meanwhile the map is edited", page.last(), ("delete 20", "ok"))
    wait.unlink()
    done(page)
    same("what is found is of before", [page.text("coverAge"), rows(page)[7]], [LAST, ROWS[8]])
    same("with its outlines", page.js(WHOLE), 17)
    begin_look(page, folder)
    page.later("editor.edit('delete 19')")
    begin_look(page, folder)
    wait.unlink()
    done(page)
    state = [page.text("coverAge"), page.is_shown("coverState")]
    same("a second look takes the place of the first", state, [NOW, False])
    found = rows(page)
    true("and has the edits before it", "between #17 and #18" in found[7] and "Lake in #18" in " ".join(found), found)
    says.write_text("open: too large sides")
    look(page)
    said = [page.text("coverState"), page.text("coverAge"), len(rows(page))]
    true("a fault is told in words, and the list stays", "too many borders" in said[0] and said[1:] == [NOW, 17], said)
    says.write_text("strange")
    look(page)
    same("also one that is not known", page.text("coverState"), "Nothing was found out. Strange.")
    says.unlink()
    look(page)
    same("it is looked at again", [page.is_shown("coverState"), len(rows(page))], [False, 17])


def test_not_covering(page):
    page.load()
    page.keys("o")
    look(page)
    said = page.text("coverState")
    true("border_cover is not there: the page says so", "border_cover is not there" in said, said)
    same("nothing is listed", [page.is_shown("coverFound"), page.is_shown("coverAge")], [False, False])
    page.later("editor.edit('delete 20')")
    is_map(page, "an edit without border_cover")


def test_covering_hostile(page):
    page.load()
    page.keys("o")
    look(page)
    same("names are texts", [rows(page)[0].startswith(f"1{ATTACK} and </b><b> overlap"), texts(page, "#sums h4")],
         [True, [ATTACK, "b"]])
    said = page.text("uneven")
    true("a hole outside is told, with both areas", said.startswith(f"{ATTACK}, part 1: a hole is not within") and
         "is -5 by its rings, and 105 by the rule" in said, said)
    page.driver.find_element(By.CSS_SELECTOR, "#uneven button").click()
    same("a click leads to its feature", page.js("return editor.selected"), [2])
    same("no text becomes an element", page.js("return document.querySelectorAll('#cover img').length"), 0)
    same("nothing runs", page.js("return window.hit || 0"), 0)
