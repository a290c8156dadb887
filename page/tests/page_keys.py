"""Editing by keys alone, and that every button and list is reached by them."""
import json

from browser import Keys
from page_checks import act_of, is_map, same, true, verbs

# Elements that Tab may reach before it leaves the page.
MOST_TABS = 60


def go_to(page, name):
    """Finds a feature by its name; the cursor is in the middle of it then."""
    page.keys("/")
    page.keys(Keys.CONTROL, "a")
    page.type(name + Keys.ENTER)
    page.settle()


def steps(page, key, count, *held):
    """Presses a key so many times, others held."""
    chain = page.chain()
    for each in held:
        chain.key_down(each)
    for _ in range(count):
        chain.send_keys(key)
    for each in held:
        chain.key_up(each)
    chain.perform()
    page.settle()


def test_keys_vertices(page):
    go_to(page, "8")
    same("/ finds a feature", page.js("return editor.selected"), [8])
    page.keys(Keys.ARROW_RIGHT)
    true("arrows move a cursor", page.js("return tools.isByKeys"))
    page.keys("v")
    vertex = page.js("return tools.vertex")
    true("V goes to the nearest vertex", vertex is not None)
    page.keys(" ")
    steps(page, Keys.ARROW_UP, 2)
    page.keys(" ")
    line, answer = page.last()
    same("Space, arrows, Space move a vertex", (line.split()[:3], answer), (["move", *map(str, vertex)], "ok"))
    is_map(page, "moving by keys")
    page.keys("b")
    page.keys("i")
    line, answer = page.last()
    same("I adds a vertex on a border", (line.split()[0], answer), ("insert", "ok"))
    page.keys("v")
    page.keys(Keys.DELETE)
    same("Delete removes it", page.last(), (f"remove {' '.join(line.split()[5:])}", "ok"))
    page.keys(" ")
    page.keys("v")
    page.keys(" ")
    steps(page, Keys.ARROW_LEFT, 3)
    length = len(page.log())
    page.keys(Keys.ESCAPE)
    true("Esc puts a vertex back", page.js("return tools.drag === null") and len(page.log()) == length)
    is_map(page, "vertices by keys")


def test_keys_features(page):
    go_to(page, "8")
    page.keys("s")
    page.keys(Keys.ARROW_LEFT)
    page.keys("b")
    page.keys(Keys.ENTER)
    first = page.js("return tools.sketch.path.length")
    same("S, then Enter on a border begins a cut", first, 1)
    x, y, u, v = page.js("const b = editor.model.features.get(8).box, p = tools.pointer; "
                         "return [(b[0] + b[2]) / 2, (b[1] + b[3]) / 2, ...editor.view.place(p.x, p.y)]")
    cursor_to(page, (2 * x - u, 2 * y - v))
    page.keys("b")
    page.keys(Keys.ENTER)
    if page.js("return tools.sketch.kind") == "cut":
        page.keys(Keys.ENTER)
    page.answer("half")
    same("and Enter on another ends it", verbs(act_of(page))[-1:], ["split"])
    part = int(page.last()[1].split()[1])
    same("the part is selected", page.js("return editor.selected"), [part])
    go_to(page, "half")
    page.keys(Keys.ESCAPE)
    page.keys(Keys.ENTER)
    same("Enter selects", page.js("return editor.selected.length"), 1)
    page.keys(Keys.SHIFT, Keys.DELETE)
    same("Shift+Delete deletes", verbs(act_of(page)), ["delete"])
    page.keys(Keys.CONTROL, "z")
    go_to(page, "4")
    page.keys(Keys.F2)
    page.answer("four")
    same("F2 gives an id", page.last(), ('rename 4 "four"', "ok"))
    is_map(page, "features by keys")


def test_keys_reshape(page):
    """From one end of the border between 40 and 46, over a place in 46, to the other end."""
    go_to(page, "46")
    page.keys("r")
    ring = json.loads(page.later("editor.talk.ask('rings 46').then(a => a[0])"))[0][0]
    other = json.loads(page.later("editor.talk.ask('rings 40').then(a => a[0])"))[0][0]
    common = [at for at in ring if at in other]
    for at in (common[0], common[-1]):
        cursor_to(page, at)
        page.keys("v")
        page.keys(Keys.ENTER)
        if at == common[0]:
            go = page.js("const b = editor.model.features.get(46).box; return [(b[0] + b[2]) / 2, (b[1] + b[3]) / 2]")
            cursor_to(page, go)
            page.keys(Keys.ENTER)
    same("R, Enter, Enter, Enter give a piece away", verbs(act_of(page)), ["split", "merge"])
    is_map(page, "a reshape by keys")
    page.keys(Keys.CONTROL, "z")
    same("Ctrl+Z takes it back", verbs(act_of(page)), ["undo", "undo"])


def cursor_to(page, at):
    """Moves the cursor to a position of the grid with arrows, and with Ctrl for the last pixels."""
    for pixels, held in ((12, []), (1, [Keys.CONTROL])):
        x, y = page.js("const [x, y] = editor.view.screen(...arguments), p = tools.pointer; return [x - p.x, y - p.y]", *at)
        steps(page, Keys.ARROW_RIGHT if x > 0 else Keys.ARROW_LEFT, round(abs(x) / pixels), *held)
        steps(page, Keys.ARROW_DOWN if y > 0 else Keys.ARROW_UP, round(abs(y) / pixels), *held)


def test_keys_merge(page):
    go_to(page, "39")
    page.keys(Keys.ENTER)
    first = page.js("return editor.selected[0]")
    near = page.later(f"editor.neighboursOf({first})")
    for _ in range(40):
        page.keys(Keys.ARROW_RIGHT)
        if page.js("return tools.feature !== null && tools.feature !== arguments[0]", first):
            break
    other = page.js("return tools.feature")
    page.keys(Keys.SHIFT, Keys.ENTER)
    same("Shift+Enter selects one more", page.js("return editor.selected"), [first, other])
    page.keys("m")
    true("the other is its neighbour", other in near, (other, near))
    same("M merges", page.last(), (f"merge {first} {other}", "ok"))
    is_map(page, "merging by keys")


def test_keys_rest(page):
    vertices = page.js("return editor.vertices")
    page.keys("t")
    same("T opens the slider, which has the focus", page.js("return document.activeElement.id"), "thinShare")
    for _ in range(30):
        page.chain().send_keys(Keys.ARROW_LEFT).perform()
    page.wait("document.getElementById('thinBusy').hidden && document.getElementById('thinShare').value === '70'")
    page.settle()
    true("arrows thin", page.js("return editor.vertices") <= 0.7 * vertices, page.js("return editor.vertices"))
    page.keys(Keys.TAB)
    page.keys(Keys.TAB)
    same("Tab goes to Keep", page.js("return document.activeElement.id"), "thinKeep")
    page.keys(Keys.ENTER)
    true("Enter keeps", not page.is_shown("thinning") and page.js("return editor.vertices") <= 0.7 * vertices)
    page.keys("d")
    page.keys("v")
    page.keys(Keys.ENTER)
    steps(page, Keys.ARROW_UP, 5)
    page.keys(Keys.ENTER)
    true("D measures", page.text("hint").startswith("Length "), page.text("hint"))
    page.keys(Keys.ESCAPE)
    page.keys("?")
    true("? opens the help", page.js("return document.getElementById('help').open"))
    page.keys(Keys.ESCAPE)
    page.keys(Keys.CONTROL, "s")
    page.wait("!editor.isUnsaved")
    true("Ctrl+S saves", page.text("state") == "All changes saved")


def test_focus(page):
    """Every button and list is reached by Tab, has a name, and shows that it has the focus."""
    page.js("document.getElementById('find').focus()")
    reached = []
    # behind the last one the focus leaves the page, for the browser's own buttons
    while page.js("return document.hasFocus() && document.activeElement !== document.body") and len(reached) < MOST_TABS:
        reached.append(page.js("const e = document.activeElement; return [e.id || e.tagName, getComputedStyle(e).outlineStyle]"))
        page.chain().send_keys(Keys.TAB).perform()
    wanted = {"find", "underlay", "script", "download", "helpOpen", "undo", "cut", "reshape", "thin", "measure", "zoomIn", "fit",
              "map", "tabLayers", "nameBy", "colourBy"}
    same("Tab reaches all", wanted - {name for name, _ in reached}, set())
    unseen = [name for name, outline in reached if outline == "none"]
    same("the focus is seen", unseen, [])
    unnamed = page.js("return [...document.querySelectorAll('button, input, select')].filter(e => !e.textContent.trim() "
                      "&& !e.getAttribute('aria-label') && !e.getAttribute('aria-labelledby') && !e.labels?.length)"
                      ".map(e => e.id)")
    same("all have names", unnamed, [])


def by_keys(page):
    page.load()
    test_keys_vertices(page)
    test_keys_features(page)
    test_keys_reshape(page)
    test_keys_merge(page)
    test_keys_rest(page)
    test_focus(page)
