#!/usr/bin/python3
"""Tests what the page draws, in Chromium without a window: the colour of a pixel at a position of a map.

Each case is a line of data: a map, what is set before, a position of its grid, and the colour there; `!` before a colour says
that it is another one. The last line is `N passed, M failed`, and the status 1 where something failed.
"""
import sys

import frames

TOP = frames.TOP
LAND, SEA, NOTHING, RED, GREEN = "#f4efe3", "#e9eef1", "#00000000", "#d21f1fff", "#6aa36a"
SQUARES, LAYERS, ISLANDS, TURNED = "examples/squares.json", "layers", "islands", "turned"
LEVELS = "view.setColouring(colouring(model.features.values(), 'level'))"
KINDS = "view.setColouring(colouring(model.features.values(), 'kind'))"
UNDERLAY = "view.underlay = linesOf({type: 'LineString', coordinates: [[2, 2], [8, 2]]})"
MOVED = "view.moved = {x: 10, y: 10, u: 14, v: 14}; view.path(ctx, 0); view.moved = null; ctx.fillStyle = '#d21f1f'; ctx.fill()"
UNMOVED = "view.path(ctx, 0); ctx.fillStyle = '#d21f1f'; ctx.fill('evenodd')"
CONFLICT = "drawConflict(ctx, view, [[2, 2, 8, 2], [5, 1, 5, 8]])"
SWEPT = "drawSwept(ctx, view, {triangles: [[2, 2, 8, 2, 2, 8]], vertices: [[12, 8]]})"

# The levels 1 to 7 are in five classes: 1 2, 3, 4 5, 6, 7. `two` lies over `ten a`.
MAP_CASES = (
    (SQUARES, "", 2, 2, LAND),
    (SQUARES, "", -0.3, 5, SEA),
    (SQUARES, "", 20.3, 5, SEA),
    (SQUARES, "", 10, 3, "!" + LAND),
    (SQUARES, "view.without = new Set([0])", 10, 3, LAND),
    (SQUARES, "model.apply('move 10 10 14 10', 'ok')", 11, 9, LAND),
    (SQUARES, "model.apply('move 20 10 20 5', 'ok')", 18, 9, SEA),
    (SQUARES, "model.apply('move 20 10 20 5', 'ok'); model.undo()", 18, 9, LAND),
    (SQUARES, "model.apply('delete 1', 'ok')", 18, 9, SEA),
    (SQUARES, UNDERLAY, 5, 2, GREEN),
    (SQUARES, "view.turn()", 2, 2, LAND),
    (SQUARES, "view.setColouring(colouring(model.features.values(), 'none'))", 2, 2, LAND),
    (LAYERS, "", 345, 50, LAND),
    (LAYERS, "model.show(3, false)", 345, 50, SEA),
    (LAYERS, "model.show(0, false); model.show(1, false)", 50, 80, SEA),
    (LAYERS, LEVELS, 50, 80, "#8dd087"),
    (LAYERS, LEVELS + "; model.show(1, false)", 50, 80, "#f7f0c6"),
    (LAYERS, LEVELS, 35, 35, "#00a898"),
    (LAYERS, LEVELS, 250, 30, "#006b95"),
    (LAYERS, LEVELS, 20, 150, "#233066"),
    (LAYERS, LEVELS, 345, 50, LAND),
    (LAYERS, LEVELS + "; view.setColouring(null)", 20, 150, LAND),
    (ISLANDS, "", 100, 100, LAND),
    (ISLANDS, "", 1650, 400, SEA),
    (ISLANDS, "", 1500, 600, LAND),
    (ISLANDS, KINDS, 1500, 600, "#efc379"),
    (ISLANDS, KINDS, 500, 500, "#48a4cd"),
    (ISLANDS, KINDS, 2300, 300, "#ffafae"),
    (TURNED, "", 720, 20, LAND),
    (TURNED, "", 790, 90, SEA),
    (TURNED, "", 900, 260, SEA),
)
# What is drawn above the map, and the colour there.
OVER_CASES = (
    (SQUARES, UNMOVED, 5, 5, RED),
    (SQUARES, UNMOVED, 11, 9, NOTHING),
    (SQUARES, MOVED, 11, 9, RED),
    (SQUARES, CONFLICT, 6.5, 2, RED),
    (SQUARES, CONFLICT, 5, 4, RED),
    (SQUARES, CONFLICT, 8, 6, NOTHING),
    (SQUARES, SWEPT, 3, 3, "!" + NOTHING),
    (SQUARES, SWEPT, 12, 8, "#ffffffff"),
    (SQUARES, SWEPT, 8, 8, NOTHING),
)
# A map, what is set before, an expression, and its value.
VALUE_CASES = (
    (SQUARES, "", "view.screen(0, 0)[1] > view.screen(0, 10)[1]", True),
    (SQUARES, "view.turn()", "view.screen(0, 0)[1] > view.screen(0, 10)[1]", False),
    ("degrees", "", "view.screen(0, 0)[1] > view.screen(0, 1000)[1]", False),
    ("degrees", "", "view.aspect.toFixed(6)", "9.063078"),
    ("turned", "", "view.aspect", 1),
    (SQUARES, "", "view.hasVertices", True),
    (SQUARES, "", "dark(5, 5.5)", 0),
    (SQUARES, "view.showNames = true", "dark(5, 5.5) > 0", True),
    (SQUARES, "view.showNames = true; model.naming = {by: 'property', property: 'none'}", "model.nameOf(model.features.get(1))", "#1"),
    (SQUARES, "view.zoom(3, 100, 100)", "view.place(100, 100).map(Math.round).join(' ') === at", True),
    (SQUARES, "view.pan(30, -20)", "view.screen(...corner).map((v, i) => Math.round(v - before[i])).join(' ')", "30 -20"),
    ("nothing", "", "view.features === undefined && model.order.length", 1),
)
# Shows a map as a case has it: without names, drawn to its end.
SET = """
const done = arguments[arguments.length - 1], [setting, over] = arguments;
(async () => {
  const { colouring } = await import("/web/colours.js"), { linesOf } = await import("/web/model.js");
  const { drawConflict, drawSwept } = await import("/web/marks.js");
  reset();
  view.showNames = false;
  window.corner = [0, 0];
  window.before = view.screen(...corner);
  window.at = view.place(100, 100).map(Math.round).join(" ");
  eval(setting);
  view.layers = over ? [ctx => eval(over)] : [];
  view.change();
  await settled();
})().then(() => done(""), fault => done(String(fault)));
"""
COLOUR = """
const [canvas, x, y, size] = arguments, ratio = view.ratio, [sx, sy] = view.screen(x, y).map(v => Math.floor(v * ratio));
const pixel = [...document.getElementById(canvas).getContext("2d").getImageData(sx, sy, 1, 1).data];
return "#" + pixel.slice(0, size).map(v => v.toString(16).padStart(2, "0")).join("");
"""
VALUE = """
const dark = (x, y) => {
  const [sx, sy] = view.screen(x, y).map(v => v * view.ratio), { data } = view.ctx.getImageData(sx - 10, sy - 10, 20, 20);
  return data.filter((value, i) => i % 4 === 0 && value < 100).length;
};
return eval(arguments[0]);
"""


def path_of(name):
    return TOP / name if "/" in name else TOP / "page" / "tests" / "maps" / f"{name}.json"


def show(browser, server, name, setting, over):
    """Shows the map of a case and sets what it says; a fault is the answer."""
    if server.map != path_of(name):
        browser.open(server, path_of(name))
    return browser.driver.execute_async_script(SET, setting, over)


def check_colours(browser, server, checks):
    cases = [(name, setting, "", x, y, colour) for name, setting, x, y, colour in MAP_CASES]
    cases += [(name, "", over, x, y, colour) for name, over, x, y, colour in OVER_CASES]
    for name, setting, over, x, y, colour in cases:
        fault = show(browser, server, name, setting, over)
        canvas, size = ("over", 4) if over else ("base", 3)
        found = fault or browser.driver.execute_script(COLOUR, canvas, x, y, size)
        is_other = colour.startswith("!")
        is_right = not fault and (found == colour.lstrip("!")) != is_other
        checks.check(f"{name} {setting}{over} at {x} {y}: {found}, expected {colour}", is_right)


def check_values(browser, server, checks):
    for name, setting, expression, value in VALUE_CASES:
        found = show(browser, server, name, setting, "") or browser.driver.execute_script(VALUE, expression)
        checks.check(f"{name} {setting}: {expression} is {found}, expected {value}", found == value)


def main():
    server, checks, browser = frames.serve(), frames.Checks(), frames.Browser()
    try:
        check_colours(browser, server, checks)
        check_values(browser, server, checks)
        checks.check("no frame is asked for where nothing changes", browser.ask("idle", 500) == 0)
        errors = browser.errors()
        checks.check(f"errors {errors}", not errors)
    finally:
        browser.close()
        server.shutdown()
    print(f"{checks.passed} passed, {checks.failed} failed")
    return 1 if checks.failed else 0


if __name__ == "__main__":
    sys.exit(main())
