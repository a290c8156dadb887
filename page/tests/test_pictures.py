#!/usr/bin/python3
"""Renders pictures of border_show in a headless Chromium, and compares where things stand with a second drawing.

The second drawing is computed here from the topology alone, with fractions: where each feature's middle and the gap lie,
in pixels of the picture. On grids of 10 to 10^12 units the pixel at the middle of a feature has that feature's fill, the
pixel in a gap has none, each label stands inside its polygon and none covers another. Needs Chromium, chromedriver and
selenium. The program is the one that BORDER_SHOW names, or else the one that page/programs.py finds. There is a line for
each check; the last one says how many passed and failed.

With MAP.. it looks at pictures of these files alone, maps that open: the pixel at a place inside each feature, where
bench/drawn.py draws it, has that feature's fill; each label lies in its feature and none covers another; no text of the
picture covers another or is cut off; and features that are named are in the middle of the view.
"""
import argparse
import importlib.util
import json
import os
import pathlib
import shutil
import struct
import subprocess
import sys
import tempfile
import zlib
from fractions import Fraction

from selenium import webdriver
from selenium.webdriver.chrome.service import Service

TOP = pathlib.Path(__file__).resolve().parents[2]
sys.path.insert(0, str(TOP / "bench"))
import drawn  # noqa: E402

GRIDS = (10, 10**6, 3 * 10**7, 10**9, 10**12)

# The features of the drawn map, on a grid of ten units: a square with a hole, two that fill a column beside it with a gap
# between them, and a crescent whose box has its middle outside it.
FEATURES = {
    "hollow": [[(0, 0), (4, 0), (4, 10), (0, 10)], [(2, 4), (2, 5), (3, 5), (3, 4)]],
    "lower": [[(4, 0), (7, 0), (7, 4), (4, 4)]],
    "upper": [[(4, 5), (7, 5), (7, 10), (4, 10)]],
    "crescent": [[(7, 0), (10, 0), (10, 10), (7, 10), (7, 8), (9, 8), (9, 2), (7, 2)]],
}
# A place inside each feature, and places inside none.
INSIDE = {"hollow": (1, 7), "lower": (5, 2), "upper": (5, 8), "crescent": (Fraction(19, 2), 5)}
OUTSIDE = {"the hole": (Fraction(5, 2), Fraction(9, 2)), "the gap": (5, Fraction(9, 2))}

# A colour for each feature, so that a pixel tells whose it is.
COLOURS = ((200, 0, 0), (0, 160, 0), (0, 0, 200), (160, 0, 160))
PAINT = """
const [colours] = arguments;
document.querySelectorAll('g > path:not([class])').forEach((path, i) => {
    path.style.fill = `rgb(${colours[i].join(',')})`;
    path.style.fillOpacity = 1;
});
document.querySelectorAll('text').forEach(text => { text.style.display = 'none'; });
const view = document.querySelector('svg > svg');
return ['x', 'y', 'width', 'height'].map(name => Number(view.getAttribute(name)));
"""
LABELS = """
return [...document.querySelectorAll('text.name')].map(text => {
    const box = text.getBBox();
    return [text.textContent, box.x, box.y, box.x + box.width, box.y + box.height];
});
"""
# What the feature in the middle of the view is called, and how much of the greater extent of the view it takes.
FEATURE_IN_MIDDLE = """
const view = document.querySelector('svg > svg');
const [x, y, width, height] = ['x', 'y', 'width', 'height'].map(name => Number(view.getAttribute(name)));
const path = document.elementFromPoint(x + width / 2, y + height / 2);
const box = path.getBoundingClientRect();
return [path.querySelector('title').textContent, Math.max(box.width / width, box.height / height)];
"""
# Of each label, whether its box lies in its feature: points along its sides are in the fill of one feature of that number,
# or outside the view. Of each text, where it is; a label may cover no label, and another text no other text.
LABELS_OUTSIDE = """
const view = document.querySelector('svg > svg');
const parts = view.viewBox.baseVal.width / Number(view.getAttribute('width'));
const features = new Map();
for (const path of document.querySelectorAll('g > path:not([class])'))
    features.set(path.querySelector('title').textContent.split(' ')[0], path);
const steps = [...Array(9).keys()].map(k => k / 8);
return [...document.querySelectorAll('text.name')].filter(text => {
    const box = text.getBBox(), path = features.get(text.textContent.split(' ')[0]);
    const isIn = (x, y) => {
        const point = view.createSVGPoint();
        point.x = (x - Number(view.getAttribute('x'))) * parts;
        point.y = (y - Number(view.getAttribute('y'))) * parts;
        return path.isPointInFill(point);
    };
    return !steps.every(k => isIn(box.x + box.width * k, box.y + 2) && isIn(box.x + box.width * k, box.y + box.height - 2));
}).map(text => text.textContent);
"""
TEXTS = """
return [...document.querySelectorAll('svg > text')].map(text => {
    const box = text.getBBox();
    return [text.textContent, box.x, box.y + 2, box.x + box.width, box.y + box.height - 2];
});
"""
# Where the middle of the outline of a named feature is, from the middle of the view in pixels.
NAMED_FROM_MIDDLE = """
const box = document.querySelector('path.named').getBoundingClientRect();
const view = document.querySelector('svg > svg');
const [x, y, width, height] = ['x', 'y', 'width', 'height'].map(name => Number(view.getAttribute(name)));
return [box.x + box.width / 2 - x - width / 2, box.y + box.height / 2 - y - height / 2];
"""
NUMBERS = """
const found = [];
for (const name of ['d', 'transform', 'viewBox', 'x', 'y', 'width', 'height', 'cx', 'cy', 'stroke-width'])
    document.querySelectorAll(`[${name}]`).forEach(element => found.push(element.getAttribute(name)));
return found;
"""


def program():
    """The path of border_show."""
    if "BORDER_SHOW" in os.environ:
        return os.path.abspath(os.environ["BORDER_SHOW"])
    place = TOP / "page/programs.py"
    if not place.exists():
        raise SystemExit("BORDER_SHOW has to name the program border_show")
    spec = importlib.util.spec_from_file_location("programs", place)
    programs = importlib.util.module_from_spec(spec)
    spec.loader.exec_module(programs)
    return programs.find("border_show")[0]


def start_browser():
    options = webdriver.ChromeOptions()
    for word in ("--headless=new", "--no-sandbox", "--window-size=1100,1000", "--hide-scrollbars", "--disable-dev-shm-usage",
                 "--no-first-run", "--disable-background-networking", "--no-proxy-server", "--force-device-scale-factor=1"):
        options.add_argument(word)
    return webdriver.Chrome(service=Service(shutil.which("chromedriver")), options=options)


# ---- pixels

def unfiltered(kind, line, above, step):
    """A line of a PNG without its filter (PNG, 9.2)."""
    line = bytearray(line)
    for i, byte in enumerate(line):
        left, up = (line[i - step] if i >= step else 0), above[i]
        corner = above[i - step] if i >= step else 0
        guess = left + up - corner
        nearest = min((abs(guess - left), 0, left), (abs(guess - up), 1, up), (abs(guess - corner), 2, corner))[2]
        line[i] = (byte + (0, left, up, (left + up) // 2, nearest)[kind]) % 256
    return line


def pixels_of(png):
    """The lines of a PNG with eight bits for each of red, green and blue, and how many bytes a pixel has."""
    at, data, width, step = 8, b"", 0, 0
    while at < len(png):
        size, kind = struct.unpack(">I4s", png[at:at + 8])
        body = png[at + 8:at + 8 + size]
        if kind == b"IHDR":
            width, _, bits, colour = struct.unpack(">IIBB", body[:10])
            assert bits == 8 and colour in (2, 6)
            step = 3 if colour == 2 else 4
        data += body if kind == b"IDAT" else b""
        at += size + 12
    data, lines, above = zlib.decompress(data), [], bytes(width * step)
    for start in range(0, len(data), width * step + 1):
        above = unfiltered(data[start], data[start + 1:start + 1 + width * step], above, step)
        lines.append(above)
    return lines, step


def colour_at(pixels, x, y):
    lines, step = pixels
    x = int(x) * step
    return tuple(lines[int(y)][x:x + 3])


# ---- the second drawing

def topology_of(features, unit):
    """The features as a topology, with a grid of so many units for each of theirs."""
    arcs, geometries = [], []
    for name, rings in features.items():
        numbers = []
        for ring in rings:
            numbers.append([len(arcs)])
            arcs.append([[x * unit, y * unit] for x, y in [*ring, ring[0]]])
        geometries.append({"type": "Polygon", "id": name, "arcs": numbers})
    return {"type": "Topology", "objects": {"land": {"type": "GeometryCollection", "geometries": geometries}}, "arcs": arcs}


class Drawing:
    """Where positions stand in the picture of a map whose coordinates lie between two numbers: in a box of the picture, with
    a margin of a fortieth of the greater extent and a unit of the grid round them."""

    def __init__(self, least, most, unit, box):
        self.least, self.unit, self.box = least * unit, unit, box
        extent = (most - least) * unit
        self.margin = extent // 40 + 1
        self.extent = extent + 2 * self.margin

    def place(self, position):
        x, y, width, height = self.box
        right, up = (coordinate * self.unit - self.least + self.margin for coordinate in position)
        return float(x + right * width / Fraction(self.extent)), float(y + (self.extent - up) * height / Fraction(self.extent))


def is_in(position, rings):
    """Whether a position is inside an odd number of rings."""
    (x, y), inside = position, False
    for ring in rings:
        for (a, b), (c, d) in zip(ring, ring[1:] + ring[:1]):
            if (b > y) != (d > y) and x < a + (y - b) * (c - a) / (d - b):
                inside = not inside
    return inside


def is_box_in(box, rings):
    """Whether a box of pixels lies in rings of pixels: points along its sides do, half a pixel further in."""
    left, top, right, bottom = box[0] + 0.5, box[1] + 0.5, box[2] - 0.5, box[3] - 0.5
    steps = [k / 16 for k in range(17)]
    sides = [(left + (right - left) * k, y) for k in steps for y in (top, bottom)]
    sides += [(x, top + (bottom - top) * k) for k in steps for x in (left, right)]
    return all(is_in(point, rings) for point in sides)


def do_meet(one, other):
    return one[0] < other[2] and other[0] < one[2] and one[1] < other[3] and other[1] < one[3]


# ---- checks

class Checks:
    passed = failed = 0

    def that(self, holds, what):
        self.passed, self.failed = self.passed + bool(holds), self.failed + (not holds)
        print("ok" if holds else "FAILED", what, flush=True)


def show(driver, picture):
    driver.get(picture.as_uri())


def check_numbers(checks, driver, what):
    """No number of a picture is over a few hundred thousand."""
    text = " ".join(driver.execute_script(NUMBERS)).replace("%", "")
    numbers = [abs(int(word)) for word in "".join(c if c.isdigit() else " " for c in text).split()]
    checks.that(numbers and max(numbers) < 300_000, f"{what}: no number is over 300,000")


def check_labels(checks, driver, drawing, what):
    labels = driver.execute_script(LABELS)
    checks.that({text for text, *_ in labels} == {f"#{n} {name}" for n, name in enumerate(FEATURES)},
                f"{what}: each feature has its number and its id")
    for text, *box in labels:
        rings = [[drawing.place(position) for position in ring] for ring in FEATURES[text.split()[-1]]]
        checks.that(is_box_in(box, rings), f"{what}: the label {text} is inside its polygon")
    checks.that(not any(do_meet(a[1:], b[1:]) for n, a in enumerate(labels) for b in labels[:n]),
                f"{what}: no label covers another")


def check_grid(checks, driver, show_map, folder, grid):
    """The map on a grid of so many units."""
    unit, what = grid // 10, f"grid {grid:,}"
    (folder / "map.json").write_text(json.dumps(topology_of(FEATURES, unit)))
    subprocess.run([show_map, folder / "map.json", "--ids", "--out", folder / "map.svg"], check=True, timeout=120)
    show(driver, folder / "map.svg")
    check_numbers(checks, driver, what)
    labels = driver.execute_script(LABELS)
    drawing = Drawing(0, 10, unit, driver.execute_script(PAINT, COLOURS))
    pixels = pixels_of(driver.get_screenshot_as_png())
    for colour, (name, position) in zip(COLOURS, INSIDE.items()):
        checks.that(colour_at(pixels, *drawing.place(position)) == colour, f"{what}: {name} is where it is")
    for name, position in OUTSIDE.items():
        checks.that(colour_at(pixels, *drawing.place(position)) not in COLOURS, f"{what}: {name} has no fill")
    assert labels is not None
    show(driver, folder / "map.svg")
    check_labels(checks, driver, drawing, what)


def check_title(checks, driver, show_map, folder):
    """The name of the file stands above the map, whatever characters it has."""
    place = folder / "a <b> & \"c\".json"
    place.write_text(json.dumps(topology_of(FEATURES, 1)))
    subprocess.run([show_map, place, "--out", folder / "title.svg"], check=True, timeout=120)
    show(driver, folder / "title.svg")
    texts = driver.execute_script("return [...document.querySelectorAll('text')].map(text => text.textContent)")
    checks.that(place.name in texts, "the name of the file is the title")
    checks.that(any(text.endswith(" grid units") for text in texts), "a bar of length has its unit")


def check_feature(checks, driver, show_map, folder, grid):
    """A feature that is named by its id or its number takes two thirds of the view, in its middle."""
    (folder / "map.json").write_text(json.dumps(topology_of(FEATURES, grid // 10)))
    for text, name in ("lower", "lower"), ("1", "lower"), ("#2", "upper"):
        subprocess.run([show_map, folder / "map.json", "--feature", text, "--out", folder / "part.svg"], check=True, timeout=120)
        show(driver, folder / "part.svg")
        title, share = driver.execute_script(FEATURE_IN_MIDDLE)
        checks.that(title.endswith(f" {name}") and abs(share - 2 / 3) < 0.2, f"grid {grid:,}: {text} names {title}, {share:.2f} of the view")


def check_no_feature(checks, show_map, folder):
    """What names no feature, or several, is said, and no picture is made."""
    twins = topology_of(FEATURES, 1000)
    twins["objects"]["land"]["geometries"][1]["id"] = "upper"
    (folder / "map.json").write_text(json.dumps(twins))
    for text, reason in ("lower", "none has this id or number"), ("4", "none has this id or number"), ("upper", "several have this id"):
        ran = subprocess.run([show_map, folder / "map.json", "--feature", text, "--out", folder / "none.svg"], stderr=subprocess.PIPE,
                             timeout=120)
        found = ran.returncode, ran.stderr.decode(), (folder / "none.svg").exists()
        checks.that(found == (1, f"no feature: {reason}\n", False), f"--feature {text}: {found}")


# ---- pictures of files

def inside_of(layout, feature):
    """A place inside a feature that is two pixels and more from its borders, in pixels of the picture, where there is one."""
    rings = layout.rings(feature)
    heights = sorted({y for ring in rings for _, y in ring})
    for part in (4, 2, 6, 3, 5):
        top = heights[0] + (heights[-1] - heights[0]) * part // 8 - 200
        stretch = drawn.widest(rings, top, top + 400, layout.width * 100)
        if stretch and stretch[1] - stretch[0] >= 400:
            return layout.left + (stretch[0] + stretch[1]) / 200, layout.top + (top + 200) / 100
    return None


def check_fills(checks, driver, layout, features, what):
    """The pixel inside each feature has a colour of its own, or that of another one that is over it there."""
    with_rings = [feature for feature in features if feature.polygons]
    colours = [(n % 251, n // 251, 77) for n in range(len(with_rings))]
    driver.execute_script(PAINT, colours)
    pixels, wrong, seen = pixels_of(driver.get_screenshot_as_png()), [], 0
    for colour, feature in zip(colours, with_rings):
        place = inside_of(layout, feature)
        if place:
            seen += 1
            found = colour_at(pixels, *place)
            if found != colour and not is_over(layout, with_rings, colours, found, place):
                wrong.append(feature.number)
    checks.that(seen and not wrong, f"{what}: {seen} of {len(with_rings)} features are where they are, but {wrong}")


def is_over(layout, features, colours, found, place):
    """Whether the feature of this colour has the place inside it too."""
    if found not in colours:
        return False
    x, y = (place[0] - layout.left) * 100, (place[1] - layout.top) * 100
    return is_in((x, y), layout.rings(features[colours.index(found)]))


def check_texts(checks, driver, what):
    """Labels lie in their features; no text covers another, or is cut off."""
    outside = driver.execute_script(LABELS_OUTSIDE)
    texts = driver.execute_script(TEXTS)
    labels = len(driver.execute_script(LABELS))
    checks.that(not outside, f"{what}: {labels} labels are in their features, but {outside}")
    covered = [(a[0], b[0]) for n, a in enumerate(texts) for b in texts[:n] if do_meet(a[1:], b[1:])]
    checks.that(not covered, f"{what}: no text covers another, but {covered[:5]}")
    width, height = driver.execute_script("const svg = document.documentElement; return [svg.width, svg.height].map("
                                          "length => length.baseVal.value)")
    cut_off = [text for text, *box in texts if box[0] < 0 or box[1] < 0 or box[2] > width or box[3] > height]
    checks.that(not cut_off, f"{what}: no text is cut off, but {cut_off[:5]}")


def check_parts(checks, driver, show_map, folder, place, features):
    """The largest feature, one in the middle and the smallest are each in the middle of the view where they are named."""
    by_size = sorted((each for each in features if each.polygons), key=lambda each: drawn.area_of(each.polygons))
    for feature in by_size[0], by_size[len(by_size) // 2], by_size[-1]:
        subprocess.run([show_map, place, "--ids", "--feature", f"#{feature.number}", "--out", folder / "part.svg"], check=True,
                       timeout=120)
        show(driver, folder / "part.svg")
        away = driver.execute_script(NAMED_FROM_MIDDLE)
        checks.that(max(map(abs, away)) < 2, f"{place.name}: #{feature.number} is in the middle of its part, but {away}")
        check_texts(checks, driver, f"{place.name}, about #{feature.number}")


def check_map(checks, driver, show_map, folder, place):
    """The picture of a file, and of parts of it."""
    subprocess.run([show_map, place, "--ids", "--out", folder / "map.svg"], check=True, timeout=120)
    features, layout = drawn.whole(drawn.read(place))
    show(driver, folder / "map.svg")
    check_numbers(checks, driver, place.name)
    check_texts(checks, driver, place.name)
    check_fills(checks, driver, layout, features, place.name)
    check_parts(checks, driver, show_map, folder, place, features)


def check_change(checks, driver, show_map, folder, before, after):
    """No text of a picture of an edit covers another."""
    subprocess.run([show_map, before, after, "--ids", "--out", folder / "edit.svg"], check=True, timeout=120)
    show(driver, folder / "edit.svg")
    check_numbers(checks, driver, f"{before.name}, {after.name}")
    texts = driver.execute_script(TEXTS)
    covered = [(a[0], b[0]) for n, a in enumerate(texts) for b in texts[:n] if do_meet(a[1:], b[1:])]
    checks.that(not covered, f"{before.name}, {after.name}: no text covers another, but {covered[:5]}")


# ---- edits

def table(driver):
    """The rows of the list of changes, by the lines that the texts stand in."""
    rows = driver.execute_script("return [...document.querySelectorAll('svg > text')].map(text => "
                                 "[Number(text.getAttribute('y')), text.textContent])")
    lines = {}
    for y, text in rows:
        lines.setdefault(y, []).append(text)
    return [lines[y] for y in sorted(lines)]


def check_edit(checks, driver, show_map, folder, edit, rows, filled, what):
    """What an edit did: these rows are listed, so many features are filled, and borders are drawn where they changed."""
    after = edit({name: [list(ring) for ring in rings] for name, rings in FEATURES.items()})
    (folder / "before.json").write_text(json.dumps(topology_of(FEATURES, 1000)))
    (folder / "after.json").write_text(json.dumps(topology_of(after, 1000)))
    command = [show_map, folder / "before.json", folder / "after.json", "--out", folder / "edit.svg"]
    subprocess.run(command, check=True, timeout=120)
    show(driver, folder / "edit.svg")
    found = [row for row in table(driver) if row[0] in ("gone", "new", "changed", "renamed")]
    checks.that(found == rows, f"{what}: {found}")
    count = driver.execute_script("return document.querySelectorAll('path.changed').length")
    checks.that(count == filled, f"{what}: {count} filled")


def with_vertex(features):
    """A vertex in the middle of a straight side."""
    features["lower"][0].insert(1, (5, 0))
    return features


def renamed(features):
    return {"other" if name == "lower" else name: rings for name, rings in features.items()}


def moved(features):
    features["upper"][0][2] = (6, 10)
    return features


def without(features):
    del features["lower"]
    return features


# An edit, the rows that it is listed by, and how many features are filled. Areas are on a grid of 1,000 units for each.
EDITS = (
    ("a vertex in a straight side", with_vertex, [], 0),
    ("a rename", renamed, [["renamed", "#1", "lower \u2192 other"]], 0),
    ("a moved vertex", moved,
     [["changed", "#2", "upper", "15,000,000", "12,500,000", "-2,500,000", "-16.66%"]], 1),
    ("a deleted feature", without, [["gone", "#1", "lower", "12,000,000"]], 0),
)


def check_all(checks, driver, show_map, folder):
    """The pictures of the map and the edits above, and of a map of degrees."""
    for grid in GRIDS:
        check_grid(checks, driver, show_map, folder, grid)
        check_feature(checks, driver, show_map, folder, grid)
    check_title(checks, driver, show_map, folder)
    check_no_feature(checks, show_map, folder)
    for what, edit, rows, filled in EDITS:
        check_edit(checks, driver, show_map, folder, edit, rows, filled, what)
    check_map(checks, driver, show_map, folder, TOP / "examples/columbus.json")


def main():
    words = argparse.ArgumentParser(description=__doc__, formatter_class=argparse.RawDescriptionHelpFormatter)
    words.add_argument("map", nargs="*", type=pathlib.Path, help="a map whose picture is looked at")
    words.add_argument("--change", nargs=2, type=pathlib.Path, action="append", default=[], metavar=("BEFORE", "AFTER"),
                       help="maps before and after an edit whose picture is looked at")
    asked = words.parse_args()
    checks, show_map = Checks(), program()
    driver = start_browser()
    try:
        with tempfile.TemporaryDirectory() as name:
            folder = pathlib.Path(name)
            for place in asked.map:
                check_map(checks, driver, show_map, folder, place)
            for before, after in asked.change:
                check_change(checks, driver, show_map, folder, before, after)
            if not asked.map and not asked.change:
                check_all(checks, driver, show_map, folder)
    finally:
        driver.quit()
    print(f"{checks.passed} passed, {checks.failed} failed")
    return 1 if checks.failed else 0


if __name__ == "__main__":
    sys.exit(main())
