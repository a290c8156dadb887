#!/usr/bin/env python3
"""Measures how long the page of ./edit takes for what a user does, in Chromium without a window.

For examples/columbus.json there is the time from the start of ./edit until the map is drawn and can be edited; the
browser runs already, and Python has kept what it compiled of the server, as it does unless it is told not to. For maps
that bench/maps.py makes there are also the memory of the page, of border_edit and of the server, then drags of vertices,
splits, merges and undos, saving, which has to give what border_edit makes of the page's script, and a thinning that
leaves out most vertices. Times of starts, drags, splits, merges and undos are medians. An edit ends when the page has
its answers and has changed its map; `request` is the part until the server has answered, on the page's WebSocket, or as
a POST where that is said; `drawn` is when the screen shows the edit, with some features in sight. With --largest there
is also a map almost as large as one may be.

Each figure stands beside what is wanted for a map of that size. The script fails where a figure is over three
times what is wanted, since machines differ, where border_edit refuses an edit, or where the page reports an
error. The last line is `N passed, M failed`, the status 1 where something failed.
"""
import argparse
import collections
import os
import pathlib
import shutil
import signal
import statistics
import subprocess
import sys
import time
import traceback

PAGE = pathlib.Path(__file__).resolve().parent.parent
TOP = PAGE.parent
sys.path[:0] = [str(PAGE / "tests"), str(PAGE), str(TOP / "bench")]
import maps  # noqa: E402
import programs  # noqa: E402
from browser import OPEN, Page, STILL, new_folder, start_browser  # noqa: E402

PROGRAMS = ("border_edit", "border_show", "border_mend")
STARTS, DRAGS, CUTS = 5, 20, 5
# How many times what is wanted a figure may be.
TOLERANCE = 3
# Seconds that one act may take.
PATIENCE = 120
# Pixels of a segment beside the vertex that is dragged, and how far it is dragged.
SEGMENT, WAY = 100, (6, 4)
# Twice an area in squares of the grid, greater than any triangle of three vertices in a row.
GREAT = 10**18
# Bytes of the largest map, and segments with which the rings of bricks have nearly as many positions as they may have.
LARGEST, MOST_SEGMENTS = 66_800_000, 1_750_000
# Where a cell's ring of bricks has the middles of its lower and of its upper line, of 64 vertices.
LOWER, UPPER = 8, 40

# `size` is how many vertices a map was made with; 0 for one that was not made here.
Map = collections.namedtuple("Map", "path size")
Figure = collections.namedtuple("Figure", "unit wanted")
# What is wanted for a map of at most so many vertices; nothing where that is not fixed.
FIGURES = {
    "./edit started, to map drawn": Figure("s", {43_000: 0.5, 1_000_000: 3, 2_000_000: 8}),
    "vertex released, request": Figure("ms", {1_000_000: 5}),
    "vertex released, to answer": Figure("ms", {}),
    "vertex released, to drawn": Figure("ms", {}),
    "vertex released, request as POST": Figure("ms", {}),
    "split": Figure("s", {1_000_000: 0.05}),
    "split, drawn": Figure("s", {}),
    "merge": Figure("s", {1_000_000: 0.05}),
    "merge, drawn": Figure("s", {}),
    "undo": Figure("s", {1_000_000: 0.05}),
    "undo, drawn": Figure("s", {}),
    "save": Figure("s", {}),
    "thin": Figure("s", {1_000_000: 3}),
    "thin, request": Figure("s", {}),
    "undo of thin": Figure("s", {1_000_000: 3}),
    "undo of thin, request": Figure("s", {}),
    "memory, heap of the page": Figure("MB", {1_000_000: 152, 2_000_000: 340}),
    "memory, border_edit": Figure("MB", {1_000_000: 311, 2_000_000: 531}),
    "memory, server": Figure("MB", {2_000_000: 44}),
}

# Notes in each new page the time of day, in milliseconds, at which it has drawn its map.
DRAWN = f"""(() => {{
  const look = () => {{
    if ({OPEN} && {STILL}) window.drawnAt = performance.timeOrigin + performance.now(); else requestAnimationFrame(look);
  }};
  requestAnimationFrame(look);
}})();"""
# Notes in `times.newest` what the newest request of an edit and the newest drag took; `times.act` measures an
# act of the editor.
MEASURES = """
const { view, talk } = editor, newest = {};
const isDrawn = () => !editor.pending && !tools.held && !view.wanted && !view.drawing && !view.overWanted;
const drawn = () => new Promise(done => {
  const look = () => { if (isDrawn()) done(performance.now()); else requestAnimationFrame(look); };
  requestAnimationFrame(look);
});
const postNow = talk.postNow.bind(talk), edit = editor.edit.bind(editor);
talk.postNow = async (name, body) => {
  const begun = performance.now(), said = await postNow(name, body);
  if (name === "edit") newest.request = performance.now() - begun;
  return said;
};
editor.edit = async line => {
  const { released } = newest, isKept = await edit(line);
  newest.answer = performance.now() - released;
  // not sooner, since looking asks for a frame, for which the answer would wait
  drawn().then(at => { newest.drawn = at - released; });
  return isKept;
};
addEventListener("pointerup", e => {
  Object.assign(newest, { released: e.timeStamp, request: null, answer: null, drawn: null });
}, true);
window.times = {
  newest,
  act: async work => {
    const begun = performance.now(), isKept = await work(), ended = performance.now() - begun;
    const { answer } = editor.log[editor.log.length - 1], { vertices } = editor, { request } = newest;
    return { isKept, answer, vertices, request, ended, drawn: await drawn() - begun };
  },
};"""
# The number of a feature and the positions of its outer ring, of the feature at a share of all.
RING = """const all = [...editor.model.features.values()];
const feature = all[Math.floor(arguments[0] * all.length)];
const at = editor.model.positions(feature.polygons[0][0]);
return [feature.num, Array.from({ length: at.length / 2 }, (_, i) => [at[2 * i], at[2 * i + 1]])];"""


class Figures:
    """Prints figures beside what is wanted, and counts what was right."""

    def __init__(self):
        self.passed = self.failed = 0

    def check(self, what, is_right):
        if is_right:
            self.passed += 1
        else:
            self.failed += 1
            print(f"FAILED {what}", flush=True)

    def give(self, made, name, value):
        """A figure of a map."""
        unit, limits = FIGURES[name]
        sizes = [size for size in sorted(limits) if size >= made.size]
        said = f"{name} {value:.3g} {unit}"
        if not sizes:
            print(f"  {said}", flush=True)
            return
        wanted = limits[sizes[0]]
        print(f"  {said}, wanted {wanted:g} {unit}", flush=True)
        limit = TOLERANCE * wanted
        self.check(f"{made.path.name}: {said}, over {limit:g} {unit}", value <= limit)


def ring(page, share):
    """The number of the feature at a share of all features, and its outer ring."""
    return page.js(RING, share)


def act(page, work):
    """What an act of the editor took, in milliseconds, and its answer."""
    found = page.later(f"times.act(() => {work})")
    if not isinstance(found, dict):
        raise AssertionError(f"{work}: {found}")
    page.settle()
    return found


def edit(page, figures, line):
    """What an edit took, which border_edit has to accept."""
    found = act(page, f"editor.edit({line!r})")
    figures.check(f"{line} is accepted: {found['answer']}", found["isKept"])
    return found


def undo(page, figures):
    found = act(page, "editor.undo()")
    figures.check("undo is accepted", found["isKept"])
    return found


def medians(figures, made, name, all_found):
    """The seconds of acts of a kind, until they ended and until they were drawn."""
    for kind, key in ((name, "ended"), (f"{name}, drawn", "drawn")):
        figures.give(made, kind, statistics.median(found[key] for found in all_found) / 1000)


# ---- what is measured

def started(driver, path):
    """A page whose map is drawn, and the seconds since the server was started."""
    begun = time.time()
    page = Page(driver, path)
    try:
        driver.get(page.url)
        page.wait("window.drawnAt", PATIENCE)
        return page, page.js("return drawnAt") / 1000 - begun
    except BaseException:
        page.end()
        raise


def measure_starts(driver, figures, made, path):
    """Starts the server some times. The last page."""
    times = []
    while len(times) < STARTS - 1:
        page, seconds = started(driver, path)
        page.end()
        times.append(seconds)
    page, seconds = started(driver, path)
    figures.give(made, "./edit started, to map drawn", statistics.median([*times, seconds]))
    return page


def dragged(page, figures, share):
    """Drags a vertex of a feature a little with the mouse; what that took."""
    _, [before, vertex, *_] = ring(page, share)
    length = max(abs(a - b) for a, b in zip(before, vertex))
    page.go(*vertex, SEGMENT / length)
    at = page.screen(*vertex)
    count = len(page.log())
    page.drag(at, (at[0] + WAY[0], at[1] + WAY[1]))
    entries = page.log()[count:]
    moves = [entry for entry in entries if entry[0].startswith(f"move {vertex[0]} {vertex[1]} ")]
    is_moved = entries == moves and [answer for _, answer in moves] == ["ok"]
    figures.check(f"a drag of {vertex} moves it: {entries}", is_moved)
    page.wait("times.newest.drawn")
    return page.js("return times.newest")


def measure_drags(page, figures, made):
    """Drags vertices with the page's WebSocket and without it, in turns."""
    found, posted = [], []
    for i in range(DRAGS):
        page.wait("editor.talk.socket.socket.readyState === WebSocket.OPEN")
        found.append(dragged(page, figures, i / DRAGS))
        page.js("editor.talk.socket.socket.close()")
        posted.append(dragged(page, figures, (i + 0.5) / DRAGS))
        page.js("editor.talk.socket.open()")
    for name, key in (("request", "request"), ("to answer", "answer"), ("to drawn", "drawn")):
        figures.give(made, f"vertex released, {name}", statistics.median(drag[key] for drag in found))
    figures.give(made, "vertex released, request as POST", statistics.median(drag["request"] for drag in posted))


def measure_cuts(page, figures, made):
    """Splits features from the middle of the lower line to that of the upper one, and merges their parts."""
    splits, merges, undos = [], [], []
    for i in range(CUTS):
        number, positions = ring(page, (i + 0.5) / CUTS)
        ends = " ".join(str(n) for end in (positions[LOWER], positions[UPPER]) for n in end)
        splits.append(edit(page, figures, f'split {number} "part" {ends}'))
        merges.append(edit(page, figures, f"merge {number} {splits[-1]['answer'].split()[-1]}"))
        undos += [undo(page, figures), undo(page, figures)]
    for name, found in (("split", splits), ("merge", merges), ("undo", undos)):
        medians(figures, made, name, found)


def measure_saving(page, figures, made, path):
    """Saves the map over itself, and looks whether that is what border_edit makes of the page's script."""
    script, again = path.with_name("script.txt"), path.with_name("again.json")
    script.write_text(page.later("editor.talk.text('script')"))
    command = [os.environ["BORDER_EDIT"], path, script, "--out", again, "--undo", "1000"]
    done = subprocess.run(command, stdout=subprocess.DEVNULL)
    # also where the text has more bytes than a map that opens, as that of the largest map has
    seconds = page.later("(async () => { const begun = performance.now(); await editor.save(true); "
                         "return (performance.now() - begun) / 1000; })()")
    figures.give(made, "save", seconds)
    is_same = done.returncode == 0 and path.read_bytes() == again.read_bytes()
    figures.check(f"{made.path.name}: what is saved is what border_edit makes of the script", is_same)


def measure_thinning(page, figures, made):
    before = page.js("return editor.vertices")
    thinned = edit(page, figures, f"thin {GREAT}")
    left = thinned["vertices"]
    print(f"  {before - left:,} of {before:,} vertices are left out", flush=True)
    figures.check(f"{made.path.name}: most vertices are left out, {left} of {before} stay", left < before / 2)
    taken_back = undo(page, figures)
    figures.check(f"{made.path.name}: the vertices are back", taken_back["vertices"] == before)
    for name, found in (("thin", thinned), ("undo of thin", taken_back)):
        figures.give(made, name, found["ended"] / 1000)
        figures.give(made, f"{name}, request", found["request"] / 1000)


def resident(process):
    """The resident memory of a process, in MB."""
    status = pathlib.Path(f"/proc/{process}/status").read_text()
    kilobytes = next(line.split()[1] for line in status.splitlines() if line.startswith("VmRSS:"))
    return int(kilobytes) * 1024 / 1e6


def children(process):
    """The processes that a process has started."""
    threads = pathlib.Path(f"/proc/{process}/task").iterdir()
    return [int(child) for thread in threads for child in (thread / "children").read_text().split()]


def measure_memory(page, figures, made):
    """The memory once the map is open. Numbers of the page stand in buffers, which count with its heap."""
    page.driver.execute_cdp_cmd("HeapProfiler.collectGarbage", {})
    used = page.driver.execute_cdp_cmd("Runtime.getHeapUsage", {})
    server = page.server.pid
    started = children(server)
    figures.check(f"{made.path.name}: the server has one child, {started}", len(started) == 1)
    figures.give(made, "memory, heap of the page", (used["usedSize"] + used["backingStorageSize"]) / 1e6)
    figures.give(made, "memory, border_edit", sum(map(resident, started)))
    figures.give(made, "memory, server", resident(server))


# ---- maps

def measure_page(driver, figures, made, path):
    """Measures the page of a map's copy; of a map that is made its edits too."""
    page = measure_starts(driver, figures, made, path)
    try:
        if made.size:
            measure_memory(page, figures, made)
            page.js(MEASURES)
            measure_drags(page, figures, made)
            measure_cuts(page, figures, made)
            measure_saving(page, figures, made, path)
            measure_thinning(page, figures, made)
        errors = page.errors()
        figures.check(f"{made.path.name}: errors {errors}", not errors)
    finally:
        page.end()


def measure_map(figures, made):
    """Measures a map in a browser of its own."""
    print(f"{made.path.name}: load of the machine {os.getloadavg()[0]:.1f}", flush=True)
    folder = new_folder()
    driver = start_browser(str(folder))
    driver.set_script_timeout(PATIENCE)
    driver.execute_cdp_cmd("Page.addScriptToEvaluateOnNewDocument", {"source": DRAWN})
    try:
        measure_page(driver, figures, made, pathlib.Path(shutil.copy(made.path, folder)))
    except Exception:
        traceback.print_exc()
        figures.check(f"{made.path.name} is measured to the end", False)
    finally:
        driver.quit()
        shutil.rmtree(folder, ignore_errors=True)


def largest():
    """A map of LARGEST bytes: the most vertices that fit, and properties that fill the rest."""
    made = maps.made_map("bricks", MOST_SEGMENTS, 1).path
    path = made.with_name("bricks-largest-seed1.json")
    if not path.is_file():
        text = made.read_text()
        begin, (count, left) = '{"id":"', (text.count('{"id":"'), LARGEST - len(text))
        note = '"properties":{"note":"%s"},' % ("x" * (left // count - len('"properties":{"note":""},')))
        path.write_text(text.replace(begin, "{" + note + begin[1:]))
    return Map(path, MOST_SEGMENTS)


def main():
    form = argparse.RawDescriptionHelpFormatter
    parser = argparse.ArgumentParser(description=__doc__, formatter_class=form)
    parser.add_argument("--sizes", nargs="*", type=int, default=[43_000, 1_000_000],
                        help="vertices of the maps that are made")
    parser.add_argument("--largest", action="store_true", help="a map almost as large as one may be, too")
    given = parser.parse_args()
    # so that the server and the browser end too
    signal.signal(signal.SIGTERM, lambda number, _: sys.exit(128 + number))
    os.environ.pop("PYTHONDONTWRITEBYTECODE", None)
    # so that a program that has to be built is not built while time is taken
    os.environ.update({name.upper(): programs.find(name)[0] for name in PROGRAMS})
    made, figures = [Map(maps.made_map("bricks", size, 1).path, size) for size in given.sizes], Figures()
    made += [largest()] if given.largest else []
    for one in [Map(TOP / "examples/columbus.json", 0), *made]:
        measure_map(figures, one)
    print(f"{figures.passed} passed, {figures.failed} failed")
    return 1 if figures.failed else 0


if __name__ == "__main__":
    sys.exit(main())
