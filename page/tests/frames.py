#!/usr/bin/python3
"""Measures how quickly the page draws a map, in Chromium without a window, by chromedriver and selenium.

For maps that bench/maps.py makes, and for those that are given, there are the time of reading a map and drawing it, the
frames while it is panned and zoomed, as a whole and from near, the time of one drawing, of edits in the model, and the
memory. `busy` is the processor time that the page's thread takes for a frame, which other work of the machine does not change.

It fails where panning has fewer than 30 frames a second, where a frame is asked for while nothing changes, or where the page
reports an error. `busy` and the turn of drawing of a frame tell the first, and the clock too, unless the machine is so busy
that a page that moves a picture and draws nothing has not its 60 frames a second. The last line is `N passed, M failed`, the
status 1 where something failed.
"""
import argparse
import http.server
import json
import os
import pathlib
import sys
import threading

from selenium import webdriver
from selenium.webdriver.chrome.service import Service

TOP = pathlib.Path(__file__).resolve().parent.parent.parent
WEB = TOP / "page" / "web"
SCRIPT = TOP / "page" / "tests" / "frames.js"
sys.path.insert(0, str(TOP / "bench"))
import maps  # noqa: E402

# Frames a second that are wanted, and those that a browser has where nothing is drawn, less what a clock may take.
WANTED, FREE = 30, 57
OPTIONS = (
    "--headless=new", "--no-sandbox", "--window-size=1600,1000", "--disable-dev-shm-usage", "--hide-scrollbars",
    "--no-first-run", "--disable-background-networking", "--disable-component-update", "--no-proxy-server",
    "--enable-precise-memory-info",
)
# How many times nearer than the whole map.
NEARNESS = (1, 20, 80)
PAGE = b"""<!doctype html><meta charset="utf-8"><title>frames</title>
<style>body { margin: 0 } canvas { position: fixed; inset: 0; width: 100%; height: 100% }</style>
<canvas id="base"></canvas><canvas id="over"></canvas><script type="module" src="frames.js"></script>"""
ASK = """const done = arguments[arguments.length - 1], [name, ...given] = arguments;
Promise.resolve(typeof measure[name] === "function" ? measure[name](...given.slice(0, -1)) : measure[name]).then(done);"""


class Handler(http.server.BaseHTTPRequestHandler):
    """Gives the page of the measures, the modules, and the map."""

    def do_GET(self):
        name = self.path.lstrip("/")
        modules = {f"web/{path.name}": path for path in WEB.glob("*.js")}
        if name in modules:
            self.give(modules[name].read_bytes(), "text/javascript")
        elif name == "frames.js":
            self.give(SCRIPT.read_bytes(), "text/javascript")
        elif name == "map.json":
            self.give(self.server.map.read_bytes(), "application/json")
        elif name == "":
            self.give(PAGE, "text/html")
        else:
            self.send_error(404)

    def give(self, body, kind):
        self.send_response(200)
        self.send_header("Content-Type", kind)
        self.send_header("Content-Length", str(len(body)))
        self.end_headers()
        self.wfile.write(body)

    def log_message(self, *_):
        pass


def serve():
    """A server of the page on a port of its own; `map` is the path of its map."""
    server = http.server.ThreadingHTTPServer(("127.0.0.1", 0), Handler)
    server.map = None
    threading.Thread(target=server.serve_forever, daemon=True).start()
    return server


class Browser:
    """Chromium without a window, with the page of the measures."""

    def __init__(self):
        options = webdriver.ChromeOptions()
        for option in OPTIONS:
            options.add_argument(option)
        options.set_capability("goog:loggingPrefs", {"browser": "ALL"})
        self.driver = webdriver.Chrome(service=Service("/usr/bin/chromedriver"), options=options)
        self.driver.set_script_timeout(180)
        self.driver.execute_cdp_cmd("Performance.enable", {"timeDomain": "threadTicks"})

    def processor(self):
        """Milliseconds of processor time that the page's thread took so far."""
        metrics = self.driver.execute_cdp_cmd("Performance.getMetrics", {})["metrics"]
        return 1000 * next(metric["value"] for metric in metrics if metric["name"] == "TaskDuration")

    def open(self, server, path):
        """Opens the page of a map, and waits until it is drawn."""
        server.map = path
        self.driver.get(f"http://127.0.0.1:{server.server_port}/")
        self.driver.execute_async_script(
            "const done = arguments[0], wait = () => window.measure ? done() : setTimeout(wait, 20); wait();")

    def ask(self, name, *given):
        return self.driver.execute_async_script(ASK, name, *given)

    def move(self, kind, *given):
        """What a movement takes, with the processor time of each frame."""
        begun = self.processor()
        found = self.ask(kind, *given)
        busy = (self.processor() - begun) / found["frames"]
        self.ask("settled")
        return {**found, "busy": busy}

    def errors(self):
        logged = self.driver.get_log("browser")
        return [entry["message"] for entry in logged if entry["level"] == "SEVERE" and "favicon" not in entry["message"]]

    def close(self):
        self.driver.quit()


class Checks:
    """Counts what was right."""

    def __init__(self):
        self.passed = self.failed = 0

    def check(self, what, is_right):
        if is_right:
            self.passed += 1
        else:
            self.failed += 1
            print(f"FAILED {what}")


def rounded(numbers):
    return " ".join(f"{name} {value:.1f}" for name, value in numbers.items() if isinstance(value, (int, float)))


def is_quick(found, picture, turn):
    """Whether a movement has the frames that are wanted: by its processor time, and by the clock where that can tell it.

    On a busy machine the thread has but a part of a turn of drawing, which ends by the clock, so a whole one is counted.
    """
    can_tell, busy = picture["second"] >= FREE, max(found["busy"], picture["busy"] + turn)
    return busy <= 1000 / WANTED and (not can_tell or found["second"] >= WANTED)


def measure_map(browser, server, path, milliseconds, checks, shots):
    browser.open(server, path)
    print(f"{path.name}: {json.dumps(browser.ask('size'))}, load of the machine {os.getloadavg()[0]:.1f}")
    print(f"  ready, ms: {rounded(browser.ask('ready'))}; heap {browser.ask('heap'):.0f} MB")
    checks.check(f"{path.name}: no frame is asked for where nothing changes", browser.ask("idle", 1000) == 0)
    picture = browser.move("picture", milliseconds)
    told = "busy and the clock tell" if picture["second"] >= FREE else "the machine is busy, so busy alone tells"
    print(f"  a picture that is moved, and nothing drawn, ms: {rounded(picture)}: {told}")
    for nearness in NEARNESS:
        browser.ask("go", nearness)
        print(f"  {nearness} times as near: one drawing, ms: {rounded(browser.move('drawing'))}")
        for kind in ("pan", "zoom"):
            found = browser.move(kind, milliseconds)
            print(f"    {kind}, ms: {rounded(found)}")
            if kind == "pan":
                checks.check(f"{path.name}, {nearness} times as near: {WANTED} frames a second",
                             is_quick(found, picture, browser.ask("turn")))
        if shots:
            browser.driver.save_screenshot(str(shots / f"{path.stem}-{nearness}.png"))
    browser.ask("go", 1)
    print(f"  coloured: one drawing, ms: {rounded(browser.move('colour'))}")
    print(f"  edits in the model, ms: {rounded(browser.ask('edits'))}; heap {browser.ask('heap'):.0f} MB")
    errors = browser.errors()
    checks.check(f"{path.name}: errors {errors}", not errors)


def main():
    parser = argparse.ArgumentParser(description=__doc__, formatter_class=argparse.RawDescriptionHelpFormatter)
    parser.add_argument("maps", nargs="*", type=pathlib.Path, metavar="MAP")
    parser.add_argument("--sizes", nargs="*", type=int, default=[43_000, 1_000_000], help="vertices of the maps that are made")
    parser.add_argument("--milliseconds", type=int, default=2500, help="how long the map is moved each time")
    parser.add_argument("--shots", type=pathlib.Path, help="a folder for pictures of the page")
    given = parser.parse_args()
    made = [maps.made_map("bricks", size, 1).path for size in given.sizes]
    if given.shots:
        given.shots.mkdir(parents=True, exist_ok=True)
    server, checks, browser = serve(), Checks(), Browser()
    try:
        for path in [*made, *given.maps]:
            measure_map(browser, server, path, given.milliseconds, checks, given.shots)
    finally:
        browser.close()
        server.shutdown()
    print(f"{checks.passed} passed, {checks.failed} failed")
    return 1 if checks.failed else 0


if __name__ == "__main__":
    sys.exit(main())
