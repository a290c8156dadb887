"""A page of ./edit in a browser without a window, and what a user does there with mouse and keys."""
import os
import pathlib
import shutil
import subprocess
import sys
import tempfile
import time

# where Debian has selenium, for a Python that is not Debian's
sys.path.append("/usr/lib/python3/dist-packages")

from selenium import webdriver
from selenium.webdriver.chrome.service import Service
from selenium.webdriver.common.action_chains import ActionChains
from selenium.webdriver.common.by import By
from selenium.webdriver.common.keys import Keys

TOP = pathlib.Path(__file__).resolve().parents[2]
# Seconds that a page may take for what is waited for.
PATIENCE = 20
# What is true once the page has nothing to do any more.
STILL = ("!editor.pending && !editor.talk.waiting && !editor.view.wanted && !editor.view.drawing "
         "&& !editor.view.overWanted && !tools.isAsking && !tools.held")
OPEN = "window.editor && document.getElementById('busy').hidden && document.getElementById('mending').hidden"


def start_browser(downloads, size=(1280, 800), name="chromium"):
    """A headless browser with a window of this size, that saves files in a folder."""
    if name == "firefox":
        from firefox import Firefox
        return Firefox(downloads, size)
    options = webdriver.ChromeOptions()
    for word in ("--headless=new", "--no-sandbox", f"--window-size={size[0]},{size[1]}", "--disable-dev-shm-usage",
                 "--hide-scrollbars", "--disable-gpu", "--no-first-run", "--disable-background-networking",
                 "--disable-component-update", "--no-proxy-server"):
        options.add_argument(word)
    options.set_capability("goog:loggingPrefs", {"browser": "ALL"})
    options.set_capability("unhandledPromptBehavior", "ignore")
    options.add_experimental_option("prefs", {"download.default_directory": downloads})
    driver = webdriver.Chrome(service=Service(shutil.which("chromedriver")), options=options)
    driver.set_script_timeout(60)
    return driver


class Page:
    """The page of a map: its server, and a browser that shows it."""

    def __init__(self, driver, map_path, *words, **environment):
        self.driver = driver
        command = [TOP / "edit", str(map_path), "--no-open", *map(str, words)]
        # with this Python, and not one that a name of the path leads to by a script
        path = os.pathsep.join([os.path.dirname(sys.executable), os.environ["PATH"]])
        env = {**os.environ, "PATH": path, **environment}
        self.server = subprocess.Popen(command, stdout=subprocess.PIPE, stderr=subprocess.PIPE, env=env)
        self.url = self.server.stdout.readline().decode().strip()
        if not self.url:
            raise RuntimeError(self.server.stderr.read().decode())

    def load(self, until=OPEN):
        """Loads the page, and waits until it shows its map."""
        self.driver.get(self.url)
        self.wait(until)
        if until == OPEN:
            self.settle()

    def end(self):
        """Stops the server; what it said on standard error."""
        self.server.terminate()
        said = self.server.stderr.read().decode()
        self.server.wait()
        self.server.stdout.close()
        self.server.stderr.close()
        return said

    # ---- what the page says

    def js(self, text, *given):
        return self.driver.execute_script(text, *given)

    def later(self, promise):
        """What a promise of the page gives."""
        return self.driver.execute_async_script(
            f"const done = arguments[0]; Promise.resolve({promise}).then(done, fault => done('failed: ' + fault))")

    def wait(self, test, seconds=PATIENCE):
        end = time.monotonic() + seconds
        while not self.js(f"return Boolean({test})"):
            if time.monotonic() > end:
                raise AssertionError(f"not so after {seconds} s: {test}; {self.errors()}")
            time.sleep(0.01)

    def settle(self):
        """Waits until all is drawn and answered."""
        time.sleep(0.03)
        self.wait(STILL)

    def check(self):
        """Why the drawing is not the map; nothing where it is."""
        self.settle()
        return self.later("editor.check()")

    def errors(self):
        """Errors on the console, but those of a page before, whose server has ended."""
        said = [entry["message"] for entry in self.driver.get_log("browser") if entry["level"] == "SEVERE"]
        return [text for text in said if self.url in text or "ERR_CONNECTION_REFUSED" not in text]

    def element(self, name):
        return self.driver.find_element(By.ID, name)

    def text(self, name):
        return self.js("return document.getElementById(arguments[0]).textContent", name)

    def is_shown(self, name):
        return self.js("return document.getElementById(arguments[0]).checkVisibility()", name)

    def log(self):
        """Lines and answers of the log."""
        return [(entry["line"], entry["answer"]) for entry in self.js("return editor.log")]

    def last(self):
        return self.log()[-1]

    # ---- the view

    def go(self, x, y, scale):
        """Shows a position in the middle, with so many pixels for a unit of the grid."""
        self.js("const v = editor.view; [v.x, v.y, v.ky] = arguments; v.kx = v.ky * v.aspect; v.redraw()", x, y, scale)
        self.settle()

    def screen(self, x, y):
        """Where a position of the grid is in the window."""
        return self.js("const r = document.getElementById('map').getBoundingClientRect(); "
                       "const [x, y] = editor.view.screen(...arguments); "
                       "return [Math.round(x + r.left), Math.round(y + r.top)]", x, y)

    # ---- mouse

    def chain(self, at=None):
        chain = ActionChains(self.driver, duration=15)
        if at is not None:
            chain.w3c_actions.pointer_action.move_to_location(*at)
        return chain

    def hover(self, at):
        self.chain(at).perform()
        self.settle()

    def click(self, at, *held):
        chain = self.chain(at)
        for key in held:
            chain.key_down(key)
        chain.click()
        for key in held:
            chain.key_up(key)
        chain.perform()
        self.settle()

    def double_click(self, at):
        self.chain(at).double_click().perform()
        self.settle()

    def press(self, at):
        self.chain(at).click_and_hold().perform()

    def slide(self, at):
        self.chain(at).perform()

    def release(self):
        self.chain().release().perform()
        self.settle()

    def drag(self, start, end):
        self.press(start)
        self.slide(((start[0] + end[0]) // 2, (start[1] + end[1]) // 2))
        self.slide(end)
        self.release()

    def button(self, name):
        self.element(name).click()
        self.settle()

    # ---- keys

    def keys(self, *keys):
        """Presses a key, the ones before it held."""
        chain = self.chain()
        for key in keys[:-1]:
            chain.key_down(key)
        chain.send_keys(keys[-1])
        for key in keys[:-1]:
            chain.key_up(key)
        chain.perform()
        self.settle()

    def type(self, text):
        """Types into what has the focus."""
        self.chain().send_keys(text).perform()

    def answer(self, text):
        """Answers the question that the page asks."""
        self.wait("document.getElementById('ask').open")
        self.keys(Keys.CONTROL, "a")
        self.type(text + Keys.ENTER)
        self.wait("!document.getElementById('ask').open")
        self.settle()

    def shot(self, path):
        self.settle()
        self.driver.save_screenshot(str(path))


def new_folder():
    return pathlib.Path(tempfile.mkdtemp(prefix="page-test-"))
