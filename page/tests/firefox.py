"""Firefox without a window, driven as selenium drives other browsers: Debian has no geckodriver, so the commands of
WebDriver go to Firefox by its own protocol, Marionette. A packet is `LENGTH:[0, NUMBER, COMMAND, PARAMETERS]`, and its
answer `LENGTH:[1, NUMBER, FAULT, RESULT]`.
"""
import json
import pathlib
import re
import shutil
import socket
import subprocess
import tempfile
import time

from selenium import webdriver
from selenium.common.exceptions import WebDriverException
from selenium.webdriver.remote.file_detector import UselessFileDetector

# Seconds that Firefox may take to start, to answer, and to end.
STARTING, ANSWERING, ENDING = 120, 180, 20
# What selenium calls a command, and what Marionette calls it.
COMMANDS = {
    "newSession": "WebDriver:NewSession", "quit": "Marionette:Quit", "get": "WebDriver:Navigate",
    "refresh": "WebDriver:Refresh", "setTimeouts": "WebDriver:SetTimeouts", "screenshot": "WebDriver:TakeScreenshot",
    "w3cExecuteScript": "WebDriver:ExecuteScript", "w3cExecuteScriptAsync": "WebDriver:ExecuteAsyncScript",
    "findElement": "WebDriver:FindElement", "findElements": "WebDriver:FindElements",
    "clickElement": "WebDriver:ElementClick", "sendKeysToElement": "WebDriver:ElementSendKeys",
    "actions": "WebDriver:PerformActions", "clearActionState": "WebDriver:ReleaseActions",
    "w3cGetCurrentWindowHandle": "WebDriver:GetWindowHandle", "w3cGetWindowHandles": "WebDriver:GetWindowHandles",
    "newWindow": "WebDriver:NewWindow", "switchToWindow": "WebDriver:SwitchToWindow", "close": "WebDriver:CloseWindow",
    "setWindowRect": "WebDriver:SetWindowRect",
}
# What is added to the parameters of a command.
PARAMETERS = {"quit": {"flags": ["eForceQuit"]}, "screenshot": {"full": False},
              "w3cExecuteScript": {"sandbox": None, "newSandbox": False}, "w3cExecuteScriptAsync": {"sandbox": None}}
SETTINGS = {
    "app.update.auto": False, "datareporting.policy.dataSubmissionEnabled": False, "network.proxy.type": 0,
    "browser.shell.checkDefaultBrowser": False, "browser.startup.page": 0, "browser.tabs.warnOnClose": False,
    # files are saved without a question
    "browser.download.folderList": 2, "browser.download.alwaysOpenPanel": False,
    "browser.helperApps.neverAsk.saveToDisk": "application/json,application/geo+json,text/plain",
    # what scripts write on the console goes to standard output
    "devtools.console.stdout.content": True,
}
# What a fault of the page begins with there. Parts of Firefox write on the console too, with their name first.
FAULT = re.compile(r"JavaScript error: http|console\.error: (?!\w+: )")


class Marionette:
    """Gives the commands of selenium to Firefox."""

    def __init__(self, port):
        self.socket = connected(port)
        self.rest, self.number = b"", 0
        self._take()

    def execute(self, command, given):
        """The answer to a command of selenium."""
        given = {name: value for name, value in (given or {}).items() if name != "sessionId"}
        if command == "newSession":
            given = {"capabilities": {"unhandledPromptBehavior": "ignore"}}
        result = self._ask(COMMANDS[command], {**given, **PARAMETERS.get(command, {})})
        return {"value": result["value"] if isinstance(result, dict) and list(result) == ["value"] else result}

    def close(self):
        """Closes the connection."""
        self.socket.close()

    def _ask(self, name, given):
        self.number += 1
        packet = json.dumps([0, self.number, name, given]).encode()
        self.socket.sendall(b"%d:%s" % (len(packet), packet))
        _, _, fault, result = self._take()
        if fault:
            raise WebDriverException(f"{name}: {fault['error']}: {fault['message']}")
        return result

    def _take(self):
        """The next packet."""
        while b":" not in self.rest:
            self._more()
        length, self.rest = self.rest.split(b":", 1)
        while len(self.rest) < int(length):
            self._more()
        packet, self.rest = self.rest[:int(length)], self.rest[int(length):]
        return json.loads(packet)

    def _more(self):
        piece = self.socket.recv(1 << 20)
        if not piece:
            raise WebDriverException("Firefox has ended")
        self.rest += piece


def connected(port):
    """A connection to Firefox, once it listens."""
    end = time.monotonic() + STARTING
    while True:
        try:
            return socket.create_connection(("127.0.0.1", port), timeout=ANSWERING)
        except OSError:
            if time.monotonic() > end:
                raise
            time.sleep(0.1)


def free_port():
    with socket.socket() as taken:
        taken.bind(("127.0.0.1", 0))
        return taken.getsockname()[1]


class Firefox(webdriver.Remote):
    """A Firefox without a window, whose page has this size, and that saves files in a folder."""

    def __init__(self, downloads, size):
        self.folder = pathlib.Path(tempfile.mkdtemp(prefix="page-firefox-"))
        self.read, self.process = 0, None
        port = free_port()
        settings = {**SETTINGS, "marionette.port": port, "browser.download.dir": downloads}
        (self.folder / "user.js").write_text("".join(
            f"user_pref({json.dumps(name)}, {json.dumps(value)});\n" for name, value in settings.items()))
        try:
            self._start(port)
            self._resize(*size)
        except BaseException:
            self.end()
            raise

    def _start(self, port):
        command = ["firefox-esr", "--headless", "--marionette", "--no-remote", "--profile", self.folder]
        with open(self.folder / "said.txt", "wb") as said:
            self.process = subprocess.Popen(command, stdin=subprocess.DEVNULL, stdout=said, stderr=said)
        super().__init__(Marionette(port), options=webdriver.FirefoxOptions())
        # files that a page is given are of this machine
        self.file_detector = UselessFileDetector()

    def _resize(self, width, height):
        """Gives the window a size with which its page has the wanted one."""
        self.execute("setWindowRect", {"width": width, "height": height})
        inner = self.execute_script("return [innerWidth, innerHeight]")
        self.execute("setWindowRect", {"width": 2 * width - inner[0], "height": 2 * height - inner[1]})

    def get_log(self, _):
        """What scripts did wrong since this was asked last, as chromedriver gives it."""
        said = (self.folder / "said.txt").read_bytes()
        rows = said[self.read:].decode(errors="replace").splitlines()
        self.read = len(said)
        return [{"level": "SEVERE", "message": row} for row in rows if FAULT.match(row)]

    def quit(self):
        try:
            super().quit()
        except (OSError, WebDriverException):
            # it closes the connection before it answers
            pass
        finally:
            self.end()

    def end(self):
        """Ends Firefox, and removes its files."""
        if self.process:
            try:
                self.process.wait(ENDING)
            except subprocess.TimeoutExpired:
                self.process.kill()
                self.process.wait()
        shutil.rmtree(self.folder, ignore_errors=True)
