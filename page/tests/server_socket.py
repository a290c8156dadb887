"""The WebSocket: who may open it, its frames, and that it answers as POST does."""
import contextlib
import io
import json
import os
import signal
import socket
import time

from server_asking import BODIES, FETCHES, OUR_ORIGINS, STRANGE_HOSTS, STRANGE_ORIGINS, STRANGE_PATHS, sent
from server_dying import stood_in
from server_editing import NO_LINES, NO_REQUESTS, OTHER_OWNERS, REQUESTS
from server_maps import SQUARES
from server_runs import PATIENCE, Served, folder, until

import sockets
import visits

# The key of the example of RFC 6455, and what it is answered.
KEY, ACCEPTED = "dGhlIHNhbXBsZSBub25jZQ==", "s3pPLMBiTxaQ9kYGzzhZRbK+xOo="
# What is no request for a WebSocket: a header that is another one, or not there.
STRANGE_OPENINGS = [("Upgrade", None), ("Upgrade", "h2c"), ("Upgrade", ""), ("Connection", None), ("Connection", "close"),
                    ("Connection", "keep-alive"), ("Connection", "Upgrades"), ("Sec_WebSocket_Version", None),
                    ("Sec_WebSocket_Version", "8"), ("Sec_WebSocket_Version", "13, 13"), ("Sec_WebSocket_Key", None),
                    ("Sec_WebSocket_Key", ""), ("Sec_WebSocket_Key", "x"), ("Sec_WebSocket_Key", KEY + KEY),
                    ("Sec_WebSocket_Key", f"{KEY}, {KEY}"), ("Sec_WebSocket_Key", KEY[:-2]), ("Content_Length", "2")]
PART, TEXT, BINARY, CLOSE, PING, PONG, LAST = 0, 1, 2, 8, 9, 10, 0x80
# Bytes of a text, at most.
MOST = 1 << 20
MASK = b"\x01\x80\xff\x00"
# Names that are answered by POST alone, or not at all.
NOT_HERE = ["begin", "leave", "save", "mend", "place", "socket", "", "document", "nothing", None, 5, True, ["edit"],
            {"edit": 1}]
TRIALS = ["move 10 10 12 12", "move 1 1 2 2", "insert 0 0 10 0 5 1", "remove 10 10", "move 1 1", "undo"]


def headers(page, **more):
    """The headers of a request for a WebSocket."""
    return {"Upgrade": "websocket", "Connection": "Upgrade", "Sec_WebSocket_Version": "13", "Sec_WebSocket_Key": KEY,
            "Origin": f"http://127.0.0.1:{page.port}", **more}


def opening(page, path=None, **more):
    """What a request for a WebSocket is answered."""
    return page.ask("GET", page.base + "socket" if path is None else path, **headers(page, **more))[2]


def frame(kind, held=b"", mask=MASK, size=None):
    """A frame as a page sends it; `size` is another one than it has."""
    size = len(held) if size is None else size
    is_masked = 0 if mask is None else 0x80
    if size < 126:
        head = bytes([kind, is_masked | size])
    elif size < 1 << 16:
        head = bytes([kind, is_masked | 126]) + size.to_bytes(2, "big")
    else:
        head = bytes([kind, is_masked | 127]) + size.to_bytes(8, "big")
    if mask is None:
        return head + held
    return head + mask + bytes(byte ^ mask[i % 4] for i, byte in enumerate(held))


# Texts of the first page, an answer, and that to what is no request.
COUNT = b'{"name":"ask","owner":1,"lines":["count"]}'
EDIT = b'{"name":"edit","owner":1,"act":1,"lines":["rename 0 \\"x\\""]}'
LETTERS = '{"name":"\u00fc\U0001d11e"}'.encode()
COUNTED = (LAST | TEXT, b'{"status": 200, "said": {"answers": ["features 2 vertices 6 segments 7"]}}')
NO_NAME = (LAST | TEXT, b'{"status": 404, "said": {"reason": "no such name"}}')
NO_JSON = (LAST | TEXT, b'{"status": 400, "said": {"reason": "not JSON"}}')
ASKED, REPLIED = frame(LAST | PING, b"there?"), (LAST | PONG, b"there?")
# Frames of a page, and those of the server that come.
FRAMES = [
    ("nothing", b"", []), ("one frame", frame(LAST | TEXT, COUNT), [COUNTED]),
    ("another mask", frame(LAST | TEXT, COUNT, b"\0\0\0\0"), [COUNTED]),
    ("two texts", frame(LAST | TEXT, COUNT) * 2, [COUNTED] * 2),
    ("two frames", frame(TEXT, COUNT[:9]) + frame(LAST | PART, COUNT[9:]), [COUNTED]),
    ("frames that hold nothing", frame(TEXT) + frame(PART, COUNT) + frame(PART) + frame(LAST | PART), [COUNTED]),
    ("frames of one byte", frame(TEXT) + b"".join(frame(PART, bytes([byte])) for byte in COUNT) + frame(LAST | PART),
     [COUNTED]),
    *[(f"a letter in two frames, {at}", frame(TEXT, LETTERS[:at]) + frame(LAST | PART, LETTERS[at:]), [NO_NAME])
      for at in range(9, 14)],
    ("a ping", ASKED, [REPLIED]), ("an empty one", frame(LAST | PING), [(LAST | PONG, b"")]),
    ("the longest", frame(LAST | PING, b"x" * 125), [(LAST | PONG, b"x" * 125)]),
    ("a ping between frames", frame(TEXT, COUNT[:9]) + ASKED + frame(LAST | PART, COUNT[9:]), [REPLIED, COUNTED]),
    ("a pong", frame(LAST | PONG, b"x") + frame(LAST | TEXT, COUNT), [COUNTED]),
    ("an empty text", frame(LAST | TEXT), [NO_JSON]),
]
# Frames that close the connection, and why.
NO_FRAMES = [
    ("not masked", frame(LAST | TEXT, EDIT, None), 1002), ("nor a ping", frame(LAST | PING, b"", None), 1002),
    ("in a second frame", frame(TEXT, EDIT[:9]) + frame(LAST | PART, EDIT[9:], None), 1002),
    *[(f"a bit that means nothing, {bit}", frame(LAST | bit | TEXT, EDIT), 1002) for bit in (0x10, 0x20, 0x40)],
    *[(f"no kind {kind}", frame(LAST | kind, EDIT), 1002) for kind in (3, 4, 7, 11, 15)],
    ("bytes", frame(LAST | BINARY, EDIT), 1003), ("a part of no text", frame(LAST | PART, EDIT), 1002),
    ("a text within a text", frame(TEXT, EDIT[:9]) + frame(LAST | TEXT, EDIT), 1002),
    ("half a ping", frame(PING, b"x") + frame(LAST | PART, b"x"), 1002),
    ("a long ping", frame(LAST | PING, b"x" * 126), 1002), ("half a close", frame(CLOSE), 1002),
    ("no UTF-8", frame(LAST | TEXT, b"\xff\xfe"), 1007), ("half a letter", frame(LAST | TEXT, b'"\xc3'), 1007),
    ("a surrogate", frame(LAST | TEXT, b"\xed\xa0\x80"), 1007),
    *[(f"{size} bytes", frame(LAST | TEXT, size=size), 1009) for size in (MOST + 1, 1 << 40, (1 << 64) - 1)],
    ("too many in two frames", frame(TEXT, b" " * MOST) + frame(LAST | PART, b" "), 1009),
    ("a close", frame(LAST | CLOSE), 1000), ("with a reason", frame(LAST | CLOSE, b"\x03\xe9gone"), 1000),
    ("a close within a text", frame(TEXT, EDIT[:9]) + frame(LAST | CLOSE), 1000),
]


class Page:
    """A page that has opened a WebSocket."""

    def __init__(self, served):
        self.served = served
        rows = [f"GET {served.base}socket HTTP/1.1", f"Host: 127.0.0.1:{served.port}"]
        rows += [f"{name.replace('_', '-')}: {value}" for name, value in headers(served).items()]
        self.connection = socket.create_connection(("127.0.0.1", served.port), PATIENCE)
        self.file = self.connection.makefile("rb")
        self.connection.sendall("".join(row + "\r\n" for row in [*rows, ""]).encode())
        self.is_open = self.file.readline() == b"HTTP/1.1 101 Switching Protocols\r\n"
        while self.file.readline().strip():
            pass

    def __enter__(self):
        return self

    def __exit__(self, *_):
        self.file.close()
        self.connection.close()

    def send(self, text):
        """Sends bytes as they are."""
        self.connection.sendall(text)

    def frame(self):
        """The next frame of the server. Nothing where none comes any more."""
        with contextlib.suppress(ConnectionError):
            return frame_in(self.file)
        return None

    def rest(self):
        """All frames that come, once nothing more is sent."""
        self.connection.shutdown(socket.SHUT_WR)
        return list(iter(self.frame, None))

    def reply(self, text):
        """The answer to a text: its status, and what it says."""
        self.send(frame(LAST | TEXT, text if isinstance(text, bytes) else text.encode()))
        return reply_in(self.frame())

    def ask(self, name, **given):
        """What is answered to a request, as `Served.post` has it."""
        return self.reply(json.dumps({"name": name, "owner": self.served.owner, **given}))


def frame_in(file):
    """The next frame of the server: its first byte, and what it holds. Nothing at the end."""
    head = file.read(2)
    if not head:
        return None
    size = head[1]
    if size > 125:
        size = int.from_bytes(file.read(2 if size == 126 else 8), "big")
    return head[0], file.read(size)


def reply_in(found):
    """The status of an answer, and what it says; or the frame, if that is no answer."""
    if found is None or found[0] != LAST | TEXT:
        return found
    answer = json.loads(found[1])
    return (answer["status"], answer["said"]) if list(answer) == ["status", "said"] else answer


@contextlib.contextmanager
def squares():
    """A server of the squares whose page has begun."""
    with folder() as files:
        (files / "map.json").write_text(SQUARES)
        with Served(files / "map.json", "--out", files / "out.json") as page:
            page.begin()
            yield page


def who_may_open(checks):
    """Token, host and origin of a WebSocket, which a browser opens for a page of any site without asking first."""
    with squares() as page:
        answer = opening(page)
        names = ("Upgrade", "Connection", "Sec-WebSocket-Accept", "Sec-WebSocket-Extensions", "Sec-WebSocket-Protocol")
        checks.same("opened", (answer.status, [answer.getheader(name) for name in names]),
                    (101, ["websocket", "Upgrade", ACCEPTED, None, None]))
        checks.same("in other words", opening(page, Upgrade="WebSocket", Connection="keep-alive, UPGRADE").status, 101)
        fill = {"token": page.base.strip("/"), "short": page.base.strip("/")[:-1], "port": page.port}
        for path in STRANGE_PATHS:
            checks.same(f"path {path}", opening(page, path.format(**fill) + "socket").status, 403)
        for host in STRANGE_HOSTS:
            checks.same(f"host {host}", opening(page, Host=host and host.format(**fill)).status, 403)
        for origin in [*STRANGE_ORIGINS, None]:
            checks.same(f"origin {origin!r}", opening(page, Origin=origin and origin.format(**fill)).status, 403)
        for origin in OUR_ORIGINS:
            checks.same(f"origin {origin!r}", opening(page, Origin=origin.format(**fill)).status, 101)
        for site in sorted({row[0] for row in FETCHES}):
            told = {"Sec_Fetch_Site": site, "Sec_Fetch_Mode": "websocket", "Sec_Fetch_Dest": "empty"}
            checks.same(f"site {site}", opening(page, **told).status, 101 if site in ("none", "same-origin") else 403)
        for name, value in STRANGE_OPENINGS:
            checks.same(f"{name} {value!r}", opening(page, **{name: value}).status, 400)
        old = f"GET {page.base}socket HTTP/1.0\r\nHost: 127.0.0.1:{page.port}\r\n"
        old += "".join(f"{name.replace('_', '-')}: {value}\r\n" for name, value in headers(page).items())
        checks.same("in an old way", sent(page, old + "\r\n").split(" ")[1], "400")
        checks.same("by POST", page.ask("POST", page.base + "socket", b"{}", **headers(page))[0], 404)
        checks.same("the server goes on", page.questions("area 0"), ["200"])


def same_answers(checks):
    """What is answered on a WebSocket is what POST answers."""
    with squares() as posted, squares() as served, Page(served) as page:
        requests = [("edit", {"act": 1, "lines": lines}) for lines, *_ in REQUESTS]
        requests += [("edit", {"act": 1, "lines": [line]}) for line in NO_LINES]
        requests += [(name, {"act": 1, **given}) for name, given in NO_REQUESTS]
        requests += [("edit", {"owner": owner, "act": 1, "lines": ["undo"]}) for owner in OTHER_OWNERS]
        requests += [("try", {"line": line}) for line in TRIALS]
        requests += [("ask", {"lines": ["area 0", "count", "at 5 5", "neighbours 0"]}), ("ask", {"lines": []}),
                     ("ask", {"lines": ["rings 0"] * 2000}), ("alive", {}), ("edit", {"act": 9, "lines": ["undo"] * 99}),
                     ("edit", {"act": 9, "lines": ["undo"]})]
        for name, given in requests:
            checks.same(f"{name} {str(given)[:60]}", page.ask(name, **given), posted.post(name, **given))
        checks.same("the log", served.begin()["log"], posted.begin()["log"])
        for body in BODIES:
            # what is no UTF-8 is no text
            if body != b"\xff\xfe":
                status, said, _ = posted.ask("POST", posted.base + "edit", body)
                checks.same(f"text {body!r}", page.reply(body), (status, json.loads(said)))
        for text in ("[" * 200_000, "9" * 100_000):
            checks.same(f"{text[:9]}..", page.reply(text)[0], 400)
        for name in NOT_HERE:
            checks.same(f"name {name!r}", page.ask(name, act=1, lines=["undo"]), (404, {"reason": "no such name"}))
        checks.same("no name", page.reply(b"{}"), (404, {"reason": "no such name"}))


def after_border_edit(checks):
    """border_edit is killed, or ends: the reason is that of a POST, and other edits go on."""
    with stood_in() as (served, cues), Page(served) as page:
        child, = served.children()
        os.kill(child, signal.SIGKILL)
        until(lambda: child not in served.children())
        checks.same("killed", page.ask("edit", act=1, lines=["move 10 10 12 12"])[1]["answers"], ["ok"])
        cues.write_text("4\tend\tmove 0 0 1 1\n")
        given = {"act": 2, "lines": ["move 0 0 1 1"]}
        checks.same("ends", page.ask("edit", **given), served.post("edit", **given))
        checks.same("edits go on", page.ask("edit", act=3, lines=["undo"])[1]["answers"], ["ok"])


def frames(checks):
    """Texts in one frame and in several, of all sizes, and what may stand between them."""
    with squares() as served:
        for name, given, came in FRAMES:
            with Page(served) as page:
                page.send(given)
                checks.same(name, page.rest(), came)
        for size in (125, 126, 127, 65_535, 65_536, MOST):
            with Page(served) as page:
                page.send(frame(LAST | TEXT, COUNT.ljust(size)))
                checks.same(f"{size} bytes", page.frame(), COUNTED)
        with Page(served) as page:
            for byte in frame(LAST | TEXT, COUNT):
                page.send(bytes([byte]))
            checks.same("byte by byte", page.frame(), COUNTED)
            for size in (1, 2, 20, 2000):
                got = page.ask("ask", lines=["rings 0"] * size)[1]["answers"]
                checks.same(f"{size} answers", got, ["[[[[0,0],[10,0],[10,10],[0,10]]]]"] * size)


def sizes(checks):
    """What the server sends: a size stands in 1, 3 or 9 bytes, the fewest that have room for it."""
    for size, begin in [(0, 2), (125, 2), (126, 4), (127, 4), (65_535, 4), (65_536, 10), (1 << 21, 10)]:
        file, answer = io.BytesIO(), b"x" * size
        sockets.WebSocket(None, file, 0).send(answer)
        at = file.tell()
        file.seek(0)
        checks.same(f"{size} bytes", (at, frame_in(file), file.read()), (begin + size, (LAST | TEXT, answer), b""))


def no_frames(checks):
    """What is against the rules closes the connection, and nothing of it is done, nor of what comes then."""
    with squares() as served:
        for name, given, code in NO_FRAMES:
            with Page(served) as page:
                page.send(given + frame(LAST | TEXT, EDIT))
                checks.same(name, page.rest(), [(LAST | CLOSE, code.to_bytes(2, "big"))])
        checks.same("nothing was done", (served.begin()["log"], served.get("document")[1]), ([], SQUARES.encode()))


def cut_off(checks):
    """A page goes in the middle of a request: half a one is not done, and a whole one is, once."""
    with squares() as served:
        whole = frame(LAST | TEXT, EDIT)
        for size in (0, 1, 2, 5, 6, 7, len(whole) - 1):
            with Page(served) as page:
                page.send(whole[:size])
        checks.same("half of it", (served.questions("count"), b"rename" in served.get("script")[1]),
                    (["features 2 vertices 6 segments 7"], False))
        with Page(served) as page:
            page.send(whole)
        checks.same("all of it", until(lambda: b"rename" in served.get("script")[1]), True)
        checks.same("once", served.begin()["log"], [{"line": 'rename 0 "x"', "answer": "ok", "act": 1}])
        silent = [Page(served) for _ in range(50)]
        for each in silent[:25]:
            each.send(whole[:9])
        checks.same("an edit beside 50 silent ones", served.edit('rename 0 "y"'), (["ok"], True))
        with Page(served) as page:
            checks.same("and on another one", page.ask("edit", act=1, lines=['rename 0 "z"'])[1]["answers"], ["ok"])
        for each in silent:
            each.__exit__()
        checks.same("then", served.questions("count"), ["features 2 vertices 6 segments 7"])
        served.process.terminate()
        checks.same("and nothing is said of them", b"Traceback" in served.process.communicate()[1], False)


def two_pages(checks):
    """The newest page has the map, also where an older one has a WebSocket open."""
    with squares() as served, Page(served) as first:
        checks.same("the first", first.ask("edit", act=1, lines=["move 10 10 12 12"])[0], 200)
        owner = served.owner
        served.begin()
        with Page(served) as second:
            for name, given in [("edit", {"act": 1, "lines": ["undo"]}), ("try", {"line": "move 0 0 1 1"}),
                                ("ask", {"lines": ["count"]}), ("alive", {})]:
                status, said = first.ask(name, owner=owner, **given)
                checks.same(f"{name} of the first", (status, said.get("closed")), (409, True))
            checks.same("the second", second.ask("edit", act=1, lines=["undo"])[0], 200)


def last_page(checks):
    """The server ends with its last page, though a WebSocket is open; what comes on it says that a page is there."""
    with squares() as served, Page(served) as page:
        goodbye = json.dumps({"owner": served.owner}).encode()
        served.ask("POST", served.base + "leave", goodbye)
        checks.same("a page that came back says that it is there", page.ask("alive"), (200, {}))
        checks.same("and the server stays", served.has_ended(visits.LEAVING + 2), False)
        began = time.monotonic()
        served.ask("POST", served.base + "leave", goodbye)
        checks.same("closed: ends", (served.has_ended(20), served.process.returncode), (True, 0))
        checks.same("not before a page could be loaded again", time.monotonic() - began > visits.LEAVING - 1, True)
        checks.same("which the page sees", (page.frame(), served.process.stderr.read()), (None, b""))


def stopped(checks):
    """Stopped while a WebSocket is open, the server leaves what was edited on it as a script."""
    with squares() as served, Page(served) as page:
        page.ask("edit", act=1, lines=['rename 0 "x"'])
        status, said = served.stop()
        checks.same("what it says", (status, said.startswith("edit: unsaved edits stand as a script in "), page.frame()),
                    (0, True, None))


GROUPS = [last_page, who_may_open, same_answers, after_border_edit, frames, sizes, no_frames, cut_off, two_pages, stopped]
