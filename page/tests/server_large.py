"""Maps as large as maps may be."""
import http.client
import pathlib
import socket
import time

from server_maps import of_squares
from server_runs import PATHS, Served, folder

from child import Child

# Bytes of a map that opens, at most.
MOST = 67_108_864
# Seconds that all of it may take on a busy machine; on one with nothing else to do it takes some five.
PATIENCE = 180
# Kilobytes of memory that the server may have had at most.
MEMORY = 44_000


def of_bytes(size, rows):
    """A map of so many bytes, of which the properties have so many line feeds."""
    kept = '["features 1 vertices 4 segments 4",\n' + "123456789,\n" * rows + '0,"{fill}"]'
    text = of_squares([('"A"', kept)])
    return text.replace("{fill}", "x" * (size - len(text) + len("{fill}")))


def as_large_as_may_be(checks):
    """A map of 64 MiB opens, comes back byte for byte, is edited, and is saved."""
    text = of_bytes(MOST, 1_000_000).encode()
    with folder() as files:
        path = files / "map.json"
        path.write_bytes(text)
        checks.same("bytes", len(text), MOST)
        began = time.monotonic()
        with Served(path) as page:
            checks.same("opens", page.begin()["opens"], True)
            checks.same("its text", page.get("document") == (200, text), True)
            checks.same("an edit", page.edit('rename 0 "B"'), (["ok"], True))
            checks.same("saved", page.post("save"), (200, {"bytes": MOST, "file": str(path)}))
            checks.same("what is saved", path.read_bytes() == text.replace(b'"id":"A"', b'"id":"B"'), True)
            checks.same("what was there", (files / "map.json.orig").read_bytes() == text, True)
            checks.same("the server never had all of it", most_memory(page.process.pid) < MEMORY, True)
        checks.same("in time", time.monotonic() - began < PATIENCE, True)


def most_memory(process):
    """Kilobytes of memory that a process had at most."""
    rows = pathlib.Path(f"/proc/{process}/status").read_text().splitlines()
    return next(int(row.split()[1]) for row in rows if row.startswith("VmHWM:"))


def half_taken(checks):
    """A text of which not all pieces are taken: the next answer is that to the next question."""
    text = of_bytes(5_000_000, 1000).encode()
    with folder() as files:
        (files / "map.json").write_bytes(text)
        child = Child(PATHS["border_edit"], files / "map.json")
        try:
            count = child.ask(["count"])
            for taken in (0, 1, 2):
                pieces = child.document()
                begin = b"".join(next(pieces) for _ in range(taken))
                checks.same(f"{taken} pieces", (text.startswith(begin), len(begin) < len(text)), (True, True))
                pieces.close()
                checks.same("then a question", child.ask(["count"]), count)
            checks.same("then all of it", b"".join(child.document()) == text, True)
            pieces = child.document()
            next(pieces)
            child.process.kill()
            checks.same("ended meanwhile", pieces.close(), None)
        finally:
            child.end()


def slowly_taken(checks):
    """While a browser does not take the text that it asked for, another one is answered. Then it has all of it."""
    text = of_bytes(20_000_000, 1000).encode()
    with folder() as files:
        (files / "map.json").write_bytes(text)
        with Served(files / "map.json") as page:
            counts = page.begin()["counts"]
            slow = http.client.HTTPConnection("127.0.0.1", page.port, timeout=PATIENCE)
            slow.request("GET", page.base + "document")
            answer = slow.getresponse()
            checks.same("the text comes in chunks", answer.getheader("Transfer-Encoding"), "chunked")
            checks.same("a question", page.questions("count"), [counts])
            checks.same("the text", answer.read() == text, True)
            slow.close()
            with socket.create_connection(("127.0.0.1", page.port), PATIENCE) as old:
                old.sendall(f"GET {page.base}document HTTP/1.0\r\nHost: 127.0.0.1:{page.port}\r\n\r\n".encode())
                head, _, body = old.makefile("rb").read().partition(b"\r\n\r\n")
            checks.same("asked for in an old way", (b"chunked" in head, body == text), (False, True))


def larger(checks):
    """Of a file of a tebibyte no more is read than shows that it is too large."""
    with folder() as files:
        path = files / "map.json"
        with open(path, "wb") as file:
            file.truncate(1 << 40)
        with Served(path, "--out", files / "out.json") as page:
            checks.same("the fault", page.begin()["fault"], "too large bytes")


GROUPS = [as_large_as_may_be, half_taken, slowly_taken, larger]
