"""Who may ask, and what is no request."""
import pathlib
import re
import socket
import threading
from unittest import mock

from server_maps import SQUARES, of_squares
from server_runs import PAGE, Served, folder

import bundle
import server as served
from address import Address

# Paths without the token, with a part of it, or with another one. {token} is the real one.
STRANGE_PATHS = ["/", "//", "/x/", "/{token}", "/{token}x/", "/{short}/", "/%C3%A9/", "/{token}%2F", "/./{token}/",
                 "/x/{token}/", "/?{token}/", "{token}/"]
STRANGE_HOSTS = ["evil.example", "evil.example:{port}", "127.0.0.1", "127.0.0.1:1", "", "127.0.0.1.nip.io:{port}",
                 None, "[::1]:{port}", "127.0.0.1:{port}, evil.example", "127.0.0.1:0{port}",
                 "LOCALHOST.evil.example:{port}"]
STRANGE_ORIGINS = ["http://evil.example", "null", "https://127.0.0.1:{port}", "http://127.0.0.1:1",
                   "http://127.0.0.1", "http://127.0.0.1:{port}.evil.example", "file://", ""]
OUR_ORIGINS = ["http://127.0.0.1:{port}", "http://localhost:{port}"]
# Site, mode and destination that the browser tells, and the status of loading the page, and of reading the map.
FETCHES = [
    ("none", "navigate", "document", 200, 200),
    ("same-origin", "cors", "empty", 200, 200),
    ("same-origin", "navigate", "document", 200, 200),
    ("cross-site", "navigate", "document", 200, 403),
    ("cross-site", "navigate", "iframe", 403, 403),
    ("cross-site", "no-cors", "script", 403, 403),
    ("cross-site", "cors", "empty", 403, 403),
    ("same-site", "no-cors", "image", 403, 403),
    ("same-site", "navigate", "document", 200, 403),
]
# Names that are no name of a file of the page: none leads out of its folder, nor to what else is in it.
NO_NAMES = ["../server/server.py", "..%2fserver%2fserver.py", "%2e%2e/server/server.py", "..\\server\\server.py",
            "/etc/passwd", "//etc/passwd", "main.js/../talk.js", "main.js%00", "main.js/", "./main.js", "MAIN.JS",
            "main.js?x", "main.js#x", "package.json", "index.html/..", "../web/main.js", "web/main.js",
            "server/server.py", "tests/test_server.py"]
METHODS = ["PUT", "DELETE", "OPTIONS", "HEAD", "TRACE", "CONNECT", "GETS"]
KINDS = [("application/json", 200), ("application/json; charset=utf-8", 200), ("text/plain", 403),
         ("text/plain;charset=UTF-8", 403), ("application/x-www-form-urlencoded", 403), ("application/jsonp", 403),
         ("multipart/form-data; boundary=x", 403), ("", 403), (None, 403)]
BODIES = [b"{", b"[]", b"5", b"null", b'"x"', b"true", b"NaN", b"", b"\xff\xfe", b'{"lines":', b"{}{}"]
LENGTHS = [("-1", 411), ("x", 411), ("\u00b2", 411), ("1e3", 411), ("", 411), (None, 411), ("1048577", 413),
           ("99999999999", 413), ("9" * 5000, 413)]
# Heads of requests as they are sent, and the status of the answer. {get} is what loads the page, {host} the header of its
# host, {begin} what begins.
HEADS = [
    ("{get} HTTP/1.1\r\n{host}\r\n\r\n", 200), ("{get} HTTP/1.0\r\n{host}\r\n\r\n", 200),
    ("{get} HTTP/1.1\n{host}\n\n", 200), ("{get} HTTP/1.1\r\nhOST:127.0.0.1:{port}  \r\n\r\n", 200),
    ("\r\n", 400), ("x\r\n\r\n", 400), ("{get}\r\n{host}\r\n\r\n", 400), ("{get} HTTP\r\n{host}\r\n\r\n", 400),
    ("{get} x HTTP/1.1\r\n{host}\r\n\r\n", 400), ("{get} HTTP/2.0\r\n{host}\r\n\r\n", 505),
    ("{get} HTTP/1.11\r\n{host}\r\n\r\n", 200), ("{get} HTTP/0.9\r\n{host}\r\n\r\n", 400),
    ("{get} HTTP/1.x\r\n{host}\r\n\r\n", 400), ("{get} HTTP/1.1\r\n\r\n", 403),
    ("{get} HTTP/1.1\r\n{host}\r\n{host}\r\n\r\n", 403), ("{get} HTTP/1.1\r\n{host}\r\nHost: evil.example\r\n\r\n", 403),
    ("{get} HTTP/1.1\r\n{host}\r\n evil.example\r\n\r\n", 403), ("{get} HTTP/1.1\r\n{host}\r\nx\r\n\r\n", 403),
    ("{get} HTTP/1.1\r\n{host}\r\n: x\r\n\r\n", 403), ("{get} HTTP/1.1\r\nHost : 127.0.0.1:{port}\r\n\r\n", 403),
    ("{get} HTTP/1.1\r\n{host}\r\nx\r\nOrigin: http://evil.example\r\n\r\n", 403),
    ("{get} HTTP/1.1\r\n{host}\r\n" + 98 * "x: y\r\n" + "\r\n", 200),
    ("{get} HTTP/1.1\r\n{host}\r\n" + 100 * "x: y\r\n" + "\r\n", 431),
    ("GET /" + 70_000 * "x", 414), ("{get} HTTP/1.1\r\n{host}\r\nx: " + 70_000 * "y", 431),
    ("{begin}Content-Length: 2\r\n\r\n{{}}", 200), ("{begin}Content-Length: 2\r\nContent-Length: 2\r\n\r\n{{}}", 411),
    ("{begin}Transfer-Encoding: chunked\r\n\r\n2\r\n{{}}\r\n0\r\n\r\n", 411),
    ("{begin}Content-Length: 2\r\nTransfer-Encoding: chunked\r\n\r\n2\r\n{{}}\r\n0\r\n\r\n", 411),
]
HEADERS = {"X-Content-Type-Options": "nosniff", "Referrer-Policy": "no-referrer", "Cache-Control": "no-store",
           "Cross-Origin-Opener-Policy": "same-origin", "Cross-Origin-Resource-Policy": "same-origin",
           "Access-Control-Allow-Origin": None, "Server": "border_edit"}


def who_may_ask(checks):
    """Token, host and origin."""
    with folder() as files:
        (files / "map.json").write_text(SQUARES)
        with Served(files / "map.json") as page, Served(files / "map.json") as other:
            token = page.base.strip("/")
            checks.same("a token has 192 bits, in 32 letters of 6 bits",
                        bool(re.fullmatch("[A-Za-z0-9_-]{32}", token)), True)
            checks.same("a token is drawn for each run", token != other.base.strip("/"), True)
            for path in STRANGE_PATHS:
                asked = path.format(token=token, short=token[:-1])
                checks.same(f"path {path}", page.ask("GET", asked)[0], 403)
            checks.same("the token of another run", page.ask("GET", other.base)[0], 403)
            for host in STRANGE_HOSTS:
                given = host and host.format(port=page.port)
                checks.same(f"host {host}", page.ask("GET", page.base, Host=given)[0], 403)
            checks.same("host localhost", page.ask("GET", page.base + "script", Host=f"localhost:{page.port}")[0],
                        200)
            for origin in STRANGE_ORIGINS:
                given = origin.format(port=page.port)
                checks.same(f"origin {origin!r}", page.ask("POST", page.base + "begin", b"{}", Origin=given)[0], 403)
            for origin in OUR_ORIGINS:
                given = origin.format(port=page.port)
                checks.same(f"origin {origin!r}", page.ask("POST", page.base + "begin", b"{}", Origin=given)[0], 200)


def what_the_browser_tells(checks):
    """Sec-Fetch-Site, methods, and kinds of content."""
    with folder() as files:
        (files / "map.json").write_text(SQUARES)
        with Served(files / "map.json") as page:
            for site, mode, destination, loaded, read in FETCHES:
                told = {"Sec_Fetch_Site": site, "Sec_Fetch_Mode": mode, "Sec_Fetch_Dest": destination}
                checks.same(f"the page, {site} {mode} {destination}", page.ask("GET", page.base, **told)[0], loaded)
                checks.same(f"the map, {site} {mode} {destination}",
                            page.ask("GET", page.base + "document", **told)[0], read)
                checks.same(f"its file, {site} {mode} {destination}", page.ask("GET", page.base + "map", **told)[0], read)
                checks.same(f"an edit, {site} {mode} {destination}",
                            page.ask("POST", page.base + "begin", b"{}", **told)[0],
                            200 if site in ("none", "same-origin") else 403)
            for method in METHODS:
                checks.same(f"method {method}", page.ask(method, page.base)[0], 501)
            for kind, status in KINDS:
                checks.same(f"kind {kind!r}", page.ask("POST", page.base + "begin", b"{}", Content_Type=kind)[0],
                            status)
            checks.same("a page that closes may call as text", leave(page), 200)
            checks.same("but not of another origin", leave(page, Origin="http://evil.example"), 403)
            checks.same("nor of another site", leave(page, Sec_Fetch_Site="cross-site"), 403)
            checks.same("nor without the token", page.ask("POST", "/x/leave", b"{}", Content_Type="text/plain")[0], 403)


def leave(page, **headers):
    """The status of a goodbye that is sent as text."""
    return page.ask("POST", page.base + "leave", b'{"owner":0}', Content_Type="text/plain;charset=UTF-8", **headers)[0]


def what_is_served(checks):
    """The files of the page, by a table of names."""
    with folder() as files:
        for name in ("main.js", "a.js", "style.css", "index.html", "package.json", "notes.txt", ".hidden"):
            (files / name).write_text(name)
        (files / "sub").mkdir()
        (files / "sub" / "deep.js").write_text("")
        table = served.static_files(files)
        checks.same("the table", {name: path.name for name, path in table.items()},
                    {"": "index.html", "a.js": "a.js", "main.js": "main.js", "style.css": "style.css"})
        (files / "map.json").write_text(SQUARES)
        with Served(files / "map.json") as page:
            for path in sorted((PAGE / "web").glob("*.js")):
                status, text, answer = page.ask("GET", page.base + path.name)
                got = (status, text == path.read_bytes(), answer.getheader("Content-Type"))
                checks.same(f"file {path.name}", got, (200, True, "text/javascript; charset=utf-8"))
            status, text, answer = page.ask("GET", page.base)
            got = (status, text == (PAGE / "web/index.html").read_bytes(), answer.getheader("Content-Type"))
            checks.same("the page", got, (200, True, "text/html; charset=utf-8"))
            for name in NO_NAMES:
                checks.same(f"name {name}", page.get(name)[0], 404)
            for name in ("", "map", "document", "nothing", "main.js", "__class__", "../begin"):
                checks.same(f"no request {name!r}", page.ask("POST", page.base + name, b"{}")[0], 404)
            check_headers(checks, page)


def check_headers(checks, page):
    """The headers of answers of each kind."""
    policy = ["default-src 'none'", "script-src 'self'", "style-src 'self'", "img-src 'self' blob: data:",
              "connect-src 'self'", "base-uri 'none'", "form-action 'none'", "frame-ancestors 'none'"]
    for name in ("", "main.js", "map", "document", "script", "nothing"):
        _, _, answer = page.ask("GET", page.base + name)
        checks.same(f"policy of {name!r}", answer.getheader("Content-Security-Policy").split("; "), policy)
        checks.same(f"headers of {name!r}", {header: answer.getheader(header) for header in HEADERS}, HEADERS)


def bodies(checks):
    """Requests that are no JSON, too long, too deep, or cut off."""
    with folder() as files:
        (files / "map.json").write_text(SQUARES)
        with Served(files / "map.json") as page:
            page.begin()
            for body in BODIES:
                checks.same(f"body {body!r}", page.ask("POST", page.base + "edit", body)[0], 400)
            checks.same("200,000 brackets", page.ask("POST", page.base + "edit", b"[" * 200_000)[0], 400)
            checks.same("a number of 100,000 digits", page.ask("POST", page.base + "edit", b"9" * 100_000)[0], 400)
            for length, status in LENGTHS:
                got = page.ask("POST", page.base + "edit", b"{}", Content_Length=length)[0]
                checks.same(f"length {length and length[:12]!r}", got, status)
            checks.same("1 MiB is taken", page.ask("POST", page.base + "begin", b"{}".ljust(1 << 20))[0], 200)
            with socket.create_connection(("127.0.0.1", page.port)) as half:
                half.sendall(head_of(page, "begin", 9) + b"{}")
                half.shutdown(socket.SHUT_WR)
                checks.same("half a request", half.makefile("rb").readline(), b"HTTP/1.1 400 Bad Request\r\n")
            checks.same("and none began", page.post("begin")[1]["owner"], 3)


def heads(checks):
    """Heads of requests, right and wrong; and which connections go on."""
    with folder() as files:
        (files / "map.json").write_text(SQUARES)
        with Served(files / "map.json") as page:
            fill = {"get": f"GET {page.base}", "host": f"Host: 127.0.0.1:{page.port}", "port": page.port}
            begin = f"POST {page.base}begin HTTP/1.1\r\n{fill['host']}\r\nContent-Type: application/json\r\n"
            for head, status in HEADS:
                said = sent(page, head.format(**fill, begin=begin))
                checks.same(f"head {head[:90]!r}", said.split(" ")[1], str(status))
            twice = "{get} HTTP/1.1\r\n{host}\r\n{more}\r\n{get} HTTP/1.1\r\n{host}\r\nConnection: close\r\n\r\n"
            for more, answers in [("", 2), ("Connection: keep-alive\r\n", 2), ("Connection: x, Close\r\n", 2),
                                  ("Connection: Close\r\n", 1), ("Content-Length: 0\r\n", 1)]:
                said = sent(page, twice.format(**fill, more=more))
                checks.same(f"two requests {more!r}", said.count("HTTP/1.1 200 OK"), answers)
            said = sent(page, f"{begin}Expect: 100-continue\r\nContent-Length: 2\r\n\r\n{{}}")
            checks.same("a body that waits to be asked for", said.split("\r\n")[:3],
                        ["HTTP/1.1 100 Continue", "", "HTTP/1.1 200 OK"])
            checks.same("and nothing else began", page.post("begin")[1]["owner"], 3)


def sent(page, text):
    """What is answered to a text, after which nothing more comes."""
    with socket.create_connection(("127.0.0.1", page.port)) as connection:
        connection.sendall(text.encode())
        connection.shutdown(socket.SHUT_WR)
        return connection.makefile("rb").read().decode()


def head_of(page, name, length):
    """The head of a POST."""
    return (f"POST {page.base}{name} HTTP/1.1\r\nHost: 127.0.0.1:{page.port}\r\n"
            f"Content-Type: application/json\r\nContent-Length: {length}\r\n\r\n").encode()


def silent_ones(checks):
    """Connections that say nothing, or the half of it, hold nobody up."""
    with folder() as files:
        (files / "map.json").write_text(SQUARES)
        with Served(files / "map.json") as page:
            page.begin()
            silent = [socket.create_connection(("127.0.0.1", page.port)) for _ in range(50)]
            for connection in silent[:25]:
                connection.sendall(head_of(page, "edit", 99) + b"{")
            checks.same("an edit beside 50 silent connections", page.edit('rename 0 "x"'), (["ok"], True))
            for connection in silent:
                connection.close()
            checks.same("and after them", page.questions("count"), ["features 2 vertices 6 segments 7"])
            page.process.terminate()
            checks.same("and says nothing of them", b"Traceback" in page.process.communicate()[1], False)


def other_machines(checks):
    """The page is on the loopback address alone."""
    with folder() as files:
        (files / "map.json").write_text(SQUARES)
        with Served(files / "map.json") as page:
            tables = [pathlib.Path("/proc/net", name).read_text() for name in ("tcp", "tcp6")]
            rows = [row.split() for table in tables for row in table.splitlines()[1:]]
            listening = [row[1] for row in rows if row[3] == "0A" and row[1].endswith(f":{page.port:04X}")]
            checks.same("where it listens", listening, [f"0100007F:{page.port:04X}"])


def constant_time(checks):
    """The token is compared in constant time."""
    with mock.patch("secrets.compare_digest", return_value=False) as compared:
        server = served.Server(Address(0), mock.Mock(is_unsaved=False))
        threading.Thread(target=server.serve_forever, args=[0.05], daemon=True).start()
        with socket.create_connection(("127.0.0.1", server.server_port)) as page:
            page.sendall(f"GET /guess/ HTTP/1.1\r\nHost: 127.0.0.1:{server.server_port}\r\n\r\n".encode())
            answer = page.makefile("rb").readline()
        server.shutdown()
        server.server_close()
    checks.same("compared by compare_digest alone", (compared.call_args_list, answer),
                ([mock.call(b"guess", server.token.encode())], b"HTTP/1.1 403 Forbidden\r\n"))


# Texts that would be something else in a page, or in a header.
HOSTILE = ['"</script><script>alert(1)</script>"', '"<img src=x onerror=alert(1)>"', '"\\u2028\\u2029\u2028"',
           '"\\u0000"', '"\\r\\nSet-Cookie: a=b"', '"\\nfeatures 9 vertices 9 segments 9"',
           '"\U0001d11e\u202e"', '"\\ud800"']
KEPT = ['{"a":"</style>","<b>":[1,{"__proto__":null}]}',
        '{\n"features 1 vertices 4 segments 4":\n"features 2 vertices 4 segments 4"\n,\n"x":\nfalse}',
        '{"constructor":{"toString":1},"10":1,"2":2}', '{ "deep" : [[[[[[1e400]]]]]] }']


def hostile_texts(checks):
    """Ids and properties go to the page byte for byte, as JSON that no browser takes for a page."""
    texts = of_squares([(identity, "{}") for identity in HOSTILE] + [('"A"', kept) for kept in KEPT])
    with folder() as files:
        (files / "map.json").write_bytes(texts.encode())
        with Served(files / "map.json") as page:
            _, text, answer = page.ask("GET", page.base + "document")
            checks.same("the text", text, texts.encode())
            checks.same("its kind", (answer.getheader("Content-Type"), answer.getheader("X-Content-Type-Options")),
                        ("application/json; charset=utf-8", "nosniff"))
            checks.same("an id goes on as it is", page.edit(f"rename 0 {HOSTILE[0]}"), (["ok"], True))
            checks.same("and comes back", page.begin()["log"],
                        [{"line": f"rename 0 {HOSTILE[0]}", "answer": "ok", "act": 1}])


# A module, and what stands for its lines in the text of all modules; nothing where that can't be made.
MODULES = [
    ("export const a = 1;", "const a = 1;\n\nreturn { a };"),
    ("export class A {\n}", "class A {\n}\n\nreturn { A };"),
    ("export function f() {", "function f() {\n\nreturn { f };"),
    ("export async function f() {", "async function f() {\n\nreturn { f };"),
    ("export function* f() {", "function* f() {\n\nreturn { f };"),
    ('import { b } from "./other.js";', 'const { b } = given["other.js"];\n\nreturn {  };'),
    ('import { b, c as d } from "./other.js";', 'const { b, c: d } = given["other.js"];\n\nreturn {  };'),
    ('export { b, c } from "./other.js";', '\n\nreturn { b: given["other.js"].b, c: given["other.js"].c };'),
    ('import { e } from "./early.js";', 'const { e } = given["early.js"];\n\nreturn {  };'),
    (' import { b } from "./none.js";', ' import { b } from "./none.js";\n\nreturn {  };'),
    ("export default 1;", None), ("export { a };", None), ('import * as b from "./other.js";', None),
    ('import { b } from "./other.js"', None), ('import { a } from "./main.js";', None),
]


def one_text(checks):
    """The modules of the page as one text."""
    with folder() as files:
        (files / "other.js").write_text("export const b = 1, c = 2;\n")
        other = 'given["other.js"] = (() => {\nconst b = 1, c = 2;\n\nreturn { b };\n})();\n'
        for module, function in MODULES:
            (files / "main.js").write_text(module + "\n")
            try:
                text = bundle.bundled(files, "main.js", {"early.js"})
            except ValueError:
                text = None
            checks.same(f"module {module!r}", text and text.partition('given["main.js"] = (() => {\n')[2],
                        function and function + "\n})();\n")
            if "other.js" in module and text:
                checks.same("what it needs comes before it", text.index(other) < text.index('given["main.js"]'), True)
            if "early.js" in module:
                checks.same("what stays apart is asked for", text.split("\n")[0], 'import * as early from "./early.js";')
        (files / "map.json").write_text(SQUARES)
        with Served(files / "map.json") as page:
            status, text, answer = page.ask("GET", page.base + "all.js")
            got = (status, answer.getheader("Content-Type"), sorted(re.findall(r'^given\["(.*?)"\]', text.decode(), re.M)))
            checks.same("of the page", got, (200, "text/javascript; charset=utf-8",
                                             sorted(path.name for path in served.WEB.glob("*.js"))))
            named = re.findall(r'<script (?:async )?type="module" src="([^"]*)">', (served.WEB / "index.html").read_text())
            checks.same("the page asks for", named, ["early.js", "all.js"])


GROUPS = [one_text, who_may_ask, what_the_browser_tells,
          what_is_served, heads, bodies, silent_ones, other_machines, constant_time,
          hostile_texts]
