"""A connection of a browser, on which the library reads requests of HTTP/1.1 one after the other. It refuses what no browser
sends too. The library takes long to be loaded, so this module is read while the browser starts."""
import sys

# no connection here is encrypted, and the library does without this module, which takes long to be loaded too
sys.modules["ssl"] = None
import http.server
del sys.modules["ssl"]


class BadRequest(Exception):
    """A request that no page of ours sends: its status and why."""

    def __init__(self, status, reason):
        super().__init__(reason)
        self.status = status


class Connection(http.server.BaseHTTPRequestHandler):
    """Reads the heads of requests. `do_GET`, `do_POST` and `send`, which others add, answer them."""

    protocol_version = "HTTP/1.1"
    # seconds for which a connection may be silent
    timeout = 120
    # head and body go out in one piece, at once: else the system waits 40 ms for the answer to the first one
    wbufsize = -1
    disable_nagle_algorithm = True

    def version_string(self):
        """The server's name in answers, without versions."""
        return "border_edit"

    def log_message(self, *_):
        """Nothing is written for a request."""

    def parse_request(self):
        """Reads the head of a request. Whether it may be answered; where not, it is told why."""
        is_read = super().parse_request()
        if not self.requestline.strip() or (is_read and self.request_version < "HTTP/1"):
            self.send_error(400, "no request")
        elif is_read and "Transfer-Encoding" in self.headers:
            self.send_error(411, "no length")
        elif is_read:
            # a body that is not read would be taken for the next request
            self.close_connection |= self.command != "POST" and "Content-Length" in self.headers
            return True
        return False

    def handle_expect_100(self):
        """Asks for the body of a request that waits for that."""
        is_answered = super().handle_expect_100()
        self.wfile.flush()
        return is_answered

    def send_error(self, code, message=None, explain=None):
        """What a request is answered of which nothing more is read."""
        self.close_connection = True
        # the library sends no head where it has read no version
        self.request_version = self.protocol_version
        self.send(code, {"reason": message or "no such request"})

    def header(self, name, default=None):
        """A header of the request. Those of one name are one, with commas between."""
        found = self.headers.get_all(name)
        return default if found is None else ", ".join(found).strip()

    def send_head(self, status, headers):
        """Sends the head of an answer."""
        self.send_response(status)
        for name, value in headers.items():
            self.send_header(name, value)
        if self.close_connection:
            self.send_header("Connection", "close")
        self.end_headers()
