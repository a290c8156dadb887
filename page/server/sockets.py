"""A WebSocket (RFC 6455): texts of a page and answers to them, on a connection that stays open. It is opened by a GET."""
import base64
import re

# The text that RFC 6455 (1.3) appends to the page's key. The answer has the checksum of both.
MARK = "258EAFA5-E914-47DA-95CA-C5AB0DC85B11"
# A key: 16 bytes as base64.
KEY = "[A-Za-z0-9+/]{22}=="
# The bits of a frame's first byte: the last frame of its message, reserved bits, the kind of frame. Of the second byte:
# masked, and the size. The sizes 126 and 127 mean that the size follows in 2 or in 8 bytes.
LAST, RESERVED, KIND = 0x80, 0x70, 0x0F
MASKED, SIZE, SIZE_OF_2, SIZE_OF_8 = 0x80, 0x7F, 126, 127
# Kinds of frames: a further part of a message, a message's first part, and from CLOSE on what is no part of one.
PART, TEXT, BINARY, CLOSE, PING, PONG = 0, 1, 2, 8, 9, 10
KINDS = (PART, TEXT, BINARY, CLOSE, PING, PONG)
# Why a connection is closed.
BY_THE_PAGE, NO_FRAME, NO_TEXT, NOT_UTF8, TOO_LONG = 1000, 1002, 1003, 1007, 1009


class Closed(Exception):
    """Nothing more is read. `code` says why."""

    def __init__(self, code):
        super().__init__(code)
        self.code = code


def is_asked_for(header):
    """Whether the headers of a GET ask for a WebSocket."""
    connection = [word.strip().lower() for word in header("Connection", "").split(",")]
    return (header("Upgrade", "").lower() == "websocket" and "upgrade" in connection
            and header("Sec-WebSocket-Version") == "13" and bool(re.fullmatch(KEY, header("Sec-WebSocket-Key", ""))))


def opening(header):
    """The headers of the answer to such a GET."""
    import hashlib  # which takes time, and is needed once the page has come
    checksum = hashlib.sha1((header("Sec-WebSocket-Key") + MARK).encode(), usedforsecurity=False).digest()
    return {"Upgrade": "websocket", "Connection": "Upgrade", "Sec-WebSocket-Accept": base64.b64encode(checksum).decode()}


def unmasked(masked, mask):
    """What a page has masked with 4 bytes, which are repeated."""
    repeated = (mask * (len(masked) // 4 + 1))[:len(masked)]
    return (int.from_bytes(masked, "big") ^ int.from_bytes(repeated, "big")).to_bytes(len(masked), "big")


class WebSocket:
    """A connection that was opened so. `most` is how many bytes a text may have."""

    def __init__(self, rfile, wfile, most):
        self.rfile, self.wfile, self.most = rfile, wfile, most

    def texts(self):
        """The texts that the page sends, until the connection is closed."""
        try:
            while True:
                yield self._text()
        except Closed as closed:
            self.send(closed.code.to_bytes(2, "big"), CLOSE)
        except EOFError:
            # the page is gone
            return

    def send(self, sent, kind=TEXT):
        """Sends a frame that holds some bytes."""
        if len(sent) < SIZE_OF_2:
            size = bytes([len(sent)])
        elif len(sent) < 1 << 16:
            size = bytes([SIZE_OF_2]) + len(sent).to_bytes(2, "big")
        else:
            size = bytes([SIZE_OF_8]) + len(sent).to_bytes(8, "big")
        self.wfile.write(bytes([LAST | kind]) + size + sent)
        self.wfile.flush()

    def _text(self):
        """The next text, from as many frames as it comes in."""
        is_last, kind, read = self._part(0)
        if kind != TEXT:
            raise Closed(NO_TEXT if kind == BINARY else NO_FRAME)
        text = bytearray(read)
        while not is_last:
            is_last, kind, read = self._part(len(text))
            if kind != PART:
                raise Closed(NO_FRAME)
            text += read
        try:
            return text.decode()
        except UnicodeDecodeError:
            raise Closed(NOT_UTF8) from None

    def _part(self, before):
        """The next frame with a part of a message, of which there are some bytes already. Others may stand before it."""
        while True:
            is_last, kind, read = self._frame(before)
            if kind == CLOSE:
                raise Closed(BY_THE_PAGE)
            if kind == PING:
                self.send(read, PONG)
            elif kind != PONG:
                return is_last, kind, read

    def _frame(self, before):
        """The next frame: whether it is the last one of its message, its kind, and what it holds."""
        first, second = self._read(2)
        is_last, kind, size = bool(first & LAST), first & KIND, second & SIZE
        if first & RESERVED or kind not in KINDS or not second & MASKED:
            raise Closed(NO_FRAME)
        if kind >= CLOSE and not (is_last and size < SIZE_OF_2):
            raise Closed(NO_FRAME)
        if size >= SIZE_OF_2:
            size = int.from_bytes(self._read(2 if size == SIZE_OF_2 else 8), "big")
        if kind < CLOSE and before + size > self.most:
            raise Closed(TOO_LONG)
        mask = self._read(4)
        return is_last, kind, unmasked(self._read(size), mask)

    def _read(self, size):
        """So many bytes."""
        read = self.rfile.read(size)
        if len(read) < size:
            raise EOFError
        return read
