"""A text that is sent on while it is made."""
import os

# Bytes of a chunk, at most.
CHUNK = 1 << 18
# What ends a body of chunks.
END = b"0\r\n\r\n"


class Growing:
    """Sends a file that grows, as chunks of HTTP/1.1. Until it is whole no more is sent than is taken at once, so whoever
    makes the text waits for no browser."""

    def __init__(self, connection, begin):
        """`begin` sends the head of the answer."""
        self.connection, self.begin = connection, begin
        # what was begun to be sent, how many bytes of it were read, and what of them is still to be sent
        self.file, self.sent, self.rest = None, 0, memoryview(b"")

    def grown(self, file):
        """There is more in the file."""
        if self.file is None:
            self.begin()
            self.file = file
        elif self.file is not file:
            raise ConnectionAbortedError("another text was begun")
        patience = self.connection.gettimeout()
        self.connection.setblocking(False)
        try:
            self._send()
        except BlockingIOError:
            pass
        finally:
            self.connection.settimeout(patience)

    def finish(self):
        """The file is whole."""
        self._send()
        self.connection.sendall(END)

    def _send(self):
        """Sends what there is, until no more is taken."""
        while self.rest or self._next():
            self.rest = self.rest[self.connection.send(self.rest):]

    def _next(self):
        """Reads the next chunk. Whether there is one."""
        piece = os.pread(self.file.fileno(), CHUNK, self.sent)
        self.sent += len(piece)
        self.rest = memoryview(b"%x\r\n%b\r\n" % (len(piece), piece) if piece else b"")
        return bool(piece)
