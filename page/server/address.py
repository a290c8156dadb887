"""Where the page is: a port of the loopback address, and a token that nobody else knows."""
import base64
import os
import socket

# Connections that may wait to be taken: a page loads its files by many at once.
WAITING = 64
# Bits of a token: 24 bytes, which are 32 letters.
TOKEN = 24


class Address:
    """A port that is listened on, and the token. A browser may come at once: it waits until it is answered."""

    def __init__(self, port):
        """`port` is 0 for any that is free."""
        self.listening = socket.socket()
        try:
            self.listening.setsockopt(socket.SOL_SOCKET, socket.SO_REUSEADDR, 1)
            self.listening.bind(("127.0.0.1", port))
            self.listening.listen(WAITING)
        except OSError:
            self.listening.close()
            raise
        self.port = self.listening.getsockname()[1]
        self.token = base64.urlsafe_b64encode(os.urandom(TOKEN)).decode()

    def __str__(self):
        return f"http://127.0.0.1:{self.port}/{self.token}/"
