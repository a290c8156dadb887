"""Which page has the map, and whether one is still there."""
import time

# Seconds after which a page that said goodbye does not come back: one that is loaded again does so sooner.
LEAVING = 5
# Seconds after which a page that was not heard is gone. Pages call every 20 seconds; a browser lets those that are
# hidden do so once a minute.
SILENCE = 180


class NoPage(Exception):
    """The last page is closed, and nothing is unsaved."""


class Visits:
    """The newest page has the map. Before the first one comes nothing is over."""

    def __init__(self, now=time.monotonic):
        self.now = now
        self.owner = 0
        self.heard_at = now()
        self.has_left = False

    def begin(self):
        """A new page has come: its number, which it tells with each request."""
        self.owner += 1
        self.hear()
        return self.owner

    def hear(self):
        """A page has sent a request."""
        self.heard_at, self.has_left = self.now(), False

    def leave(self, owner):
        """A page is closed, loaded again, or left for another one."""
        if owner == self.owner:
            self.heard_at, self.has_left = self.now(), True

    def is_over(self):
        """Whether there is no page any more."""
        if self.owner == 0:
            return False
        return self.now() - self.heard_at > (LEAVING if self.has_left else SILENCE)
