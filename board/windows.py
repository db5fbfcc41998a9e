"""The windows that look at a base: each is a client of the desk, with the events that its page has not had yet."""
import collections
import json
import secrets
import threading
import time

CLIENTS = 4

# How many seconds a window may be away before another one may have its place.
AWAY = 10


class Window:
    """A client's window. `key` tells it from those that had its place before."""

    def __init__(self, client):
        self.client = client
        self.key = secrets.token_hex(16)
        self.stream = 0
        self.open = False
        self.seen = time.monotonic()
        self.events = collections.deque()
        self.changed = threading.Condition()
        self.board = None
        self.shown = None
        self.hits = None
        self.has_all = True

    def is_here(self):
        return self.open or time.monotonic() - self.seen < AWAY

    def tell(self, event, what):
        with self.changed:
            self.events.append((event, json.dumps(what)))
            self.changed.notify_all()

    def enter(self):
        """The number of a stream of events, which takes the place of the one before."""
        with self.changed:
            self.stream += 1
            self.open = True
            self.changed.notify_all()
            return self.stream

    def next_event(self, stream, seconds):
        """The next event for this stream, if one comes in time; `False` where another stream has its place."""
        with self.changed:
            if stream == self.stream and not self.events:
                self.changed.wait(seconds)
            if stream != self.stream:
                return False
            return self.events.popleft() if self.events else None

    def leave(self, stream):
        with self.changed:
            if stream == self.stream:
                self.open = False
                self.seen = time.monotonic()


class Windows:
    """The four places. A window that comes back has its own again."""

    def __init__(self):
        self.lock = threading.Lock()
        self.places = [None] * CLIENTS
        self.left = time.monotonic()

    def join(self, key):
        """A window, and whether its client is a new one; nothing where four are open."""
        window = self.of(key)
        if window and self._is_left(window):
            window.seen = time.monotonic()
            return window, False
        with self.lock:
            free = [k for k, window in enumerate(self.places) if not (window and window.is_here())]
            if not free:
                return None, False
            client = min(free, key=lambda k: self.places[k].seen if self.places[k] else -1)
            self.places[client] = Window(client)
            return self.places[client], True

    @staticmethod
    def _is_left(window):
        """Whether the window's stream is closed: a page that is loaded again closes it, one that was doubled does not."""
        for _ in range(60):
            if not window.open:
                return True
            time.sleep(0.05)
        return False

    def of(self, key):
        """The window of a key, if it still has its place."""
        return next((window for window in self.all() if key and secrets.compare_digest(window.key.encode(), key.encode())), None)

    def all(self):
        return [window for window in self.places if window]

    def here(self):
        return [window for window in self.all() if window.is_here()]

    def away(self):
        """For how many seconds no window has been open."""
        if self.here():
            self.left = time.monotonic()
        return time.monotonic() - self.left
