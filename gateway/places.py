"""How much is done at once: places, of which each request that is worked on has one, and bytes of memory for bodies and messages."""
import contextlib
import threading
import time
from typing import Iterator

import web

# what the bodies and messages have together that are there at once, and how much of each isn't counted
ALL_BYTES, UNCOUNTED = 512 << 20, 1 << 20
# how long a request waits for a place, and for memory: seconds
WAIT, WAIT_FOR_BYTES = 60.0, 15.0


class Places:
    """So many places."""

    def __init__(self, count: int):
        self.free = threading.BoundedSemaphore(count)

    @contextlib.contextmanager
    def one(self, link: web.Link) -> Iterator[None]:
        """Within it a request that is there with its body has a place; while it waits for one, its link's time doesn't go on. Raises Fault where none
        gets free."""
        link.on_heard()
        begin = time.monotonic()
        if not self.free.acquire(timeout=WAIT):
            raise web.Fault(503)
        try:
            link.end += time.monotonic() - begin
            yield
        finally:
            self.free.release()


class Bytes:
    """So many bytes, which all requests share."""

    def __init__(self, count: int = ALL_BYTES):
        self.free, self.turn = count, threading.Condition()

    def take(self, count: int) -> None:
        """Takes so many. Raises Fault where they don't get free."""
        with self.turn:
            if not self.turn.wait_for(lambda: self.free >= count, WAIT_FOR_BYTES):
                raise web.Fault(503)
            self.free -= count

    def give(self, count: int) -> None:
        """Gives so many back."""
        with self.turn:
            self.free += count
            self.turn.notify_all()


class Share:
    """What one request has of the bytes. The first ones aren't counted, so that small requests never wait."""

    def __init__(self, all_bytes: Bytes):
        self.all_bytes, self.seen, self.taken = all_bytes, 0, 0

    def take(self, count: int) -> None:
        """Takes so many more. Raises Fault where they don't get free."""
        wanted = max(0, self.seen + count - UNCOUNTED) - self.taken
        if wanted:
            self.all_bytes.take(wanted)
        self.seen, self.taken = self.seen + count, self.taken + wanted

    def __enter__(self) -> 'Share':
        return self

    def __exit__(self, *_) -> None:
        self.all_bytes.give(self.taken)
        self.taken = 0
