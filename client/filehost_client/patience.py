"""How long a host that doesn't answer is asked again, and with which pauses."""

import os
import threading
import time

from .errors import Unreachable

FIRST_PAUSE = 0.1
LONGEST_PAUSE = 5.0


class Waiting:
    """What the requests of one command share: for how many seconds each is sent again, an event that ends all waiting, and whom a first fault is told.

    `tell` is called with what is wrong, once for each time that the host is away.
    """

    def __init__(self, seconds=120.0, tell=None):
        self.seconds = seconds
        self.tell = tell or (lambda why: None)
        self.ended = threading.Event()
        self.lock = threading.Lock()
        self.is_told = False

    def note_fault(self, why):
        with self.lock:
            is_first, self.is_told = not self.is_told, True
        if is_first:
            self.tell(why)

    def note_answer(self):
        self.is_told = False


class Patience:
    """The pauses between the attempts of one request, each about twice as long as the one before."""

    def __init__(self, waiting, place):
        self.waiting = waiting
        self.place = place
        self.pause_seconds = FIRST_PAUSE
        self.began = None

    def pause(self, why):
        """Waits before the next attempt. Raises Unreachable if the time is over, or if the waiting was ended."""
        now = time.monotonic()
        self.began = self.began or now
        left = self.began + self.waiting.seconds - now
        if left <= 0:
            tried = f", tried again for {self.waiting.seconds:g} s" if self.waiting.seconds else ""
            raise Unreachable(f"{self.place} can't be reached: {why}{tried}")
        if not self.waiting.ended.is_set():
            self.waiting.note_fault(why)
        # Several clients that lost the same host don't all come back at the same moment.
        pause = min(left, self.pause_seconds * (0.8 + os.urandom(1)[0] / 640))
        self.pause_seconds = min(LONGEST_PAUSE, self.pause_seconds * 2)
        if self.waiting.ended.wait(pause):
            raise Unreachable(f"{self.place} can't be reached: {why}")
