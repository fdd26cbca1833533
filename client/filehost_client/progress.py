"""How far a command is: one line that is drawn again and again on a terminal, and elsewhere a line each ten seconds."""

import collections
import os
import threading
import time

from .names import number_of

REDRAW_SECONDS = 0.1
LINE_SECONDS = 10.0
# The rate is that of the last few seconds.
WINDOW_SECONDS = 5.0
UNITS = ("B", "kB", "MB", "GB", "TB")


def size_of(count):
    """A number of bytes as a person reads it: 0 B, 999 B, 1.2 kB, 16.8 MB."""
    amount, unit = float(count), 0
    while amount >= 999.5 and unit < len(UNITS) - 1:
        amount, unit = amount / 1_000, unit + 1
    return f"{amount:,.0f} {UNITS[unit]}" if unit == 0 or amount >= 99.95 else f"{amount:.1f} {UNITS[unit]}"


def time_of(seconds):
    """A time as a person reads it: 8 s, 3 min 20 s, 2 h 5 min."""
    seconds = int(seconds + 0.5)
    if seconds < 60:
        return f"{seconds} s"
    if seconds < 3_600:
        return f"{seconds // 60} min {seconds % 60} s"
    return f"{seconds // 3_600} h {seconds % 3_600 // 60} min"


class Progress:
    """Counts files and bytes, and shows them on a stream. `add` and `file_done` may be called by any thread."""

    def __init__(self, stream, is_quiet=False):
        self.stream = stream
        self.is_quiet = is_quiet
        self.is_terminal = stream.isatty()
        self.lock = threading.Lock()
        self.thread = None
        self.is_drawn = False

    def begin(self, title, files, size=0):
        """Begins a part of the work, with its number of files and bytes."""
        self.end()
        self.title, self.files, self.size = title, files, size
        self.done_files = self.done_bytes = 0
        self.moments = collections.deque([(time.monotonic(), 0)])
        if not self.is_quiet and files:
            self.stop = threading.Event()
            self.thread = threading.Thread(target=self.go, daemon=True)
            self.thread.start()

    def add(self, count):
        with self.lock:
            self.done_bytes += count

    def file_done(self, count=0):
        """Counts a file, and those of its bytes that `add` wasn't told."""
        with self.lock:
            self.done_files += 1
            self.done_bytes += count

    def go(self):
        while not self.stop.wait(REDRAW_SECONDS if self.is_terminal else LINE_SECONDS):
            self.draw()

    def draw(self):
        line = self.line(time.monotonic())
        with self.lock:
            if self.stop.is_set():
                return
            if self.is_terminal:
                self.stream.write(f"\r{line[:self.width() - 1]}\x1b[K")
                self.is_drawn = True
            else:
                self.stream.write(line + "\n")
            self.stream.flush()

    def width(self):
        try:
            return os.get_terminal_size(self.stream.fileno()).columns or 80
        except OSError:
            return 80

    def line(self, now):
        """What is shown: files, bytes, the rate, and the time that is left."""
        files, size = self.done_files, self.done_bytes
        line = f"{self.title}: {files:,} of {number_of(self.files, 'file')}"
        if not self.size:
            return line
        self.moments.append((now, size))
        while len(self.moments) > 2 and now - self.moments[0][0] > WINDOW_SECONDS:
            self.moments.popleft()
        began, before = self.moments[0]
        rate = (size - before) / (now - began) if now > began else 0
        line += f", {size_of(size)} of {size_of(self.size)}, {size_of(max(0, rate))}/s"
        return line + (f", {time_of((self.size - size) / rate)} left" if rate > 0 else "")

    def end(self):
        """Ends the part, and clears its line."""
        if self.thread:
            self.stop.set()
            self.thread.join()
            self.thread = None
        self.clear()

    def clear(self):
        """Clears the line, so that another one can be written."""
        with self.lock:
            if self.is_drawn:
                self.stream.write("\r\x1b[K")
                self.stream.flush()
                self.is_drawn = False
