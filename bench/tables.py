"""What the parts of bench/compare share: bytes, times, checks and tables."""

import hashlib
import sys
import time

from servers import Failure

LARGEST = 16 << 20


def random_bytes(seed, count):
    """Bytes that are the same for the same seed, in each run."""
    return hashlib.shake_128(str(seed).encode()).digest(count)


def timed(work, *given):
    """The seconds that this takes."""
    begun = time.perf_counter()
    work(*given)
    return time.perf_counter() - begun


def say_table(title, columns, rows):
    """Prints a table of Markdown."""
    print(f"\n### {title}\n")
    for row in [columns, ["---"] * len(columns), *rows]:
        print("| " + " | ".join(map(str, row)) + " |")
    sys.stdout.flush()


def check(holds, what):
    if not holds:
        raise Failure(f"this isn't as it has to be: {what}")
