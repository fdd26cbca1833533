"""Threads that go through a list together."""

import threading


def each(items, work, count, ended=None):
    """Calls `work` with each item, `count` at a time. After an error, or once the event `ended` is set, no further item is begun; then the first error is
    raised. An interrupt of the caller ends the threads as soon as their present items are done."""
    items = list(items)
    if count == 1 or len(items) <= 1:
        for item in items:
            if ended and ended.is_set():
                return
            work(item)
        return
    left, lock, errors = iter(items), threading.Lock(), []
    stop = threading.Event()

    def go():
        while not stop.is_set() and not (ended and ended.is_set()):
            with lock:
                item = next(left, left)
            if item is left:
                return
            try:
                work(item)
            except BaseException as error:
                errors.append(error)
                stop.set()

    threads = [threading.Thread(target=go, daemon=True) for _ in range(min(count, len(items)))]
    try:
        for thread in threads:
            thread.start()
        for thread in threads:
            thread.join()
    finally:
        stop.set()
    if errors:
        raise errors[0]
