"""Files in which the client keeps what it knows: JSON that is written whole, and a lock that a killed process gives back."""

import contextlib
import fcntl
import hashlib
import json
import os

from .errors import WrongWords

FOLDER = "filehost-site"


def state_folder():
    """Where records are: they say what this client put where."""
    return os.path.join(os.environ.get("XDG_STATE_HOME") or os.path.expanduser("~/.local/state"), FOLDER)


def cache_folder():
    """Where digests are: they can be made again."""
    return os.path.join(os.environ.get("XDG_CACHE_HOME") or os.path.expanduser("~/.cache"), FOLDER)


def key_of(*parts):
    """A short text that is another one for other parts."""
    return hashlib.sha1("\0".join(parts).encode("utf-8", "surrogateescape")).hexdigest()[:16]


class KeptFile:
    """A file with a JSON object. `tell` is told, in a line, if it can't be read or written; the client goes on then."""

    def __init__(self, place, tell):
        self.place = place
        self.tell = tell

    def read(self):
        """The members; none if there is no such file, or a damaged one."""
        try:
            with open(self.place, encoding="utf-8") as file:
                told = json.load(file)
            if isinstance(told, dict):
                return told
            self.tell(f"{self.place} is damaged, and isn't used")
        except FileNotFoundError:
            pass
        except (OSError, ValueError) as error:
            self.tell(f"{self.place} can't be read, and isn't used: {error}")
        return {}

    def write(self, members):
        """Puts a new file in the place of the old one. A reader sees one of the two, whole."""
        temporary = f"{self.place}.{os.getpid()}"
        try:
            os.makedirs(os.path.dirname(self.place), mode=0o700, exist_ok=True)
            with open(temporary, "w", encoding="utf-8") as file:
                # In one piece: this is many times as fast as to write it bit by bit.
                file.write(json.dumps(members, ensure_ascii=True, separators=(",", ":")))
            os.replace(temporary, self.place)
        except OSError as error:
            self.tell(f"{self.place} can't be written: {error.strerror}")
            with contextlib.suppress(OSError):
                os.unlink(temporary)

    @contextlib.contextmanager
    def locked(self, what=None):
        """Holds the lock that belongs to the file. If another process has it, waits; or raises WrongWords, if `what` says what that one is doing."""
        try:
            os.makedirs(os.path.dirname(self.place), mode=0o700, exist_ok=True)
            lock = open(f"{self.place}.lock", "w", encoding="utf-8")
        except OSError as error:
            self.tell(f"{self.place} can't be written: {error.strerror}")
            yield
            return
        with lock:
            try:
                fcntl.flock(lock, fcntl.LOCK_EX | (fcntl.LOCK_NB if what else 0))
            except BlockingIOError:
                raise WrongWords(f"{what}: wait for its end, or stop it", "Busy") from None
            except OSError as error:
                # Some file systems have no locks.
                self.tell(f"{self.place} can't be locked: {error.strerror}")
            yield

    @contextlib.contextmanager
    def changed(self):
        """The members, to be changed: they are read and written with the lock held."""
        with self.locked():
            members = self.read()
            yield members
            self.write(members)
