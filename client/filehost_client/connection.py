"""A connection to a host, which is kept from request to request, and a pool of them."""

import contextlib
import os
import select
import socket
import threading
import time

from .errors import SiteError, Unreachable
from .wire import Ended, Incoming, Reply, request_head

CONNECT_SECONDS = 15
REPLY_SECONDS = 90
# A host ends a connection on which nothing came for 15 seconds; a kept one that is nearly as old isn't used again.
OLD = 10
# One on which a reply came just now isn't looked at before the next request: among many small uploads the look would be felt.
FRESH = 0.5
# A body of at most this many bytes goes out in one write with its head.
SMALL = 65_536
PIECE = 262_144
# How many bytes of requests are sent before their replies are read. The replies have room in the buffers of a socket.
AHEAD = 16_384


class NotSent(Exception):
    """No connection came about, so no request went out."""


class Lost(Exception):
    """The connection failed after a request went out and before its reply was whole.

    `is_late` says that the time was over and the host may still carry it out; `is_stale` that a kept connection had ended before the request came.
    """

    def __init__(self, why, is_late=False, is_stale=False):
        super().__init__(why)
        self.is_late = is_late
        self.is_stale = is_stale


class FileBody:
    """The bytes of a file as the body of a request, each time it is sent. `open_file` gives the file, of which `length` bytes are sent; `failed` makes the
    error that is raised if it doesn't have them."""

    def __init__(self, length, open_file, failed):
        self.length = length
        self.open_file = open_file
        self.failed = failed

    def pieces(self):
        left = self.length
        with self.open_file() as file:
            while left:
                piece = file.read(min(PIECE, left))
                if not piece:
                    raise self.failed()
                left -= len(piece)
                yield piece


def why(error):
    """What an error of the system says, in a few words."""
    return (error.strerror if isinstance(error, OSError) and error.strerror else str(error)) or type(error).__name__


class Connection:
    """One connection, which is made when it is first needed and again after it has ended."""

    def __init__(self, address, context=None, login=None, agent="site"):
        self.address = address
        self.context = context
        self.socket = None
        self.is_used = False
        # Whether a proxy took no request before the reply to the one before.
        self.is_serial = False
        self.last = 0.0
        self.fields = [("Host", address.place), ("User-Agent", agent)]
        if login:
            import base64  # Few hosts ask for a login.
            self.fields.append(("Authorization", "Basic " + base64.b64encode(":".join(login).encode()).decode()))

    def open(self):
        """Connects, unless that is done and the connection is fit for use. Raises NotSent, or Unreachable if the certificate isn't trusted."""
        if self.socket:
            age = time.monotonic() - self.last
            if age < FRESH or age < OLD and not self.has_ended():
                return
            self.close()
        try:
            # As bytes: for a name that is text Python first loads its tables of letters beyond ASCII.
            name = self.address.name.encode() if self.address.name.isascii() else self.address.name
            plain = socket.create_connection((name, self.address.port), CONNECT_SECONDS)
            plain.setsockopt(socket.IPPROTO_TCP, socket.TCP_NODELAY, 1)
            self.socket = self.wrapped(plain) if self.context else plain
        except (OSError, UnicodeError) as error:
            self.close()
            if isinstance(error, socket.gaierror) and error.errno == socket.EAI_NONAME:
                raise Unreachable(f"there is no host of the name {self.address.name}: look at --host") from None
            raise NotSent(why(error)) from None
        self.socket.settimeout(REPLY_SECONDS)
        self.incoming = Incoming(self.socket.recv)
        self.is_used = False

    def wrapped(self, plain):
        """The socket with TLS over it."""
        import ssl  # It takes a while to load, and only https needs it.
        try:
            return self.context.wrap_socket(plain, server_hostname=self.address.name)
        except ssl.SSLCertVerificationError as error:
            plain.close()
            raise Unreachable(f"the certificate of {self.address} isn't trusted ({error.verify_message}): --ca FILE names the certificates to be trusted",
                              "BadCertificate") from None
        except ssl.SSLError as error:
            plain.close()
            if error.reason in ("WRONG_VERSION_NUMBER", "HTTP_REQUEST", "UNKNOWN_PROTOCOL"):
                raise Unreachable(f"{self.address} doesn't speak TLS: is it http:// instead of https://?") from None
            raise

    def has_ended(self):
        """Whether the host has closed a kept connection, or said something unasked. Poll has no limit on the number of a descriptor."""
        poll = select.poll()
        poll.register(self.socket, select.POLLIN)
        return bool(poll.poll(0))

    def close(self):
        if self.socket:
            with contextlib.suppress(OSError):
                self.socket.close()
        self.socket = None

    def cut(self):
        """Ends the connection while another thread waits on it, which then meets Lost."""
        current = self.socket
        if current:
            with contextlib.suppress(OSError):
                current.shutdown(socket.SHUT_RDWR)

    @contextlib.contextmanager
    def watched(self):
        """Turns faults of the connection into Lost, and closes it after any error."""
        try:
            yield
        except Ended as error:
            self.close()
            raise Lost("the host ended the connection", is_stale=self.is_used and not error.began) from None
        except OSError as error:
            self.close()
            is_stale = self.is_used and isinstance(error, ConnectionError)
            raise Lost(why(error), is_late=isinstance(error, (TimeoutError, socket.timeout)), is_stale=is_stale) from None
        except BaseException:
            self.close()
            raise

    def send(self, method, target, body, fields):
        """Sends a request. A small body goes out in one write with the head."""
        pieces = body.pieces() if isinstance(body, FileBody) else () if body is None else (body,)
        lengths = [] if body is None else [("Content-Length", body.length if isinstance(body, FileBody) else len(body))]
        head = request_head(method, self.address.prefix + target, [*self.fields, *fields, *lengths])
        if lengths and lengths[0][1] <= SMALL:
            head, pieces = head + b"".join(pieces), ()
        self.socket.sendall(head)
        for piece in pieces:
            self.socket.sendall(piece)

    def exchange(self, method, target, body, fields):
        """Sends a request, and returns the head of its reply. If the host stops reading, it may have said why before."""
        try:
            self.send(method, target, body, fields)
        except ConnectionError as error:
            try:
                return self.incoming.head()
            except (Ended, OSError):
                raise error from None
        return self.incoming.head()

    def begin(self, method, target, fields=()):
        """Sends a request, and returns the head of its reply and the pieces of its body, which are read before the next request. Raises NotSent, Lost or
        BadReply, also while the pieces are read."""
        self.open()
        with self.watched():
            head = self.exchange(method, target, None, fields)
        return head, self.guarded(head, method)

    def guarded(self, head, method):
        """The pieces of a body, after which the connection may be used again."""
        with self.watched():
            yield from self.incoming.body(head, method)
        self.finish(head, method)

    def ask(self, method, target, body=None, fields=()):
        """Sends a request, and returns its Reply. Raises NotSent, Lost, BadReply, or what reading the body of the request raises."""
        self.open()
        with self.watched():
            head = self.exchange(method, target, body, fields)
            told = self.incoming.whole_body(head, method)
        self.finish(head, method)
        return Reply(head.status, head.fields, told)

    def finish(self, head, method):
        """Notes that a reply was read to its end."""
        self.is_used, self.last = True, time.monotonic()
        has_end = "content-length" in head.fields or "transfer-encoding" in head.fields or not head.has_body(method)
        if head.closes or not has_end:
            self.close()

    def ask_heads(self, targets):
        """Asks for the heads of several targets at once, and returns the replies that came, in order: at least one, unless Lost or NotSent is raised."""
        self.open()
        asked, length = [], 0
        for target in targets:
            head = request_head("HEAD", self.address.prefix + target, self.fields)
            if asked and (self.is_serial or length + len(head) > AHEAD):
                break
            asked.append(head)
            length += len(head)
        replies = []
        try:
            with self.watched():
                self.socket.sendall(b"".join(asked))
                for _ in asked:
                    head = self.incoming.head()
                    replies.append(Reply(head.status, head.fields))
                    if head.closes:
                        break
            self.finish(head, "HEAD")
        except Lost as error:
            self.is_serial = self.is_serial or error.is_late
            if not replies:
                raise
        return replies


class Pool:
    """The kept connections to one address, from which each thread borrows."""

    def __init__(self, address, context=None, login=None):
        self.make = lambda: Connection(address, context, login)
        self.lock = threading.Lock()
        self.idle = []
        self.lent = set()

    @contextlib.contextmanager
    def borrowed(self):
        """A connection for this thread, which is given back afterwards."""
        with self.lock:
            connection = self.idle.pop() if self.idle else self.make()
            self.lent.add(connection)
        try:
            yield connection
        finally:
            with self.lock:
                self.lent.discard(connection)
                self.idle.append(connection)

    def cut(self):
        """Ends the connections on which threads wait."""
        with self.lock:
            for connection in self.lent:
                connection.cut()

    def close(self):
        with self.lock:
            for connection in self.idle:
                connection.close()
            self.idle.clear()


def context_for(address, ca=None):
    """The TLS context for an address, or None if it is one of http. Raises SiteError if a file of certificates can't be read."""
    if address.scheme != "https":
        return None
    import ssl
    try:
        if ca and not os.path.exists(ca):
            raise FileNotFoundError(2, "there is no such file")
        return ssl.create_default_context(cafile=ca)
    except OSError as error:
        raise SiteError(f"--ca {ca}: {why(error)}", "BadCertificate") from None
