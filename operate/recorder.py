"""Relays between nginx and the nodes, which note each request that comes, as docs/WIRE.md says where one begins and ends."""

import contextlib
import re
import socket
import threading

from stand import HOST


class Recorder:
    """A relay before each of these ports. `heads` has the heads of requests, in the order in which they came."""

    def __init__(self, stack, targets):
        self.heads, self.connections, self.ports, self.cut = [], 0, [], set()
        for target in targets:
            listener = stack.enter_context(socket.create_server((HOST, 0)))
            # A listener that another thread waits for stays open otherwise.
            stack.callback(listener.shutdown, socket.SHUT_RDWR)
            self.ports.append(listener.getsockname()[1])
            threading.Thread(target=self.listen, args=(listener, target), daemon=True).start()

    def asked(self):
        """The first lines of the requests, without the version."""
        return [head.partition(b" HTTP/")[0].decode() for head in self.heads]

    def cut_next(self, target):
        """Ends the connection over which the next request with this target comes, in place of a reply."""
        self.cut.add(target.encode())

    def listen(self, listener, target):
        with contextlib.suppress(OSError):
            while True:
                client, _ = listener.accept()
                self.connections += 1
                try:
                    host = socket.create_connection((HOST, target))
                except OSError:
                    client.close()
                    continue
                for work in (self.hand_on, self.hand_back):
                    threading.Thread(target=work, args=(client, host), daemon=True).start()

    def hand_back(self, client, host):
        with contextlib.suppress(OSError):
            while came := host.recv(262_144):
                client.sendall(came)
        self.close(client, host)

    def close(self, *sockets):
        for one in sockets:
            with contextlib.suppress(OSError):
                one.shutdown(socket.SHUT_RDWR)
            one.close()

    def hand_on(self, client, host):
        """Hands each request on once its head is whole, and notes it."""
        with contextlib.suppress(OSError):
            came, body = b"", 0
            while more := client.recv(262_144):
                came += more
                while came:
                    if body:
                        part, came = came[:body], came[body:]
                        body -= len(part)
                        host.sendall(part)
                        continue
                    head = re.match(rb"(?s)(?:\r?\n)*.+?\r?\n\r?\n", came)
                    if not head:
                        break
                    came, head = came[head.end():], head[0]
                    self.heads.append(head)
                    if self.is_cut(head):
                        self.close(client, host)
                        return
                    lengths = re.findall(rb"(?im)^content-length:[ \t]*(\d+)[ \t]*\r?$", head)
                    body = int(lengths[0]) if lengths else 0
                    host.sendall(head)
        self.close(client, host)

    def is_cut(self, head):
        target = head.split(b" ")[1]
        with contextlib.suppress(KeyError):
            self.cut.remove(target)
            return True
        return False
