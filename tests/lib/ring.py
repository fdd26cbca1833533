"""The ring of the nodes of `filehost serve`, and what they ask each other.

The owner of a chunk is the node with the next point on the ring, as crates/peer_ring/PROMISES.md says.
"""

import bisect
import hashlib

from lib.client import digest_of
from lib.served import HOST

# The port for other nodes of the first node, from its port for clients on; and how many points each node has on the ring.
PEERS, POINTS = 8, 50


def place(text):
    return hashlib.sha1(text.encode()).digest()[:4]


def owner(port, digest, nodes=2):
    """Which of so many nodes from this port on owns a chunk: the one with the next point on the ring."""
    points = sorted((place(f"{number}{HOST}:{port + PEERS + node}"), node) for node in range(nodes) for number in range(POINTS))
    return points[bisect.bisect_left(points, (place(digest), 0)) % len(points)][1]


def asking_for(content):
    """How a node asks for a chunk with these bytes."""
    return f"GET /_groupcache/chunks/{digest_of(content)} HTTP/1.1\r\nHost: peer\r\n\r\n".encode()


def answer_with(content):
    """How it is answered."""
    return f"HTTP/1.1 200 OK\r\nContent-Length: {len(content)}\r\n\r\n".encode() + content


NO_CHUNK = b"HTTP/1.1 404 Not Found\r\nContent-Length: 0\r\n\r\n"
