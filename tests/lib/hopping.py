"""Exchanges with two nodes of `filehost serve`, each over another connection than the one before."""

import random
import socket

from lib.served import Served

# Two to each of two nodes.
CONNECTIONS = 4


class Hopping(Served):
    """Each run is one with new nodes, whose host is empty at first."""

    def assert_hops(self, exchanges, seed=None, message=None, words=()):
        """Each request is answered with its reply, byte for byte, and nothing comes after the last one.

        The connections take turns, and so do the nodes; if there is a seed, connections are drawn by chance. `message` tells of an exchange, by its place.
        The program is called with these words, and is killed at the end.
        """
        started = self.serve(*words, nodes=2)
        plugs = [self.plug(node=connection % 2) for connection in range(CONNECTIONS)]
        drawn = random.Random(seed)
        for place, (asked, wanted) in enumerate(exchanges):
            plug = plugs[place % CONNECTIONS] if seed is None else drawn.choice(plugs)
            plug.sendall(asked)
            got = self.received(plug, len(wanted))
            if got != wanted:
                self.assertEqual(got, wanted, message(place) if message else f"exchange {place + 1}: {asked[:200]}")
        for plug in plugs:
            plug.shutdown(socket.SHUT_WR)
            self.assertEqual(self.received(plug, 1), b"")
            plug.close()
        self.assertEqual(started.poll(), None)
        self.end(started)
