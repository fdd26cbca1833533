"""A plain model of a world: a desk, nodes, and visitors who read files through these, one step after another. A step that doesn't fit how far its
visitor is changes nothing.

It is written from what the definitions of `world_desk`, `world_node` and `host_world` say, over the plain models of histories and of the host.
"""

from typing import NamedTuple

from lib.client import LARGEST_FILE, digest_of
from lib.plain_history import ALIAS, KEPT, LIVE, History, Refused
from lib.plain_model import Model, Request, asked_specs, chosen

CHUNK = 65_536
# What the caches count for an entry, with the bytes of its chunk.
ENTRY = 40
# The outcome of a flight that brings no chunk. No chunk is empty.
FAULT = b""


class Desk:
    """A history of at most `limit` entries, and how many of them are shown."""

    def __init__(self, limit):
        self.history, self.limit, self.shown = History(), limit, 0

    def ask(self, entry):
        """Takes an entry that may follow, if there is room and no other entry is unpublished."""
        entries = self.history.entries
        if len(entries) == self.shown < self.limit:
            try:
                if entry.kind == "undo":
                    self.history.undo(entry.site, *entry.parts)
                else:
                    self.history.commit(entry.kind, entry.site, *entry.parts)
            except Refused:
                pass

    def publish(self):
        self.shown = len(self.history.entries)

    def upload(self, content):
        if len(content) <= LARGEST_FILE:
            self.history.uploads[digest_of(content)] = content

    def seen(self):
        """The host that has what is shown."""
        host = Model()
        host.uploads, host.known_states = self.history.uploads, self.history.known_states
        host.entries = self.history.entries[:self.shown]
        return host


class Caches:
    """Two caches under one limit, each with its chunks in the order of their last use, the latest first."""

    def __init__(self, limit):
        self.limit, self.lists = limit, {"main": [], "hot": []}

    def look_up(self, name):
        """The chunk of a name, which is the first of its list then."""
        for chunks in self.lists.values():
            for chunk in chunks:
                if digest_of(chunk) == name:
                    chunks.remove(chunk)
                    chunks.insert(0, chunk)
                    return chunk
        return None

    def count(self, which):
        return sum(ENTRY + len(chunk) for chunk in self.lists[which])

    def add(self, which, chunk):
        """Puts a chunk first, and evicts those that were used the longest ago: from hot if that counts more than an eighth of main."""
        evicted, chunks = 0, self.lists[which]
        is_new = chunk not in chunks
        if not is_new:
            chunks.remove(chunk)
        chunks.insert(0, chunk)
        while is_new and self.count("main") + self.count("hot") > self.limit:
            self.lists["hot" if self.count("hot") > self.count("main") // 8 else "main"].pop()
            evicted += 1
        return evicted


class Flight:
    """A load of a chunk: who leads it loads it, and others may join it as long as it is open."""

    def __init__(self, name):
        self.name, self.outcome, self.is_open = name, None, True


class Phase(NamedTuple):
    """How far a visitor is with the chunk of a name: the flight that it leads or has joined, and what it has loaded or found."""

    word: str = "idle"
    name: str = None
    flight: Flight = None
    outcome: bytes = None


class Node:
    """Caches and flights, and how far each visitor is."""

    def __init__(self, limit, visitors):
        self.caches, self.flights, self.joined, self.evicted = Caches(limit), [], 0, 0
        self.phases = [Phase() for _ in range(visitors)]

    def open_flight(self, name):
        return next((flight for flight in self.flights if flight.is_open and flight.name == name), None)

    def want(self, visitor, name):
        if self.phases[visitor].word == "idle":
            self.phases[visitor] = Phase("wants", name)

    def call(self, visitor, call, *given):
        """The visitor does this, if it fits: then it is in the phase that is answered."""
        if visitor < len(self.phases):
            phase = self.phases[visitor]
            self.phases[visitor] = getattr(self, call)(phase, *given) or phase

    def look(self, phase):
        if phase.word not in ("wants", "looks"):
            return None
        chunk = self.caches.look_up(phase.name)
        words = {"wants": ("missed", "has"), "looks": ("loads", "sets")}[phase.word]
        return phase._replace(word=words[chunk is not None], outcome=chunk)

    def begin(self, phase):
        if phase.word != "missed":
            return None
        if flight := self.open_flight(phase.name):
            self.joined += 1
            return phase._replace(word="joins", flight=flight)
        self.flights.append(Flight(phase.name))
        return phase._replace(word="looks", flight=self.flights[-1])

    def answer(self, phase, given):
        """Bytes of another name are a fault. After a fault there may be another answer."""
        if phase.word != "loads" and (phase.word, phase.outcome) != ("holds", FAULT):
            return None
        return phase._replace(word="holds", outcome=given if digest_of(given) == phase.name else FAULT)

    def add(self, phase, which):
        if phase.word != "holds" or phase.outcome == FAULT:
            return None
        self.evicted += self.caches.add(which, phase.outcome)
        return phase._replace(word="sets")

    def settle(self, phase):
        if phase.word not in ("holds", "sets"):
            return None
        phase.flight.outcome = phase.outcome
        return phase._replace(word="ends", outcome=None)

    def finish(self, phase):
        if phase.word != "ends":
            return None
        phase.flight.is_open = False
        return phase._replace(word="joins")

    def ready(self, visitor):
        """What there is for a visitor: what it found, or what the flight that it led or joined came to."""
        phase = self.phases[visitor]
        return phase.outcome if phase.word == "has" else phase.flight.outcome if phase.word == "joins" else None


class Ask(NamedTuple):
    """A GET of a file, of a version of a site: `live`, `alias` or `kept`, which of these, and its Range and If-Range."""

    version: str
    which: str
    site: str
    path: str
    asked: str = None
    conditions: tuple = ()

    def request(self):
        place = {"live": f"/s/{self.site}", "alias": f"/a/{self.site}/{self.which}", "kept": f"/d/{self.site}/{self.which}"}
        fields = [f"Range: {self.asked}"] * (self.asked is not None) + [f"If-Range: {value}" for value in self.conditions]
        return Request("GET", place[self.version] + self.path, tuple(fields))

    def content(self, state):
        """The file that it asks for, if there is one."""
        number = state.get((self.site, ALIAS, self.which)) if self.version == "alias" else self.which
        if self.version == "live":
            return state.get((self.site, LIVE, self.path))
        return state.get((self.site, KEPT, int(number or 0)), {}).get(self.path)

    def names(self, content):
        """The names of the chunks from which its reply is read, in their order."""
        specs = asked_specs(self.request(), content)
        intervals = chosen(specs or [], len(content))
        if specs is None or sum(last - first + 1 for first, last in intervals) > len(content):
            intervals = [(0, len(content) - 1)] * bool(content)
        starts = [start for first, last in intervals for start in range(first // CHUNK * CHUNK, last + 1, CHUNK)]
        return [digest_of(content[start:start + CHUNK]) for start in starts]


class Read:
    """A read of a file: the names of the chunks that it takes, how many of them it has, and its reply."""

    def __init__(self, look, host, ask):
        content = ask.content(host.state())
        self.look, self.reply, self.has_failed = look, host.answer(ask.request()), False
        self.names = [] if content is None else ask.names(content)

    def wants(self):
        return self.names[0] if self.names and not self.has_failed else None

    def take(self, outcome):
        self.has_failed = outcome == FAULT
        if not self.has_failed:
            self.names = self.names[1:]

    def told(self):
        if self.has_failed:
            return "failed"
        return f"waits {self.wants()}" if self.names else f"answered {digest_of(self.reply)}"


class World:
    """A desk, nodes, and visitors. A visitor is on the node whose place is the visitor's number modulo the number of nodes."""

    def __init__(self, limit, cache, nodes, visitors):
        self.desk = Desk(limit)
        self.nodes = [Node(cache, visitors) for _ in range(nodes)]
        self.looks, self.reads = [[] for _ in range(visitors)], [[] for _ in range(visitors)]

    def node(self, visitor):
        return self.nodes[visitor % len(self.nodes)]

    def in_hand(self, visitor):
        """The read that waits for a chunk, if there is one."""
        return next((read for read in self.reads[visitor][-1:] if read.wants()), None)

    def want(self, visitor):
        if read := self.in_hand(visitor):
            self.node(visitor).want(visitor, read.wants())

    def enter(self, visitor, ask=None):
        if visitor < len(self.looks) and not self.in_hand(visitor):
            self.looks[visitor].append(self.desk.shown)
            if ask:
                self.reads[visitor].append(Read(len(self.looks[visitor]) - 1, self.desk.seen(), ask))
                self.want(visitor)

    def take(self, visitor):
        if visitor < len(self.looks) and (read := self.in_hand(visitor)):
            node = self.node(visitor)
            if (outcome := node.ready(visitor)) is not None:
                node.phases[visitor] = Phase()
                read.take(outcome)
                self.want(visitor)

    def told(self, visitor):
        """The looks and the reads of a visitor, as the program tells of them."""
        looks, reads = self.looks[visitor], self.reads[visitor]
        of_looks = f"looks {len(looks)}" + (f" entries {looks[-1]}" if looks else "")
        of_reads = f"reads {len(reads)}" + (f" look {reads[-1].look} {reads[-1].told()}" if reads else "")
        return f"{of_looks} {of_reads}"
