"""Worlds: lists of steps of a desk, of nodes and of visitors, over `host_driver`, which takes them and tells what visitors then have. Worked ones, and lists
that are drawn by chance, each of 10,000 steps, with peers that lie, faults and evictions: there each visitor has what it has in the plain model.
"""

import collections
import concurrent.futures
import random
import subprocess
import unittest

from lib.built_crates import BuiltCrate
from lib.client import SECONDS, digest_of, refused, sent
from lib.generated_histories import FOLDERS, NAMES, PATHS, PROGRAMS_AT_ONCE, SITES
from lib.plain_history import DRAFT, KEPT, LIVE, Deploy, Entry, folders_of
from lib.plain_world import CHUNK, FAULT, Ask, Phase, World
from lib.stores import told
import journal

CRATE = BuiltCrate("host_driver")
LISTS, STEPS = 10, 10_000
# The entries that a log may have, what the caches of a node may count, nodes, and visitors.
LIMITS = (300, 250, 2, 6)
# Two files have the same first chunk, which is more than the caches may count.
LONG = bytes(range(256)) * 256
SHORT = [b"%d " % number * (number % 5 + 1) for number in range(40)]
CONTENTS = (b"", *SHORT, LONG + b"and more", LONG + LONG[:9])
CHUNK_OF = {digest_of(piece): piece for content in CONTENTS for piece in (content[:CHUNK], content[CHUNK:]) if piece}
RANGES = (None, None, None, "bytes=0-3", "bytes=-2", "bytes=1-1,3-", "bytes=0-65535,65530-", "bytes=2-2,0-0,1-1", "bytes=70000-", "lines=1")
WORDS = {"entry": 10, "publish": 6, "upload": 3, "learn": 2, "enter": 14, "node": 65}
KINDS = {
    "open": 6, "publish": 8, "cancel": 1, "alias": 4, "unalias": 2, "rename": 3, "rename-folder": 3, "remove": 3, "restore": 4, "delete": 2, "undo": 8,
}
# What fits the phases of a visitor.
FITTING = {"idle": ("take",), "wants": ("look",), "missed": ("begin",), "looks": ("look",), "loads": ("answer", "answer", "fault", "lie"),
           "holds": ("main", "hot", "settle", "answer"), "sets": ("settle",), "ends": ("finish",), "joins": ("take",), "has": ("take",)}
CALLS = ("look", "begin", "answer", "fault", "lie", "main", "hot", "settle", "finish", "take")


def played(lines):
    """What the program tells after lists of steps."""
    ran = subprocess.run([CRATE.program, "world"], input="".join(f"{line}\n" for line in lines), check=True, capture_output=True, text=True, timeout=SECONDS)
    return ran.stdout.splitlines()


def entry(kind, site, *parts):
    return "entry " + journal.encode(told(Entry(kind, site, parts))).hex()


def entering(visitor, ask=None):
    if ask is None:
        return f"enter {visitor}"
    asked = "-" if ask.asked is None else ask.asked.encode().hex()
    return " ".join(["enter", str(visitor), ask.version, ask.which, ask.site, ask.path, asked, *(value.encode().hex() for value in ask.conditions)])


class Player:
    """Draws steps, has a line of each for the program, and takes it in the model."""

    def __init__(self, seed):
        self.random = random.Random(seed)
        self.world, self.lines, self.told = World(*LIMITS), [" ".join(map(str, LIMITS))], []
        self.tally, self.asked = collections.Counter(), None

    def one_of(self, choices):
        return choices[int(self.random.random() * len(choices))]

    def weighed(self, weights):
        return self.random.choices(list(weights), list(weights.values()))[0]

    def happens(self, chance):
        return self.random.random() < chance

    def any_visitor(self):
        """Rarely one that is not there."""
        return int(self.random.random() * (LIMITS[3] + self.happens(0.02)))

    def content(self):
        return self.one_of(CONTENTS if self.happens(0.5) else CONTENTS[:15])

    def play(self):
        """One step; of some visitor it is told after it, or not."""
        visitor = self.any_visitor()
        getattr(self, self.weighed(WORDS))(visitor)
        if visitor < LIMITS[3] and self.happens(0.4):
            self.lines.append(f"show {visitor}")
            self.told.append(self.world.told(visitor))

    # ---- the desk

    def state(self):
        return self.world.desk.history.state()

    def number(self, *kinds):
        """Mostly that of a deploy of such a kind that is there."""
        there = [cell[2] for cell in self.state() if cell[1] in kinds]
        return self.one_of(there) if there and self.happens(0.9) else 1 + int(self.random.random() * (len(self.world.desk.history.entries) + 2))

    def site_of(self, number):
        there = self.world.desk.history.entry(number)
        return there.site if there and self.happens(0.95) else self.one_of(SITES)

    def path(self, site):
        there = [cell[2] for cell in self.state() if cell[:2] == (site, LIVE)]
        return self.one_of(there) if there and self.happens(0.8) else self.one_of(PATHS)

    def folder(self, site):
        there = sorted({folder for cell in self.state() if cell[:2] == (site, LIVE) for folder in folders_of(cell[2])})
        return self.one_of(there) if there and self.happens(0.8) else self.one_of(FOLDERS)

    def deploy(self):
        is_patch = self.happens(0.3)
        paths = self.random.sample(PATHS, self.one_of((1, 1, 2, 3)))
        return Deploy({path: None if is_patch and self.happens(0.3) else digest_of(self.content()) for path in paths}, self.happens(0.5), is_patch)

    def parts(self, kind):
        """The site and the other parts of an entry."""
        site = self.one_of(SITES)
        if kind == "open":
            return site, self.deploy()
        if kind in ("rename", "remove"):
            return site, self.path(site), *[self.one_of(PATHS)] * (kind == "rename")
        if kind == "rename-folder":
            return site, self.folder(site), self.one_of(FOLDERS)
        if kind == "unalias":
            return site, self.one_of(NAMES)
        number = self.number(*{"publish": [DRAFT], "cancel": [DRAFT], "restore": [DRAFT, KEPT]}.get(kind, [KEPT]))
        if kind == "undo":
            number = self.one_of(self.world.desk.history.live_changes()[-30:] or [number])
        return self.site_of(number), *[self.one_of(NAMES)] * (kind == "alias"), number

    def entry(self, visitor):
        kind = self.weighed(KINDS)
        site, *parts = self.parts(kind)
        desk = self.world.desk
        before = len(desk.history.entries)
        self.tally["entry while one is unpublished"] += before > desk.shown
        desk.ask(Entry(kind, site, tuple(parts)))
        self.tally[kind if len(desk.history.entries) > before else f"no {kind}"] += 1
        self.lines.append(entry(kind, site, *parts))

    def publish(self, visitor):
        self.world.desk.publish()
        self.lines.append("publish")

    def upload(self, visitor):
        content = self.content()
        self.world.desk.upload(content)
        self.lines.append(f"upload {content.hex()}" if content else "upload")

    # ---- visitors

    def learn(self, visitor):
        self.lines.append(f"learn {visitor}")

    def place(self):
        """A version of a site, with a path; mostly one that the desk has."""
        there = [cell for cell in self.state() if cell[1] != DRAFT]
        site, kind, key = self.one_of(there) if there and self.happens(0.85) else (self.one_of(SITES), LIVE, self.one_of(PATHS))
        if kind == LIVE:
            return "live", "-", site, key
        files = self.state().get((site, KEPT, key if kind == KEPT else self.state()[site, kind, key]))
        return "kept" if kind == KEPT else "alias", str(key), site, self.one_of(list(files or PATHS))

    def ask(self):
        conditions = [f'"{digest_of(self.content())}"' for _ in range(self.one_of((0, 0, 0, 0, 1, 2)))]
        return Ask(*self.place(), self.one_of(RANGES), tuple(conditions))

    def enter(self, visitor):
        """It asks for nothing, for what another one asked for last, or for any file."""
        ask = None
        if self.happens(0.9):
            self.asked = ask = self.asked if self.asked and self.happens(0.4) else self.ask()
        self.world.enter(visitor, ask)
        self.lines.append(entering(visitor, ask))

    def node(self, visitor):
        """Mostly what fits the phase of a visitor, who mostly reads a file."""
        if self.happens(0.8):
            visitor = self.one_of([other for other in range(LIMITS[3]) if self.world.in_hand(other)] or [visitor])
        phase = self.world.node(visitor).phases[visitor] if visitor < LIMITS[3] else Phase()
        call = self.one_of(FITTING[phase.word] if self.happens(0.8) else CALLS)
        if call == "take":
            self.world.take(visitor)
            self.lines.append(f"take {visitor}")
        elif call in ("answer", "lie", "fault"):
            given = {"answer": CHUNK_OF.get(phase.name, FAULT), "lie": self.content()[:CHUNK], "fault": FAULT}[call]
            self.tally[call] += phase.word == "loads"
            self.world.node(visitor).call(visitor, "answer", given)
            self.lines.append(f"answer {visitor} {given.hex()}" if given else f"fault {visitor}")
        else:
            self.world.node(visitor).call(visitor, *("add", call) if call in ("main", "hot") else [call])
            self.lines.append(f"{call} {visitor}")


def tally_of(seed):
    """How often each kind of entry was made in a list of steps, and how its reads went. The program must tell what the model does."""
    player = Player(seed)
    for _ in range(STEPS):
        player.play()
    found = played(player.lines)
    wrong = [(number, *pair) for number, pair in enumerate(zip(found, player.told, strict=True)) if pair[0] != pair[1]]
    if wrong:
        raise AssertionError(f"the list of seed {seed}: {wrong[0]}")
    world = player.world
    reads = [read for reads in world.reads for read in reads]
    return player.tally + collections.Counter(made.kind for made in world.desk.history.entries) + collections.Counter({
        **collections.Counter(read.told().partition(" ")[0] + " " + read.reply[9:12].decode() for read in reads),
        "evicted": sum(node.evicted for node in world.nodes), "flights": sum(len(node.flights) for node in world.nodes),
        "joined": sum(node.joined for node in world.nodes),
    })


class Worlds(unittest.TestCase):
    @classmethod
    def setUpClass(cls):
        CRATE.build()

    def assert_told(self, *rows):
        """Each row is a step, and what is told after it, or None; the world has one node and one visitor."""
        found = played(["10 1000 1 1", *(line for step, after in rows for line in [step] + ["show 0"] * (after is not None))])
        self.assertEqual(found, [after for _, after in rows if after is not None])

    def test_a_look_sees_what_is_published_alone(self):
        opening = entry("open", "one", Deploy({"/a.txt": digest_of(b"hello")}, True, False))
        self.assert_told(
            ("enter 0", "looks 1 entries 0 reads 0"), (opening, None), ("enter 0", "looks 2 entries 0 reads 0"),
            ("publish", None), ("enter 0", "looks 3 entries 1 reads 0"),
        )

    def test_a_read_is_answered_between_a_commit_and_its_publish(self):
        name, ask = digest_of(b"hello"), Ask("live", "-", "one", "/a.txt")
        found, gone = digest_of(sent(b"hello")), digest_of(refused("NoSuchFile"))
        self.assert_told(
            (entry("open", "one", Deploy({"/a.txt": name}, True, False)), None), ("publish", None), ("upload " + b"hello".hex(), None),
            (entry("publish", "one", 1), None), ("publish", None),
            (entering(0, ask), f"looks 1 entries 2 reads 1 look 0 waits {name}"),
            (entry("remove", "one", "/a.txt"), None), ("look 0", None), ("begin 0", None), ("look 0", None),
            ("answer 0 " + b"hello".hex(), None), ("main 0", None), ("settle 0", None), ("finish 0", None),
            ("take 0", f"looks 1 entries 2 reads 1 look 0 answered {found}"),
            (entering(0, ask), f"looks 2 entries 2 reads 2 look 1 waits {name}"),
            ("look 0", None), ("publish", None), ("take 0", f"looks 2 entries 2 reads 2 look 1 answered {found}"),
            (entering(0, ask), f"looks 3 entries 3 reads 3 look 2 answered {gone}"),
        )

    def test_have_after_each_step_what_the_plain_model_has(self):
        with concurrent.futures.ProcessPoolExecutor(PROGRAMS_AT_ONCE) as pool:
            tally = sum(pool.map(tally_of, range(LISTS)), collections.Counter())
        least = {
            "answered 200": 1_000, "answered 206": 400, "answered 404": 300, "answered 416": 20, "failed 200": 300, "failed 206": 50,
            "evicted": 1_000, "flights": 2_000, "joined": 200, "lie": 300, "fault": 300, "entry while one is unpublished": 2_000,
            **dict.fromkeys(KINDS, 30), **dict.fromkeys(("no undo", "no publish", "no rename", "no rename-folder"), 50),
        }
        rare = {word: tally[word] for word, number in least.items() if tally[word] < number}
        self.assertEqual(rare, {}, f"met in all: {sorted(tally.items())}")
