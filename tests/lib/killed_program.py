"""A program over a store that is killed and opened again, and the model of what must be there then."""

import collections
import random
import subprocess
import threading
import time

from lib.client import PATIENCE, PROGRAM, REQUESTS, content_length
from lib.generated_histories import Generator
from lib.plain_model import Model
from lib.stores import as_bytes, found_in, looks, notices_of, told
import journal


class Killed:
    """A program over a store, which is asked one request after the other, and then killed."""

    def __init__(self, folder, program=PROGRAM, patience=PATIENCE):
        # What it says before it serves, as where a kill has left a whole record behind the closed gate.
        self.notices = notices_of(folder)
        pipes = dict.fromkeys(("stdin", "stdout", "stderr"), subprocess.PIPE)
        self.program = subprocess.Popen([program, "solo", "--store", folder], bufsize=0, **pipes)
        self.watch = threading.Timer(patience, self.program.kill)
        self.watch.start()

    def __enter__(self):
        return self

    def __exit__(self, *_):
        self.watch.cancel()
        self.program.kill()
        self.program.wait()
        for pipe in (self.program.stdin, self.program.stdout, self.program.stderr):
            pipe.close()

    def ask(self, asked):
        """Its reply, whole."""
        self.send(as_bytes(asked))
        got = b""
        while not got.endswith(b"\r\n\r\n"):
            got += self.read(1)
        return got if asked.method == "HEAD" else got + self.read(content_length(got))

    def send(self, piece):
        try:
            self.program.stdin.write(piece)
        except BrokenPipeError:
            self.tell_end()

    def read(self, count):
        got = b""
        while len(got) < count:
            piece = self.program.stdout.read(count - len(got))
            if not piece:
                self.tell_end()
            got += piece
        return got

    def tell_end(self):
        raise AssertionError(f"the program ended by itself: {self.program.wait()}, {self.program.stderr.read()}") from None

    def end(self):
        """What the program ends with if nothing more is asked: its status, its last replies and words."""
        self.program.stdin.close()
        out = self.program.stdout.read()
        return self.program.wait(), out, self.program.stderr.read()

    def kill_after(self, seconds, given=b""):
        """Sends these bytes, kills the program after this time, and returns what it still wrote."""
        self.send(given)
        time.sleep(seconds)
        self.program.kill()
        return self.program.stdout.read()


class Reach:
    """How long after a request a kill may come. It follows how the kills fall, so that about as many come before the end of
    the reply as after it, however fast the machine and its disk are."""

    shortest, longest = 0.00002, 0.1

    def __init__(self, seconds=0.002):
        self.seconds = seconds

    def draw(self, random):
        return random.random() * self.seconds

    def learn(self, answered):
        self.seconds = min(max(self.seconds * (0.75 if answered else 1.25), self.shortest), self.longest)


class Round:
    """A folder whose program is killed some times, with the model of what must be there."""

    model_of, generator_of = Model, Generator
    changing = Generator.changes | {Generator.upload: 15, Generator.undo: 18}
    program, patience = PROGRAM, PATIENCE

    def __init__(self, test, folder, seed, reach=None):
        self.test, self.folder = test, folder
        self.reach = reach or Reach()
        self.random = random.Random(seed)
        self.model = self.model_of()
        self.generator = self.generator_of(seed, self.model)
        self.tally = collections.Counter()

    def expect(self, program, asked):
        """It answers as the model does; and this is the reply."""
        wanted = self.model.answer(asked)
        self.test.assertEqual(program.ask(asked), wanted, asked)
        return wanted

    def some_looks(self, count):
        requests = looks(self.model, of=self.generator)
        return self.random.sample(requests, min(count, len(requests)))

    def open(self):
        """A program over the store, whose connection begins."""
        self.model.requests, self.generator.model = 0, self.model
        return Killed(self.folder, self.program, self.patience)

    def found(self, model, asked=None):
        return found_in(self.test, self.folder, model, asked)

    def kill_once(self):
        """Opens the store, looks at it, makes some requests, and kills the program at one, or while it opens the store."""
        with self.open() as program:
            if self.random.random() < 0.1:
                return self.kill_while_opened(program)
            for asked in self.some_looks(60):
                self.expect(program, asked)
            for asked in self.generator.requests(self.random.randrange(1, 12)):
                self.expect(program, asked)
            asked = self.generator.draw(self.changing)
            got = self.kill_within(program, as_bytes(asked))
        self.take_stock(asked, got)

    def kill_within(self, program, given):
        """Kills the program at some moment after these bytes of a request were sent, and returns what it still wrote."""
        return program.kill_after(self.reach.draw(self.random), given)

    def kill_while_opened(self, program, longest=0.02):
        self.test.assertEqual(program.kill_after(self.random.random() * longest), b"")
        self.tally["while the store was opened"] += 1
        self.model = self.found(self.model)

    def take_stock(self, asked, got):
        """Compares what is there with what was acknowledged, and goes on with what is there."""
        done = self.model.copy()
        done.requests = self.model.requests
        wanted = done.answer(asked)
        self.test.assertTrue(wanted.startswith(got), got)
        made = len(done.entries) - len(self.model.entries)
        self.reach.learn(got == wanted)
        if got == wanted:
            self.tally["after the reply"] += 1
            self.model = self.found(done)
            return
        found = self.found(self.model, asked)
        left = len(found.entries) - len(self.model.entries)
        self.tally["within a request"] += 1
        self.tally[f"within a request that makes {made}, of which {left} were there"] += 1
        self.tally["only its file was there"] += left == 0 and found.uploads.keys() != self.model.uploads.keys()
        self.model = found

    def look_at_all(self):
        """What is visible at last, and the journal to the byte."""
        with self.open() as program:
            for asked in self.some_looks(REQUESTS - 1):
                self.expect(program, asked)
        self.test.assertEqual(journal.file_in(self.folder), journal.write(map(told, self.model.entries)))
