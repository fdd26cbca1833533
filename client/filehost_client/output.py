"""What a command prints: results on standard output, as lines or as one JSON object; notices and errors on standard error."""

import json
import select
import sys

from .errors import Unfit
from .names import shown
from .progress import Progress

# How many lines of problems are told.
MOST_PROBLEMS = 20
# How often it is looked whether an answer or a signal has come.
LOOK_SECONDS = 0.3


class Output:
    """`is_quiet` leaves out notices, progress and the lines of what was done; `is_json` prints one object and no lines."""

    def __init__(self, command, is_quiet=False, is_json=False):
        self.command = command
        self.is_quiet = is_quiet
        self.is_json = is_json
        self.progress = Progress(sys.stderr, is_quiet)
        self.told = set()

    def note(self, text):
        """Tells a notice, once."""
        if not self.is_quiet and text not in self.told:
            self.told.add(text)
            self.say(text)

    def say(self, text):
        """A line on standard error."""
        self.progress.clear()
        print(f"site: {shown(text)}", file=sys.stderr, flush=True)

    def result(self, members, lines, is_wanted=False):
        """Prints what came out. `is_wanted` says that the lines are what the command was called for, so that -q doesn't leave them out."""
        self.progress.end()
        if self.is_json:
            print(json.dumps({"command": self.command, "status": 0, **members}, ensure_ascii=True), flush=True)
        elif is_wanted or not self.is_quiet:
            for line in lines:
                print(shown(line))
            sys.stdout.flush()

    def fail(self, error):
        """Tells an error, in a line, or a line for each of its problems. In JSON it is the result."""
        self.progress.end()
        problems = error.problems if isinstance(error, Unfit) else [str(error)]
        for problem in problems[:MOST_PROBLEMS]:
            self.say(problem)
        if len(problems) > MOST_PROBLEMS:
            self.say(f"and {len(problems) - MOST_PROBLEMS:,} more such lines")
        if self.is_json:
            told = {"command": self.command, "status": error.status, "error": error.reason, "message": str(error), **getattr(error, "details", {})}
            print(json.dumps(told, ensure_ascii=True), flush=True)

    def can_ask(self):
        """Whether somebody can be asked a question."""
        return not self.is_json and sys.stdin.isatty() and sys.stderr.isatty()

    def ask(self, question):
        """Asks a question that is answered by y or n, and by nothing for n."""
        self.progress.clear()
        print(f"site: {shown(question)} [y/N] ", end="", file=sys.stderr, flush=True)
        # Ctrl-C that comes right before a read is seen only after it.
        while not select.select([sys.stdin], [], [], LOOK_SECONDS)[0]:
            pass
        return sys.stdin.readline().strip().lower() in ("y", "yes")
