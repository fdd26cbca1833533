"""The command `site`: it reads its words, calls the command, and ends with its status."""

import contextlib
import gc
import os
import re
import signal
import sys

from .errors import SiteError, WrongWords
from .names import check_site
from .output import Output
from .parsing import Help, parse
from .publishing import Asked, Publishing
from .settings import preview_of, settings_of

INTERRUPTED = 130
LOST_READER = 141


class Terminated(KeyboardInterrupt):
    """The command was told to end by another signal than that of Ctrl-C."""

    def __init__(self, number):
        super().__init__()
        self.status = 128 + number


def terminate(number, _):
    raise Terminated(number)


def again(options):
    """The words of the command, without a login, so that they can be shown."""
    import shlex  # Few runs fail so that they can go on.
    shown = []
    words = iter(options.words)
    for word in words:
        if word == "--user":
            next(words, None)
        elif not word.startswith("--user="):
            shown.append(re.sub(r"//[^/]*@", "//", word))
    return shlex.join(["site", *shown])


def asked_of(options, is_push, **more):
    """What a command with these options asks for; `more` are those that only this command has."""
    of_each = {"is_dry_run": options.dry_run, "uses_cache": not options.no_cache, "jobs": options.jobs, "again": lambda: again(options)}
    return Asked(options.word_DIR, is_push, **of_each, **more)


def push(options, output):
    asked = asked_of(options, True, is_draft=options.draft, deletes=options.delete, removes=tuple(options.remove))
    Publishing(settings_of(options, options.word_DIR), asked, output).run()


def deploy(options, output):
    if options.alias is not None:
        check_site(options.alias, "an alias")
        if options.draft:
            raise WrongWords("a draft can't have an alias until it is published: site restore N, then site alias NAME N")
    asked = asked_of(options, False, is_draft=options.draft, alias=options.alias)
    Publishing(settings_of(options, options.word_DIR), asked, output).run()


def preview(options, output):
    settings = settings_of(options, options.word_DIR)
    Publishing(settings.of_site(preview_of(settings.site)), asked_of(options, False), output).run()


def run_of(name):
    """The function that runs a command. What a push doesn't need is loaded only for the commands that do."""
    if name in ("push", "deploy", "preview"):
        return {"push": push, "deploy": deploy, "preview": preview}[name]
    if name == "status":
        from .looking import status
        return status
    from . import commands
    return getattr(commands, name)


def run(words):
    """Runs the command that these words call, and returns its status."""
    try:
        command, options = parse(words)
    except Help as text:
        print(text, end="")
        return 0
    except WrongWords as error:
        Output("").fail(error)
        return error.status
    options.words = words
    output = Output(command.name, options.quiet, options.json)
    try:
        run_of(command.name)(options, output)
    except SiteError as error:
        output.fail(error)
        return error.status
    except KeyboardInterrupt as error:
        output.progress.end()
        return getattr(error, "status", INTERRUPTED)
    return 0


def main():
    """Runs the command with the words of this process, and ends the process with its status."""
    status = guarded()
    for stream in (sys.stdout, sys.stderr):
        with contextlib.suppress(OSError, ValueError):
            stream.flush()
    # What is left, such as threads that wait for a host, needs no end of its own, and to take 10,000 objects apart takes a while.
    os._exit(status)


def guarded():
    """The status of the command with the words of this process."""
    for name, mode in (("stdin", "r"), ("stdout", "w"), ("stderr", "w")):
        # A stream that is closed takes the place of none that is opened later.
        if getattr(sys, name) is None:
            setattr(sys, name, open(os.devnull, mode, encoding="utf-8"))
    # A run is short, and leaves next to nothing in cycles. To look for them among the objects of 10,000 files takes as long as to hash these.
    gc.disable()
    # A path may have letters that the terminal's encoding lacks.
    sys.stdout.reconfigure(errors="backslashreplace")
    for name in ("SIGTERM", "SIGHUP"):
        signal.signal(getattr(signal, name), terminate)
    try:
        return run(sys.argv[1:])
    except BrokenPipeError:
        # Nobody reads on. Standard output isn't flushed again at the end.
        os.dup2(os.open(os.devnull, os.O_WRONLY), sys.stdout.fileno())
        return LOST_READER
