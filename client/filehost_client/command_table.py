"""The commands and options of `site`. The parser, the help and the manual page are made from this table."""

from collections import namedtuple

from .errors import WrongWords
from .names import LAST_NUMBER, check_number

VERSION = "0.1.0"
ABOUT = "deploys folders to a filehost"
LOGGED = 20
JOBS = 8
RETRY_SECONDS = 120


def whole(least, most):
    """A reader of whole numbers in these bounds."""
    def read(text):
        if not text.isascii() or not text.isdigit() or not least <= int(text) <= most:
            raise ValueError(text)
        return int(text)

    read.__name__ = f"number from {least} to {most:,}"
    return read


def seconds(text):
    if not text.replace(".", "", 1).isdigit() or not text.isascii() or float(text) > 86_400:
        raise ValueError(text)
    return float(text)


def entry(text):
    """The number of a deploy or a change."""
    try:
        return check_number(text, "an entry")
    except WrongWords:
        raise ValueError(text) from None


seconds.__name__ = "number of seconds from 0 to 86,400"
entry.__name__ = f"number from 1 to {LAST_NUMBER:,}"


class Option(namedtuple("Option", "flags value text kind default repeats", defaults=(str, None, False))):
    """An option: its flags, the word for its value (None for a switch), what it does, how its value is read, its default, and whether it may be repeated."""

    __slots__ = ()

    @property
    def name(self):
        return self.flags[-1].lstrip("-").replace("-", "_")

    @property
    def shown(self):
        return ", ".join(self.flags) + (f" {self.value}" if self.value else "")


class Word(namedtuple("Word", "name is_optional kind", defaults=(False, str))):
    """A word of a command: its name, whether it may be left out, and how it is read."""

    __slots__ = ()

    @property
    def shown(self):
        return f"[{self.name}]" if self.is_optional else self.name


class Command(namedtuple("Command", "name words brief text examples options", defaults=((),))):
    """A command: its name and words, what it does in a few words and in some sentences, examples, and its options."""

    __slots__ = ()

    @property
    def shown(self):
        # The words that may be left out are left out from the end on.
        shown, optional = [], [word.name for word in self.words if word.is_optional]
        shown += [word.name for word in self.words if not word.is_optional]
        nested = ""
        for name in reversed(optional):
            nested = f"[{name}{' ' + nested if nested else ''}]"
        return " ".join([self.name, *shown, *([nested] if nested else [])])


COMMON = (
    Option(("--host",), "URL", "the host (SITE_HOST, or host in .site.json)"),
    Option(("--site",), "NAME", "the site (SITE_NAME, or site in .site.json)"),
    Option(("--read",), "URL", "where sites are read (SITE_READ; default: as --host)"),
    Option(("--ca",), "FILE", "certificates that are trusted (default: those of the system)"),
    Option(("--user",), "NAME", "a login, NAME[:PASSWORD] (SITE_PASSWORD; default: ~/.netrc)"),
    Option(("--retry",), "SECONDS", f"how long an absent host is asked again (default: {RETRY_SECONDS})", seconds),
    Option(("-q", "--quiet"), None, "prints errors alone, and what was asked for"),
    Option(("--json",), None, "prints one JSON object"),
)
DIR = Word("DIR")
NUMBER = Word("N", kind=entry)
OF_FOLDERS = (
    Option(("--dry-run",), None, "says what would be sent, and sends nothing"),
    Option(("--no-cache",), None, "hashes each file anew (default: only those that changed)"),
    Option(("--jobs",), "N", f"how many connections send files (default: {JOBS})", whole(1, 64), JOBS),
)
DRAFT = Option(("--draft",), None, "leaves the deploy open, until `site restore` publishes it")
COMMANDS = (
    Command(
        "push", (DIR,), "sends what differs",
        "Sends what differs in DIR from what the site serves, as one change that can be taken back alone later. A file that an earlier push from DIR put to "
        "the site, and that DIR no longer has, is removed after a question, or by --delete; else it stays and is named. If nothing differs, nothing is sent.",
        ("site push public", "site push --delete --remove /old/page.html public"),
        (Option(("--delete",), None, "removes what DIR no longer has, without a question"),
         Option(("--remove",), "PATH", "removes this file of the site too; may be repeated", repeats=True), DRAFT, *OF_FOLDERS),
    ),
    Command(
        "deploy", (DIR,), "sends the whole site",
        "Sends DIR as the whole site: the site then serves the files of DIR and no others. Contents that the host has aren't sent again. The deploy is kept, "
        "so it can be restored and have an alias. Two deploys of a whole site can't be taken back one without the other; pushes can.",
        ("site deploy --alias stable public",),
        (Option(("--alias",), "NAME", "lets this alias name the deploy once it is published"), DRAFT, *OF_FOLDERS),
    ),
    Command(
        "preview", (DIR,), "deploys to NAME-preview",
        "Deploys DIR to a second site, whose name has -preview at its end, and prints its address. A push or deploy to the site itself then sends no file "
        "again.",
        ("site preview public",),
        OF_FOLDERS,
    ),
    Command(
        "status", (Word("DIR", True),), "what differs, last change",
        "Says whether the host answers, which change of the site was the last, and what a push of DIR would send. It asks the host once: the status is 0, or 3 "
        "if it doesn't answer, whatever differs.",
        ("site status public",),
        OF_FOLDERS[1:],
    ),
    Command(
        "log", (), "the last changes",
        "Lists the last changes of the site, the newest first: the number, the kind, whether the change is live or undone, and the numbers of a deploy and of "
        "its publishing if this client knows both. The host tells the last 1,000.",
        ("site log -n 50",),
        (Option(("-n",), "N", f"how many (default: {LOGGED})", whole(1, 1_000), LOGGED),),
    ),
    Command(
        "get", (Word("PATH"),), "reads a file",
        "Reads a file that the site serves, or that a deploy has. If the connection is cut, it goes on where it stopped, unless the file was replaced "
        "meanwhile: then it begins anew. The bytes are compared with the digest that the host tells.",
        ("site get /big.iso -o big.iso --resume", "site get /index.html --deploy 4"),
        (Option(("--deploy",), "N", "reads it out of this deploy (default: what the site serves)", entry),
         Option(("-o", "--output"), "FILE", "where it is written (default: standard output)"),
         Option(("--resume",), None, "goes on with what an earlier run left of FILE")),
    ),
    Command(
        "undo", (NUMBER,), "takes change N back",
        "Takes change N back, and keeps all later ones. If a later change reads or writes what it changed, it is refused, and that change is named: undo it "
        "first. N is the number of a change, as `site push` and `site log` print it, and not that of a deploy.",
        ("site undo 5",),
    ),
    Command(
        "restore", (NUMBER,), "serves deploy N again",
        "Lets the site serve exactly the files of deploy N again, or publishes it if it is a draft. N is the number of a deploy, as `site deploy` prints it, "
        "and not that of a change. A published push can't be restored, since it isn't a whole site.",
        ("site restore 4",),
    ),
    Command(
        "alias", (Word("NAME", True), Word("N", True, entry)), "shows or sets aliases",
        "An alias is a name for a deploy, at /a/SITE/NAME/. With N it names deploy N from now on. With NAME alone it is shown, and without a word those that "
        "this client has set: the host doesn't list them.",
        ("site alias stable 4", "site alias stable --remove"),
        (Option(("--remove",), None, "removes the alias"),),
    ),
    Command(
        "mv", (Word("FROM"), Word("TO")), "renames a file",
        "Renames a file of the site, or with a slash at the end of FROM a folder with all files below it, as one change.",
        ("site mv /about.html /team.html", "site mv /docs/ /guide/"),
    ),
    Command("rm", (Word("PATH"),), "removes a file", "Removes a file of the site, as one change.", ("site rm /old/page.html",)),
    Command("cancel", (NUMBER,), "drops an open deploy", "Cancels deploy N, which is a draft or was left open. What was uploaded stays known.",
            ("site cancel 7",)),
    Command("delete", (NUMBER,), "drops a kept deploy", "Removes deploy N, which was published whole, so that it can't be restored. What the site serves stays.",
            ("site delete 4",)),
)
BY_NAME = {command.name: command for command in COMMANDS}
STATUSES = (
    ("0", "done"), ("1", "refused by the host"), ("2", "wrong words or files"), ("3", "the host can't be reached, or the outcome is unknown"),
    ("130", "ended by Ctrl-C"),
)
VARIABLES = (
    ("SITE_HOST, SITE_NAME, SITE_READ", "in place of --host, --site and --read"), ("SITE_PASSWORD", "the password of --user"),
    ("NETRC", "the file of logins (default: ~/.netrc)"),
    ("XDG_STATE_HOME, XDG_CACHE_HOME", "where records and digests are kept (default: ~/.local/state and ~/.cache)"),
)
