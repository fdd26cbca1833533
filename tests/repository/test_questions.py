"""Questions in the words of users: docs/MAP.md leads from a word of each to a section of a page, which answers it."""

import re
import unittest

from lib.repository import read

# Each question, the word in it that its user looks for, and words of the answer.
QUESTIONS = (
    ("How long may a connection be idle?", "idle", "15 seconds"),
    ("Why was my slow upload cut off?", "slow clients", "each 60 KiB of a body | 60 seconds"),
    ("Which timeout has the head of a request?", "timeout", "a head | 10 seconds"),
    ("What happens if more clients come than it takes?", "too many clients", "one connection ends, the first of these that there is"),
    ("It ran into `ulimit -n`: who loses?", "ulimit -n", "the system has no descriptor left (EMFILE)"),
    ("How do I stop it without breaking downloads?", "stop", "for 10 seconds at most"),
    ("How many threads does it start?", "threads", "and four threads more"),
    ("How much memory does it need?", "memory", "64 MiB"),
    ("A client got 503 OutOfMemory: what was done?", "503", "its whole effect"),
    ("What does `journal: Device` mean when it starts?", "a store that doesn't open", "another program has it open"),
    ("May two programs have one folder? Is there a lock?", "lock", "One program at a time can have it open"),
    ("The disk is full: what now?", "disk full", "as on a full disk"),
    ("How do I make a backup while it runs?", "backup", "`operate/follow DIR COPY`"),
    ("What do the log lines say?", "log lines", "raise LimitNOFILE"),
    ("Is there a health check?", "health", "GET of a file that is always there"),
    ("How do I fail over to a second machine?", "failover", "Make sure that the first host is down"),
    ("How do I get TLS?", "TLS", "openssl req"),
    ("What is the largest file?", "largest file", "16,777,216 bytes"),
    ("Which ports do several nodes need?", "ports", "PORT + 8 + K"),
    ("Does it listen on IPv6?", "IPv6", "`[::1]:8080`"),
    ("Why does it start so slowly?", "a slow start", "it reads and hashes each file"),
    ("How do I serve several domains?", "domains", "Another site with its own name"),
    ("May I have a page of my own for 404?", "a page for 404", "its page `/404.html`"),
    ("Can a page of another origin deploy (CORS)?", "CORS", "403"),
    ("Who changed what? I need an audit.", "audit", "who asked for what"),
    ("May I downgrade after an upgrade?", "downgrade", "go back to an older program only if"),
    ("What is lost in a power failure?", "power failure", "a crash leaves the entries before"),
    ("The journal is damaged: can I get entries back?", "lost entries", "To have them back"),
    ("How do I preview a deploy?", "preview", "NAME-preview"),
    ("How do I do a rollback?", "rollback", "`site undo N`"),
    ("Why is my undo a Clash?", "Clash", "the later change is live and touches that cell"),
    ("Why is `/docs` a 404?", "404", "`/a/index.html`"),
    ("Can clients resume a download?", "resume a download", "elements, and one of them has a byte of the file"),
    ("Does it answer 304?", "304", "no 304 and no 412"),
    ("Does deleting a deploy free the disk?", "deleting", "frees nothing"),
    ("Which MIME type has a `.mjs` file?", "MIME types", "application/octet-stream"),
    ("Is SHA-1 safe against collisions?", "SHA-1 collisions", "SHA-1 isn't safe"),
    ("What is its speed beside nginx?", "speed", "requests for 4 KiB a second"),
)


def sections(page, titles):
    """The text of these sections of a page, or the whole page if none is named."""
    text = read(*page.split("/"))
    parts = {part.partition("\n")[0].strip("# "): part for part in re.split(r"(?m)^(?=#+ )", text)}
    return "\n".join(parts[title] for title in titles) if titles else text


def rows():
    """The rows of the map's first table: the words, and the text to which they lead."""
    table = read("docs", "MAP.md").partition("| You ask about | Read |\n|---|---|\n")[2].partition("\n\n")[0]
    for words, read_there in re.findall(r"(?m)^\| (.*) \| (.*) \|$", table):
        pages = re.findall(r"([\w/]+\.md)((?:, \"[^\"]+\")*)", read_there)
        yield re.split(r"[,;] ", words.replace("`", "")), "\n".join(sections(page, re.findall(r"\"([^\"]+)\"", titles)) for page, titles in pages)


class Questions(unittest.TestCase):
    rows = list(rows())

    def test_are_answered_by_the_sections_to_which_the_map_leads(self):
        for question, word, answer in QUESTIONS:
            with self.subTest(question):
                found = [text for words, text in self.rows if word in words]
                self.assertEqual(len(found), 1)
                self.assertIn(answer, " ".join(found[0].split()))

    def test_are_at_least_thirty(self):
        self.assertGreaterEqual(len({word for _, word, _ in QUESTIONS}), 30)

    def test_of_the_version_and_the_environment_have_rows_that_answer_them(self):
        text = read("docs", "MAP.md")
        for word, answer in (("version", "`--version`"), ("environment", "`FILEHOST_DEADLINE_SECOND`")):
            with self.subTest(word):
                self.assertRegex(text, rf"(?m)^\| \*\*{word}\*\*[^|]*{re.escape(answer)}")
