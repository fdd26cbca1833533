"""Which methods and targets read what, and the first reason against those that ask for nothing.

Each file that is read has its version and its path as its content, so that a reply shows which one was found.
What is expected follows from docs/HTTP.md, "Routes" and "Targets".
"""

from lib.client import STATUS_OF, refused, request
from lib.rows import NO_NUMBERS, Interface, post, publishing, put, row, served, written

# Each resource by a target, and the replies to its methods if the host is empty and the request has no body.
RESOURCES = {
    "/s/one/x": {"GET": "NoSuchFile", "HEAD": "NoSuchFile"},
    "/a/one/next/x": {"GET": "NoSuchAlias", "HEAD": "NoSuchAlias"},
    "/d/one/7/x": {"GET": "NoSuchDeploy", "HEAD": "NoSuchDeploy"},
    "/api/v1/sites/one/deploys": {"POST": "BadBody"},
    "/api/v1/sites/one/deploys/7/restore": {"POST": "NoSuchDeploy"},
    "/api/v1/sites/one/aliases/next": {"PUT": "BadBody", "DELETE": "NoSuchAlias"},
    "/api/v1/sites/one/rename": {"POST": "BadBody"},
    "/api/v1/sites/one/files/x": {"DELETE": "NoSuchFile"},
    "/api/v1/sites/one/undo": {"POST": "BadBody"},
    "/api/v1/sites/one/changes": {"GET": {"changes": []}, "HEAD": {"changes": []}},
    "/api/v1/deploys/7": {"GET": "NoSuchDeploy", "HEAD": "NoSuchDeploy", "DELETE": "NoSuchDeploy"},
    "/api/v1/deploys/7/cancel": {"POST": "NoSuchDeploy"},
    "/api/v1/deploys/7/files/x": {"PUT": "NoSuchDeploy"},
}
METHODS = ["GET", "HEAD", "POST", "PUT", "DELETE", "PATCH", "OPTIONS", "TRACE", "get", "GETS", "Post", "put", "DELET"]


class Methods(Interface):
    """Which methods a resource has."""

    def test_are_those_of_the_resource_and_the_others_are_told_which_these_are(self):
        rows = []
        for target, replies in RESOURCES.items():
            wrong = refused("BadMethod", f"Allow: {', '.join(replies)}")
            rows += [row(method, target, None, replies.get(method, wrong)) for method in METHODS]
        self.assertEqual(len(rows), 13 * 13)
        self.assert_rows(rows)

    def test_that_are_missing_are_no_head(self):
        given = request("", "/s/one/a") + request("GET", "/s/one/a")
        self.assert_answers(given, refused("BadHead", "Connection: close"))


class Words(Interface):
    """The fixed words of routes."""

    chosen = {"one", "next", "7", "x"}

    def test_are_compared_byte_for_byte(self):
        """In another case, with an escape, a byte more, a byte less or a slash more they are no route."""
        rows = []
        for target, replies in RESOURCES.items():
            parts = target.split("/")
            for place, word in enumerate(parts):
                if word and word not in self.chosen:
                    for other in (word.upper(), f"%{ord(word[0]):02x}{word[1:]}", f"{word}x", word[1:], f"/{word}"):
                        changed = "/".join([*parts[:place], other, *parts[place + 1:]])
                        rows.append(row(next(iter(replies)), changed, None, "NoRoute"))
        self.assertEqual(len(rows), 5 * 43)
        self.assert_rows(rows)


class Reads(Interface):
    """The three routes on which files are read."""

    # The first deploy has the alias `next`, the second is 4, and the third is served.
    before = [
        *publishing("one", 1, written("next", ["/a.txt", "/index.html", "/a/index.html"])),
        put("/api/v1/sites/one/aliases/next", {"deploy": 1}, {"entry": 3}),
        *publishing("one", 4, written("4", ["/a.txt", "/index.html"])),
        *publishing("one", 6, written("live", [
            "/a", "/a.txt", "/a/b", "/a/b.txt", "/a+b", "/index.html", "/a/index.html", "/%25", "/%zz", "/%2", "/%A",
            "/50%", "/\u00e9", "/api",
        ])),
        *publishing("api", 8, written("of api", ["/v1"])),
    ]

    def assert_reads(self, cases, methods=("GET", "HEAD")):
        """Each of these targets is a file that was written, or is refused."""
        rows = []
        for target, wanted in cases:
            answer = wanted if wanted in STATUS_OF else served(wanted[wanted.index("/"):], wanted.encode())
            rows += [row(method, target, None, answer) for method in methods]
        self.assert_rows(rows, self.before)

    def test_find_files_of_a_site(self):
        self.assert_reads([
            ("/s/one/a.txt", "live /a.txt"),
            ("/s/one/a/b.txt", "live /a/b.txt"),
            ("/s/one/a", "live /a"),
            ("/s/one/", "live /index.html"),
            ("/s/one/a/", "live /a/index.html"),
            ("/s/api/v1", "of api /v1"),
            ("/s/one/api", "live /api"),
            ("/s/one/A", "NoSuchFile"),
            ("/s/one/...", "NoSuchFile"),
            ("/s/two/a", "NoSuchFile"),
            ("/", "NoRoute"),
            ("/s", "NoRoute"),
            ("/s/", "NoRoute"),
            ("/s/one", "NoRoute"),
            ("//s/one/a", "NoRoute"),
            ("/S/one/a", "NoRoute"),
            ("/%73/one/a", "NoRoute"),
            ("/t/one/a", "NoRoute"),
            ("/s//a", "BadName"),
            ("/s//", "BadName"),
            ("/s/One/a", "BadName"),
            ("/s/o%6Ee/a", "BadName"),
            ("/s/one//a.txt", "BadPath"),
            ("/s/one//", "BadPath"),
            ("/s/one/a//b", "BadPath"),
            ("/s/one/a//", "BadPath"),
            ("/s/one/.", "BadPath"),
            ("/s/one/./a", "BadPath"),
            ("/s/one/..", "BadPath"),
            ("/s/one/../a", "BadPath"),
            ("/s/one/a/../", "BadPath"),
            ("/s/one/\\a", "BadPath"),
        ])

    def test_decode_a_path_once(self):
        self.assert_reads([
            ("/s/one/a%2Fb", "live /a/b"),
            ("/s/one/a%2f", "live /a/index.html"),
            ("/s/one/%61%2E%74xt", "live /a.txt"),
            ("/s/one/%2525", "live /%25"),
            ("/s/one/%25zz", "live /%zz"),
            ("/s/one/%zz", "live /%zz"),
            ("/s/one/%2", "live /%2"),
            ("/s/one/%%41", "live /%A"),
            ("/s/one/50%", "live /50%"),
            ("/s/one/%c3%A9", "live /\u00e9"),
            ("/s/one/\u00e9", "live /\u00e9"),
            ("/s/one/a+b", "live /a+b"),
            ("/s/one/a%2Bb", "live /a+b"),
            ("/s/one/a%20b", "NoSuchFile"),
            ("/s/one/%2Fa", "BadPath"),
            ("/s/one/a%2F%2Fb", "BadPath"),
            ("/s/one/%ff", "BadPath"),
            ("/s/one/%ff/", "BadPath"),
            ("/s/one/%c3", "BadPath"),
            ("/s/one/%c0%af", "BadPath"),
            ("/s/one/%ed%a0%80", "BadPath"),
            ("/s/one/%2e", "BadPath"),
            ("/s/one/%2e%2e", "BadPath"),
            ("/s/one/%2e./a", "BadPath"),
            ("/s/one/%5Ca", "BadPath"),
            ("/s/one/%00", "BadPath"),
            ("/s/one/%23", "BadPath"),
            ("/s/one/%3F", "BadPath"),
            ("/s/one/%3f", "BadPath"),
        ])

    def test_ignore_the_query(self):
        self.assert_reads([
            ("/s/one/a?b=c", "live /a"),
            ("/s/one/?", "live /index.html"),
            ("/s/one/a?", "live /a"),
            ("/s/one/a?b#c", "live /a"),
            ("/s/one/a?b?/%ff", "live /a"),
            ("/s/one/a?/../b", "live /a"),
            ("/s/one?/a", "NoRoute"),
            ("/?/s/one/a", "NoRoute"),
        ])

    def test_find_files_of_an_alias(self):
        self.assert_reads([
            ("/a/one/next/a.txt", "next /a.txt"),
            ("/a/one/next/", "next /index.html"),
            ("/a/one/next/a%2F?q", "next /a/index.html"),
            ("/a/one/other/a.txt", "NoSuchAlias"),
            ("/a/one/next/b.txt", "NoSuchFile"),
            ("/a/one/next", "NoRoute"),
            ("/a/one", "NoRoute"),
            ("/A/one/next/a", "NoRoute"),
            ("/a/one//a", "BadName"),
            ("/a//next/a", "BadName"),
            ("/a/one/Next/a", "BadName"),
            ("/a/one/ne%78t/a", "BadName"),
            ("/a/One/Next/a#", "BadName"),
            ("/a/one/next/a#", "BadPath"),
            ("/a/one/next//a", "BadPath"),
        ])

    def test_find_files_of_a_deploy(self):
        self.assert_reads([
            ("/d/one/4/a.txt", "4 /a.txt"),
            ("/d/one/4/", "4 /index.html"),
            ("/d/one/4/?q", "4 /index.html"),
            ("/d/one/1/a.txt", "next /a.txt"),
            ("/d/one/6/a.txt", "live /a.txt"),
            ("/d/one/4/b.txt", "NoSuchFile"),
            ("/d/one/5/a.txt", "NoSuchDeploy"),
            ("/d/api/4/a.txt", "NoSuchDeploy"),
            ("/d/one/04/a.txt", "NoSuchDeploy"),
            ("/d/one/next/a.txt", "NoSuchDeploy"),
            ("/d/one/999999/a.txt", "NoSuchDeploy"),
            ("/d/one/1000000/a.txt", "NoSuchDeploy"),
            *[(f"/d/one/{text}/a.txt", "NoSuchDeploy") for text in NO_NUMBERS],
            ("/d/One/4/a.txt", "BadName"),
            ("/d/one/4/%ff", "BadPath"),
            ("/d/one/4#/a.txt", "BadPath"),
            ("/d/one/4", "NoRoute"),
            ("/D/one/4/a.txt", "NoRoute"),
        ])

    def test_are_refused_for_the_first_reason(self):
        self.assert_reads([
            ("/s/one#", "NoRoute"),
            ("/t/One/%ff#", "NoRoute"),
            ("/s/One#/a", "BadName"),
            ("/s/One/a#", "BadName"),
            ("/s/One/%ff", "BadName"),
            ("/s/one/a#b", "BadPath"),
            ("/s/one/#", "BadPath"),
            ("/s/one/#?", "BadPath"),
        ])
        wrong = refused("BadMethod", "Allow: GET, HEAD")
        self.assert_rows([
            post("/s/One/%ff#", None, wrong),
            post("/s//a", None, wrong),
            post("/api/v1/deploys/0/files/%ff#", None, refused("BadMethod", "Allow: PUT")),
            post("/t/One/%ff#", None, "NoRoute"),
        ])

    def test_have_targets_that_begin_with_a_slash(self):
        for target in ["s/one/a", "?", "http://localhost/s/one/a", "*"]:
            given = request("GET", target) + request("GET", "/s/one/a")
            self.assert_answers(given, refused("BadHead", "Connection: close"), target)
