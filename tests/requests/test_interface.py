"""The words that the program is called with, and what it says to those that ask for help or are wrong."""

from lib.client import EXAMPLES, HELP, TOP, Program, run


class CommandLine(Program):
    """The words that the program is called with."""

    def test_takes_solo_and_an_end_of_options(self):
        given = (EXAMPLES / "first-run.http").read_bytes()
        wanted = (EXAMPLES / "first-run.replies").read_bytes()
        for words in (["solo"], ["solo", "--"]):
            self.assertEqual(run(*words, given=given), (0, wanted, b""), words)

    def test_says_what_it_takes_and_what_is_wrong(self):
        usage = "For more information, try '--help'."
        help_parts = ["An immutable file host", "Usage: filehost <COMMAND>", "solo   Serve", "serve  Serve",
                      "filehost solo < examples/first-run.http", "README.md", "docs/HTTP.md"]
        solo_parts = ["Usage: filehost solo", "standard input", "standard output", "Exit status: 0"]
        serve_parts = ["Usage: filehost serve", "--listen <IP:PORT>", "PORT + 8 + I", "Exit status: 0"]
        for words, parts in [
            ([], help_parts),
            (["--help"], help_parts),
            (["help"], help_parts),
            (["solo", "--help"], solo_parts),
            (["help", "solo"], solo_parts),
            (["serve", "--help"], serve_parts),
            (["help", "serve"], serve_parts),
            (["unknown"], ["error:", "'unknown'", usage]),
            (["solo", "extra"], ["error:", "'extra'", "filehost solo", usage]),
            (["serve", "extra"], ["error:", "'extra'", "filehost serve", usage]),
            (["--port"], ["error:", "'--port'", usage]),
        ]:
            with self.subTest(words):
                status, out, errors = run(*words)
                self.assertEqual((status, out), (1, b""))
                for part in parts:
                    self.assertIn(part, errors.decode())

    def test_says_its_version(self):
        self.assertEqual(run("--version"), (1, b"", b"filehost 0.1.0\n"))

    def test_says_what_the_launcher_says_before_a_build(self):
        for text, calls in HELP.items():
            for words in calls:
                with self.subTest(words):
                    self.assertEqual(run(*words.split()), (1, b"", (TOP / "docs" / "help" / text).read_bytes()))
