"""The words that the client `site` is called with: its help, what it refuses before it asks any host, where its settings come from, its manual page, and the
one file that it is packed into."""

import ast
import json
import pathlib
import re
import shutil
import subprocess
import sys
import tempfile
import unittest

from lib.client import TOP
from lib.site_runs import SITE, SiteRuns

from filehost_client import command_table, help_texts
from filehost_client.addresses import parse_address
from filehost_client.errors import WrongWords
from filehost_client.settings_file import find_settings

COMMANDS = ("push", "deploy", "preview", "status", "log", "get", "undo", "restore", "alias", "mv", "rm", "cancel", "delete")
STATUSES = {"0", "1", "2", "3", "130"}
# Modules that take long to load, and that no push or deploy needs unless its settings ask for them.
SLOW = {
    "argparse", "asyncio", "base64", "concurrent", "dataclasses", "datetime", "email", "encodings.idna", "http", "inspect", "logging", "pathlib", "random",
    "shlex", "shutil", "ssl", "subprocess", "tempfile", "typing", "urllib",
}


class Help(unittest.TestCase):
    def call(self, *words):
        ran = subprocess.run([*SITE, *words], capture_output=True, text=True, timeout=60)
        self.assertEqual((ran.returncode, ran.stderr), (0, ""))
        return ran.stdout

    def assert_fits(self, text):
        """A screen of 24 lines shows it with the line in which the next command is typed."""
        lines = text.splitlines()
        self.assertLessEqual(len(lines), 23)
        self.assertLessEqual(max(map(len, lines)), 79)
        self.assertRegex(lines[0], "^usage: site ")
        self.assertRegex(text, r"\nExamples?:\n  site ")

    def test_of_all_fits_a_screen_and_lists_each_command_option_and_status(self):
        text = self.call("--help")
        self.assert_fits(text)
        self.assertEqual(self.call("-h"), text)
        for command in COMMANDS:
            self.assertRegex(text, rf"(?m)^.* {command}\b")
        for option in ("--host", "--site", "--read", "--ca", "--user", "--retry", "--quiet", "--json"):
            self.assertIn(option, text)
        self.assertLessEqual(STATUSES, set(re.findall(r"\d+", text.splitlines()[-1])))
        self.assertEqual(text.count("default"), 4)

    def test_of_each_command_fits_a_screen_and_says_its_defaults(self):
        self.assertEqual(tuple(command_table.BY_NAME), COMMANDS)
        for command in command_table.COMMANDS:
            with self.subTest(command.name):
                text = help_texts.help_of(command)
                self.assert_fits(text)
                for option in command.options:
                    self.assertIn(option.shown, text)
                    if option.default is not None:
                        self.assertIn(f"(default: {option.default})", option.text)
        for words in (["push", "--help"], ["push", "public", "-h"], ["--host", "http://x", "push", "--help"]):
            self.assertEqual(self.call(*words), help_texts.help_of(command_table.BY_NAME["push"]))

    def test_examples_are_words_that_the_command_takes(self):
        from filehost_client.parsing import parse
        for command in command_table.COMMANDS:
            for example in command.examples:
                with self.subTest(example):
                    self.assertEqual(parse(example.split()[1:])[0], command)

    def test_the_version_is_that_of_the_program(self):
        self.assertEqual(self.call("--version"), f"site {(TOP / 'docs/help/version.txt').read_text().split()[1]}\n")

    def test_the_manual_page_has_all_of_the_help(self):
        page = help_texts.manual().replace("\\-", "-").replace("\\&", "")
        for command in command_table.COMMANDS:
            for part in (command.text, *command.examples, *(option.text for option in (*command.options, *command_table.COMMON))):
                self.assertIn(part, page)
        if shutil.which("groff"):
            ran = subprocess.run(["groff", "-man", "-ww", "-Tutf8"], input=help_texts.manual(), capture_output=True, text=True, timeout=60)
            self.assertEqual((ran.returncode, ran.stderr), (0, ""))
            self.assertIn("EXIT STATUS", re.sub(r"\x1b\[\d+m|.\x08", "", ran.stdout))
        else:
            print("left out: there is no groff", file=sys.stderr)


class Start(SiteRuns):
    def test_a_deploy_loads_no_slow_module_that_it_does_not_need(self):
        self.start_host()
        self.write({"/a": b"a"})
        ended = "import os, sys; sys.path.insert(0, sys.argv.pop(1)); os._exit = lambda status: (print(status, *sys.modules), sys.exit())"
        words = [f"{ended}; from filehost_client.main import main; main()", TOP / "client", "deploy", self.place, "--quiet"]
        ran = subprocess.run([sys.executable, "-S", "-c", *words], capture_output=True, text=True, timeout=60, env=self.environment())
        status, *loaded = ran.stdout.split()
        self.assertEqual((status, ran.stderr), ("0", ""))
        self.assertIn("filehost_client.uploads", loaded)
        self.assertEqual(SLOW.intersection(loaded), set())


class Refused(SiteRuns):
    """Words and settings that are wrong, without a host: one line, status 2."""

    def test_words_that_no_command_takes(self):
        self.address = "http://127.0.0.1:9"
        for words in (
            [], ["no-such"], ["push"], ["push", "a", "b"], ["push", "--no-such", "a"], ["push", "--jobs", "0", "a"], ["push", "--jobs", "x", "a"],
            ["undo"], ["undo", "x"], ["undo", "0"], ["undo", "1000001"], ["undo", "+1"], ["undo", "١"], ["log", "-n", "1001"], ["log", "extra"], ["mv", "a"],
            ["push", "--retry", "-1", "a"], ["push", "--delet", "a"], ["alias", "A"], ["alias", "a", "0"], ["--no-such"], ["get", "a", "--deploy", "0"],
            ["rm", ""], ["rm", "/"], ["status", "a", "b"], ["preview", "--draft", "a"], ["undo", "1", "--dry-run"],
        ):
            with self.subTest(words):
                line = self.assert_fails(2, words=words)
                self.assertLess(len(line), 300)

    def test_settings_that_are_missing_or_wrong(self):
        self.write({"/a": b"a"})
        for variables, part in (
            ({"SITE_HOST": ""}, "which host? Give --host"), ({"SITE_NAME": ""}, "which site? Give --site"), ({"SITE_HOST": "example.org"}, "begins with http://"),
            ({"SITE_HOST": "ftp://example.org"}, "begins with http://"), ({"SITE_HOST": "http://"}, "begins with http://"),
            ({"SITE_HOST": "http://h:99999"}, "a port is a number"), ({"SITE_HOST": "http://h/?q"}, "no ?"), ({"SITE_HOST": "http://h/a b"}, "no space"),
            ({"SITE_HOST": "http://u:secret@h/#x"}, "no #"), ({"SITE_NAME": "One"}, "not the name of a site"), ({"SITE_NAME": "a" * 64}, "63"),
        ):
            with self.subTest(variables):
                line = self.assert_fails(2, part, words=["push", self.place], variables={"SITE_HOST": "http://127.0.0.1:9", "SITE_NAME": "one", **variables})
                self.assertNotIn("secret", line)

    def test_settings_files_that_are_wrong(self):
        self.write({"/a": b"a"})
        for text, part in (("{", "can't be read as JSON"), ("[]", "is not of the form"), ('{"host": 1}', "is not of the form"),
                           ('{"hots": "x"}', "has the member hots, and only host, site, read, ca, user are known")):
            with self.subTest(text):
                (self.place / ".site.json").write_text(text)
                self.assert_fails(2, ".site.json", part, words=["push", self.place])
                self.assert_fails(2, part, words=["log"], cwd=self.place)


class Settings(SiteRuns):
    def test_come_from_options_then_variables_then_the_nearest_file(self):
        self.start_host()
        self.write({"/deep/down/a": b"a"})
        (self.place / ".site.json").write_text(json.dumps({"host": self.address, "site": "of-file"}))
        nothing = {"SITE_HOST": "", "SITE_NAME": ""}
        self.assertEqual(self.told("push", self.place, variables=nothing)["site"], "of-file")
        self.assertEqual(self.told("push", self.place / "deep", variables=nothing)["site"], "of-file")
        self.assertEqual(self.told("log", variables=nothing, cwd=self.place / "deep/down")["site"], "of-file")
        self.assertEqual(self.told("push", self.place, variables={**nothing, "SITE_NAME": "of-variable"})["site"], "of-variable")
        self.assertEqual(self.told("push", self.place, "--site", "of-option", variables={**nothing, "SITE_NAME": "of-variable"})["site"], "of-option")
        self.assertIn("/s/before/", self.assert_done("--site", "before", "push", self.place, variables=nothing))
        # The file itself isn't part of a site, and no file is written into the folder.
        self.assertEqual(sorted(path.name for path in self.place.rglob("*")), [".site.json", "a", "deep", "down"])
        self.assertEqual(self.get("/s/of-file/.site.json")[0], 404)
        (self.place / "deep/.site.json").write_text('{"site": "nearer", "ca": "x.pem"}')
        self.assertEqual(find_settings(self.place / "deep/down"), {"site": "nearer", "ca": str(self.place.resolve() / "deep/x.pem")})

    def test_addresses_are_taken_apart(self):
        for text, place, url in (
            ("http://example.org", "example.org", "http://example.org/x"), ("https://example.org:443/", "example.org", "https://example.org/x"),
            ("http://u:p@example.org:8080/a/b/", "example.org:8080", "http://example.org:8080/a/b/x"), ("http://[::1]:80", "[::1]", "http://[::1]/x"),
            ("HTTP://Example.ORG:81", "example.org:81", "http://example.org:81/x"), ("http://bücher.example", "xn--bcher-kva.example", "http://xn--bcher-kva.example/x"),
        ):
            with self.subTest(text):
                address = parse_address(text)
                self.assertEqual((address.place, address.url("/x")), (place, url))
                self.assertNotIn("p@", repr(address) + str(address))
        self.assertEqual(parse_address("http://a%40b:c%3Ad@h").login, ("a@b", "c:d"))
        self.assertRaises(WrongWords, parse_address, "http://[::1")


class Packed(unittest.TestCase):
    def test_is_one_file_that_needs_nothing_else_and_no_newer_python(self):
        with tempfile.TemporaryDirectory() as folder:
            there = pathlib.Path(folder) / "made"
            for _ in range(2):
                ran = subprocess.run([sys.executable, TOP / "scripts/pack-site", "--into", there], capture_output=True, text=True, timeout=60)
                self.assertEqual((ran.returncode, ran.stderr), (0, ""))
                self.assertEqual(sorted(path.name for path in there.iterdir()), ["site", "site.1"])
            first = (there / "site").read_bytes()
            subprocess.run([sys.executable, TOP / "scripts/pack-site", "--into", there], check=True, capture_output=True, timeout=60)
            self.assertEqual((there / "site").read_bytes(), first)
            ran = subprocess.run([there / "site", "--help"], capture_output=True, text=True, timeout=60, cwd=folder)
            self.assertEqual((ran.returncode, ran.stdout), (0, help_texts.help_of_all()))
            self.assertEqual((there / "site.1").read_text(), help_texts.manual())
        for file in sorted((TOP / "client/filehost_client").glob("*.py")):
            with self.subTest(file.name):
                tree = ast.parse(file.read_text(), feature_version=(3, 9))
                used = {name.name.partition(".")[0] for node in ast.walk(tree) if isinstance(node, ast.Import) for name in node.names}
                used |= {node.module.partition(".")[0] for node in ast.walk(tree) if isinstance(node, ast.ImportFrom) and not node.level}
                self.assertLessEqual(used, set(sys.stdlib_module_names) if hasattr(sys, "stdlib_module_names") else used)
