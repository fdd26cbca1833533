"""The limits of files and functions, in Rattle, in Python and in shell scripts; and that no test uses another one."""

import ast
import builtins
import re
import shutil
import subprocess
import sys
import unittest

from lib.repository import TOP, crates
from clause_lines import lines_of_clauses

FOLDERS = ("tests", *(f"tests/{folder.name}" for folder in sorted((TOP / "tests").iterdir()) if folder.is_dir()), "scripts", "bench", "operate", "examples", "client/filehost_client")
# The crates in which some lines of clauses are still over 120 columns.
WIDE = (
    "byte_view", "chunk_reads", "blob_store", "http_wire", "range_reply", "persistent_lists", "persistent_maps", "site_state", "site_change", "touch_index",
    "change_undo", "host_disk", "record_file", "entry_texts", "change_journal", "host_opening", "chunk_lru", "single_flight", "peer_ring", "peer_link",
    "chunk_group", "host_api", "command_line", "world_read", "core_tests",
)
# crates without code that runs: laws, and what only clauses use
OF_CLAUSES = {"growing", "sealed_logs"}


class Rattle(unittest.TestCase):
    """The code of the crates."""

    files = sorted((TOP / "crates").glob("*/src/**/*.rt"))

    def test_has_no_file_over_300_lines(self):
        longer = {str(file.relative_to(TOP)) for file in self.files if file.read_text().count("\n") > 300}
        self.assertEqual(longer, set())

    def test_has_a_file_of_its_name_next_to_each_folder_of_modules(self):
        self.assertEqual({folder for folder in {file.parent for file in self.files} if folder.name != "src" and not folder.with_suffix(".rt").is_file()}, set())

    def test_has_no_function_over_40_lines(self):
        """The lines of its clauses don't count."""
        longer = set()
        for file in self.files:
            for found in re.finditer(r"(?ms)^( *)(?:pub(?:\(crate\))? )?fn (\w+).*?^\1\{?\}$", file.read_text()):
                if has_body(found[0]) and found[0].count("\n") - len(lines_of_clauses(found[0])) >= 40:
                    longer.add(f"{file.relative_to(TOP)}: {found[2]}")
        self.assertEqual(longer, set())

    def files_of(self, crate):
        return [file for file in self.files if file.parts[len(TOP.parts) + 1] == crate]

    def test_has_libraries_that_can_be_read_at_once(self):
        """Each has at most 110 functions, not counting its laws."""
        for name in crates():
            texts = [file.read_text() for file in self.files_of(name) if "laws" not in file.parts and file.name != "laws.rt"]
            counted = sum(len(re.findall(r"\bfn \w+", text)) for text in texts)
            with self.subTest(name):
                self.assertEqual(counted == 0, name in OF_CLAUSES)
                if not name.endswith(("_tests", "_driver")):
                    self.assertLessEqual(counted, 110)

    def test_has_clauses_that_need_no_scrolling(self):
        for name in crates().keys() - WIDE:
            wide = [f"{file.name}: {line}" for file in self.files_of(name) for line in lines_of_clauses(file.read_text()) if len(line) > 120]
            with self.subTest(name):
                self.assertEqual(wide, [])

    def test_looks_at_each_line_of_a_clause(self):
        text = "/// f\nfn f()\n    requires { a\n        → b }\n    ensures c { g {h} }\n{}\n    ghost k = { l };\n    ghost fn m() {\n"
        self.assertEqual(lines_of_clauses(text), ["    requires { a", "        → b }", "    ensures c { g {h} }", "    ghost k = { l };"])

    def test_tells_a_function_that_a_trait_declares_from_one_with_a_body(self):
        self.assertFalse(has_body("    fn f(&self) -> u8\n        ensures { a {\n            b } };\n\n    fn g() {\n"))
        self.assertFalse(has_body("    fn f(&self);\n    fn g() {\n"))
        self.assertTrue(has_body("    fn f(&self) -> u8\n        ensures { a }\n    {\n        g();\n"))
        self.assertTrue(has_body("    fn f(&self) {\n        g();\n"))


def has_body(text):
    """Whether the function at the front of a text has a body: one that a trait declares ends in a semicolon."""
    clauses = lines_of_clauses(text)
    for line in text.splitlines():
        if line.endswith(";"):
            return False
        if line.endswith("{") and line not in clauses:
            return True
    return True


def misnamed(text):
    """The names that a module uses though nothing in it gives them a value, and those that it imports and neither uses nor offers in `__all__`."""
    used, bound, imported = set(), {*dir(builtins), "__file__"}, set()
    for part in ast.walk(ast.parse(text)):
        if isinstance(part, ast.Assign) and any(isinstance(to, ast.Name) and to.id == "__all__" for to in part.targets):
            used.update(ast.literal_eval(part.value))
        if isinstance(part, ast.Name):
            (used if isinstance(part.ctx, ast.Load) else bound).add(part.id)
        elif isinstance(part, ast.arg):
            bound.add(part.arg)
        elif isinstance(part, (ast.Import, ast.ImportFrom)) and getattr(part, "module", None) != "__future__":
            # What comes of __future__ is for Python itself.
            imported.update((one.asname or one.name).partition(".")[0] for one in part.names)
        elif isinstance(part, (ast.FunctionDef, ast.AsyncFunctionDef, ast.ClassDef, ast.ExceptHandler, ast.MatchAs, ast.MatchStar)):
            bound.add(part.name)
    return used - bound - imported, imported - used


def scripts(first_line, ending):
    """The files with this ending, or with none and this first line, in the folders of tests and scripts and at the top."""
    files = [file for folder in (".", *FOLDERS) for file in sorted((TOP / folder).iterdir()) if file.is_file()]
    return [file for file in files if file.suffix == ending or not file.suffix and file.read_bytes().startswith(first_line)]


class Scripts(unittest.TestCase):
    """Python and shell scripts: tests, scripts, measurements, examples and the two commands."""

    python = scripts(b"#!/usr/bin/env python3\n", ".py")
    shell = scripts(b"#!/usr/bin/env bash\n", ".sh")

    def test_are_all_looked_at(self):
        names = {str(file.relative_to(TOP)) for file in self.python + self.shell}
        self.assertLessEqual({"filehost", "test", "tests/run", "tests/lib/client.py", "bench/compare", "scripts/lines", "examples/listen"}, names)

    def test_have_no_file_over_400_lines(self):
        longer = {str(file.relative_to(TOP)) for file in self.python + self.shell if file.read_text().count("\n") > 400}
        self.assertEqual(longer, set())

    def test_have_no_function_over_60_lines(self):
        longer = set()
        for file in self.python:
            for part in ast.walk(ast.parse(file.read_text())):
                if isinstance(part, (ast.FunctionDef, ast.AsyncFunctionDef)) and part.end_lineno - part.lineno >= 60:
                    longer.add(f"{file.relative_to(TOP)}: {part.name}")
        for file in self.shell:
            for found in re.finditer(r"(?ms)^(\w+)\(\) [{(]$.*?^[})](?: [^\n]*)?$", file.read_text()):
                if found[0].count("\n") >= 60:
                    longer.add(f"{file.relative_to(TOP)}: {found[1]}")
        self.assertEqual(longer, set())

    def test_are_named_in_words_that_say_what_they_do(self):
        """A command's name is words with hyphens between them, that of a module words with underscores."""
        for file in self.python + self.shell:
            with self.subTest(file.name):
                self.assertRegex(file.name, r"^(__init__|__main__|[a-z]+(_[a-z]+)*)\.(py|sh)$" if file.suffix else r"^[a-z]+([-_][a-z]+)*$")

    def test_each_module_says_what_it_is_for(self):
        for file in self.python:
            with self.subTest(str(file.relative_to(TOP))):
                self.assertTrue(ast.get_docstring(ast.parse(file.read_text())))

    def test_name_what_is_there_and_import_what_they_use(self):
        """Where pyflakes is installed, it looks too, and finds more."""
        for file in self.python:
            with self.subTest(str(file.relative_to(TOP))):
                self.assertEqual(misnamed(file.read_text()), (set(), set()))
        if pyflakes := shutil.which("pyflakes3") or shutil.which("pyflakes"):
            ran = subprocess.run([pyflakes, *self.python], capture_output=True, text=True)
            self.assertEqual(ran.stdout + ran.stderr, "")

    def test_shell_scripts_without_an_ending_are_named_for_editors(self):
        named = re.search(r"(?m)^\[\{(filehost,.*)\}\]$", (TOP / ".editorconfig").read_text())[1].split(",")
        for file in self.shell:
            if not file.suffix:
                with self.subTest(file.name):
                    self.assertTrue(any(file.relative_to(TOP).match(pattern) for pattern in named))

    def test_shell_scripts_pass_shellcheck(self):
        """Where shellcheck isn't installed, the test says so and passes."""
        self.assertLessEqual({"filehost", "test", "build", "install", "program_sources.sh"}, {file.name for file in self.shell})
        if not (shellcheck := shutil.which("shellcheck")):
            print("shellcheck isn't installed: it looked at no shell script", file=sys.stderr)
            return
        ran = subprocess.run([shellcheck, "-x", "-s", "bash", *self.shell, TOP / ".ci/run"], cwd=TOP, capture_output=True, text=True)
        self.assertEqual((ran.returncode, ran.stdout + ran.stderr), (0, ""))

    def test_finds_names_that_are_not_there_and_imports_that_nothing_uses(self):
        text = "import os, sys as system\nfrom a import b as c, d\ndef f(x, *y, z=1):\n    global g\n    g = [w for w in x]\n    return len(y) + d.e + h\n"
        self.assertEqual(misnamed(text), ({"h"}, {"os", "system", "c"}))
        self.assertEqual(misnamed("from __future__ import annotations\nfrom a import b, c\n__all__ = ['b', 'q']\n"), ({"q"}, {"c"}))
        self.assertEqual(misnamed("from a import annotations\n"), (set(), {"annotations"}))
        self.assertEqual(misnamed("print(annotations)\n"), ({"annotations"}, set()))
        self.assertEqual(misnamed("try:\n    1\nexcept OSError as e:\n    match e:\n        case [k, *m]:\n            __file__, k, m, (n := 1), n\n"), (set(), set()))

    def test_no_test_uses_another_one(self):
        """What several tests use is in tests/lib, which uses no test either. Nor does a measurement."""
        for file in self.python:
            with self.subTest(str(file.relative_to(TOP))):
                self.assertEqual(re.findall(r"(?m)^ *(?:from|import) (test_\w+)", file.read_text()), [])

    def test_what_tests_share_is_used_by_one_at_least(self):
        text = "\n".join(file.read_text() for file in self.python)
        for file in sorted((TOP / "tests" / "lib").iterdir()):
            if file.is_file() and file.name != "__init__.py":
                with self.subTest(file.name):
                    self.assertTrue(re.search(rf"\bfrom lib import {file.stem}\b|\bfrom lib\.{file.stem} import\b|[\"/]{re.escape(file.name)}\"", text))
