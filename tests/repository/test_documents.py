"""The documents against what they speak of: names of functions, files and crates, clauses that are shown, the first run, and the limits of pages."""

import re
import unittest

from lib.repository import PAGES, TOP, code_of, crates, groups, read


def titles(page):
    """The titles of a page: its headings, and what begins a paragraph in bold."""
    return re.findall(r"(?m)^(?:#+ |\*\*)([^*\n]+?)(?:\.?\*\*|$)", re.sub(r"(?ms)^```.*?^```", "", page.read_text()))


def anchor_of(title):
    """The anchor by which a link leads to a title."""
    return re.sub(r"[^\w -]", "", title.lower()).replace(" ", "-")


def assert_files_are_there(test, text, least):
    """The files of code that a page names as CRATE/FILE.rt are there."""
    named = set(re.findall(r"(?<![\w/])((?:[a-z_]+/)+[a-z_]+\.rt)\b", text)) - {"src/lib.rt"}
    test.assertGreater(len(named), least)
    for name in sorted(named):
        crate, _, file = name.partition("/")
        with test.subTest(name):
            test.assertTrue((TOP / "crates" / crate / "src" / file).is_file())


def files_by_themselves(text):
    """A text with each file by itself of those that it names together, as in `crate/{one,other}.rt` and `crate/*.rt`."""
    text = re.sub(r"(?<![\w/])(\w+)/\*\.rt", lambda found: ", ".join(f"{found[1]}/{name}.rt" for name in modules_of(found[1])), text)
    return re.sub(r"([\w/]+/)\{([\w,]+)\}\.rt", lambda found: ", ".join(f"{found[1]}{name}.rt" for name in found[2].split(",")), text)


def modules_of(crate):
    """The names of a crate's files of code."""
    return sorted(file.stem for file in (TOP / "crates" / crate / "src").glob("*.rt"))


class Architecture(unittest.TestCase):
    """docs/ARCHITECTURE.md."""

    text = read("docs", "ARCHITECTURE.md")

    def test_says_of_each_crate_what_it_is_for(self):
        table = re.findall(r"(?m)^\| `(\w+)` \| \w[^|]* \|$", self.text.partition("```")[0])
        self.assertEqual(table, list(crates()))

    def test_names_files_of_crates_that_are_there(self):
        assert_files_are_there(self, self.text, 5)


class Contracts(unittest.TestCase):
    """docs/CONTRACTS.md."""

    def test_shows_clauses_and_definitions_as_they_are(self):
        """But for the ends of their lines."""
        shown = re.findall(r"(?m)(?:^    .*\n)+", read("docs", "CONTRACTS.md"))
        self.assertEqual(len(shown), 3)
        folders = [folder for crate in crates() for folder in (TOP / "crates" / crate / "src", TOP / "crates" / crate / "specs")]
        there = [" ".join(file.read_text().split()) for folder in folders for file in folder.rglob("*.*")]
        for text in shown:
            with self.subTest(text):
                self.assertTrue(any(" ".join(text.split()) in words for words in there))


class OrderOfCrates(unittest.TestCase):
    """crates.txt has the one order of crates and its headings; each list of crates follows it."""

    def test_goes_from_lower_to_upper_crates(self):
        before = set()
        for name, uses in crates().items():
            with self.subTest(name):
                self.assertLessEqual(uses & crates().keys(), before)
            before.add(name)

    def test_has_each_crate_below_a_heading_with_tests_and_drivers_last(self):
        self.assertEqual([name for names in groups().values() for name in names], list(crates()))
        *_, tests, drivers = groups().values()
        self.assertEqual(groups()["Host"][-1], "filehost")
        for ending, names in (("_tests", tests), ("_driver", drivers)):
            self.assertEqual([name for name in crates() if name.endswith(ending)], names)

    def test_is_that_of_the_folders(self):
        self.assertEqual(sorted(crates()), sorted(file.parent.name for file in (TOP / "crates").glob("*/src") if file.is_dir()))

    def assert_in_order(self, names):
        self.assertEqual(names, [name for name in crates() if name in names])

    def test_is_that_of_tables_and_lists(self):
        count = 0
        for page in PAGES:
            for table in re.findall(r"(?m)(?:^\|.*\n)+", page.read_text()):
                names = [name for name in re.findall(r"(?m)^\| (?:crates/)?`?(\w+)`? \|", table) if name in crates()]
                if len(names) > 2:
                    count += 1
                    with self.subTest(page=str(page.relative_to(TOP)), first=names[0]):
                        self.assert_in_order(list(dict.fromkeys(names)))
        self.assertGreater(count, 3)
        self.assert_in_order(re.findall(r"(?m)^(\w+)$", read("scripts", "untried-crates.txt")))
        self.assert_in_order(re.findall(r"(?m)^(\w+) \d+ \d+$", read("scripts", "build-seconds.txt")))

    def test_has_its_headings_in_the_table_of_architecture(self):
        tables = re.findall(r"(?m)(?:^\|.*\n)+", read("docs", "ARCHITECTURE.md"))
        headed = [table for table in tables if "| **" in table]
        self.assertEqual(len(headed), 1)
        for table in headed:
            parts = re.split(r"(?m)^\| \*\*(.*?)\*\* \|.*$", table)[1:]
            found = {title: re.findall(r"(?m)^\| `(\w+)`", rows) for title, rows in zip(parts[::2], parts[1::2])}
            self.assertLessEqual(len(found), len(groups()))
            for title, names in found.items():
                with self.subTest(title):
                    self.assertEqual(names, [name for name in groups()[title] if name in names])


class Map(unittest.TestCase):
    """docs/MAP.md."""

    text = files_by_themselves(read("docs", "MAP.md"))
    groups = re.split(r"(?m)^## ", text)[1:]

    # What a maintainer looks for, in the words by which a row or a group begins.
    looked_for = (
        "accept", "adding a command", "body limit", "cache eviction", "clash", "content hash", "dedupe", "deploy JSON", "ETag", "exit status",
        "Expect", "fsync", "head parsed", "If-None-Match", "If-Range", "index.html", "journal entry bytes", "MIME", "multipart", "order of syncs",
        "404 and refusal names", "owner of a key", "path decoding", "publishes itself", "Range", "store lock", "timeouts", "torn tail", "undo",
        "who may deploy", "idle", "EMFILE", "disk full", "signal", "SIGTERM", "epoll", "environment", "version",
    )

    # The rows for each section of docs/HTTP.md and docs/WIRE.md.
    rows_of_sections = {
        "Routes": ["routes", "405, Allow"], "Targets": ["path decoding", "numbers", "names"], "The body of a deploy": ["deploy JSON"],
        "The other bodies": ["other bodies"], "Reading a file": ["read", "Range", "If-Range", "multipart"], "Opening a deploy": ["publishes itself"],
        "Uploading a file": ["upload"], "Changing a site": ["command"], "A deploy, and the changes of a site": ["deploy shown", "list of changes"],
        "Undoing a change": ["undo"], "JSON in replies": ["reply JSON", "refusal JSON"], "Refusals": ["404 and refusal names"], "Types of files": ["MIME"],
        "The head of a request": ["head end", "head parsed", "head refused"], "The body of a request": ["body length", "Expect"],
        "Limits of bodies": ["body limit"], "A reply": ["reply bytes", "HEAD"], "If memory runs out": ["out of memory"],
        "If the journal's device fails": ["Broken"], "When a connection ends": ["keep-alive"], "Deadlines and places": ["timeouts", "places"],
        "Threads": ["threads", "worker", "errand"], "The end of serve": ["SIGTERM"], "What the operator is told": ["operator"], "Memory": ["room"],
        "A client that still sends": ["lingering close"],
    }

    def test_has_eight_groups(self):
        titles = [group.partition("\n")[0] for group in self.groups]
        self.assertEqual(len(titles), 8)
        self.assertEqual(titles[-1], "Not in the program")

    def test_leads_with_the_words_that_are_looked_for(self):
        leads = re.findall(r"(?m)^\| (\*\*.*?) \| ", self.text)
        for word in self.looked_for:
            with self.subTest(word):
                self.assertTrue([lead for lead in leads if re.search(rf"\*\*{re.escape(word)}\b[^*]*\*\*", lead)])

    def test_names_each_source_file(self):
        named = set(re.findall(r"(?<![\w/])((?:[a-z_]+/)+[a-z_]+\.rt)\b", self.text))
        folders = set(re.findall(r"crates/((?:[a-z_]+/)+)(?=[ ,)])", self.text))
        anywhere = set(re.findall(r"`([a-z_]+\.rt)`", self.text.partition("\n## ")[0]))
        for file in sorted((TOP / "crates").glob("*/src/**/*.rt")):
            path = str(file.relative_to(TOP / "crates"))
            is_root = file.name in anywhere or file.with_suffix("").is_dir()
            with self.subTest(path):
                self.assertTrue(path.replace("/src/", "/", 1) in named or is_root or any(map(path.startswith, folders)))

    def test_names_files_of_crates_that_are_there(self):
        assert_files_are_there(self, self.text, 200)

    def test_says_where_each_definition_is(self):
        """Names before a file of definitions, of the row's first crate unless it names another, are in it. Others are in the code of the row's crates."""
        rows = re.findall(r"(?m)^\| \*\*[^|]* \| ([^|]*`[^|]*) \| ([^|]*) \|$", self.text.partition("\n## Not in the program")[0])
        self.assertGreater(len(rows), 80)
        count = 0
        for named, files in rows:
            of_row = re.findall(r"(?<![\w/])(\w+)/(?:\w+/)*\w+\.rt", files)
            code = "\n".join(map(code_of, {*of_row, "host_server"}))
            for names, crate, file in re.findall(r"((?:`\w+`(?:, )?)+) \((?:(\w+)/)?([A-Z]\w+)\)", named):
                for name in re.findall(r"`(\w+)`", names):
                    count += 1
                    with self.subTest(definition=name):
                        self.assertTrue(re.search(rf"(?m)^(?:\w+ )*{name}\b[^=\n]*:", read("crates", crate or of_row[0], "specs", f"{file}.antt")))
            for name in re.findall(r"`(?:\w+::)?(\w+)`", re.sub(r"(?:`\w+`(?:, )?)+ \([\w/]+\)", "", named)):
                with self.subTest(function=name):
                    self.assertTrue(re.search(rf"\b(fn|ensures|ghost|for|impl|trait|struct) {name}\b", code))
        self.assertGreater(count, 150)

    def test_has_a_row_for_each_section_of_the_interface_and_the_wire(self):
        """One that names a definition or a call."""
        sections = [section for page in ("HTTP.md", "WIRE.md") for section in re.findall(r"(?m)^## (.*)$", read("docs", page))]
        self.assertEqual(set(sections), {"What to write in a client", "Not supported", *self.rows_of_sections})
        for section, words in self.rows_of_sections.items():
            for word in words:
                with self.subTest(section=section, word=word):
                    self.assertTrue(re.search(rf"(?m)^\| [^|]*\*\*{re.escape(word)}\b[^|]* \| [^|]*`\w", self.text))


class Pages(unittest.TestCase):
    """Every page."""

    def test_are_short_enough_to_be_read(self):
        """Each has at most 400 lines, and 160 columns but in tables."""
        for page in PAGES:
            lines = page.read_text().splitlines()
            with self.subTest(page=str(page.relative_to(TOP))):
                self.assertLessEqual(len(lines), 400)
                self.assertEqual([line for line in lines if len(line) > 160 and not line.startswith("|")], [])

    def test_stay_within_their_sizes(self):
        """README.md has at most 120 lines, and the folder docs at most 180 KB."""
        self.assertLessEqual(len(read("README.md").splitlines()), 120)
        self.assertLessEqual(sum(file.stat().st_size for file in (TOP / "docs").rglob("*") if file.is_file()), 180_000)

    def test_name_files_of_the_repository_that_are_there(self):
        for page in PAGES:
            for name in re.findall(r"(?<![\w/.<-])((?:docs|tests|scripts|examples|bench|crates)/[\w./*-]*[\w*])", page.read_text()):
                if "*" not in name and "NAME" not in name and "CRATE" not in name and "/out" not in name:
                    with self.subTest(page=page.name, name=name):
                        self.assertTrue((TOP / name).exists())

    def test_are_there_where_code_names_them(self):
        folders = [TOP / folder for folder in ("crates", "tests", "scripts", "bench", "examples")]
        files = [file for folder in folders for file in folder.rglob("*") if file.is_file() and "/out/" not in str(file)]
        count = 0
        for file in (TOP / "test", TOP / "filehost", *(file for file in files if file.suffix in ("", ".py", ".rt", ".antt", ".c"))):
            for name in re.findall(r"\bdocs/\w+\.md\b", file.read_text()):
                count += 1
                with self.subTest(file=str(file.relative_to(TOP)), name=name):
                    self.assertTrue((TOP / name).is_file())
        self.assertGreater(count, 30)

    def test_name_files_without_their_folders_that_are_there(self):
        files = {path.name for folder in TOP.iterdir() if folder.name != ".git" for path in (folder.rglob("*") if folder.is_dir() else [folder])}
        for page in PAGES:
            text = re.sub(r"(?ms)^```.*?^```|^    .*?$", "", page.read_text())
            for name in re.findall(r"(?<![\w/.*%-])(\w[\w.-]*\.(?:py|md|rt|antt|edit|http|replies))(?![\w/*])", text):
                with self.subTest(page=page.name, name=name):
                    self.assertTrue(name in files)

    def test_link_to_places_that_are_there(self):
        for page in PAGES:
            for target in re.findall(r"\]\(([^)\s]+)\)", page.read_text()):
                file, _, anchor = target.partition("#")
                if not re.match(r"[a-z]+:", target):
                    with self.subTest(page=page.name, link=target):
                        there = page.parent / file if file else page
                        self.assertTrue(there.exists())
                        self.assertTrue(not anchor or anchor in map(anchor_of, titles(there)))

    def test_are_named_with_titles_that_they_have(self):
        """In the pages, the tests and the scripts: `docs/HTTP.md, "Routes"`, `"Routes": docs/HTTP.md` and, in a page, `see "Routes"`."""
        files = [path for folder in (TOP / "tests", TOP / "scripts", TOP / "bench", TOP / "crates") for path in folder.rglob("*") if path.is_file()]
        count = 0
        for file in {*PAGES, *(file for file in files if "/out/" not in str(file) and file.suffix in ("", ".py", ".rt", ".antt"))}:
            text = re.sub(r"\s+(?:# |// |/// |//! |-- )?", " ", file.read_text())
            places = [(page, title) for page, title in re.findall(r"([\w/]+\.md)[,:] \"([^\"]+)\"", text)]
            places += [(page, title) for title, page in re.findall(r"\"([^\"]+)\": ([\w/]+\.md)", text)]
            places += [(file, title) for title in re.findall(r"\b[Ss]ee \"([^\"]+)\"", text) if file in PAGES]
            count += len(places)
            for page, title in places:
                with self.subTest(file=str(file.relative_to(TOP)), page=str(page), title=title):
                    self.assertTrue(title in titles(TOP / page))
        self.assertGreater(count, 20)

    def test_show_the_first_run_as_it_is(self):
        replies = read("examples", "first-run.replies").replace("\r\n", "\n")
        shown = re.sub(r"(?m)^    ", "", read("examples", "README.md"))
        for body in re.split(r"(?m)(?=^HTTP/1\.1 )|(?<=[^\n])(?=HTTP/1\.1 )", replies):
            self.assertIn(body.strip(), shown)

    def test_show_measurements_as_they_are(self):
        shown = read("README.md").partition("## Measured")[2].partition("\n## ")[0]
        numbers = set(re.findall(r"(?<![\w.,])\d[\d,.]*\d|(?<![\w.,])\d\b", shown))
        self.assertGreater(len(numbers), 12)
        for number in numbers:
            with self.subTest(number):
                self.assertTrue(re.search(rf"(?<![\d.,]){re.escape(number)}(?![\d])", read("docs", "COMPARISON.md")))

    def test_show_an_undo_as_it_is(self):
        shown = read("README.md").partition("## Take back one change")[2].partition("\n## ")[0]
        replies = read("examples", "take-back.replies")
        requests = read("examples", "take-back.http")
        for line in re.findall(r"(?m)^    (POST|PUT|GET) +(\S+)(?: +(\{\S*\}|<.*?>))?", shown):
            method, target, body = (part.strip() for part in line)
            with self.subTest(line):
                self.assertIn(f"{method} {target} HTTP/1.1", requests)
                pattern = re.sub(r'([0-9a-f]{4})\\.\\.', r"\1[0-9a-f]{36}", re.escape(body))
                self.assertTrue(re.search(pattern, replies if method == "GET" else requests))
        for told in re.findall(r"(\{[^{}]*\})$", shown, re.M):
            pattern = re.escape(told).replace(r",\.\.", ",.*")
            self.assertTrue(re.search(pattern, replies + requests), told)


class ListOfTests(unittest.TestCase):
    """tests/README.md."""

    def test_has_a_row_for_each_file_and_no_other(self):
        rows = re.findall(r"(?m)^\| `([^`]+)` \| .* \|$", read("tests", "README.md"))
        folders = [TOP / "tests", *(folder for folder in (TOP / "tests").iterdir() if folder.is_dir() and folder.name != "__pycache__")]
        files = [file.name for folder in folders for file in folder.iterdir() if file.is_file() and file.name not in ("README.md", "run")]
        self.assertEqual(sorted(rows), sorted(files))

    def test_has_a_section_for_each_folder_of_tests_with_its_files(self):
        """In the order of their names, each with the seconds that it takes."""
        told = {}
        for section in read("tests", "README.md").split("\n## ")[1:]:
            if rows := re.findall(r"(?m)^\| `(test_\w+\.py)` \| \d+ \| .* \|$", section):
                told[re.search(r"(?m)^In tests/(\w+)/\.", section)[1]] = rows
        found = {file.parent.name: [] for file in (TOP / "tests").glob("*/test_*.py")}
        for file in sorted((TOP / "tests").glob("*/test_*.py")):
            found[file.parent.name].append(file.name)
        self.assertEqual(told, found)
        self.assertEqual(list((TOP / "tests").glob("test_*")), [])
