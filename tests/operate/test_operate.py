"""The recipes of operate/ without the programs that they are for: what they say against what the host does; units by systemd-analyze, if that is installed;
and which of operate/test is left out here."""

import json
import re
import shutil
import subprocess
import sys
import tempfile
import unittest

from lib.client import LARGEST_FILE, TOP
from lib.repository import read

NGINX, CACHE = read("operate", "nginx.conf"), read("operate", "nginx-cache.conf")
UNIT, FOLLOW = "filehost.service", "filehost-follow.service"
SIZES = {"k": 2 ** 10, "m": 2 ** 20, "G": 2 ** 30}


def settings(unit):
    """The settings of a unit, each with its last value."""
    return dict(re.findall(r"(?m)^(\w+)=(.*)$", read("operate", unit)))


def documented(page, pattern):
    found = re.search(pattern, read("docs", page))
    assert found, (page, pattern)
    return int(found[1].replace(",", ""))


def blocks(text, word):
    """The text of each such block."""
    found = []
    for begin in re.finditer(rf"(?m)^ *{word}\b[^;{{\n]*\{{", text):
        depth, at = 1, begin.end()
        while depth:
            depth += {"{": 1, "}": -1}.get(text[at], 0)
            at += 1
        found.append(text[begin.start():at])
    return found


class Nginx(unittest.TestCase):
    def test_fits_the_limits_of_the_host(self):
        largest, other = documented("WIRE.md", r"PUT to the target of an upload has at most ([\d,]+) bytes"), documented("WIRE.md", r"any other at most ([\d,]+)\.")
        sizes = [int(size) * SIZES[unit] for size, unit in re.findall(r"client_max_body_size (\d+)([km]);", NGINX)]
        self.assertEqual((sizes, largest), ([largest, other], LARGEST_FILE))
        idle = documented("WIRE.md", r"between two requests, or before the first \| (\d+) seconds")
        kept = [int(seconds) for block in blocks(NGINX, "upstream") for seconds in re.findall(r"keepalive_timeout (\d+)s", block)]
        self.assertEqual(len(kept), 2)
        self.assertTrue(all(seconds < idle for seconds in kept))
        self.assertEqual(len(re.findall(r"(?m)^    server .* max_fails=0;$", NGINX)), 3)

    def test_has_the_ports_of_the_unit(self):
        words = settings(UNIT)["ExecStart"].split()
        host, _, port = words[words.index("--listen") + 1].rpartition(":")
        nodes = int(words[words.index("--nodes") + 1])
        nginx = re.findall(r"server (127\.0\.0\.1:\d+)", blocks(NGINX, "upstream filehost")[0])
        self.assertEqual(nginx, [f"{host}:{int(port) + node}" for node in range(nodes)])
        self.assertIn(words[words.index("--store") + 1], ("/var/lib/" + settings(UNIT)["StateDirectory"],))

    def test_gives_types_that_the_host_does_not_have(self):
        known = re.findall(r"(?m)^\| ((?:`\w+`(?:, )?)+) \| `", read("docs", "HTTP.md").partition("## Types of files")[2])
        known = {ending for row in known for ending in re.findall(r"`(\w+)`", row)}
        given = set(re.findall(r'"~\*\\\.(\w+)\$"', blocks(NGINX, "map \\$uri")[0]))
        self.assertEqual(len(known), 11)
        self.assertLessEqual({"mjs", "wasm", "webp", "avif", "ico", "xml", "pdf", "mp4", "webm", "woff", "webmanifest", "map"}, given)
        self.assertEqual(known & given, set())

    def test_lets_only_reads_through_where_there_is_no_login(self):
        """Each place that hands requests on takes GET and HEAD alone, or is a step after one that does, or asks for a login."""
        count = 0
        for server in blocks(NGINX, "server") + blocks(CACHE, "server"):
            has_login = "auth_basic " in server
            for place in blocks(server, "location"):
                if "proxy_pass" not in place or has_login:
                    continue
                count += 1
                name = place.split()[1]
                with self.subTest(name):
                    is_inside = name.startswith("@") or "internal;" in place
                    self.assertTrue(is_inside or "limit_except GET HEAD { deny all; }" in place)
        self.assertEqual(count, 10)

    def test_sends_a_change_once_and_hides_the_login_from_the_host(self):
        interface = next(server for server in blocks(NGINX, "server") if "auth_basic " in server)
        self.assertIn("proxy_next_upstream off;", interface)
        for server in blocks(NGINX, "server") + blocks(CACHE, "server"):
            if "proxy_pass" in server and "127.0.0.1:8070" not in server:
                # A block with such fields of its own has none of those around it.
                for block in [server, *blocks(server, "location")]:
                    if "proxy_set_header" in block:
                        self.assertIn('proxy_set_header Authorization "";', block)
                        self.assertIn('proxy_set_header Connection "";', block)

    def test_keeps_no_page_that_is_not_the_file(self):
        place = next(place for place in blocks(NGINX, "location") if place.startswith("    location @page"))
        self.assertNotIn("proxy_cache", place)
        self.assertNotRegex(NGINX, r"error_page \d+ =")
        self.assertNotRegex(NGINX, r"proxy_cache_use_stale [^;]*updating")

    def test_names_what_is_to_be_changed_and_nothing_of_this_machine(self):
        for text in (NGINX, CACHE):
            names = set(re.findall(r"\b[\w-]+\.(?:example\.)?(?:org|com|net)\b", text))
            self.assertLessEqual(names, {"sites.example.org", "www.example.org", "deploy.example.org"})
            # The lines of a policy can't be broken.
            self.assertEqual([line for line in text.splitlines() if len(line) > 160 and "Content-Security-Policy" not in line], [])


class Units(unittest.TestCase):
    def test_start_the_launcher_and_leave_it_time_and_room(self):
        told = settings(UNIT)
        self.assertEqual((told["Type"], told["ExecStart"].split()[0]), ("exec", "/opt/filehost/filehost"))
        drain = documented("WIRE.md", r"as does its\s+reply,\s+for (\d+) seconds at most")
        self.assertGreaterEqual(int(told["TimeoutStopSec"]), 2 * drain)
        self.assertGreaterEqual(int(told["MemoryMax"][:-1]) * SIZES[told["MemoryMax"][-1]], SIZES["G"])
        places = documented("WIRE.md", r"It has ([\d,]+) connections, or fewer")
        self.assertGreater(int(told["LimitNOFILE"]), 2 * (places + 8) + 16)
        self.assertEqual((told["User"], told["NoNewPrivileges"], told["CapabilityBoundingSet"], told["ProtectSystem"]), ("filehost", "yes", "", "strict"))

    def test_are_safe_enough_for_systemd(self):
        """At most 2.0, "OK". The units name programs that aren't here."""
        if not shutil.which("systemd-analyze"):
            print("left out: there is no systemd-analyze", file=sys.stderr)
            return
        for unit in (UNIT, FOLLOW):
            ran = subprocess.run(["systemd-analyze", "security", "--offline=true", "--threshold=20", TOP / "operate" / unit], capture_output=True, text=True)
            self.assertEqual(ran.returncode, 0, ran.stdout + ran.stderr)
            self.assertIn(": 1.", ran.stdout.splitlines()[-1])
            with tempfile.TemporaryDirectory() as folder:
                text = re.sub(r"(?m)^(ExecStart=|Documentation=file:)/opt/filehost/", rf"\1{TOP}/", read("operate", unit))
                (TOP / folder / unit).write_text(text.replace("Conflicts=filehost.service\n", ""))
                ran = subprocess.run(["systemd-analyze", "verify", f"{folder}/{unit}"], capture_output=True, text=True)
                self.assertEqual([line for line in ran.stderr.splitlines() if unit in line], [])


class Console(unittest.TestCase):
    folder = TOP / "console"

    def test_has_no_script_in_its_page_and_asks_only_its_own_origin(self):
        page = read("console", "index.html")
        self.assertEqual(re.findall(r"<script(?![^>]* src=)|\son\w+=|style=|javascript:|<style", page), [])
        self.assertEqual(re.findall(r"(?:src|href)=\"([^\"]+)\"", page), ["icon.svg", "style.css", "console.js", "#changes"])
        for file in sorted(self.folder.glob("*.js")):
            text = re.sub(r"(?m)//.*$", "", file.read_text())
            with self.subTest(file.name):
                self.assertEqual(re.findall(r"innerHTML|outerHTML|insertAdjacentHTML|document\.write|\beval\b|new Function", text), [])
                self.assertEqual(set(re.findall(r"https?://[^\"'` ]*", text)) - {"http://www.w3.org/2000/svg"}, set())

    def test_has_files_that_the_host_knows_the_types_of(self):
        endings = {file.suffix for file in self.folder.iterdir()}
        self.assertEqual(endings, {".html", ".css", ".js", ".svg", ".json"})
        self.assertEqual(json.loads(read("console", "settings.json")), {"sites": ""})

    def test_has_words_for_each_kind_of_change(self):
        kinds = re.findall(r"`(\w+)`", re.search(r"(?s)- `kind` names the command.*?\n- ", read("docs", "HTTP.md"))[0])
        kinds = set(kinds) - {"kind"}
        self.assertEqual(len(kinds), 10)
        told = set(re.findall(r"(?m)^  (\w+): \(", read("console", "words.js")))
        self.assertEqual(told | {"undo"}, kinds)


class Rest(unittest.TestCase):
    def test_says_what_is_left_out(self):
        """operate/test runs the recipes with the real programs; the gate doesn't."""
        files = sorted(file.stem for file in (TOP / "operate").glob("check_*.py"))
        print(f"left out: operate/test, with {', '.join(files)}", file=sys.stderr)
        text = read("operate", "test")
        self.assertEqual(files, sorted(re.findall(r'"(check_\w+)": \(', text)))
        packages = set(re.search(r"commands=\(([^)]*)\)", read("operate", "install"))[1].split())
        self.assertLessEqual(packages, set(re.findall(r'"([\w-]+)"', text)))
