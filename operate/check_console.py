"""The console in Chromium, through nginx with a login: two deploys, an undo and a clash by clicks, by the keyboard too, in wide and narrow, light and dark.

The screenshots are left in the folder that the variable FILEHOST_SCREENSHOTS names, if it is set.
"""

import contextlib
import json
import os
import pathlib
import shutil
import unittest

from browser import Browser
from stand import INTERFACE, PUBLIC, TOP, Stand

YES, NO = "#yes", "#no"


class Console(unittest.TestCase):
    def setUp(self):
        self.stack = contextlib.ExitStack()
        self.addCleanup(self.stack.close)
        self.stand = Stand(self.stack)
        self.folder = pathlib.Path(os.environ.get("FILEHOST_SCREENSHOTS") or self.stand.room / "screenshots")
        self.folder.mkdir(parents=True, exist_ok=True)
        console = self.stand.room / "console"
        shutil.copytree(TOP / "console", console)
        (console / "settings.json").write_text(json.dumps({"sites": self.stand.address(PUBLIC)}))
        self.stand.site("deploy", console, site="console")
        # Two deploys that wait to be published, and their numbers.
        first = self.stand.deploy({"/index.html": b"<h1>first</h1>", "/about.html": b"about"}, "www", "deploy", "--draft")["deploy"]
        second = self.stand.deploy({"/index.html": b"<h1>second</h1>", "/about.html": b"about"}, "www", "deploy", "--draft")["deploy"]
        self.drafts = first, second
        self.page = Browser(self.stack)
        self.page.size(1000, 800)

    def act(self, number, words):
        """The button of a change that begins with these words."""
        return f"#change-{number} button[aria-label^='{words}']"

    def said(self, words):
        self.page.wait_until(f"document.getElementById('said').textContent.includes({json.dumps(words)})")

    def serves(self, path="/index.html"):
        return self.stand.visitor(PUBLIC).ask("GET", f"/s/www{path}").content

    def last(self):
        return self.page.value("Number(document.querySelector('#changes > li').dataset.entry)")

    def show(self):
        self.page.open(f"{self.stand.address(INTERFACE)}/console/")
        self.page.wait_until("document.activeElement.id == 'site'")
        self.page.type("www")
        self.page.press("Enter")
        self.page.wait_until(f"!!document.querySelector(\"{self.act(self.drafts[1], 'Publish')}\")")

    def click(self, number, words, answer=YES):
        self.page.click(self.act(number, words))
        self.page.wait_until("document.getElementById('question').open")
        self.page.click(answer)

    def shoot(self, name):
        """In wide and narrow, light and dark. Nothing may be wider than the page."""
        for width, height in ((1000, 800), (360, 740)):
            for dark in (False, True):
                self.page.size(width, height, dark)
                self.assertLessEqual(self.page.value("document.documentElement.scrollWidth"), width, name)
                self.page.picture(self.folder / f"{name}-{width}-{'dark' if dark else 'light'}.png")
        self.page.size(1000, 800)

    def test_two_deploys_an_undo_and_a_clash_by_clicks(self):
        self.show()
        for draft, content in zip(self.drafts, (b"<h1>first</h1>", b"<h1>second</h1>")):
            self.click(draft, "Publish")
            self.said(f"Deploy {draft} is served, by change ")
            self.assertEqual(self.serves(), content)
        second = self.last()
        first = second - 1
        # The first can't be taken back while the second is in effect: it is shown where that is.
        self.click(first, "Take back")
        self.said(f"Change {first} was not taken back: change {second} is in the way.")
        self.assertIn("touches the file /about.html", self.page.value(f"document.querySelector('#change-{second}.in-the-way .why').textContent"))
        self.assertEqual(self.page.value("document.activeElement.id"), f"change-{second}")
        self.assertEqual(self.page.value("document.querySelectorAll('#lines .clash').length"), 1)
        self.assertEqual(self.serves(), b"<h1>second</h1>")
        self.shoot("clash")
        # A question that is answered by no changes nothing.
        self.click(second, "Take back", NO)
        self.assertEqual(self.last(), second)
        self.click(second, "Take back")
        self.said(f"took back change {second}.")
        self.assertEqual(self.serves(), b"<h1>first</h1>")
        self.assertEqual(self.page.value(f"document.getElementById('change-{second}').dataset.state"), "undone")
        self.assertEqual(self.page.value("document.querySelectorAll('#lines .undo').length"), 1)
        self.click(first, "Take back")
        self.said(f"took back change {first}.")
        self.assertEqual(self.stand.visitor(PUBLIC).ask("GET", "/s/www/").status, 404)
        self.shoot("undos")
        self.assertEqual((self.page.faults, [line for line in self.page.said if "409" not in line]), ([], []))

    def test_restores_and_aliases_by_clicks_and_what_a_deploy_serves(self):
        self.show()
        for draft in self.drafts:
            self.click(draft, "Publish")
            self.said(f"Deploy {draft} is served")
        self.click(self.drafts[0], "Serve deploy")
        self.said(f"Deploy {self.drafts[0]} is served, by change ")
        self.assertEqual(self.serves(), b"<h1>first</h1>")
        self.page.click(self.act(self.drafts[1], "Let an alias"))
        # A name that isn't one is not sent.
        self.page.wait_until("document.activeElement.id == 'alias'")
        self.page.type("Not a name")
        self.page.click(YES)
        self.assertTrue(self.page.value("document.getElementById('question').open"))
        self.page.value("document.getElementById('alias').value = ''")
        self.page.type("next")
        self.shoot("question")
        self.page.click(YES)
        self.said(f"The alias next names deploy {self.drafts[1]}, by change ")
        self.assertEqual(self.stand.visitor(PUBLIC).ask("GET", "/a/www/next/").content, b"<h1>second</h1>")
        link = self.page.wait_until(f"document.querySelector('#change-{self.drafts[0]} a')?.href")
        self.assertEqual(link, f"{self.stand.address(PUBLIC)}/d/www/{self.drafts[0]}/")
        # The page of the deploy has no icon, which the browser may report.
        self.assertEqual((self.page.faults, self.page.said), ([], []))
        self.page.click(f"#change-{self.drafts[0]} a")
        self.page.wait_until("document.body.innerText == 'first'")

    def test_by_the_keyboard_alone(self):
        self.show()
        self.page.press("Tab", "Tab", "Tab")
        for _ in range(20):
            if self.page.value("document.activeElement.getAttribute('aria-label')") == f"Publish deploy {self.drafts[1]}":
                break
            self.page.press("Tab")
        self.page.press("ArrowDown")
        self.assertEqual(self.page.value("document.activeElement.getAttribute('aria-label')"), f"Publish deploy {self.drafts[0]}")
        self.page.press("Enter")
        # The question has the focus at its harmless answer; Escape answers no.
        self.page.wait_until("document.activeElement.id == 'no'")
        self.page.press("Escape")
        self.assertFalse(self.page.value("document.getElementById('question').open"))
        self.assertEqual(self.page.value("document.activeElement.getAttribute('aria-label')"), f"Publish deploy {self.drafts[0]}")
        self.page.press("Enter")
        self.page.wait_until("document.activeElement.id == 'no'")
        self.page.press("Tab", "Enter")
        self.said(f"Deploy {self.drafts[0]} is served")
        self.assertEqual(self.serves(), b"<h1>first</h1>")
        self.page.press("Tab")
        self.assertIn("Take back", self.page.value("document.activeElement.getAttribute('aria-label')"))

    def test_a_long_history_with_many_undos_and_a_host_that_is_down(self):
        changes = []
        for number in range(12):
            changes.append(self.stand.deploy({f"/page-{number}.html": b"%d" % number}, "www")["change"])
        for change in (changes[2], changes[9], changes[5], changes[10], changes[1]):
            self.stand.site("undo", change)
        self.page.open(f"{self.stand.address(INTERFACE)}/console/#www")
        self.page.wait_until("document.querySelectorAll('#lines .undo').length == 5")
        self.shoot("many")
        self.stand.host.stop()
        self.click(changes[0], "Take back")
        self.said("The host doesn't answer at the moment")
        self.stand.host.start()
        self.click(changes[0], "Take back")
        self.said(f"took back change {changes[0]}.")


if __name__ == "__main__":
    unittest.main()
