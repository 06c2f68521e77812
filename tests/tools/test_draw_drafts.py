"""clio-draw from two databases: both sides are drafted by a button, lines are drawn, and what the page shows is what clio
writes."""
import csv
import json
import pathlib
import sqlite3
import subprocess
import unittest

import draw_trial
from draw_page import Page
from trial import PROGRAM, TOOLS

OLD = """CREATE TABLE Countries (Code TEXT PRIMARY KEY, Name TEXT);
CREATE TABLE "Ship Orders" (No INTEGER PRIMARY KEY, Placed TEXT, Ship TEXT REFERENCES Countries, Bill TEXT
  REFERENCES Countries);
INSERT INTO Countries VALUES ('DE', 'Germany'), ('FR', 'France'), ('IT', 'Italy');
INSERT INTO "Ship Orders" VALUES (1, '2026-01-02', 'DE', 'FR'), (2, '2026-01-03', 'IT', NULL), (3, NULL, 'FR', 'FR');
"""
NEW = """CREATE TABLE land (code TEXT PRIMARY KEY, label TEXT);
CREATE TABLE sale (number TEXT PRIMARY KEY, day TEXT, ship TEXT REFERENCES land, bill_name TEXT);
"""


def base(path: pathlib.Path, script: str) -> None:
    """A database."""
    made = sqlite3.connect(path)
    made.executescript(script)
    made.close()


class Drafts(Page):
    def draft(self, side: str, place: str, data: bool = False) -> None:
        """Drafts a side."""
        self.browser.click(f'button.draft[data-side="{side}"]')
        self.browser.until("document.getElementById('draft').open")
        self.browser.js(f"(document.getElementById('draft-place').value = {json.dumps(place)}, "
                        f"document.getElementById('draft-data').checked = {json.dumps(data)}, 1)")
        self.browser.click("#draft-do")

    def entered(self, side: str) -> str:
        """The place that the dialog of a side begins with."""
        self.browser.click(f'button.draft[data-side="{side}"]')
        self.browser.until("document.getElementById('draft').open")
        place = self.browser.js("document.getElementById('draft-place').value")
        self.browser.click("#draft-no")
        return str(place)

    def line(self, source: str, target: str, way: str = "") -> None:
        """Draws a line, by a way if there are several."""
        self.browser.drag(f'#source [data-key="{source}"]', f'#target [data-key="{target}"]')
        if way:
            self.browser.until("document.getElementById('ways').open")
            script = "[...document.querySelectorAll('#ways button')].find((b) => b.textContent === %s)" % json.dumps(way)
            self.browser.js(f"({script}.click(), 1)")
        self.until_text(f"line {source} -> {target}{' ' + way if way else ''};")

    def test_from_two_databases_to_a_target(self) -> None:
        folder = draw_trial.room()
        base(folder / "old.db", OLD)
        base(folder / "new.db", NEW)
        self.open(folder)
        self.draft("source", "nowhere.db")
        self.until_shown("#draft-fault", "nowhere.db is no file")
        self.browser.click("#draft-no")
        self.draft("source", "old.db", True)
        self.until_text("set Ship_Orders {")
        self.assertEqual([self.entered("target"), self.entered("source")], ["", "old.db"])
        self.draft("target", "new.db")
        self.until_text("set sale {")
        self.settled()
        self.assertEqual(self.browser.js("document.querySelectorAll('#source .row.column').length"), 6)
        self.line("Countries.Code", "land.code")
        self.line("Countries.Name", "land.label")
        self.line("Ship_Orders.No", "sale.number")
        self.line("Ship_Orders.Placed", "sale.day")
        self.line("Countries.Name", "sale.bill_name", "by Bill")
        self.line("Countries", "sale.ship", "by Ship")
        self.until_text("rows sale from Ship_Orders;")
        self.settled()
        self.browser.click('#target [data-key="land"] .menu')
        script = "[...document.querySelectorAll('#inspector button')].find((b) => b.textContent === 'Countries')"
        self.browser.until(script)
        self.browser.js(f"({script}.click(), 1)")
        self.until_text("rows land from Countries;")
        self.settled()
        self.assertIsNone(self.browser.js("clioDraw.model.live.fault"))
        self.browser.click("#save")
        self.browser.until("document.getElementById('status').textContent.startsWith('saved')")
        shown = self.browser.js("Object.fromEntries(Object.entries(clioDraw.model.live.tables).map(([n, t]) => [n, t.rows]))")
        for words in ["python3", "-B", str(TOOLS / "clio-rules"), "--write"], [PROGRAM, "exchange"]:
            subprocess.run(words, cwd=folder, check=True, capture_output=True)
        for name in "land", "sale":
            with open(folder / "out" / f"{name}.csv", newline="", encoding="utf-8") as file:
                self.assertEqual(shown[name], list(csv.reader(file))[1:])
        sales = {row[0]: row[1:] for row in shown["sale"]}
        self.assertEqual(sales["1"], ["2026-01-02", "DE", "France"])
        self.assertEqual((sales["2"][1], sales["2"][2][:1]), ("IT", "?"))

    def test_files_that_are_there_stay(self) -> None:
        folder = draw_trial.room()
        base(folder / "old.db", OLD)
        (folder / "Countries.csv").write_text("mine")
        self.open(folder)
        before = self.text()
        self.draft("source", "old.db", True)
        self.until_shown("#draft-fault", "Countries.csv is there already")
        self.browser.click("#draft-no")
        self.assertEqual((folder / "Countries.csv").read_text(), "mine")
        self.assertFalse((folder / "Ship_Orders.csv").exists())
        self.assertEqual(self.text(), before)


if __name__ == "__main__":
    unittest.main()
