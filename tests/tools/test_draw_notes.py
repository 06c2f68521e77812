"""clio-draw's page in Chromium on drawings: ways are asked for at once, rows are chosen by a click, the text becomes a
drawing; sets change by menus; large files are read whole behind their sample."""
import csv
import json
import unittest

import draw_trial
from draw_page import Page

BARE = """mapping 1;
source {
  set flight { no, dep, arr; ref (dep) -> port (code); ref (arr) -> port (code); }
  set port { code, city; }
}
target { set leg { no, a, b; key (no); } }
"""
BUTTON = "[...document.querySelectorAll('%s')].find((b) => b.textContent === %s)"


class Notes(Page):
    def press(self, where: str, title: str) -> None:
        """Presses the button with a title."""
        script = BUTTON % (f"{where} button", json.dumps(title))
        self.browser.until(script)
        self.browser.js(f"({script}.click(), 1)")

    def rows(self, table: str) -> list[list[str]]:
        """The rows of a target table on the page."""
        found: list[list[str]] = self.browser.js(
            f"[...document.querySelectorAll('[data-table={table}] tbody tr')]"
            ".map((row) => [...row.cells].slice(1).map((cell) => cell.textContent))")
        return found

    def test_a_line_with_several_ways_asks_at_once(self) -> None:
        folder = draw_trial.copy_of("flights")
        (folder / "drawing.clio").unlink()
        (folder / "mapping.clio").write_text(BARE)
        self.open(folder)
        self.browser.drag('#source [data-key="flight.no"]', '#target [data-key="leg.no"]')
        self.until_text("line flight.no -> leg.no;")
        for column, way, other in ("a", "dep", "Frankfurt"), ("b", "arr", "New York"):
            self.browser.drag('#source [data-key="port.city"]', f'#target [data-key="leg.{column}"]')
            self.browser.until("document.getElementById('ways').open")
            self.assertIn(f"city of the port that {way} leads to{other} for no = F1", self.shown("#ways-list"))
            self.press("#ways", f"by {way}")
            self.until_text(f"line port.city -> leg.{column} by {way};")
        self.settled()
        self.assertEqual(self.text(), BARE + "rows leg from flight;\nline flight.no -> leg.no;\n"
                         "line port.city -> leg.a by dep;\nline port.city -> leg.b by arr;\n")
        self.browser.until("clioDraw.model.live.tables")
        rows = self.rows("leg")
        self.assertEqual(rows[0], ["F1", "Frankfurt", "New York"])
        self.assertEqual((rows[1][:2], rows[2][0], rows[2][2]), (["F2", "Frankfurt"], "F3", "New York"))
        before = (folder / "mapping.clio").read_text()
        self.browser.click("#save")
        self.until_shown("#status", "saved as drawing.clio: remove mapping.clio, then clio-rules --write makes it anew")
        self.assertEqual((folder / "drawing.clio").read_text(), self.text())
        self.assertEqual((folder / "mapping.clio").read_text(), before)

    def test_a_question_can_be_left_open(self) -> None:
        self.open(draw_trial.copy_of("flights"))
        before = self.text()
        self.browser.drag('#source [data-key="port.code"]', '#target [data-key="leg.no"]')
        self.browser.until("document.getElementById('ways').open")
        self.browser.key("Escape")
        self.browser.until("!document.getElementById('ways').open")
        self.assertEqual(self.text(), before)

    def test_rows_are_chosen_by_a_click(self) -> None:
        self.open(draw_trial.copy_of("teams"))
        self.browser.click('#target [data-key="person"] .menu')
        self.until_shown("#inspector", "Its rows are what lines to it, and to team, say: its refs lead there.")
        self.press("#inspector", "emp")
        self.until_text("rows person from emp;\nline emp.name -> person.name;")
        self.until_shown('#target [data-key="person"] .menu', "from emp")
        self.choose("#inspector .origin select", "dept")
        self.until_text("rows person from dept;\n")
        self.browser.until("document.querySelector('#marks mark.bad')")
        self.choose("#inspector .origin select", "emp")
        self.until_text("rows person from emp;\n")
        self.press("#inspector .origin", "delete")
        self.browser.until("!clioDraw.model.text.includes('rows ')")

    def test_what_is_left_out_is_said(self) -> None:
        """A first line in a target of many refs: the set of which lines say too much waits, the others have rows."""
        folder = draw_trial.copy_of("northwind")
        text = (folder / "drawing.clio").read_text()
        (folder / "drawing.clio").write_text(text[:text.index("// Each row")] + "rows country from Countries;\n"
                                             "line Countries.Code -> country.code;\n"
                                             "line Countries.Name -> country.name;\n")
        self.open(folder)
        self.until_shown("#fault", "Left out: sale, sale_line.")
        self.until_shown("[data-table=country] tbody", "Name 1")
        self.press("#fault", "sale from ..")
        self.until_shown("#inspector", "set sale")

    def test_rows_without_a_line_wait(self) -> None:
        """A set whose rows were chosen makes none until a line is drawn; the others stay."""
        self.open(draw_trial.copy_of("flights"))
        self.caret("t.value.indexOf('set leg')")
        self.browser.type("set town { name; } ")
        self.browser.until("document.querySelector('#target [data-key=town] .menu')")
        self.browser.click('#target [data-key="town"] .menu')
        self.browser.until("document.querySelector('#inspector .origin select')")
        self.browser.js("(document.querySelector('#inspector .origin select').value = 'port', 1)")
        self.press("#inspector .origin", "take it")
        self.until_shown("#fault", "No line yet: town from port.")
        self.until_shown("[data-table=leg] tbody", "Frankfurt")
        self.browser.drag('#source [data-key="port.city"] .port', '#target [data-key="town.name"]')
        self.browser.until("document.getElementById('fault').hidden")
        self.until_shown("[data-table=town] tbody", "Frankfurt")

    def test_a_limit_is_said_beside_the_rows(self) -> None:
        """A mapping without notes of more lines than clio takes: what it draws, and the rows of each set, are there."""
        folder = draw_trial.copy_of("teams")
        text = (folder / "mapping.clio").read_text()
        (folder / "mapping.clio").write_text(text + "line emp.name -> person.name;\n" * 512)
        self.open(folder)
        self.until_shown("#fault", "limit: lines 512")
        self.until_shown("#fault", "Left out: person.")
        self.until_shown("[data-table=team] tbody", "Bonn")
        self.assertEqual(self.count('#target [data-key="person.name"].lined'), 1)

    def test_a_way_is_offered_where_one_is_missing(self) -> None:
        folder = draw_trial.copy_of("flights")
        text = (folder / "drawing.clio").read_text().replace(" by dep;  ", ";  ")
        (folder / "drawing.clio").write_text(text)
        self.open(folder)
        self.until_shown("#fault", "several ways lead from flight to port")
        self.assertEqual(self.shown("#marks mark.bad"), "port")
        self.press("#fault", "by dep")
        self.until_text("line port.city -> leg.a by dep;")
        self.settled()
        self.assertIsNone(self.browser.js("clioDraw.model.live.fault"))

    def test_texts_tests_and_lookups(self) -> None:
        self.open(draw_trial.copy_of("flights"))
        self.browser.click('#source [data-key="port"] .menu')
        self.browser.until("document.querySelector('#inspector input[type=checkbox]')")
        self.browser.click("#inspector input[type=checkbox]")
        self.until_text("lookup port;")
        self.browser.click("#tab-lines")
        self.press("#panel-lines li:nth-child(2)", "select")
        self.browser.js("(() => { const f = document.querySelector('#inspector [aria-label=Where]'); f.focus(); "
                        "f.value = 'no = \"F1\"' })()")
        self.press("#inspector", "set")
        self.until_text('line port.city -> leg.a by dep where no = "F1";')
        self.settled()
        self.assertIsNone(self.browser.js("clioDraw.model.live.fault"))

    def test_a_line_from_a_whole_set(self) -> None:
        folder = draw_trial.copy_of("teams")
        text = (folder / "mapping.clio").read_text() + "rows person from emp;\nrows team from dept;\n"
        (folder / "drawing.clio").write_text(text)
        self.open(folder)
        self.browser.drag('#source [data-key="dept"]', '#target [data-key="person.team"]')
        self.until_text("line dept -> person.team;")
        self.settled()
        self.assertEqual(self.count("#curves .selected"), 1)
        self.browser.drag('#source [data-key="dept"]', '#target [data-key="person.phone"]')
        self.until_shown("#status", "goes to a column with a ref")

    def test_keys_and_refs_by_a_menu(self) -> None:
        self.open(draw_trial.copy_of("teams"))
        before = self.text()
        self.browser.click('#target [data-key="person"] .menu')
        self.browser.until("document.querySelector('#inspector [aria-label=Columns]')")
        self.browser.click("#inspector [aria-label=Columns]")
        self.browser.type("name")
        self.press("#inspector", "add")
        self.until_text("key (name);")
        self.browser.until("document.querySelector('#inspector [aria-label=\"Delete key (name)\"]')")
        self.browser.click('#inspector [aria-label="Delete key (name)"]')
        self.browser.until(f"clioDraw.model.text === {json.dumps(before)}")

    def test_a_warning_has_its_cure(self) -> None:
        folder = draw_trial.copy_of("teams")
        with open(folder / "emp.csv", "a", encoding="utf-8") as file:
            file.write("cy,cars\n")
        self.open(folder)
        self.browser.click("#tab-warnings")
        self.press("#panel-warnings", "make the ref (dept) of emp optional")
        self.until_text("dept (dname) optional;")


class Whole(Page):
    def test_the_whole_source_follows_its_sample(self) -> None:
        folder = draw_trial.room()
        (folder / "mapping.clio").write_text("mapping 1; source { set a { x, y; } } target { set b { u, v; key (u); } }\n"
                                             "line a.x -> b.u;\n")
        with open(folder / "a.csv", "w", newline="", encoding="utf-8") as file:
            csv.writer(file).writerows([["x", "y"], *[[f"x{n}", f"y{n}"] for n in range(24000)]])
        self.open(folder)
        self.until_shown("#target .count", "24,000 rows")
        self.assertNotIn("+", self.shown("#target .count"))
        self.caret("t.value.length")
        self.browser.type("rule a(p, q) -> b(q, p);\n")
        self.until_shown("#target .count", "48,000 rows (+24,000)")
        self.browser.click("#save")
        self.browser.until("document.getElementById('status').textContent === 'saved'")
        with open(folder / "a.csv", "a", encoding="utf-8") as file:
            file.write("y7,y8\n")
        self.caret("t.value.length")
        self.browser.type("// again\n")
        self.until_shown("#fault", "The text x8 is from")
        self.assertIn("a.csv line 24002 (record 24001)", self.shown("#fault"))
        self.assertIn("a.csv line 10 (record 9)", self.shown("#fault"))


if __name__ == "__main__":
    unittest.main()
