"""clio-draw's page in Chromium: drawing, both ways in step, undo, saving, reasons, proposals, the keyboard, hostile texts
and large mappings."""
import json
import re
import subprocess
import time
import unittest

import draw_trial
from draw_page import Page
from trial import TOOLS

CURVE = """(() => { const p = document.querySelector('#curves [data-line="0"] .thin');
const q = p.getPointAtLength(p.getTotalLength() / 3), r = document.getElementById('curves').getBoundingClientRect();
return [q.x + r.x, q.y + r.y] })()"""
COLOUR = "getComputedStyle(document.querySelector('%s')).backgroundColor"
SELECTED = "(() => { const t = document.getElementById('text'); return t.value.slice(t.selectionStart, t.selectionEnd) })()"
PATHS = "[...document.querySelectorAll('#picture-paper path')].map((path) => path.getAttribute('d'))"
IN_PICTURE = """(() => { const p = document.querySelector('#picture-paper [data-line="1"] path:not(.wide)');
const q = p.getPointAtLength(p.getTotalLength() / 3), r = p.ownerSVGElement.getBoundingClientRect();
return [q.x + r.x, q.y + r.y] })()"""
ORDER = "[...document.querySelectorAll('.row.set')].map((row) => row.dataset.set).join(' ')"
SAY = "(document.getElementById('whole').textContent = '%s', document.getElementById('status').textContent = '%s', 1)"
PLACE = """(() => { const r = document.querySelector('#target .row').getBoundingClientRect();
return [r.x, r.y, document.documentElement.scrollWidth] })()"""
OTHER_PAGE = """fetch('api/live', { method: 'POST', headers: { 'Content-Type': 'application/json' }, body: JSON.stringify(
{ text: 'mapping 1; source { } target { }', core: false, rows: 9, whole: false }) })"""
OPEN_ALL = """(() => { for (const s of ['source', 'target']) { clioDraw.sides[s].filter = '';
clioDraw.sides[s].collapsed.clear(); } clioDraw.drawTrees(); clioDraw.drawCurves(); })()"""


class Drawing(Page):
    def test_draw_select_delete_undo(self) -> None:
        self.open(draw_trial.copy_of("teams"))
        before = self.text()
        self.browser.drag('#source [data-key="emp.dept"] .port', '#target [data-key="person.phone"]')
        self.until_text("line emp.dept -> person.phone;")
        self.settled()
        self.assertEqual(self.browser.js("document.getElementById('text').value"), self.text())
        self.assertEqual(self.count("#curves .selected"), 1)
        self.until_shown("[data-table=person] tbody", "toys")
        self.browser.js("document.activeElement.blur()")
        self.browser.key("Delete")
        self.browser.until(f"clioDraw.model.text === {json.dumps(before)}")
        self.browser.key("z", modifiers=2)
        self.until_text("line emp.dept -> person.phone;")
        self.browser.key("z", modifiers=2)
        self.browser.until(f"clioDraw.model.text === {json.dumps(before)}")
        self.assertTrue(self.browser.js("document.getElementById('save').disabled"))

    def test_draw_from_the_target_and_into_a_collapsed_set(self) -> None:
        self.open(draw_trial.copy_of("teams"))
        self.browser.drag('#target [data-key="person.phone"] .name', '#source [data-key="dept.city"] .name')
        self.until_text("line dept.city -> person.phone;")
        self.browser.click('#target [data-key="person"]')
        self.browser.until("!document.querySelector('#target [data-key=\"person.phone\"]')")
        start, end = (self.browser.middle(one) for one in ('#source [data-key="emp.dept"] .name',
                                                           '#target [data-key="person"]'))
        self.browser.mouse("mousePressed", start)
        self.browser.move((end[0] - 9, end[1]))
        self.browser.move(end)
        self.browser.until("document.querySelector('#target [data-key=\"person.phone\"]')")
        end = self.browser.middle('#target [data-key="person.phone"]')
        self.browser.move(end)
        self.browser.mouse("mouseReleased", end)
        self.until_text("line emp.dept -> person.phone;")
        self.browser.click('#source [data-key="dept"] .name')  # the next click counts
        self.browser.until("!document.querySelector('#source [data-key=\"dept.city\"]')")

    def test_click_on_a_curve(self) -> None:
        self.open(draw_trial.copy_of("teams"))
        place = self.browser.js(CURVE)
        self.browser.click_at((place[0], place[1]))
        self.browser.until("clioDraw.model.selection?.kind === 'line' && clioDraw.model.selection.index === 0")
        self.assertIn("line emp.name -> person.name;", self.shown("#marks mark"))
        self.choose("#inspector select", "trim")
        self.until_text("line trim(emp.name) -> person.name;")
        self.choose("#inspector select", "pair")
        self.browser.click('#source [data-key="emp.dept"] .name')
        self.until_text("line pair(emp.name, emp.dept) -> person.name;")
        self.browser.click('#source [data-key="dept.city"] .name')
        self.browser.until("document.querySelector('#inspector button:last-of-type').textContent.includes('team.town')")
        self.browser.click("#inspector button:last-of-type")
        self.choose("#inspector select", "pair")
        self.browser.click('#source [data-key="dept.dname"] .name')
        self.until_text("line pair(dept.city, dept.dname) -> team.town;")
        self.settled()
        self.assertIsNone(self.browser.js("clioDraw.model.live.fault"))

    def test_text_changes_the_picture_and_faults_have_their_place(self) -> None:
        self.open(draw_trial.copy_of("teams"))
        self.caret("t.value.length")
        self.browser.type("line emp.dept -> person.phone;\n")
        self.browser.until("document.querySelectorAll('#curves .line').length === 4")
        self.settled()
        self.browser.type("line emp.nam -> person.phone;\n")
        self.browser.until("!document.getElementById('fault').hidden")
        self.browser.until("document.querySelector('#marks mark.bad')?.textContent === 'nam'")
        self.assertIn("perhaps name", self.shown("#fault"))
        self.assertIn("unknown name at byte", self.shown("#fault"))
        self.browser.click("#fault button")
        self.assertEqual(self.browser.js(SELECTED), "nam")
        self.browser.type("name")
        self.browser.until("document.getElementById('fault').hidden")

    def test_condition_text_line_rule(self) -> None:
        self.open(draw_trial.copy_of("teams"))
        self.browser.click('#source [data-key="emp.name"] .name')
        self.browser.until("document.querySelector('#inspector input[type=checkbox]')")
        self.browser.click("#inspector input[type=checkbox]")
        self.until_text("only emp.name filled;")
        self.browser.click('#target [data-key="person.phone"] .name')
        self.browser.until("document.querySelector('#inspector input[type=text]')")
        self.browser.click("#inspector input[type=text]")
        self.browser.type('no "phone"')
        self.browser.key("Enter")
        self.until_text('line "no \\"phone\\"" -> person.phone;')
        self.browser.click("#tab-hand")
        self.browser.click("#panel-hand textarea")
        self.browser.type("rule dept(d, c) -> person(d, c, t);")
        self.browser.click("#panel-hand .card:last-child button")
        self.browser.until("clioDraw.model.text.endsWith('rule dept(d, c) -> person(d, c, t);\\n')")
        self.settled()
        self.assertIsNone(self.browser.js("clioDraw.model.live.fault"))
        self.assertEqual(self.browser.js("clioDraw.model.live.rules.length"), 3)
        self.browser.until("document.querySelectorAll('#curves .rule').length > 0")

    def test_keyboard_alone(self) -> None:
        self.open(draw_trial.copy_of("teams"))
        self.browser.js("document.querySelector('#source .row').focus()")
        for key in "ArrowDown", "ArrowDown", "Enter":
            self.browser.key(key)
        self.browser.until("clioDraw.model.picked?.join('.') === 'emp.dept'")
        self.assertIn("is picked", self.shown("#status"))
        for _ in range(20):
            if self.browser.js("document.activeElement.dataset.key") == "person.phone":
                break
            self.browser.key("ArrowDown")
        self.browser.key("Enter")
        self.until_text("line emp.dept -> person.phone;")
        self.settled()
        self.assertEqual(self.browser.js("document.activeElement.dataset.key"), "person.phone")
        self.browser.key("Delete")
        self.browser.until("!clioDraw.model.text.includes('line emp.dept')")
        self.browser.key("s", modifiers=2)
        self.browser.until("document.getElementById('status').textContent === 'saved'")
        self.browser.key("Escape")
        self.browser.js("document.querySelector('#target [data-key=\"team.label\"]').focus()")
        self.browser.key("Delete")
        self.browser.until("!clioDraw.model.text.includes('line dept.dname')")
        self.browser.js("document.querySelector('#target [data-key=\"team\"]').focus()")
        self.browser.key("ContextMenu")
        self.browser.until("document.querySelector('#inspector [aria-label=Columns]')")

    def test_names_for_screen_readers(self) -> None:
        self.open(draw_trial.copy_of("teams"))
        nodes = [node for node in self.browser.send("Accessibility.getFullAXTree")["nodes"] if not node.get("ignored")]
        named = {(node.get("role", {}).get("value"), node.get("name", {}).get("value")) for node in nodes}
        for one in (("tree", "Source sets and columns"), ("treeitem", "set emp, 2 columns"),
                    ("treeitem", "column dept of emp, ref to dept.dname"), ("status", ""), ("button", "Save"),
                    ("treeitem", "column label of team, key, 1 line from dept.dname"), ("tab", "Rules (2)"),
                    ("textbox", "mapping.clio")):
            self.assertIn(one, named)
        kinds = "button", "checkbox", "textbox", "combobox", "searchbox", "treeitem", "tab"
        self.assertEqual([one for one in named if one[0] in kinds and not one[1]], [])

    def test_conflict(self) -> None:
        folder = draw_trial.copy_of("teams")
        self.open(folder)
        self.caret("0")
        self.browser.type("// mine\n")
        self.settled()
        theirs = "// theirs\n" + (folder / "mapping.clio").read_text()
        (folder / "mapping.clio").write_text(theirs)
        self.browser.click("#save")
        self.browser.until("document.getElementById('conflict').open")
        self.browser.click("#conflict-load")
        self.browser.until(f"clioDraw.model.text === {json.dumps(theirs)}")
        self.browser.click("#undo")
        self.browser.until("clioDraw.model.text.startsWith('// mine')")
        self.browser.click("#save")
        self.browser.until("document.getElementById('status').textContent === 'saved'")
        self.assertTrue((folder / "mapping.clio").read_text().startswith("// mine"))


    def test_picture(self) -> None:
        """It is that of clio-picture, and a click on a line selects it."""
        folder = draw_trial.copy_of("teams")
        self.open(folder)
        self.browser.click("#show-picture")
        self.browser.until("document.getElementById('picture').open")
        ended = subprocess.run(["python3", "-B", TOOLS / "clio-picture", folder], check=True, capture_output=True)
        self.assertEqual(self.browser.js(PATHS), re.findall(r'<path d="([^"]*)"', ended.stdout.decode()))
        place = self.browser.js(IN_PICTURE)
        self.browser.click_at((place[0], place[1]))
        self.browser.until("clioDraw.model.selection?.kind === 'line' && clioDraw.model.selection.index === 1")
        self.assertFalse(self.browser.js("document.getElementById('picture').open"))

    def test_sets_are_arranged(self) -> None:
        """They are in an order in which lines don't cross, and in that of the text again."""
        self.open(draw_trial.copy_of("teams"))
        self.assertEqual(self.browser.js(ORDER), "emp dept team person")
        self.browser.click("#arrange")
        self.browser.until(f"['dept emp team person', 'emp dept person team'].includes({ORDER})")
        self.browser.click("#arrange")
        self.browser.until(f"{ORDER} === 'emp dept team person'")


class Steady(Page):
    def test_what_the_page_says_moves_nothing(self) -> None:
        """A row that is pressed stays below the pointer while a run ends."""
        self.open(draw_trial.copy_of("teams"))
        self.addCleanup(self.browser.size, 1400, 900)
        self.settled()
        for width in 1400, 1040, 700:
            self.browser.size(width, 900)
            places = [(self.browser.js(SAY % (whole, status)), self.browser.js(PLACE))[1]
                      for whole in ("", "the whole source is being read") for status in ("", "saved", "word " * 80)]
            self.assertEqual(places, places[:1] * 6, width)


class Results(Page):
    def test_another_page_has_run_since(self) -> None:
        self.open(draw_trial.copy_of("teams"))
        self.browser.js(OTHER_PAGE)
        self.browser.click('[data-table="team"] tbody tr')
        self.until_shown("#why", "earlier run")

    def test_a_clash_is_shown_at_its_columns(self) -> None:
        folder = draw_trial.copy_of("teams")
        with open(folder / "dept.csv", "a", encoding="utf-8") as file:
            file.write("toys,Rome\n")
        self.open(folder)
        self.until_shown("#fault", "dept.csv, line 4")
        self.assertEqual(self.browser.js("[...document.querySelectorAll('.row.clash')].map((r) => r.dataset.key).join()"),
                         "team.label,team.town")

    def test_why(self) -> None:
        self.open(draw_trial.copy_of("teams"))
        self.browser.click('[data-table="team"] tbody tr')
        self.browser.until("document.getElementById('why') && !document.getElementById('why').hidden")
        for one in ("3 matches ask for it", "emp.csv line 2",
                    "two rows of team agree on its key (label): label = toys", "?0.1.1"):
            self.assertIn(one, self.shown("#why"))
        self.assertEqual(self.count("#curves .because"), 2)
        self.browser.click("[data-table=team] h3 button")
        self.until_shown("[data-table=team] .groups", "1 row is there by rules 0 and 1")
        self.until_shown("[data-table=team] .groups", "1 row is there by rule 1")
        self.assertEqual(self.browser.js(COLOUR % "[data-table=team] tbody .null"),
                         self.browser.js(COLOUR % "[data-table=person] tbody tr td:last-child .null"))

    def test_why_not(self) -> None:
        folder = draw_trial.copy_of("teams")
        with open(folder / "emp.csv", "a", encoding="utf-8") as file:
            file.write("cy,cars\n")
        self.open(folder)
        self.browser.click("#tab-sources")
        self.browser.until("document.querySelector('[data-source=emp] tr.unused')")
        self.browser.click("[data-source=emp] tr.unused td:nth-child(2)")
        self.browser.until("document.querySelector('#panel-sources aside button:not(.close)')")
        self.browser.click("#panel-sources aside button:not(.close)")
        self.browser.until("clioDraw.model.text.includes('dept (dname) optional;') "
                           "&& clioDraw.model.text.startsWith('mapping 2;')")
        self.settled()
        self.browser.click("#tab-rows")
        self.until_shown("[data-table=person]", "cy")

    def test_proposals(self) -> None:
        folder = draw_trial.copy_of("shop")
        lines = (folder / "mapping.clio").read_text().splitlines()
        text = "\n".join(line for line in lines if not line.startswith("line customer")) + "\n"
        (folder / "mapping.clio").write_text(text)
        self.open(folder)
        self.browser.click("#tab-proposals")
        self.browser.until("document.querySelectorAll('#panel-proposals li').length > 1")
        self.assertEqual(self.text(), text)
        button = '#panel-proposals [aria-label="Draw customer.e_mail to person.mail"]'
        self.browser.click(button)
        self.until_text("line customer.e_mail -> person.mail;")
        self.browser.until(f"!document.querySelector({json.dumps(button)})")
        label = self.browser.js("document.querySelector('#panel-proposals [aria-label^=Refuse]').ariaLabel")
        refuse = f"#panel-proposals [aria-label={json.dumps(label)}]"
        self.browser.click(refuse)
        self.browser.until(f"!document.querySelector({json.dumps(refuse)})")
        self.caret("0")
        self.browser.type("// more\n")
        self.settled()
        self.browser.js("new Promise((done) => setTimeout(done, 300))")
        self.assertEqual(self.count(refuse), 0)

    def test_hostile_texts_stay_texts(self) -> None:
        folder = draw_trial.room()
        bad = "<img src=x onerror=\"document.title='bad'\"><script>document.title='bad'</script>"
        (folder / "mapping.clio").write_text(
            f"mapping 1; // {bad}\nsource {{ set a {{ x; }} }} target {{ set b {{ y, z; }} }}\nline a.x -> b.y;\n"
            f"line {json.dumps(bad)} -> b.z;\n")
        quoted = bad.replace('"', '""')
        (folder / "a.csv").write_text(f'x\n"{quoted}"\n?0.0.0\n"a\u202eb"\n')
        self.open(folder)
        self.until_shown("[data-table=b] tbody", "<img")
        self.browser.click('[data-table="b"] tbody tr:last-child')
        self.browser.until("!document.getElementById('why').hidden")
        for tab in "examples", "rules", "lines", "sources", "warnings", "proposals", "hand":
            self.browser.click(f"#tab-{tab}")
            time.sleep(.2)
        self.assertEqual(self.count("img, #panels script"), 0)
        self.assertNotEqual(self.browser.js("document.title"), "bad")

    def test_large(self) -> None:
        self.open(draw_trial.large(200))
        self.assertLess(self.count(".row"), 200)
        for side, text, script in (("source", "invoice_14", "document.querySelectorAll('#source .row').length < 40"),
                                   ("target", "mail",
                                    "document.querySelectorAll('#target .row.column').length > 10")):
            self.browser.js(f"(() => {{ const f = document.getElementById('{side}-filter'); f.value = '{text}'; "
                            "f.dispatchEvent(new Event('input')) })()")
            self.browser.until(script)
        self.browser.js(OPEN_ALL)
        counts = self.browser.js("clioDraw.drawnCounts()")
        self.assertLess(counts["drawn"], 60)
        self.assertGreater(counts["of"], 250)


if __name__ == "__main__":
    unittest.main()
