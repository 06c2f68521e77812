"""clio-why: the reasons of examples, worked out by hand; what it prints and how it ends; hostile texts; nested sets;
numbers of clio-ids."""
import json
import os
import re
import shutil
import sqlite3
import subprocess
import unittest

from trial import PROGRAM, TOP, Trial

from clio_tools.why.finding import rows_of, values_of
from clio_tools.why.reasons import Reasons
from clio_tools.why.words import Words

DOCUMENTS = """mapping 2;
source {
  set unit { uname, place; ref (place) -> town (tname); set staff { sname, tel; } }
  set town { tname; }
}
target { set team { label, town; key (label); set person { name, number; key (name); } } }
line unit.uname -> team.label;
line unit.place -> team.town;
line staff.sname -> person.name;
line digits(staff.tel) -> person.number;
only staff.tel filled;
"""
UNITS = [{"uname": "toys", "place": "Bonn", "staff": [{"sname": "ann", "tel": "+1-2"}, {"sname": "bob", "tel": ""}]},
         {"uname": "books", "place": "Rome", "staff": [{"sname": "cyd", "tel": "3"}]}]
HOSTILE = ["?", "?0.0.0", "\x1b[31mred", "a,b", 'say "b"', "two\nlines", "ü\u202e", " ", "x" * 300, "=1+1", "-n"]


class Said(Trial):
    """A folder in which clio ran, with the program on the path."""

    def setUp(self) -> None:
        super().setUp()
        bin_folder = self.folder / "bin"
        bin_folder.mkdir()
        (bin_folder / "clio").symlink_to(PROGRAM)
        before = os.environ["PATH"]
        os.environ["PATH"] = f"{bin_folder}{os.pathsep}{before}"
        self.addCleanup(os.environ.__setitem__, "PATH", before)

    def example(self, name: str, *words: str) -> Reasons:
        """The reasons of an example."""
        for path in (TOP / "examples" / name).iterdir():
            if path.is_file():
                shutil.copy(path, self.folder / path.name)
        return self.exchanged(*words)

    def exchanged(self, *words: str) -> Reasons:
        """The reasons of the folder after an exchange."""
        self.assertEqual(self.clio("exchange", *words)[0], 0)
        return Reasons.of_folder(self.folder)

    def shop(self) -> Reasons:
        """The reasons of the shop, whose files are of a database."""
        for name in "make-shop", "mapping.clio":
            shutil.copy(TOP / "examples" / "shop" / name, self.folder / name)
        subprocess.run(["./make-shop"], cwd=self.folder, check=True)
        self.printed("clio-draft", "sqlite", "shop.db", "--data", ".", "--mapping", "mapping.clio")
        return self.exchanged()

    def given(self, reasons: Reasons, name: str, row: tuple[str, ...]) -> list[tuple[str, ...]]:
        """Where the cells of a row are from, in short."""
        return [(cell.column, cell.kind, *(f"{one.set}.{one.column} {one.row.where}" for one in cell.given),
                 cell.part.text if cell.part else "") for cell in reasons.row(name, row).cells]

    def test_teams(self) -> None:
        reasons = self.example("teams")
        row = ("?0.1.0", "toys", "Bonn")
        self.assertEqual(self.given(reasons, "team", row), [
            ("tid", "open", ""),
            ("label", "column", "dept.dname dept.csv, line 2 (record 1)", "line dept.dname -> team.label;"),
            ("town", "column", "dept.city dept.csv, line 2 (record 1)", "line dept.city -> team.town;")])
        reason = reasons.row("team", row)
        self.assertEqual((reason.count, reason.rules), (3, ((0, 2), (1, 1))))
        self.assertEqual(reason.cells[0].shared, ("person.team", "team.tid"))
        asked = [(match.rule, match.place, match.row, [row.texts for row in match.sources[0]])
                 for match in reason.asked]
        self.assertEqual(asked, [
            (0, 0, ("?0.1.0", "toys", "Bonn"), [("ann", "toys"), ("toys", "Bonn")]),
            (0, 1, ("?0.1.1", "toys", "Bonn"), [("bob", "toys"), ("toys", "Bonn")]),
            (1, 1, ("?1.0.1", "toys", "Bonn"), [("toys", "Bonn")])])
        self.assertEqual([(one.null, one.value, one.by, one.columns, one.agreed, one.part.text if one.part else "")
                          for one in reason.replaced],
                         [(null, "?0.1.0", "key", ("label",), ("toys",), "key (label);")
                          for null in ("?0.1.1", "?1.0.1")])
        found = reasons.source_fact(reasons.source_rows("emp", {"name": "bob"})[0])
        self.assertEqual([(one.set, one.row, one.rule, one.place) for one in found.made],
                         [("person", ("bob", "?0.0.1", "?0.1.0"), 0, 1), ("team", row, 0, 1)])

    def test_shop(self) -> None:
        reasons = self.shop()
        person = reasons.row("person", ("?1.0.0", "Ann Ore", "ann@example.org"), None)
        self.assertEqual([(match.rule, match.place) for match in person.asked],
                         [(1, 0), (2, 0), (2, 2), (3, 0), (3, 1), (3, 3), (3, 4)])
        self.assertEqual({(one.null, one.value, one.by, one.agreed) for one in person.replaced},
                         {(null, "?1.0.0", "key", ("ann@example.org",))
                          for null in ("?2.0.0", "?2.0.2", "?3.1.0", "?3.1.1", "?3.1.3", "?3.1.4")})
        self.assertEqual(self.given(reasons, "bought", ("103", "?0.0.0", "5")), [
            ("number", "column", "order.id order.csv, line 4 (record 3)", "line order.id -> purchase.number;"),
            ("aid", "open", ""),
            ("quantity", "column", "order_item.amount order_item.csv, line 6 (record 5)",
             "line order_item.amount -> bought.quantity;")])
        bought = reasons.row("bought", ("103", "?0.0.0", "5"))
        self.assertEqual([[row.file for row in match.sources[0]] for match in bought.asked],
                         [["order_item.csv", "order.csv", "customer.csv", "product.csv"]])
        self.assertEqual([(one.null, one.value, one.set, one.agreed) for one in bought.replaced],
                         [("?3.0.4", "?0.0.0", "article", ("I-01",))])
        self.assertEqual(reasons.source_row("category", 0).misses[0].kind, "unread")

    def test_missed(self) -> None:
        """A ref of a set on the way; then a condition on it as well; and what keeps the rows."""
        self.shop()
        for name, lines in [("order.csv", "104,9,2026-04-01\n106, 10,2026-04-02\n"), ("customer.csv", "10, Zoe,zoe\n"),
                            ("order_item.csv", "104,1,1\n105,1,1\n")]:
            self.file(name, (self.folder / name).read_text() + lines)
        reasons = self.exchanged()

        def missed(name: str, **texts: str) -> list[tuple[object, ...]]:
            fact, = reasons.source_rows(name, texts)
            return [(one.kind, one.from_set, one.from_columns, one.set, one.columns, one.texts, one.near)
                    for one in reasons.source_fact(fact).misses]

        of_order = ("ref", "order", ("customer",), "customer", ("id",), ("9",), "")
        self.assertEqual(missed("order", id="104"), [of_order])
        self.assertEqual(missed("order_item", order="104"), [of_order])
        self.assertEqual(missed("order_item", order="105"),
                         [("ref", "order_item", ("order",), "order", ("id",), ("105",), "")])
        self.assertEqual(missed("order", id="106"),
                         [("ref", "order", ("customer",), "customer", ("id",), (" 10",), "10")])
        text = (self.folder / "mapping.clio").read_bytes()
        fact, = reasons.source_rows("order", {"id": "104"})
        edits = sorted(reasons.source_fact(fact).edits, key=lambda one: one.start)
        self.assertEqual([(text[:edit.start].count(b"\n") + 1, text[edit.start:edit.end], edit.text) for edit in edits],
                         [(1, b"1", "2"), (25, b"", " optional")])
        self.assertTrue(text[:edits[1].start].endswith(b"ref (customer) -> customer (id)"))
        self.file("mapping.clio", text.replace(b"mapping 1", b"mapping 2") + b"only order.placed numeric;\n")
        reasons = self.exchanged()
        of_test = ("condition", "", (), "order", ("placed",), ("2026-04-01",), "")
        self.assertEqual(missed("order", id="104"), [of_test, of_order])
        fact, = reasons.source_rows("order", {"id": "104"})
        self.assertEqual({edit.text for edit in reasons.source_fact(fact).edits}, {"", " optional"})
        self.assertEqual(reasons.source_rows("order_item", {"order": "103"})[0].place.line, 5)
        item = reasons.source_fact(reasons.source_rows("order_item", {"order": "103", "product": "4"})[0])
        self.assertEqual([(one.kind, one.failing.texts[0] if one.failing else "") for one in item.misses],
                         [("ref", "103")])

    def test_equal_columns(self) -> None:
        """Rules written by hand that take only rows in which columns are equal."""
        self.file("mapping.clio", "mapping 2; source { set a { x, y; } set b { u, v, w; } } target { set c { z; } }"
                  " rule a(x, x) -> c(x); rule b(u, v, w), a(u, v) -> c(w); only a.y filled;")
        self.file("a.csv", "x,y\n1,2\n3,\n")
        self.file("b.csv", "u,v,w\n3,,7\n1,2,8\n5,6,9\n")
        self.exchanged()
        self.assertIn("8", (self.folder / "out" / "c.csv").read_text())
        self.assertEqual(self.printed("clio-why", "--not", "b", "3").splitlines(), [
            'b.csv, line 2 (record 1): u = "3", v = "", w = "7"', "no rule uses it:",
            '  no row of a has x = "3", y = "", as b (u, v) asks for it, by rule 1 (mapping.clio, line 1)',
            '    one that has it fails a condition: a.csv, line 3 (record 2): x = "3", y = ""',
            "kept by this change of mapping.clio:", "  line 1: without only a.y filled;",
            "rule 1: b(x0, x1, x2), a(x0, x1) -> c(x2);"])
        self.file("a.csv", "x,y\n1,2\n4,4\n")
        self.file("mapping.clio", "mapping 1; source { set a { x, y; } set b { u; } set e { k, p, q; } }"
                  " target { set c { z; } set d { z; } } rule a(x, x) -> c(x); rule b(u), a(u, u) -> d(u);"
                  " rule b(u), e(u, w, w) -> d(w);")
        self.file("b.csv", "u\n1\n4\n")
        self.file("e.csv", "k,p,q\n1,2,3\n")
        self.exchanged()
        self.assertIn('\n  rule 0 takes rows in which x and y are equal: x = "1" and y = "2"\n',
                      self.printed("clio-why", "--not", "a", "1", "2"))
        said = self.printed("clio-why", "--not", "b", "1")
        self.assertIn('\n  no row of a has x = "1", y = "1", as b (u, u) asks for it, by rule 1', said)
        self.assertIn('\n  no row of e with p = q has k = "1", as b (u) asks for it, by rule 2', said)

    def test_documents(self) -> None:
        """Inner sets: rows by their place in the document; a row that fails a condition; an inner row of an outer one
        that misses its town."""
        self.file("mapping.clio", DOCUMENTS)
        self.file("unit.json", json.dumps(UNITS))
        self.file("town.csv", "tname\nBonn\n")
        reasons = self.exchanged()
        teams = (self.folder / "out" / "team.csv").read_text().splitlines()[1:]
        self.assertEqual(len(teams), 1)
        reason = reasons.row("team", tuple(teams[0].split(",")))
        self.assertEqual({given.row.where for cell in reason.cells for given in cell.given}, {"unit.json/0"})
        person = (self.folder / "out" / "person.csv").read_text().splitlines()[1]
        reason = reasons.row("person", tuple(person.split(",")))
        self.assertEqual([(cell.column, cell.kind, cell.conversion, [given.row.where for given in cell.given])
                          for cell in reason.cells],
                         [("#up", "open", "", []), ("name", "column", "", ["unit.json/0/staff/0"]),
                          ("number", "conversion", "digits", ["unit.json/0/staff/0"])])
        bob, cyd = (reasons.source_fact(reasons.source_rows("staff", {"sname": name})[0]) for name in ("bob", "cyd"))
        self.assertEqual((bob.row.where, cyd.row.where), ("unit.json/0/staff/1", "unit.json/1/staff/0"))
        self.assertEqual([(one.kind, one.test) for one in bob.misses], [("condition", "filled")])
        self.assertEqual([(one.kind, one.from_set, one.texts) for one in cyd.misses], [("ref", "unit", ("Rome",))])

    def test_hostile_texts(self) -> None:
        """Whatever a text is, its row is found by it, and nothing of it reaches the terminal but what can be seen."""
        self.file("mapping.clio", "mapping 1; source { set key { set, rule; } }"
                  " target { set line { key, where; key (key); } }"
                  " line key.set -> line.key; line key.rule -> line.where;")
        quoted = ['"' + text.replace('"', '""') + '"' for text in HOSTILE]
        self.file("key.csv", "set,rule\n" + "".join(f"{text},{number}\n" for number, text in enumerate(quoted)))
        reasons = self.exchanged()
        words = Words(reasons.exchange.printed, reasons.exchange.content)
        table = reasons.exchange.mapping.target[0]
        for number, text in enumerate(HOSTILE):
            with self.subTest(text):
                row, = rows_of(self.folder / "out" / "line.csv", table, [{"key": values_of(text)}])
                self.assertEqual(row.values[1], str(number))
                fact, = reasons.source_rows("key", {"set": text})
                there = words.of_row(reasons.row("line", row.values), "here")
                for lines in list(there), list(words.of_source_row(reasons.source_fact(fact))):
                    self.assertTrue(all(line.isprintable() for line in lines), lines)
                    self.assertIn(f'"{number}"', " ".join(lines))
        for text in HOSTILE[1], HOSTILE[2], HOSTILE[10]:
            said = self.printed("clio-why", "line", f"key={text}")
            self.assertTrue(all(sign.isprintable() or sign == "\n" for sign in said), said)
            self.assertIn(f'"{HOSTILE.index(text)}"', said)
        reason = json.loads(self.printed("clio-why", "--json", "line", f"key={HOSTILE[2]}"))["reasons"][0]
        self.assertEqual((reason["row"], reason["cells"][0]["given"][0]["text"]), ([HOSTILE[2], "2"], HOSTILE[2]))

    def test_other_runs(self) -> None:
        """No reason is given of files that are of another run than the sources, and none is looked for in a device."""
        self.example("teams")
        self.printed("clio-why", "person", "name=ann")
        self.file("emp.csv", "name,dept\nann,books\nbob,toys\n")
        self.refused("clio-why", "person", "name=ann", why="out is not of these files, run clio exchange again")
        self.clio("exchange")
        self.printed("clio-why", "person", "name=ann")
        (self.folder / "out" / "fold.csv").unlink()
        (self.folder / "out" / "fold.csv").symlink_to("/dev/zero")
        self.refused("clio-why", "person", "name=ann", why="out/fold.csv is missing, or is no file")

    def test_printed(self) -> None:
        """What is printed, how it ends, and what is refused."""
        self.example("teams")
        said = self.printed("clio-why", "team", "toys")
        self.assertEqual(said.splitlines()[:5], [
            "team, line 2 of out/team.csv:",
            "  tid    ?0.1.0: nobody gave it: rule 0 left it open at place 0; it is in person.team, team.tid",
            '  label  "toys": dept.dname in dept.csv, line 2 (record 1), by rule 0'
            ' (mapping.clio, line 11: line dept.dname -> team.label)',
            '  town   "Bonn": dept.city in dept.csv, line 2 (record 1), by rule 0'
            ' (mapping.clio, line 12: line dept.city -> team.town)',
            "3 matches ask for it (2 of rule 0, 1 of rule 1):"])
        self.assertEqual(self.tool("clio-why", "team", "cars")[:2], (1, ""))
        self.assertEqual(self.tool("clio-why", "--not", "emp", "zed"), (1, "", "clio-why: no row of emp has zed\n"))
        self.refused("clio-why", "gone", "x", why="the target has no set gone; it has team, person")
        self.refused("clio-why", "--not", "team", "x", why="the source has no set team; it has emp, dept")
        self.refused("clio-why", "team", "1", "2", "3", "4", why="team has 3 columns, and here are 4 values")
        self.refused("clio-why", "team", why="usage")
        self.refused("clio-why", "team", "toys", "--ids", "gone.db", why="gone.db is no file")
        self.file("emp.csv", "name,dept\nzed,toys\n")
        self.refused("clio-why", "person", "ann", why="out is not of these files, run clio exchange again")
        text = (self.folder / "mapping.clio").read_text()
        self.file("mapping.clio", text.replace("line dept.city -> team.town;", ""))
        said = self.printed("clio-why", "person", "zed")
        self.assertTrue(said.startswith("person:\n"), said)
        shutil.rmtree(self.folder / "out")
        self.assertEqual(self.printed("clio-why", "person", "zed"), said)
        self.assertFalse((self.folder / "out").exists())
        (self.folder / "emp.csv").unlink()
        self.refused("clio-why", "person", "zed", why="rows: emp.csv is absent")
        self.file("mapping.clio", "mapping 1;")
        self.refused("clio-why", "person", "zed", why="mapping.clio")

    def test_drawing(self) -> None:
        """Of the rules of a printed mapping the statements of the drawing are named."""
        self.example("flights")
        said = self.printed("clio-why", "leg", "F2")
        self.assertIn("\nrule 1 is of drawing.clio: leg: a of each flight with the port by dep\n"
                      "   line 8: rows leg from flight;\n   line 10: line port.city -> leg.a by dep;\n", said)
        self.assertNotIn("rule 2", said)
        said = self.printed("clio-why", "--not", "port", "ORY")
        self.assertIn('\n  no row of flight has arr = "ORY", as port (code) asks for it, by rule 2', said)
        self.assertIn("\n   line 11: line port.city -> leg.b by arr;\n", said)
        self.assertNotIn("kept by", said)

    def test_bounds(self) -> None:
        """The first matches and rows, and how many more there are; all of them if asked for."""
        self.file("mapping.clio", "mapping 1; source { set a { x, y; } }"
                  " target { set b { u, v; key (u); } set c { w; } } rule a(x, y) -> b(x, v), c(y);")
        self.file("a.csv", "x,y\n" + "".join(f"{number % 2},{number}\n" for number in range(100)))
        self.exchanged()
        said = self.printed("clio-why", "b", "1")
        self.assertIn("50 matches ask for it (50 of rule 0):", said)
        self.assertIn("\n  and 44 more\n", said)
        self.assertEqual(len(re.findall("(?m)^  rule 0, place", said)), 6)
        self.assertEqual(len(re.findall("(?m)^  rule 0, place", self.printed("clio-why", "--all", "b", "1"))), 50)
        said = self.printed("clio-why", "--not", "a", "1")
        self.assertIn("\nmore rows have this key: name more columns, or ask for --all\n", said)
        self.assertEqual(said.count("a.csv, line"), 3)
        self.assertEqual(self.printed("clio-why", "--all", "--not", "a", "1").count("a.csv, line"), 50)

    def test_numbers(self) -> None:
        """The numbers of clio-ids, by a key of texts, by a key with a number in it, and by what made a null."""
        self.file("mapping.clio", """mapping 1;
source { set sale { id, buyer, note; } }
target {
  set customer { cid, cname; key (cid); key (cname); }
  set orders { oid, note, cid; key (oid); ref (cid) -> customer (cid); }
  set visit { vid, cid; key (vid); key (cid); ref (cid) -> customer (cid); }
  set loose { lid, note; key (lid); }
}
rule sale(i, b, n) -> orders(i, n, c), customer(c, b), visit(v, c), loose(l, n);
""")
        self.file("sale.csv", "id,buyer,note\n1,zoe,a\n2,ann,a\n3,bob,\n")
        self.exchanged()
        self.printed("clio-ids", "ids.db")
        rows = {name: [line.split(",") for line in (self.folder / "out" / f"{name}.csv").read_text().splitlines()[1:]]
                for name in ("customer", "orders", "visit", "loose")}
        for number, name in rows["customer"]:
            self.assertIn(f'cname  "{name}"', self.printed("clio-why", "--ids", "ids.db", "customer", number))
            told = self.printed("clio-why", "--ids", "ids.db", "orders", f"cid={number}")
            self.assertIn(f"(number {number})", told)
            self.assertIn(f'oid   "{next(order for order, _, customer in rows["orders"] if customer == number)}"', told)
        for number, customer in rows["visit"]:
            told = self.printed("clio-why", "--ids", "ids.db", "visit", number)
            self.assertIn(f"(number {number})", told)
            self.assertIn(f"(number {customer})", told)
        for number, note in rows["loose"]:
            self.assertIn(f'note  "{note}"', self.printed("clio-why", "--ids", "ids.db", "loose", number))
        first = rows["customer"][0][0]
        reason = json.loads(self.printed("clio-why", "--json", "--ids", "ids.db", "customer", first))["reasons"][0]
        self.assertEqual(reason["numbers"][reason["row"][0]], int(first))
        self.assertEqual(self.tool("clio-why", "customer", "1")[0], 1)
        self.assertEqual(self.tool("clio-why", "--ids", "ids.db", "customer", "999")[0], 1)
        self.refused("clio-why", "--ids", "sale.csv", "customer", "1", why="sale.csv")
        self.clio("exchange")
        self.file("sale.csv", "id,buyer,note\n4,eve,\n1,zoe,a\n")  # as clio-load would read it, which runs clio itself
        self.assertIn('buyer = "eve"', self.printed("clio-why", "--ids", "ids.db", "customer", "cname=eve"))
        self.refused("clio-why", "customer", "cname=eve", why="out is not of these files")

    def test_what_a_used_row_misses(self) -> None:
        """Along an optional ref, and in a drawing; not an empty text, nor the sets of a drawing's tests."""
        side = """source {
  set e { no, kind, dept; ref (dept) -> d (name)OPTIONAL; }
  set d { name, town; }
}
target { set p { no, town, kind; key (no); } }
"""
        self.file("mapping.clio", "mapping 2;\n" + side.replace("OPTIONAL", " optional") + "line e.no -> p.no;\n"
                  "line e.kind -> p.kind;\nline d.town -> p.town;\n")
        self.file("e.csv", "no,kind,dept\n1,f,toys\n2,g,cars\n3,f,\n")
        self.file("d.csv", "name,town\ntoys,Bonn\n")
        said = 'it misses:\n  no row of d has name = "cars", as e (dept) asks for it'
        for is_drawn in False, True:
            self.exchanged()
            self.assertEqual(["it misses" in self.printed("clio-why", "--not", "e", f"no={no}") for no in (1, 2, 3)],
                             [False, True, False])
            self.assertIn(said, self.printed("clio-why", "--not", "e", "no=2"))
            if not is_drawn:
                (self.folder / "mapping.clio").unlink()
                self.file("drawing.clio", "mapping 1;\n" + side.replace("OPTIONAL", "") + "rows p from e;\n"
                          "line e.no -> p.no;\nline e.kind -> p.kind where kind = \"f\";\nline d.town -> p.town;\n")
                self.printed("clio-rules", "--write")

    def test_numbers_of_tables_that_were_there(self) -> None:
        """With --identity the numbers are the database's, and none that the crosswalk has for another thing."""
        self.file("mapping.clio", """mapping 1; source { set sale { id, buyer; } }
            target { set customer { cid, cname; key (cid); key (cname); }
              set orders { oid, cid; key (oid); ref (cid) -> customer (cid); } }
            line sale.id -> orders.oid; line sale.buyer -> customer.cname;""")
        self.file("sale.csv", "id,buyer\n1,ann\n2,bob\n3,cyd\n")
        base = sqlite3.connect(self.folder / "shop.db")
        base.executescript("CREATE TABLE customer (cid INTEGER PRIMARY KEY, cname TEXT UNIQUE);"
                           "CREATE TABLE orders (oid INTEGER PRIMARY KEY, cid INTEGER REFERENCES customer);"
                           "INSERT INTO customer VALUES (1, 'cyd'), (2, 'ann'), (9, 'eve')")
        self.printed("clio-load", "sqlite", "shop.db", "--ids", "ids.db", "--identity")
        there = dict(base.execute("SELECT cname, cid FROM customer"))
        base.close()
        self.assertEqual({name: there[name] for name in ("ann", "cyd")}, {"ann": 2, "cyd": 1})
        for order, name in enumerate(("ann", "bob", "cyd"), 1):
            told = self.printed("clio-why", "--ids", "ids.db", "customer", str(there[name]))
            self.assertIn(f'cname  "{name}"', told)
            self.assertIn(f" (number {there[name]}): nobody gave it", told)
            self.assertIn(f'oid  "{order}"', self.printed("clio-why", "--ids", "ids.db", "orders", f"cid={there[name]}"))
        self.assertEqual(self.tool("clio-why", "--ids", "ids.db", "customer", "9")[0], 1)
        known = json.loads(self.printed("clio-why", "--json", "--ids", "ids.db", "customer", "cname=bob"))
        self.assertEqual(list(known["reasons"][0]["numbers"].values()), [there["bob"]])


if __name__ == "__main__":
    unittest.main()
