"""clio-draft on SQLite, on files and on documents: what it prints, clio takes; what it writes, clio reads as it was.
PostgreSQL is tried by dev/check.
"""
import json
import os
import re
import sqlite3
import subprocess
import unittest
from collections.abc import Iterable, Sequence
from typing import Any

from trial import TOP, Trial

from clio_tools import csv as clio_csv
from clio_tools.draft.names import Words, shown, word

HOSTILE = """
CREATE TABLE "order items" (id INTEGER PRIMARY KEY, "unit price" REAL,
  "größe" TEXT, "größe!" TEXT, "2nd" TEXT, "" TEXT, "a\nb" TEXT, "x""; // {" TEXT);
CREATE TABLE "\x1b[31m" (x TEXT UNIQUE);
CREATE TABLE nulls (x TEXT, y TEXT UNIQUE);
CREATE TABLE "set" ("mapping" TEXT);
CREATE TABLE "Größe" (a TEXT REFERENCES nowhere (b), b TEXT REFERENCES nulls (gone));
CREATE TABLE "日本" (a TEXT);
CREATE TABLE "'; DROP TABLE nulls; --" (a TEXT);
"""
LINKS = """
CREATE TABLE a (id INTEGER PRIMARY KEY, b REFERENCES b, a REFERENCES a);
CREATE TABLE b (id INTEGER PRIMARY KEY, c REFERENCES c);
CREATE TABLE c (id INTEGER PRIMARY KEY, a REFERENCES a);
CREATE TABLE mail (sender REFERENCES A (ID), receiver REFERENCES a, PRIMARY KEY (sender, receiver)) WITHOUT ROWID;
CREATE TABLE pair (x TEXT, y TEXT, z TEXT, UNIQUE (y, x), UNIQUE (z));
CREATE TABLE far (x TEXT, y TEXT, FOREIGN KEY (x, y) REFERENCES pair (x, y));
CREATE UNIQUE INDEX lower ON pair (lower(x));
CREATE UNIQUE INDEX some ON pair (x) WHERE y > '';
CREATE VIEW seen AS SELECT * FROM pair;
"""


class Draft(Trial):
    def base(self, script: str, rows: Iterable[tuple[str, Sequence[object]]] = ()) -> None:
        """An SQLite file, made anew."""
        path = self.folder / "old.db"
        path.unlink(missing_ok=True)
        base = sqlite3.connect(path)
        base.executescript(script)
        for query, values in rows:
            base.execute(query, values)
        base.commit()
        base.close()

    def drafted(self, *words: str) -> str:
        """The source that is drafted with its data; clio takes it."""
        text = self.printed("clio-draft", *words, "--data", ".")
        self.file("mapping.clio", "mapping 1;\n" + text + "target { }\n")
        self.assertEqual(self.clio("exchange")[0], 0, text)
        target = self.printed("clio-draft", *words, "--side", "target")
        self.file("both.clio", "mapping 1;\n" + text + target)
        (self.folder / "both.clio").replace(self.folder / "mapping.clio")
        self.assertEqual(self.clio("show")[0], 0, target)
        return text

    def rows(self, name: str) -> list[tuple[str, ...]]:
        return [tuple(row) for row in clio_csv.read_records(self.folder / f"{name}.csv")]


class Names(unittest.TestCase):
    def test_words(self) -> None:
        given = [word(name) for name in ["a b", "größe", "2nd", "", "日本", "-", "_x", "naïve-é"]]
        self.assertEqual(given, ["a_b", "grosse", "_2nd", "x", "x", "x", "_x", "naive_e"])
        words = Words(["Fold"])
        self.assertEqual([words.give(name) for name in ["fold", "a b", "a-b", "A_B"]],
                         ["fold_2", "a_b", "a_b_2", "A_B_3"])

    def test_shown(self) -> None:
        self.assertEqual(shown('a"\\\n\x1b\u2028é\udcff'), '"a\\"\\\\\\u000a\\u001b\\u2028é\\udcff"')


class Sqlite(Draft):
    def test_hostile_names(self) -> None:
        self.base(HOSTILE, [('INSERT INTO "order items" VALUES (1, 0.1, NULL, ?, ?, ?, ?, ?)',
                             ["\\.", "", "a\0b", "x\r\ny", '"'])])
        text = self.drafted("sqlite", "old.db")
        self.assertIn('// "order items"."a\\u000ab" is order_items.a_b', text)
        self.assertNotIn("\x1b", text)
        self.assertIn('// ref (a) -> "nowhere" ("b"): there is no such table', text)
        self.assertIn('// ref (b) -> nulls ("gone"): there is no such column', text)
        self.assertIn(("1", "0.1", "", "\\.", "", "a\0b", "x\r\ny", '"'), self.rows("order_items"))
        self.assertIn("set nulls_2 {", self.printed("clio-draft", "sqlite", "old.db", "--side", "target"))

    def test_links(self) -> None:
        self.base(LINKS, [("INSERT INTO pair VALUES ('1', '2', NULL)", ()),
                          ("INSERT INTO far VALUES ('1', '2'), ('1', '3'), (NULL, '2')", ())])
        text = self.drafted("sqlite", "old.db")
        for line in ["// ref (a) -> a (id): a set can't refer to itself; a rule can make such a link",
                     "ref (b) -> b (id);", "ref (c) -> c (id);",
                     "// ref (a) -> a (id): it would close a circle of refs", "ref (sender) -> a (id);",
                     "a second ref to a", "key (sender, receiver);",
                     "key (y, x);", "key (z);", "ref (x, y) -> pair (x, y);",
                     'the index "lower" is over an expression']:
            self.assertIn(line, text)
        self.assertIn("ref (b) -> b (id);  // NULL is allowed there, and lines drop rows without a match: leave the "
                      "ref out if no line needs it, or make it", text)
        self.assertIn("ref (b) -> b (id);  // NULL is allowed there, but a row without a link would get one to a row "
                      "of nulls",
                      self.printed("clio-draft", "sqlite", "old.db", "--side", "target"))
        self.assertNotIn("seen", text)
        self.assertNotIn("key (x);", text)
        _, _, said = self.tool("clio-draft", "sqlite", "old.db", "--data", ".")
        self.assertIn("far: 2 rows have no match in pair by (x, y): lines along the ref drop them", said)

    def test_limits(self) -> None:
        many = ", ".join(f"c{number}" for number in range(65))
        tables = "".join(f"CREATE TABLE t{number} (x);" for number in range(70))
        ladder = "CREATE TABLE s0 (id INTEGER PRIMARY KEY);" + "".join(
            f"CREATE TABLE s{number} (id INTEGER PRIMARY KEY, x REFERENCES s{number - 1}, y REFERENCES s{number - 1});"
            for number in range(1, 8))
        self.base(f"CREATE TABLE wide ({many}); CREATE TABLE near (c REFERENCES wide (c1));" + ladder + tables)
        text = self.drafted("sqlite", "old.db")
        self.assertIn('// "wide" is left out: it has 65 columns', text)
        self.assertIn('// ref (c) -> wide (c1): that set is left out', text)
        self.assertIn("more than 64 tables would follow", text)
        self.assertEqual(len(re.findall(r"^  set ", text, re.M)), 64)
        self.assertIn('// "t69" is left out: a side has at most 64 sets', text)

    def test_values(self) -> None:
        values = [None, "", "7", 7, -(2**63), 0.1 + 0.2, 1e300, 12.0]
        self.base("CREATE TABLE v (x, y)", [("INSERT INTO v VALUES (?, ?)", (value, "k")) for value in values])
        _, _, said = self.tool("clio-draft", "sqlite", "old.db", "--data", "data")
        self.assertIn("v.x: NULL (once) and the empty text (once) are both written", said)
        cells = [row[0] for row in clio_csv.read_table(self.folder / "data/v.csv", ["x", "y"])]
        self.assertEqual(cells, ["", "", "7", "7", "-9223372036854775808", "0.30000000000000004", "1e+300", "12.0"])

    def test_places(self) -> None:
        """Files whose names are no words, or no texts."""
        self.base("CREATE TABLE t (x); INSERT INTO t VALUES ('1')")
        for name in b"\xff", b"a?mode=memory&x#y%20", b"a\n\x1b[31m'\"":
            os.replace(os.fsencode(self.folder / "old.db"), os.path.join(os.fsencode(self.folder), name))
            self.assertIn("set t {", self.printed("clio-draft", "sqlite", name, "--data", "data"))
            os.replace(os.path.join(os.fsencode(self.folder), name), self.folder / "old.db")

    def test_refusals(self) -> None:
        self.refused("clio-draft", "sqlite", "gone.db", why="gone.db is no file")
        self.file("text.db", "no base at all, but a text that is long enough to be looked at")
        self.refused("clio-draft", "sqlite", "text.db", why="not a database")
        self.base("CREATE TABLE t (x)", [("INSERT INTO t VALUES (?)", (b"\xff",))])
        self.refused("clio-draft", "sqlite", "old.db", "--data", "data", why='row 1 of "t" has a BLOB')
        self.assertEqual(list((self.folder / "data").iterdir()), [])
        self.base("CREATE TABLE t (x); INSERT INTO t VALUES (CAST(x'ff41' AS TEXT))")
        self.refused("clio-draft", "sqlite", "old.db", "--data", "data",
                     why='row 1 of "t" has a text that is not UTF-8')
        self.refused("clio-draft", "sqlite", "old.db", "--side", "target", "--data", "data",
                     why="of the target no data is read")
        self.refused("clio-draft", "oracle", "old.db", why="usage")


class Delimited(Draft):
    def test_other_dialects(self) -> None:
        self.file("in/people list.csv", b"\xef\xbb\xbfid;full name;id\r\n1;Ann;2\r\n2;\"a;b\r\nc\";\r\n")
        self.file("in/notes.TXT", "left alone")
        text = self.drafted("csv", "in", "--delimiter", "semicolon")
        self.assertIn('// "people list" is people_list', text)
        self.assertEqual(self.rows("people_list"),
                         [("id", "full_name", "id_2"), ("1", "Ann", "2"), ("2", "a;b\r\nc", "")])

    def test_headers_in_another_order(self) -> None:
        self.file("mapping.clio", "mapping 1; source { set emp { name, dept; } } target { }")
        self.file("in/emp.csv", "dept,more,name\ntoys,x,ann\n")
        self.assertEqual(self.printed("clio-draft", "csv", "in", "--data", ".", "--mapping", "mapping.clio"), "")
        self.assertEqual(self.rows("emp"), [("name", "dept"), ("ann", "toys")])
        self.file("in/emp.csv", "dept,Name\ntoys,ann\n")
        self.refused("clio-draft", "csv", "in", "--data", ".", "--mapping", "mapping.clio",
                     why="has no column for name")
        (self.folder / "in/emp.csv").rename(self.folder / "in/other.csv")
        self.refused("clio-draft", "csv", "in", "--data", ".", "--mapping", "mapping.clio",
                     why="nothing here becomes it: other; a set has the name of its file")

    def test_refusals(self) -> None:
        for content, why in [(b"", "no header"), (b"x\n\"open\n1\n", "a quote is never closed"),
                             (b"x\n\"a\"b\n", "there is text after a closing quote"),
                             (b"x,y\n1\n", "record 1 has 1 field, and the header 2"),
                             (b"x\n\xff\n", "record 1, at line 2, is not UTF-8"),
                             ("x\n1\n".encode("utf-16"), "not UTF-8")]:
            self.file("in/a.csv", content)
            self.refused("clio-draft", "csv", "in", "--data", "data", why=why)
        self.file("in/a.csv", "x\n1\n")
        self.refused("clio-draft", "csv", "in", "--data", "in", why="is read itself")
        self.refused("clio-draft", "csv", "in", "--delimiter", '"', why="--delimiter takes one sign")
        self.refused("clio-draft", "csv", "gone", why="gone is no folder")
        self.file("none/a.txt", "")
        self.refused("clio-draft", "csv", "none", why="has no file .csv")

    def test_long_fields(self) -> None:
        self.file("in/a.csv", b'x\ty\n' + b"a" * 5_000_000 + b'\t"' + b'""\n' * 10_000 + b'"\n')
        self.drafted("csv", "in", "--delimiter", "tab")
        self.assertEqual(self.rows("a")[1], ("a" * 5_000_000, '"\n' * 10_000))


class Documents(Draft):
    def test_flat(self) -> None:
        self.file("language.json", '[{"code": "aar", "name": "Afar", "size": 1.50, "no": 18446744073709551616}, '
                                   '{"code": null, "more": true}]')
        self.drafted("json", "language.json")
        self.assertEqual(self.rows("language")[0], ("code", "name", "size", "no", "more"))
        self.assertEqual(self.rows("language")[1:],
                         [("aar", "Afar", "1.50", "18446744073709551616", ""), ("", "", "", "", "true")])

    def test_lines(self) -> None:
        self.file("log.json", '{"a": 1, "b": {"c": "x"}}\n\n{"a": 2, "b": {"c": "\\u0000"}}\r\n')
        self.drafted("json", "log.json")
        self.assertEqual(self.rows("log"), [("a", "b_c"), ("1", "x"), ("2", "\0")])
        self.file("log.json", '{"a": 1}\n{"a": }\n')
        self.refused("clio-draft", "json", "log.json", why="log.json: line 2: not JSON")

    def test_nested(self) -> None:
        ada = {"the name": "Ada", "tags": ["x", "y"], "address": {"city": "Bonn", "lines": [{"no": 1.5}]}, "odd": 1,
               "items": []}
        document = [ada, {"odd": [1], "items": None}]
        self.file("in/club.json", json.dumps(document))
        text = self.drafted("json", "in/club.json")
        self.assertIn("// odd is left out: it is array or value", text)
        written = json.loads((self.folder / "club.json").read_text())
        tags = [{"value": "x"}, {"value": "y"}]
        self.assertEqual(written[0], {"the_name": "Ada", "tags": tags, "address_lines": [{"no": "1.5"}],
                                      "address_city": "Bonn", "items": []})
        self.refused("clio-draft", "json", "in/club.json", "--data", "in", why="is read itself")

    def test_roots(self) -> None:
        self.file("all.json", '{"a b": [{"x": 1}], "c": [{"y": 2}]}')
        self.drafted("json", "all.json")
        self.assertEqual(self.rows("a_b"), [("x",), ("1",)])
        self.file("in/one.json", '{"x": 1, "sub": [{"y": 2}]}')
        self.drafted("json", "in/one.json")

    def test_refusals(self) -> None:
        deep = "[" * 100_000
        contents: list[tuple[str | bytes, str]] = [
            ("", "not JSON"), ("7", "a single value"), ("[1]", "no object"),
            ('[{"a": "\\ud800"}]', "half of a surrogate pair"), ('[{"a": NaN}]', "not JSON"),
            ('[{"a": 1, "a": 2}]', "member twice: a"), (b'[{"a": "\xff"}]', "not JSON"), (deep, "not JSON")]
        for content, why in contents:
            self.file("a.json", content)
            self.refused("clio-draft", "json", "a.json", "--data", "data", why=why)

    def test_depth(self) -> None:
        document: list[dict[str, Any]] = [{"x": 1}]
        for _ in range(20):
            document = [{"x": 1, "s": document}]
        self.file("deep.json", json.dumps(document))
        self.assertIn("sets can be nested 16 deep", self.printed("clio-draft", "json", "deep.json"))


class Deltas(Trial):
    """A later document, read for a mapping that is there."""

    def setUp(self) -> None:
        super().setUp()
        self.file("orders.json", '[{"id": 1, "shipping": {"street": "Main"}, "lines": [{"n": 1, "what": "tea"}]}]')
        text = self.printed("clio-draft", "json", "orders.json")
        self.file("mapping.clio", f"mapping 1; {text} target {{ set t {{ a, b; }} }} line orders.shipping_street -> "
                                  f"t.a; line lines.what -> t.b;")

    def read(self, *words: str, **one: object) -> tuple[str, Any]:
        """What is said of an object, and what is written of it."""
        self.file("new/orders.json", json.dumps([one]))
        status, _, said = self.tool("clio-draft", "json", "new/orders.json", "--data", ".", "--mapping", "mapping.clio",
                                    *words)
        self.assertEqual(status, 0, said)
        self.assertEqual(self.clio("exchange")[0], 0)
        return said, json.loads((self.folder / "orders.json").read_text())

    def test_new_members(self) -> None:
        """A member and an array that the mapping doesn't have are told, at each depth; clio reads what is written."""
        said, made = self.read(id=2, shipping={"street": "Way", "zip": "1"}, channel="web", discounts=[{"p": 5}],
                               lines=[{"n": 2, "what": "cup", "x": "y"}])
        self.assertEqual(made, [{"id": "2", "shipping_street": "Way", "lines": [{"n": "2", "what": "cup"}]}])
        for one in 'member "channel"', 'member "shipping.zip"', 'array "discounts"', 'lines: the member "x"':
            self.assertIn(f"{one} is not in the mapping, and left out", said)

    def test_null_throughout(self) -> None:
        """An object that is null throughout keeps its columns, and an array that is nowhere its set."""
        said, made = self.read(id=2, shipping=None)
        self.assertEqual(made, [{"id": "2", "shipping_street": "", "lines": []}])
        self.assertIn("no object has shipping_street", said)
        self.assertNotIn("left out", said)

    def test_other_kind(self) -> None:
        """What the mapping has as a column or an inner set is never left out silently."""
        for one, why in [({"lines": {"n": 1}}, "orders.lines is object here, and an inner set in the mapping"),
                         ({"id": [1]}, "orders.id is array here, and a column in the mapping")]:
            self.file("new/orders.json", json.dumps([one]))
            self.refused("clio-draft", "json", "new/orders.json", "--data", ".", "--mapping", "mapping.clio", why=why)

    def test_null(self) -> None:
        _, made = self.read("--null", "N/A", id="", shipping=None, lines=[{"n": None}])
        self.assertEqual(made, [{"id": "", "shipping_street": "N/A", "lines": [{"n": "N/A", "what": "N/A"}]}])


class Nulls(Draft):
    def test_apart(self) -> None:
        """NULL and the empty text stay apart, from a database to a database."""
        self.base("CREATE TABLE t (id INTEGER PRIMARY KEY, a TEXT NOT NULL, b TEXT); INSERT INTO t VALUES (1, '', "
                  "NULL), (2, 'x', ''), (3, '?', 'q');")
        self.assertIn("// NOT NULL: id, a\n", self.printed("clio-draft", "sqlite", "old.db", "--side", "target"))
        self.assertNotIn("NOT NULL", self.printed("clio-draft", "sqlite", "old.db"))
        for null in "NULL", "?", "it's\\n":
            if null == "?":
                self.refused("clio-draft", "sqlite", "old.db", "--data", ".", "--null", null,
                             why="t.a has the text '?' itself")
                continue
            text = self.printed("clio-draft", "sqlite", "old.db", "--data", ".", "--null", null)
            self.file("mapping.clio", f"mapping 1; {text} target {{ set u {{ id, a, b, c; key (id); }} }}"
                      "line t.id -> u.id; line t.a -> u.a; line t.b -> u.b; line t.b -> u.c;")
            self.assertEqual(self.clio("exchange")[0], 0)
            script = self.printed("clio-tables", "postgres", "--null", null)
            mark = null.replace("'", "''")
            self.assertIn(f"CASE WHEN \"b\" = '{mark}' THEN NULL ", script)
            self.file("types.txt", "u.id integer\nu.b date\n")
            (self.folder / "t.csv").write_text((self.folder / "t.csv").read_text().replace("q", "2026-11-30"))
            self.assertEqual(self.clio("exchange")[0], 0)
            script = self.printed("clio-tables", "postgres", "--null", null, "--types", "types.txt")
            self.assertIn("\n1\t\t\\N\t", script)

    def test_defaults(self) -> None:
        """A column that the database fills needs no line, and is told apart."""
        self.base("CREATE TABLE t (id INTEGER PRIMARY KEY, a TEXT NOT NULL, b TEXT NOT NULL DEFAULT 'x', c DEFAULT 7)")
        said = self.printed("clio-draft", "sqlite", "old.db", "--side", "target")
        self.assertIn("    // NOT NULL: id, a\n    // NOT NULL, with a default: b\n", said)

    def test_needs_data(self) -> None:
        self.base("CREATE TABLE t (id)")
        self.refused("clio-draft", "sqlite", "old.db", "--null", "x", why="--null needs --data")


class Drawn(Draft):
    """A week later: the source's files anew, for a mapping that clio-rules printed."""

    def test_sets_for_tests(self) -> None:
        """Their files are those of clio-rules, and stay; a set that is no table is refused as ever."""
        table = "CREATE TABLE t (id INTEGER PRIMARY KEY, kind TEXT, mail TEXT); INSERT INTO t VALUES (1, 'F', 'm')"
        self.base(table)
        side = self.printed("clio-draft", "sqlite", "old.db", "--data", ".")
        drawing = (f"mapping 2;\n{side}target {{ set u {{ id, a, b; key (id); key (b); }} }}\nrows u from t;\n"
                   'line t.id -> u.id;\nline t.kind -> u.a where kind = "F";\nline t.mail -> u.b where mail filled;\n')
        self.file("drawing.clio", drawing)
        self.printed("clio-rules", "--write")
        self.base(table + ", (2, 'G', '')")
        self.refused("clio-draft", "sqlite", "old.db", "--data", ".", "--mapping", "drawing.clio",
                     why="drawing.clio: this is a drawing: name the mapping.clio that clio-rules --write makes of it")
        self.printed("clio-draft", "sqlite", "old.db", "--data", ".", "--mapping", "mapping.clio")
        self.assertEqual((self.folder / "is_F.csv").read_text(), 'text\n"F"\n')
        self.assertEqual(os.readlink(self.folder / "t_mail_filled.csv"), "t.csv")
        self.assertEqual(self.clio("exchange")[0], 0)
        self.assertEqual((self.folder / "out/u.csv").read_text().count("\n"), 3)
        self.file("mapping.clio", "\n" + (self.folder / "mapping.clio").read_text())  # as nothing printed it
        self.refused("clio-draft", "sqlite", "old.db", "--data", ".", "--mapping", "mapping.clio",
                     why="the mapping has a set is_F, and nothing here becomes it")


class Shop(Draft):
    def test_whole_migration(self) -> None:
        shop = TOP / "examples/shop"
        subprocess.run([shop / "make-shop"], cwd=self.folder, check=True)
        text = self.printed("clio-draft", "sqlite", "shop.db", "--data", ".")
        self.base((shop / "new.sql").read_text())
        text += self.printed("clio-draft", "sqlite", "old.db", "--side", "target")
        text = "mapping 1;\n" + "".join(line for line in text.splitlines(True)
                                        if "ref (category)" not in line) + (shop / "lines").read_text()
        self.assertEqual(text, (shop / "mapping.clio").read_text())
        self.file("mapping.clio", text)
        status, summary = self.clio("exchange")
        self.assertEqual(status, 0)
        self.assertIn("article.csv 4\npurchase.csv 3\nbought.csv 5\n", summary)
        self.printed("clio-tables", "postgres", "--summary", "-", text=summary)


if __name__ == "__main__":
    unittest.main()
