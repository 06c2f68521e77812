"""clio-ids: the same thing gets the same number in the next run, on cases by hand and over random sources that grow."""
import contextlib
import json
import os
import pathlib
import random
import sqlite3
import subprocess
import sys
import tempfile
import unittest
import unittest.mock
from collections.abc import Iterator, Mapping

from trial import PROGRAM, TIMES, TOOLS, Trial

from clio_tools.explain import program as explain_program
from clio_tools.csv import read_table, record_text, records
from clio_tools.explain.clashes import Clashes
from clio_tools.ids.crosswalk import Crosswalk
from clio_tools.ids.numbering import number
from clio_tools.mapping.text import read_sets
from random_cases import random_case

SHOP = """mapping 1;
source { set sale { id, buyer, note; } }
target {
  set customer { cid, cname, phone; key (cid); key (cname); }
  set orders { oid, note, cid; key (oid); ref (cid) -> customer (cid); }
}
line sale.id -> orders.oid;
line sale.note -> orders.note;
line sale.buyer -> customer.cname;
"""
NESTED = """mapping 1;
source { set emp { name, dept; } }
target { set unit { uname, boss; key (uname); set staff { sid, sname; key (sname); } } }
rule emp(n, d) -> unit(u, d, b), staff(u, s, n);
"""
HOSTILE = ["", "?", "?0.0.0", "\\.", "\0", "a\nb", "a\r\nb", '"', "a,b", "é", "\ufeff", "'", "17", "{", "x" * 5_000_000]
Term = tuple[str, int, object, tuple[str, ...]]  # a rule, how many are equal before it, a variable, and texts
KINDS = {"rules": 6, "mixed": 4, "keyed": 14}


class Ids(Trial):
    """Runs of the tool as a user does them."""

    def exchange(self, mapping: str, **tables: list[list[str]]) -> None:
        """One run of clio."""
        self.file("mapping.clio", mapping)
        for name, rows in tables.items():
            self.file(f"{name}.csv", "".join(map(record_text, rows)))
        self.assertEqual(self.clio("exchange")[0], 0)

    def sales(self, *rows: list[str]) -> None:
        self.exchange(SHOP, sale=[["id", "buyer", "note"], *rows])

    def table(self, name: str, columns: list[str]) -> list[list[str]]:
        return list(read_table(self.folder / "out" / f"{name}.csv", columns))

    def customers(self) -> dict[str, str]:
        return {row[1]: row[0] for row in self.table("customer", ["cid", "cname", "phone"])}

    def test_grown(self) -> None:
        self.sales(["2", "ann", ""], ["3", "bob", ""])
        self.assertEqual(self.printed("clio-ids", "ids.db"), "known 0\nnew 4\nchanged 0\n")
        before = self.customers()
        self.assertEqual(sorted(before.values()), ["1", "2"])
        self.sales(["0", "aaa", ""], ["1", "bob", ""], ["2", "ann", ""], ["3", "bob", ""])
        self.assertEqual(self.printed("clio-ids", "ids.db"), "known 4\nnew 2\nchanged 0\n")
        after = self.customers()
        self.assertEqual({name: after[name] for name in before}, before)
        self.assertEqual({row[0]: row[2] for row in self.table("orders", ["oid", "note", "cid"])}["1"], before["bob"])
        self.assertEqual(len(set(after.values())), 3)

    def test_another_thing(self) -> None:
        """A row that comes to refer to another customer gives it no number that was one's."""
        self.sales(["1", "ann", ""])
        self.printed("clio-ids", "ids.db")
        before = self.customers()
        self.sales(["1", "zed", ""])
        self.printed("clio-ids", "ids.db")
        self.assertNotEqual(self.customers()["zed"], before["ann"])
        self.sales(["1", "ann", ""], ["2", "zed", ""])
        self.printed("clio-ids", "ids.db")
        self.assertEqual(self.customers()["ann"], before["ann"])

    def test_order_of_another(self) -> None:
        """Order 2 goes from Bob to Cyd and back: by a rule it is known too, but the customer's key alone decides."""
        mapping = """mapping 1;
            source { set orders { id, email; } set item { n, s; } }
            target {
              set sale { n, c; key (n); ref (c) -> customer (cid); }
              set customer { cid, email; key (cid); key (email); }
              set sold { n, s; ref (n) -> sale (n); }
            }
            rule orders(n, e) -> sale(n, c), customer(c, e);
            rule item(n, s) -> sold(n, s);"""
        found = []
        for second in ["bob"], ["cyd"], ["bob"], ["cyd", "bob"]:
            orders = [["1", "ann"], *([f"{2 + place}", name] for place, name in enumerate(second))]
            self.exchange(mapping, orders=[["id", "email"], *orders], item=[["n", "s"], ["1", "shirt"], ["2", "hat"]])
            found.append(self.printed("clio-ids", "ids.db"))
            customers = {email: cid for cid, email in self.table("customer", ["cid", "email"])}
            self.assertEqual(customers, {name: {"ann": "1", "bob": "2", "cyd": "3"}[name] for _, name in orders})
        self.assertEqual(found, ["known 0\nnew 2\nchanged 0\n",
                                 'known 1\nnew 1\nchanged 1\nsale.c of (n) ["2"]: 2 is now 3\n',
                                 'known 2\nnew 0\nchanged 1\nsale.c of (n) ["2"]: 3 is now 2\n',
                                 'known 3\nnew 0\nchanged 1\nsale.c of (n) ["2"]: 2 is now 3\n'])

    def test_delivery_elsewhere(self) -> None:
        """A delivery whose address changes has another address; the number of the old one stays its own."""
        mapping = """mapping 1;
            source { set sent { id, street, town; } set parcel { id, what; } }
            target {
              set delivery { id, place; key (id); ref (place) -> place (pid); }
              set place { pid, street, town; key (pid); key (street, town); }
              set content { id, what; ref (id) -> delivery (id); }
            }
            rule sent(i, s, t) -> delivery(i, p), place(p, s, t);
            rule parcel(i, w) -> content(i, w);"""
        for town, wanted in ("Paris", "1"), ("Portland", "2"), ("Paris", "1"):
            self.exchange(mapping, sent=[["id", "street", "town"], ["7", "Main", town]],
                          parcel=[["id", "what"], ["7", "tea"]])
            self.printed("clio-ids", "ids.db")
            self.assertEqual(self.table("place", ["pid", "street", "town"]), [[wanted, "Main", town]])
            self.assertEqual(self.table("delivery", ["id", "place"]), [["7", wanted]])

    def test_two_keys(self) -> None:
        """The first key that is known decides; a value that another thing had last is not one's own any more."""
        mapping = ("mapping 1; source { set a { x, y; } } target { set t { id, x, y; key (id); key (x); key (y); } }"
                   "rule a(x, y) -> t(i, x, y);")
        steps = [([("a", "1")], {("a", "1"): "1"}), ([("b", "1")], {("b", "1"): "1"}),
                 ([("b", "1"), ("a", "2")], {("b", "1"): "1", ("a", "2"): "2"}),
                 ([("a", "1"), ("b", "2")], {("a", "1"): "2", ("b", "2"): "1"})]
        for rows, wanted in steps:
            self.exchange(mapping, a=[["x", "y"], *([x, y] for x, y in rows)])
            said = self.printed("clio-ids", "ids.db")
            self.assertEqual({(x, y): number for number, x, y in self.table("t", ["id", "x", "y"])}, wanted)
        self.assertIn('changed 2\n', said)
        self.assertIn('t.id of (y) ["1"]: 1 is now 2\n', said)

    def test_key_becomes_known(self) -> None:
        """What was known by a rule alone keeps its number when its key becomes known."""
        mapping = """mapping 1; source { set a { n; } set b { n, x; } }
            target { set t { n, id; key (n); ref (id) -> u (id); } set u { id, x; key (id); key (x); } }
            rule a(n) -> t(n, i), u(i, x); rule b(n, x) -> t(n, i), u(i, x);"""
        self.exchange(mapping, a=[["n"], ["1"], ["2"]], b=[["n", "x"]])
        self.printed("clio-ids", "ids.db")
        before = dict(self.table("t", ["n", "id"]))
        self.exchange(mapping, a=[["n"], ["0"], ["1"], ["2"]], b=[["n", "x"], ["1", "p"]])
        self.printed("clio-ids", "ids.db")
        after = dict(self.table("t", ["n", "id"]))
        self.assertEqual({n: after[n] for n in before}, before)
        self.assertEqual(len(set(after.values())), 3)

    def test_damaged(self) -> None:
        """A crosswalk that something else has changed is refused, with what is wrong, and nothing is changed."""
        self.sales(["1", "ann", ""], ["2", "bob", ""])
        self.printed("clio-ids", "ids.db")
        good = (self.folder / "ids.db").read_bytes()
        for change, why in [("UPDATE next SET number = 9223372036854775807", "the next number is 9223372036854775807"),
                            ("UPDATE next SET number = 'x'", "the next number is 'x'"),
                            ("DELETE FROM next", "the table next has 0 rows"),
                            ("UPDATE name SET number = 'x'", "has the number 'x'"),
                            ("UPDATE name SET number = 1", "which are of two things"),
                            ("UPDATE name SET number = 77", "has the number 77"),
                            ("UPDATE name SET text = CAST(text AS BLOB)", "is not as clio-ids writes it"),
                            ("UPDATE name SET kind = 99", "is not as clio-ids writes it"),
                            ("DROP TABLE term", "other tables"),
                            ("UPDATE numbered SET is_numbered = 'x'", "is marked 'x'"),
                            ("UPDATE written SET digest = 'x'", "the digest of"),
                            ("UPDATE kind SET key_columns = '['", "is not as clio-ids writes it")]:
            with self.subTest(change):
                self.file("ids.db", good)
                base = sqlite3.connect(self.folder / "ids.db")
                base.executescript(change)
                base.close()
                changed = (self.folder / "ids.db").read_bytes()
                self.sales(["1", "ann", ""])
                self.refused("clio-ids", "ids.db", why=why)
                self.assertEqual((self.folder / "ids.db").read_bytes(), changed)
        self.file("ids.db", good[:len(good) // 2])
        self.refused("clio-ids", "ids.db", why="ids.db")

    def test_links(self) -> None:
        """A link or a pipe in the place of the crosswalk is refused, one in that of a file is never written through."""
        self.sales(["1", "ann", ""])
        victim = self.file("victim", "mine")
        os.symlink("victim", self.folder / "ids.db")
        self.refused("clio-ids", "ids.db", why="ids.db is a link")
        os.unlink(self.folder / "ids.db")
        os.mkfifo(self.folder / "ids.db")
        self.refused("clio-ids", "ids.db", why="ids.db is a pipe")
        os.unlink(self.folder / "ids.db")
        for name in ".customer.csv.new", ".nulls.csv.new":
            os.symlink("../victim", self.folder / "out" / name)
        os.rename(self.folder / "out/customer.csv", self.folder / "elsewhere.csv")
        os.symlink("../elsewhere.csv", self.folder / "out/customer.csv")
        before = (self.folder / "elsewhere.csv").read_bytes()
        self.printed("clio-ids", "ids.db")
        self.assertEqual(victim.read_text(), "mine")
        self.assertEqual((self.folder / "elsewhere.csv").read_bytes(), before)
        self.assertFalse((self.folder / "out/customer.csv").is_symlink())
        os.rename(self.folder / "out", self.folder / "other")
        os.symlink("other", self.folder / "out")
        self.refused("clio-ids", "ids.db", why="out is a link to other")

    def test_second_run(self) -> None:
        """While one run works on a crosswalk, a second one is refused."""
        self.sales(["1", "ann", ""])
        self.printed("clio-ids", "ids.db")
        self.sales(["1", "ann", ""])
        base = sqlite3.connect(self.folder / "ids.db", isolation_level=None)
        base.execute("BEGIN IMMEDIATE")
        self.refused("clio-ids", "ids.db", why="database is locked: another run works on it")
        base.close()

    def test_other_mapping(self) -> None:
        """A rule before the others changes the names of all nulls, and no number."""
        self.sales(["1", "ann", ""], ["2", "bob", ""])
        self.printed("clio-ids", "ids.db")
        before = self.customers()
        other = SHOP.replace("source { ", "source { set a { x; } ").replace("target {", "target { set b { x, y; }")
        self.exchange(other + "line a.x -> b.x;", a=[["x"], ["1"]])
        self.printed("clio-ids", "ids.db")
        self.assertEqual(self.customers(), before)

    def test_equal_rules(self) -> None:
        """Two rules with one text make two things."""
        mapping = ("mapping 1; source { set a { x; } } target { set t { id, x; key (id); } }"
                   + "rule a(x) where y = trim(x) -> t(i, y);" * 2)
        self.exchange(mapping, a=[["x"], ["p"]])
        self.printed("clio-ids", "ids.db")
        before = self.table("t", ["id", "x"])
        self.exchange(mapping, a=[["x"], ["o"], ["p"]])
        self.printed("clio-ids", "ids.db")
        self.assertEqual([row for row in self.table("t", ["id", "x"]) if row[1] == "p"], before)
        self.assertEqual(len({row[0] for row in self.table("t", ["id", "x"])}), 4)

    def test_twice(self) -> None:
        self.sales(["1", "ann", ""])
        self.printed("clio-ids", "ids.db")
        written = {path.name: path.read_bytes() for path in (self.folder / "out").iterdir()}
        status, out, said = self.tool("clio-ids", "ids.db")
        self.assertEqual((status, out), (0, ""), said)
        self.assertIn("numbers already", said)
        self.assertEqual({path.name: path.read_bytes() for path in (self.folder / "out").iterdir()}, written)

    def test_hostile_texts(self) -> None:
        rows = [[str(place), text, text] for place, text in enumerate(HOSTILE)]
        self.sales(*rows)
        self.printed("clio-ids", "ids.db")
        before = self.customers()
        self.assertEqual({name[1:] if name.startswith("?") else name for name in before}, set(HOSTILE))
        self.sales(["99", "\x01", ""], *rows[::-1])
        self.printed("clio-ids", "ids.db")
        after = self.customers()
        self.assertEqual({name: after[name] for name in before}, before)

    def test_nested(self) -> None:
        self.exchange(NESTED, emp=[["name", "dept"], ["ann", "toys"], ["bob", "toys"], ["ann", "books"]])
        self.assertEqual(self.clio("exchange", "--nested")[0], 0)
        self.printed("clio-ids", "ids.db", "--nested")
        units = {row[1]: row[0] for row in self.table("unit", ["#id", "uname", "boss"])}
        staff = {(row[0], row[2]) for row in self.table("staff", ["#up", "sid", "sname"])}
        self.assertEqual(staff, {(units["toys"], "ann"), (units["toys"], "bob"), (units["books"], "ann")})
        document = json.loads((self.folder / "out" / "unit.json").read_text())
        bosses = {row[1]: row[2] for row in self.table("unit", ["#id", "uname", "boss"])}
        self.assertEqual({one["uname"]: one["boss"] for one in document}, bosses)
        self.assertTrue(all(boss.startswith("?999.0.") for boss in bosses.values()))

    def test_columns(self) -> None:
        self.sales(["1", "ann", ""])
        self.printed("clio-ids", "ids.db", "--keep", "customer.cid", "--keep", "orders.cid", "--number",
                     "customer.phone")
        self.assertRegex(self.customers()["ann"], r"\?999\.0\.\d+")
        self.assertRegex(self.table("customer", ["cid", "cname", "phone"])[0][2], r"\d+")
        self.refused("clio-ids", "ids.db", "--keep", "customer.nothing", why="no column customer.nothing")

    def test_refusals(self) -> None:
        self.file("mapping.clio", SHOP)
        self.refused("clio-ids", "ids.db", why="out/nulls.csv is missing")
        self.assertFalse((self.folder / "ids.db").exists())
        self.sales(["1", "ann", ""])
        self.refused("clio-ids", why="usage: ")
        self.refused("clio-ids", "ids.db", "--other", why="usage: ")
        self.file("text.db", "no database, but a text that is long enough to be looked at as one\n" * 20)
        self.refused("clio-ids", "text.db", why="text.db: file is not a database")
        sqlite3.connect(self.folder / "other.db").executescript("CREATE TABLE t (x);")
        self.refused("clio-ids", "other.db", why="no crosswalk")
        fresh = (self.folder / "out" / "orders.csv").read_bytes()
        self.printed("clio-ids", "ids.db")
        self.refused("clio-ids", "new.db", why="out/nulls.csv is not of the run in which new.db gave them")
        self.file("out/orders.csv", fresh)
        self.refused("clio-ids", "ids.db", why="out/orders.csv is not of the run")

    def test_no_room(self) -> None:
        """A file that can't grow: nothing is changed, and no crosswalk is left that has nothing."""
        self.sales(["1", "ann", ""])
        before = {path.name: path.read_bytes() for path in (self.folder / "out").iterdir()}
        for size in 1, 20:
            with self.subTest(size):
                done = subprocess.run(["bash", "-c", f'ulimit -f {size}; exec "$0" -B "$1" ids.db', sys.executable,
                                       TOOLS / "clio-ids"], cwd=self.folder, capture_output=True, check=False)
                self.assertEqual((done.returncode, done.stdout), (2, b""))
                self.assertEqual(done.stderr, b"clio-ids: ids.db: disk I/O error\n")
                self.assertEqual({path.name: path.read_bytes() for path in (self.folder / "out").iterdir()}, before)
                self.assertFalse((self.folder / "ids.db").exists())

    def test_files_of_two_runs(self) -> None:
        for name, content, why in [("customer.csv", "cid,cname,phone\n", "in no table"),
                                   ("customer.csv", "cid,cname,phone\n?x,ann,\n", "none that clio writes"),
                                   ("rules.txt", "", "0 rules"), ("orders.csv", "oid,note\n", "the header is"),
                                   ("orders.csv", "oid,note,cid\n1\n", "record 1 has 1")]:
            self.sales(["1", "ann", ""])
            self.file(f"out/{name}", content)
            if name == "customer.csv" and "?x" not in content:
                self.file("out/orders.csv", "oid,note,cid\n")
            self.refused("clio-ids", "ids.db", why=why)

    def test_numerals(self) -> None:
        """A number is given that is no text of the column; a text that is the number of a thing is refused."""
        mapping = ("mapping 1; source { set a { x; } set b { x; } } target { set t { id, x; key (id); key (x); } }"
                   "rule a(x) -> t(i, x); rule b(i) -> t(i, y);")
        self.exchange(mapping, a=[["x"], ["p"]], b=[["x"], ["1"]])
        self.printed("clio-ids", "ids.db", "--number", "t.id")
        given = {row[1]: row[0] for row in self.table("t", ["id", "x"])}["p"]
        self.assertIn(given, ["2", "3"])
        self.exchange(mapping, a=[["x"], ["p"]], b=[["x"], [given]])
        self.refused("clio-ids", "ids.db", why=f"has the text {given} in column id, and {given} is the number of "
                                               f"another thing")


class Grown(unittest.TestCase):
    """Random sources, of which a part comes first: what the rules make for one match is the same thing in both runs."""

    @contextlib.contextmanager
    def there(self) -> Iterator[None]:
        before = os.getcwd()
        with tempfile.TemporaryDirectory() as name:
            os.chdir(name)
            try:
                yield
            finally:
                os.chdir(before)

    def test_random(self) -> None:
        patched = unittest.mock.patch.object(explain_program, "program", lambda: PROGRAM)
        patched.start()
        self.addCleanup(patched.stop)
        compared = 0
        for kind, most in KINDS.items():
            for count in range(most * TIMES):
                with self.subTest(f"{kind} {count}"), self.there():
                    choice = random.Random(f"ids {kind} {count}")
                    compared += self.grow(choice, random_case(choice, kind).files)
        self.assertGreater(compared, 50)

    def grow(self, choice: random.Random, files: Mapping[str, str]) -> int:
        """Runs on a part of the rows and then on all; answers how many nulls were compared."""
        for name, content in files.items():
            pathlib.Path(name).write_text(part_of(choice, name, content), encoding="utf-8", newline="")
        first = self.run_once()
        for name, content in files.items():
            pathlib.Path(name).write_text(content, encoding="utf-8", newline="")
        second = self.run_once()
        if first is None or second is None:
            return 0
        things: dict[int, set[int]] = {}
        for term, thing in second.items():
            things.setdefault(thing, set()).update({first[term]} if term in first else ())
        for thing, before in things.items():
            if before:
                self.assertIn(thing, before)
            else:
                self.assertNotIn(thing, first.values())
        return sum(map(bool, things.values()))

    def run_once(self) -> dict[Term, int] | None:
        """The number of each null that the rules make, by its rule, variable and texts; nothing if clio refuses the
        case.
        """
        if subprocess.run([PROGRAM, "exchange"], capture_output=True, check=False).returncode:
            return None
        content = pathlib.Path("mapping.clio").read_bytes()
        mapping, printed = explain_program.mapping_of(content)
        assert mapping is not None
        found = Clashes(mapping, printed)
        crosswalk = Crosswalk("ids.db")
        naming = number(read_sets(content.decode())["target"], crosswalk, {}, False)
        crosswalk.close()
        numbers = naming.by_name()
        self.assertEqual(len(set(numbers.values())), len(numbers))
        things: dict[Term, int] = {}
        for rule, matches in enumerate(found.matches):
            variables = {cell.content for cell in mapping.rules[rule].conclusion_cells() if cell.kind == "existential"}
            for place, texts in enumerate(matches.places()):
                for variable in variables:
                    value = found.chase.value((rule, int(variable), place))
                    if isinstance(value, tuple):
                        things[printed[rule], printed[:rule].count(printed[rule]), variable,
                               texts] = numbers["?%d.%d.%d" % value]
        return things


def part_of(choice: random.Random, name: str, content: str) -> str:
    """Some of the rows of a table, or of the objects of a document."""
    if name.endswith(".json"):
        return json.dumps([one for one in json.loads(content.removeprefix("\ufeff")) if choice.random() < .6])
    if name.endswith(".csv"):
        entries = [fields for _, fields in records(content.encode())]
        return "".join(record_text(fields) for place, fields in enumerate(entries) if not place or choice.random() < .6)
    return content


if __name__ == "__main__":
    unittest.main()
