"""clio-load: the first load, the next ones, edits, audits, refusals, on SQLite and PostgreSQL."""
from __future__ import annotations

import contextlib
import csv
import os
import resource
import signal
import sqlite3
import subprocess
import sys
import time
import unittest

import server
from forked import ended
from trial import TOOLS, Trial
from warehouse import FIRST, NAMES, Base, PostgresBase, Source, SqliteBase, changed, locked, write_source

STARTED = contextlib.ExitStack()
PLACE: list[str] = []


def setUpModule() -> None:
    """Starts a server if there is one."""
    with contextlib.suppress(unittest.SkipTest):
        PLACE.append(STARTED.enter_context(server.started()).place[0])


def tearDownModule() -> None:
    """Stops the server."""
    STARTED.close()


def wanted(source: Source, times: dict[str, str]) -> dict[str, set[tuple[str | None, ...]]]:
    """The rows that the mapping demands of a source, with keys in place of made-up numbers: worked out by hand here, by
    the rules as they are written. `times` has the moments as the database prints them."""
    clients = {row[0]: row for row in source["client"]}
    offers = {row[0]: row for row in source["offer"]}
    sales = {row[0]: row for row in source["sale"] if row[1] in clients}
    return {
        "country": {(row[2],) for row in source["depot"]},
        "town": {(row[1], row[2]) for row in source["depot"]},
        "warehouse": {(row[0], row[1], "2020-01-01") for row in source["depot"]},
        "category": {(row[3],) for row in offers.values()},
        "product label": {(sku, text) for sku, text in source["word"] if sku in offers},
        "order line": {(no, sku, amount) for no, sku, amount in source["item"] if no in sales and sku in offers},
        "stock": {(code, sku, pieces or None) for code, sku, pieces in source["held"] if sku in offers},
        "visit": {(mail, day or None) for mail, day in source["visit"] if mail in clients},
        "Größe": {(row[3],) for row in offers.values()},
        "orders": {(no, mail, times.get(placed, placed) or None, total) for no, mail, placed, total in sales.values()},
    }


class Loads(Trial):
    """What is wanted of both databases."""

    base: Base

    def tool(self, name: str, *words: str | bytes, text: str = "") -> tuple[int, str, str]:
        """How a tool ends, in a process that has the modules of this one already."""
        return ended(name, [os.fsdecode(word) for word in words], self.folder, text)

    def load(self, *words: str) -> str:
        """A load that succeeds; what it prints."""
        return self.printed("clio-load", *self.base.words, "--ids", "ids.db", *words)

    def dry(self, *words: str) -> tuple[int, str]:
        """A dry run: its status and what it prints."""
        status, out, said = self.tool("clio-load", *self.base.words, "--ids", "ids.db", "--dry-run", *words)
        self.assertIn(status, (0, 1), said)
        return status, out

    def counts(self, printed: str) -> dict[str, list[int]]:
        """The numbers of inserted, changed, deleted and equal rows by table."""
        found = {}
        for line in printed.splitlines():
            if not line.startswith("  "):
                name, _, rest = line.rpartition(": ")
                words = {"inserted": 0, "changed": 0, "deleted": 0, "equal": 0}
                for part in rest.split(", "):
                    number, _, word = part.partition(" ")
                    word = word.removeprefix("to ").split(" ")[0]
                    word = {"insert": "inserted", "change": "changed", "delete": "deleted"}.get(word, word)
                    if number.isdigit() and word in words:
                        words[word] = int(number)
                found[name.strip('"')] = list(words.values())
        return found

    def source(self, source: Source) -> None:
        write_source(self.folder, source)

    def first(self) -> None:
        """The first load."""
        self.source(FIRST)
        self.load()

    def agrees(self, source: Source) -> None:
        """The tables have the rows that the mapping demands."""
        state = self.base.state()
        for name, rows in wanted(source, self.times).items():
            self.assertEqual({self.plain(row) for row in state[name]}, {self.plain(row) for row in rows}, name)
            self.assertEqual(len(state[name]), len(rows), name)

    @staticmethod
    def plain(row: tuple[str | None, ...]) -> tuple[str | None, ...]:
        """Numbers without zeros behind the point, which SQLite doesn't keep."""
        return tuple(f"{float(cell):g}" if cell and cell.replace(".", "").isdigit() else cell for cell in row)

    times: dict[str, str] = {}


class Common(Loads):
    """The tests of both databases; they are run by the classes below."""

    truth: tuple[str, str]  # how a database shows true and false
    plain_total: str

    def test_first(self) -> None:
        """Each table has what the mapping demands; unknown columns have their defaults; texts are as they were."""
        self.first()
        self.agrees(FIRST)
        rows = self.base.all("SELECT mail, name, born, active, points FROM {0}customer")
        customers = {row[0]: row[1:] for row in rows}
        true, false = self.truth
        self.assertEqual(customers, {"ann@x": ("Ann", "1980-02-29", true, "7"), "bob@x": ("Bob", None, false, "7"),
                                     "cyd@x": ("?", "1970-01-01", true, "7")})
        titles = self.base.all("SELECT sku, title, made FROM {0}product")
        self.assertEqual(titles, [("a-1", "Tea, green", "unknown"), ("b-2", 'Cup "big"', "unknown"),
                                  ("c-3", "Line\nbreak", "unknown")])

    def test_again(self) -> None:
        """A load of the same source writes no row, and a dry run says that nothing differs."""
        self.first()
        for name in NAMES:
            self.base.written(name)
        printed = self.load("--delete")
        self.assertEqual({name: self.base.written(name) for name in NAMES}, dict.fromkeys(NAMES, 0))
        self.assertTrue(all(counts[:3] == [0, 0, 0] for counts in self.counts(printed).values()), printed)
        self.assertEqual(self.dry("--delete")[0], 0)

    def test_edits(self) -> None:
        """Ten kinds of edits of the source: a dry run counts them and changes nothing, the load does them, the numbers
        stay."""
        self.first()
        before = self.base.numbers()
        source = changed(
            FIRST,
            client=[["ann@x", "Anna", "1980-02-29", "true"], ["bob@x", "Bob", "1990-01-01", "true"],
                    ["dee@x", "Dee", "", "false"]],
            sale=[["1", "ann@x", "2026-11-10T10:01:00Z", "13"], ["3", "dee@x", "", "7"], ["4", "bob@x", "", "1"]],
            offer=[["a-1", "Tea", "2.50", "drink"], ["b-2", 'Cup "big"', "10", "drink"], ["d-4", "Pot", "3", "new"]],
            item=[["1", "a-1", "3"], ["3", "d-4", "1"], ["4", "b-2", "9"]],
            depot=[["N", "Bonn", "DE"], ["S", "Bonn", "DE"], ["X", "Rome", "IT"]],
            held=[["N", "a-1", "99"], ["X", "d-4", "1"]],
            visit=[["ann@x", "2026-11-02"], ["ann@x", "2026-11-03"], ["bob@x", ""]],
            word=[["a-1", "hot"], ["d-4", "bio"]])
        self.source(source)
        state = self.base.state()
        status, printed = self.dry("--delete")
        self.assertEqual(status, 1)
        counts = self.counts(printed)
        self.assertEqual(self.base.state(), state)
        self.assertEqual(counts["customer"], [1, 2, 1, 0], printed)
        self.assertEqual(counts["order line"], [2, 1, 3, 0], printed)
        self.assertEqual(counts["visit"], [1, 0, 1, 2], printed)
        self.assertEqual(counts["orders"], [1, 2, 1, 0], printed)
        self.assertEqual(self.counts(self.load("--delete")), counts)
        self.agrees(source)
        after = self.base.numbers()
        for name, numbers in before.items():
            self.assertEqual({key: after[name][key] for key in numbers if key in after[name]},
                             {key: numbers[key] for key in numbers if key in after[name]})
        self.assertEqual(self.dry("--delete")[0], 0)

    def test_kept(self) -> None:
        """Rows that are gone are kept and counted if nothing else is asked for, and deleted when it is."""
        self.first()
        source = changed(FIRST, word=[])
        self.source(source)
        printed = self.load()
        self.assertIn('"product label": 0 inserted, 0 changed, 0 deleted, 0 equal, 3 kept', printed)
        self.assertEqual(len(self.base.state()["product label"]), 3)
        self.load("--delete")
        self.assertEqual(self.base.state()["product label"], [])

    def test_mark(self) -> None:
        """A row that is gone is marked once, and no longer when it is there again."""
        mapping = "mapping 1; source { set client { mail, name, born, active; } } " \
                  "target { set customer { cid, mail, name, born, active; key (cid); key (mail); } } " \
                  "rule client(m, n, b, a) -> customer(i, m, n, b, a);"
        self.source(FIRST)
        self.file("mapping.clio", mapping)
        self.load()
        self.file("client.csv", "mail,name,born,active\nann@x,Ann,1980-02-29,true\n")
        self.assertIn("customer: 0 inserted, 0 changed, 0 deleted, 2 marked, 1 equal", self.load("--mark", "gone"))
        true, false = self.truth
        marks = "SELECT mail, gone FROM {0}customer"
        self.assertEqual(self.base.all(marks), [("ann@x", false), ("bob@x", true), ("cyd@x", true)])
        self.assertNotIn("marked", self.load("--mark", "gone"))
        self.file("client.csv", "mail,name,born,active\nann@x,Ann,1980-02-29,true\nbob@x,Bob,,false\n")
        self.assertIn("customer: 0 inserted, 1 changed (gone 1), 0 deleted, 1 equal", self.load("--mark", "gone"))
        self.assertEqual(self.base.all(marks), [("ann@x", false), ("bob@x", false), ("cyd@x", true)])
        self.refused("clio-load", *self.base.words, "--ids", "ids.db", "--mark", "nothing",
                     why="--mark nothing: no table has a column of this name to mark rows by")
        self.source(FIRST)
        self.load("--mark", "gone")
        self.source(changed(FIRST, word=[], client=FIRST["client"][:2]))
        printed = self.load("--mark", "gone")
        self.assertIn("customer: 0 inserted, 0 changed, 0 deleted, 1 marked, 2 equal", printed)
        self.assertIn('"product label": 0 inserted, 0 changed, 0 deleted, 0 equal, 3 kept', printed)

    def test_others(self) -> None:
        """Rows of others are not touched, an audit tells them, and no thing gets their numbers."""
        self.base.run("INSERT INTO customer (cid, mail, points) VALUES (1, 'own@x', 3), (3, 'two@x', 3)")
        self.first()
        self.assertEqual(self.base.all("SELECT cid, mail, points FROM {0}customer WHERE points = 3"),
                         [("1", "own@x", "3"), ("3", "two@x", "3")])
        self.assertEqual(len(self.base.state()["customer"]), 5)
        status, printed = self.dry()
        self.assertEqual(status, 1)
        self.assertIn("customer: 0 to insert, 0 to change, 0 to delete, 3 equal, 2 of others", printed)
        self.assertEqual(self.dry("--others")[0], 0)
        self.source(changed(FIRST, client=[], sale=[], item=[], visit=[]))
        self.load("--delete")
        self.assertEqual([row[0] for row in self.base.state()["customer"]], ["own@x", "two@x"])

    def test_another_number(self) -> None:
        """A row that somebody has put under the number of a thing isn't changed, unless it is said to be that thing."""
        self.first()
        number = self.base.numbers()["customer"]["cyd@x"]
        self.base.run(f"DELETE FROM customer WHERE cid = {number}")
        self.source(changed(FIRST, client=FIRST["client"][:2]))
        self.load("--delete")
        self.base.run(f"INSERT INTO customer (cid, mail) VALUES ({number}, 'new@x')")
        self.source(FIRST)
        self.refused("clio-load", *self.base.words, "--ids", "ids.db", why="take --adopt")
        self.assertIn(("new@x",), {row[:1] for row in self.base.state()["customer"]})
        self.load("--adopt")
        self.assertIn(("cyd@x", "?"), {row[:2] for row in self.base.state()["customer"]})

    def test_adopt(self) -> None:
        """Rows that something else has loaded are taken as written by loads, if that is said."""
        self.base.run("INSERT INTO country VALUES ('DE'), ('XX'), ('YY')")
        self.file("mapping.clio", "mapping 1; source { set s { a; } } target { set country { iso; key (iso); } } "
                                  "rule s(x) -> country(x);")
        self.file("s.csv", "a\nDE\nXX\n")
        self.printed("clio-load", *self.base.words, "--adopt")
        self.file("s.csv", "a\nDE\n")
        self.printed("clio-load", *self.base.words, "--delete")
        self.assertEqual(self.base.all("SELECT iso FROM {0}country"), [("DE",), ("YY",)])

    def test_referred(self) -> None:
        """A row to which another table still refers is told, and kept if that is asked for; nothing is cascaded."""
        self.first()
        product = self.base.numbers()["product"]
        self.base.run(f"INSERT INTO review VALUES (1, {product['c-3']}, 'fine'); INSERT INTO complaint VALUES (1, 3)")
        source = changed(FIRST, sale=FIRST["sale"][:2], item=FIRST["item"][:3], offer=FIRST["offer"][:2])
        self.source(source)
        state = self.base.state()
        self.refused("clio-load", *self.base.words, "--ids", "ids.db", "--delete",
                     why="2 rows can't be deleted, since rows that stay refer to them")
        self.assertEqual(self.base.state(), state)
        printed = self.load("--delete", "--keep-referred")
        self.assertIn("product: 0 inserted, 0 changed, 0 deleted, 2 equal, 1 kept, 1 of them referred to", printed)
        self.assertEqual([row[0] for row in self.base.state()["product"]], ["a-1", "b-2", "c-3"])
        self.assertEqual([row[0] for row in self.base.state()["orders"]], ["1", "2", "3"])
        self.assertEqual(len(self.base.state()["order line"]), 3)
        self.assertEqual(self.base.all("SELECT nid, number FROM {0}complaint"), [("1", "3")])
        self.base.run("DELETE FROM complaint; DELETE FROM review")
        self.load("--delete")
        self.agrees(source)

    def test_exchanged(self) -> None:
        """Rows exchange the values of a unique key, and a new one gets that of one which goes."""
        mapping = "mapping 1; source { set part { no, slot; } } target { set category { kid, name; key (kid); } } " \
                  "rule part(n, s) -> category(n, s);"
        self.file("mapping.clio", mapping)
        for rows in ["1,a\n2,b\n3,c\n4,d\n", "1,b\n2,a\n3,d\n5,c\n", "1,a\n2,c\n3,b\n6,d\n"]:
            self.file("part.csv", "no,slot\n" + rows)
            self.printed("clio-load", *self.base.words, "--delete")
            self.assertEqual(self.base.all("SELECT kid, name FROM {0}category"),
                             [tuple(row.split(",")) for row in rows.split()])

    def test_audit(self) -> None:
        """After edits by hand --diff has each cell that differs, and a load puts all of it right."""
        self.first()
        numbers = self.base.numbers()
        self.base.run(f"""UPDATE customer SET name = 'Eve' WHERE mail = 'ann@x';
            UPDATE orders SET total = NULL WHERE number = 2;
            DELETE FROM "order line" WHERE number = 3;
            DELETE FROM stock WHERE code = 'W';
            INSERT INTO "product label" VALUES ({numbers['product']['c-3']}, 'odd');
            UPDATE product SET made = 'here' WHERE sku = 'a-1'""")
        status, printed = self.dry("--diff", "diff.csv")
        self.assertEqual(status, 1)
        with open(self.folder / "diff.csv", newline="", encoding="utf-8") as file:
            found = {(row["table"], row["change"], row["column"], row["database"], row["target"])
                     for row in csv.DictReader(file)}
        product = numbers["product"]
        self.assertEqual(found, {
            ("customer", "change", "name", "Eve", "Ann"), ("orders", "change", "total", "?", self.plain_total),
            ("order line", "insert", "number", "", "3"), ("order line", "insert", "pid", "", product["c-3"]),
            ("order line", "insert", "amount", "", "1"),
            ("stock", "insert", "code", "", "W"), ("stock", "insert", "pid", "", product["b-2"]),
            ("stock", "insert", "pieces", "", "?"),
            ("product label", "other", "pid", product["c-3"], ""), ("product label", "other", "label", "odd", "")})
        self.load()
        self.base.run("DELETE FROM \"product label\" WHERE label = 'odd'")
        self.agrees(FIRST)
        self.assertEqual(self.dry()[0], 0)
        self.assertEqual(self.base.all("SELECT made FROM {0}product WHERE sku = 'a-1'"), [("here",)])

    def test_misfits(self) -> None:
        """All that doesn't fit is listed, by record and value, and nothing is changed."""
        self.first()
        state, crosswalk = self.base.state(), (self.folder / "ids.db").read_bytes()
        self.source(changed(
            FIRST, client=[["ann@x", "Ann", "soon", "perhaps"], ["bob@x", "Bob", "", "false"]],
            item=[["1", "a-1", "two"], ["2", "a-1", ""]],
            sale=[["1", "ann@x", "", "many"], ["zwei", "bob@x", "", "1"], ["2", "bob@x", "", "1"]]))
        status, out, said = self.tool("clio-load", *self.base.words, "--ids", "ids.db")
        self.assertEqual((status, out), (2, ""), said)
        for part in ('column born is "soon"', 'column active is "perhaps"', 'column amount is "two"',
                     "column amount has no value", 'column total is "many"',
                     'column number is "zwei"'):
            self.assertIn(part, said)
        self.assertIn("record 1", said)
        self.assertIn("6 misfits; nothing is changed", said)
        self.assertEqual(self.base.state(), state)
        self.assertEqual((self.folder / "ids.db").read_bytes(), crosswalk)

    def test_no_numbers(self) -> None:
        """Without a crosswalk a surrogate key has no value, and that is said."""
        self.source(FIRST)
        self.refused("clio-load", *self.base.words, why="column cid has no value, and must have one in table orders")

    def test_missing(self) -> None:
        """A table and columns that are missing are all told."""
        self.file("mapping.clio", """mapping 1;
            source { set a { x; } }
            target { set nowhere { x; } set country { iso, area; } set product { sku; } }
            line a.x -> nowhere.x; line a.x -> country.iso; line a.x -> country.area; line a.x -> product.sku;""")
        self.file("a.csv", "x\n1\n")
        status, out, said = self.tool("clio-load", *self.base.words)
        self.assertEqual((status, out), (2, ""), said)
        for part in ("a set nowhere, and the database no table of this name", "no column for country.area",
                     'column "title" must have a value in each row'):
            self.assertIn(part, said)

    def test_constraints(self) -> None:
        """What a constraint refuses changes nothing."""
        self.first()
        state = self.base.state()
        self.source(changed(FIRST, offer=[["a-1", "Tea, green", "-1", "drink"], *FIRST["offer"][1:]], word=[]))
        self.refused("clio-load", *self.base.words, "--ids", "ids.db", "--delete", why="nothing is changed")
        self.assertEqual(self.base.state(), state)

    def test_null(self) -> None:
        """A text is NULL everywhere."""
        self.source(changed(FIRST, client=[["ann@x", "none", "none", "true"]], sale=[], item=[], visit=[]))
        self.load("--null", "none")
        self.assertEqual(self.base.all("SELECT name, born FROM {0}customer"), [(None, None)])

    def test_key(self) -> None:
        """Rows are matched by a key that is given by hand, and the numbers of the database stay."""
        self.file("mapping.clio", "mapping 1; source { set place { name, iso; } } target { set town { name, iso; } } "
                                  "rule place(n, i) -> town(n, i);")
        self.base.run("INSERT INTO country VALUES ('DE'), ('FR'); INSERT INTO town (name, iso) VALUES ('Bonn', 'FR'), "
                      "('Lyon', 'FR')")
        self.file("place.csv", "name,iso\nBonn,DE\nUlm,DE\n")
        self.assertIn("town: 1 inserted, 1 changed (iso 1), 0 deleted, 0 equal, 1 of others",
                      self.printed("clio-load", *self.base.words, "--key", "town=name"))
        self.assertEqual(self.base.all("SELECT tid, name, iso FROM {0}town"),
                         [("1", "Bonn", "DE"), ("2", "Lyon", "FR"), ("3", "Ulm", "DE")])
        self.file("place.csv", "name,iso\nUlm,FR\nUlm,DE\n")
        self.refused("clio-load", *self.base.words, "--key", "town=name", why="have the same key (name)")
        self.refused("clio-load", *self.base.words, "--key", "town", why="a table and its columns must be there")
        self.refused("clio-load", *self.base.words, "--key", "nobody=mail", why="no such table")
        self.refused("clio-load", *self.base.words, "--key", "town=tid", why="gives no column tid")

    def test_other_key(self) -> None:
        """Rows that were matched by another key are still those that loads wrote."""
        mapping = "mapping 1; source { set part { no, slot; } } target { set category { kid, name; key (kid); } } " \
                  "rule part(n, s) -> category(n, s);"
        self.file("mapping.clio", mapping)
        self.file("part.csv", "no,slot\n1,a\n2,b\n")
        self.base.run("INSERT INTO category VALUES (9, 'own')")
        self.printed("clio-load", *self.base.words)
        self.file("part.csv", "no,slot\n1,a\n")
        self.printed("clio-load", *self.base.words, "--delete", "--key", "category=name")
        self.assertEqual(self.base.all("SELECT kid, name FROM {0}category"), [("1", "a"), ("9", "own")])
        self.file("part.csv", "no,slot\n")
        self.printed("clio-load", *self.base.words, "--delete")
        self.assertEqual(self.base.all("SELECT kid, name FROM {0}category"), [("9", "own")])

    def test_identity(self) -> None:
        """With --identity a town that is there keeps its number, new ones get the next, and the crosswalk keeps all."""
        self.base.run("INSERT INTO country VALUES ('AT'), ('DE'); INSERT INTO town (name, iso) VALUES ('Graz', 'AT'), "
                      "('Ulm', 'DE')")
        self.base.run("INSERT INTO customer (cid, mail) VALUES (50, 'ann@x')")
        self.source(FIRST)
        self.refused("clio-load", *self.base.words, "--ids", "ids.db", why="nothing is changed; if a row that has "
                     "this is the same thing with another number, take --identity")
        _, printed = self.dry("--identity", "--others")
        self.assertIn("town: 2 to insert, 0 to change, 0 to delete, 1 equal, 1 of others", printed)
        self.load("--identity")
        orders = self.base.all("SELECT o.number, c.cid, c.name FROM {0}orders o JOIN {0}customer c ON c.cid = o.cid")
        self.assertEqual(orders, [("1", "50", "Ann"), ("2", self.base.numbers()["customer"]["bob@x"], "Bob"),
                                  ("3", "50", "Ann")])
        towns = {"Graz AT": "1", "Ulm DE": "2", "Bonn DE": "3", "Paris FR": "4"}
        numbers = self.base.numbers()["town"]
        self.assertEqual({key: numbers[key] for key in ("Graz AT", "Ulm DE")}, {"Graz AT": "1", "Ulm DE": "2"})
        self.assertEqual(sorted(str(number) for number in numbers.values()), sorted(towns.values()))
        self.assertEqual(set(numbers), set(towns))
        self.assertEqual([row[:2] for row in self.base.state()["warehouse"]],
                         [("N", "Bonn"), ("S", "Ulm"), ("W", "Paris")])
        self.assertEqual(self.dry("--identity", "--others")[0], 0)
        self.source(changed(FIRST, depot=[["N", "Bonn", "DE"], ["X", "Rome", "IT"]], held=[]))
        self.load("--identity", "--delete")
        self.base.run("INSERT INTO town (name, iso) VALUES ('Linz', 'AT')")
        self.source(FIRST)
        self.load("--identity", "--delete")
        after = self.base.numbers()["town"]
        self.assertEqual(after["Bonn DE"], numbers["Bonn DE"])
        self.assertEqual(after["Ulm DE"], "2")
        self.assertEqual(len(set(after.values())), 5)
        self.assertEqual([row[:2] for row in self.base.state()["warehouse"]],
                         [("N", "Bonn"), ("S", "Ulm"), ("W", "Paris")])
        self.refused("clio-load", *self.base.words, "--identity", why="--identity needs --ids")

    def test_another_crosswalk(self) -> None:
        """A crosswalk that isn't there would give all rows that were loaded new numbers: it is refused. With --identity
        they keep theirs, and empty tables take it."""
        self.source(FIRST)
        self.load("--identity")
        state = self.base.state()
        ways: list[list[str]] = [["--delete"], ["--delete", "--dry-run"], []]
        for words in ways:
            self.refused("clio-load", *self.base.words, "--ids", "idz.db", *words, why="idz.db is a new crosswalk, and "
                         "rows of")
            self.assertEqual(self.base.state(), state)
            self.assertFalse((self.folder / "idz.db").exists())
        self.printed("clio-load", *self.base.words, "--ids", "idz.db", "--identity", "--delete")
        self.assertEqual(self.base.state(), state)

    def test_out(self) -> None:
        """Files of an exchange are taken with their summary, and refused if they are cut, old or of another mapping."""
        self.source(FIRST)
        status, summary = self.clio("exchange")
        self.assertEqual(status, 0)
        self.file("summary", summary)
        words = [*self.base.words, "--ids", "ids.db", "--out", "out", "--summary", "summary"]
        whole = {path.name: path.read_bytes() for path in (self.folder / "out").iterdir()}
        self.printed("clio-load", *words)
        self.agrees(FIRST)
        self.assertEqual({path.name: path.read_bytes() for path in (self.folder / "out").iterdir()}, whole)
        orders = self.folder / "out/orders.csv"
        orders.write_bytes(whole["orders.csv"].rsplit(b"\n", 2)[0] + b"\n")
        self.refused("clio-load", *words, why="it was cut or changed, so run clio exchange again")
        orders.write_bytes(whole["orders.csv"])
        later = time.time() + 100
        os.utime(self.folder / "sale.csv", (later, later))
        self.refused("clio-load", *words, why="is older than sale.csv: run clio exchange again")
        os.utime(self.folder / "sale.csv", (1, 1))
        orders.unlink()
        self.refused("clio-load", *words, why="out/orders.csv is missing")
        self.refused("clio-load", *self.base.words, "--out", "out", why="--out and --summary go together")

    def test_log(self) -> None:
        """A log has a row for each load, and none for a dry run."""
        self.source(FIRST)
        self.dry("--log", "loads")
        self.load("--log", "loads")
        self.load("--log", "loads", "--delete")
        rows = self.base.all("SELECT loaded_at, load, mapping, counts FROM {0}loads")
        self.assertEqual(len(rows), 2)
        self.assertTrue(all(row[1] == "clio" and len(str(row[2])) == 64 and '"inserted"' in str(row[3])
                            for row in rows))

    def test_names(self) -> None:
        """A load of another name doesn't delete what the first one wrote."""
        self.first()
        self.source(changed(FIRST, word=[]))
        self.load("--delete", "--name", "other")
        self.assertEqual(len(self.base.state()["product label"]), 3)
        self.load("--delete")
        self.assertEqual(self.base.state()["product label"], [])

    def test_clash(self) -> None:
        """What clio refuses ends the load with clio's status."""
        self.source(changed(FIRST, client=[*FIRST["client"], ["ann@x", "Other", "", "true"]]))
        status, out, said = self.tool("clio-load", *self.base.words)
        self.assertEqual((status, out), (3, ""))
        self.assertRegex(said, "^clash: .*\nclio-load: nothing is changed; clio-explain exchange says more\n$")

    def test_killed(self) -> None:
        """A load that is killed at any time changes nothing, or has done all."""
        self.first()
        state = self.base.state()
        source = changed(FIRST, word=[], client=[*FIRST["client"],
                                                 *([f"m{one}@x", "M", "", "true"] for one in range(3000))])
        self.source(source)
        began = time.monotonic()
        self.dry()
        took = time.monotonic() - began
        for part in 0.6, 0.9:
            self.source(source)
            run = subprocess.Popen([sys.executable, "-B", TOOLS / "clio-load", *self.base.words, "--ids", "ids.db",
                                    "--delete"],
                                   cwd=self.folder, stdout=subprocess.DEVNULL, stderr=subprocess.DEVNULL)
            time.sleep(took * part)
            run.send_signal(signal.SIGKILL)
            run.wait()
            after = self.base.state()
            if len(after["customer"]) == 3:
                self.assertEqual(after, state)
            else:
                self.assertEqual((len(after["customer"]), after["product label"]), (3003, []))
        self.load("--delete")
        self.assertEqual(len(self.base.state()["customer"]), 3003)


@unittest.skipIf(sqlite3.sqlite_version_info < (3, 39), "SQLite is older than 3.39")
class OnSqlite(Common):
    """SQLite."""

    truth = "1", "0"
    plain_total = "0.1"

    def setUp(self) -> None:
        super().setUp()
        self.base = SqliteBase(self.folder / "house.db")

    def test_identity_with_a_foreign_key_that_is_no_ref(self) -> None:
        """A table may refer to itself where the mapping declares no ref: what it refers by is the same number."""
        self.file("mapping.clio", """mapping 2;
            source { set op { id, code, parent; } }
            target { set company { cid, code, owner; key (cid); key (code); } }
            rule op(i, c, p) -> company(k, c, o);
            rule op(i, c, p), op(p, d, q) -> company(k, c, o), company(o, d, r);""")
        self.file("op.csv", "id,code,parent\n1,A,\n2,B,1\n3,C,9\n")
        with contextlib.closing(sqlite3.connect(self.folder / "own.db")) as base:
            base.executescript("""CREATE TABLE company (cid INTEGER PRIMARY KEY, code TEXT NOT NULL UNIQUE,
                owner INTEGER REFERENCES company (cid));
                INSERT INTO company VALUES (70, 'Z', NULL), (71, 'B', NULL);""")
            for _ in range(2):
                self.printed("clio-load", "sqlite", "own.db", "--ids", "own_ids.db", "--identity")
                self.assertEqual(base.execute("SELECT * FROM company ORDER BY cid").fetchall(),
                                 [(70, "Z", None), (71, "B", 72), (72, "A", None), (73, "C", None)])

    def test_lock(self) -> None:
        """A file that somebody else has locked stays as it was."""
        self.first()
        self.source(changed(FIRST, word=[]))
        path = self.folder / "house.db"
        content = path.read_bytes()
        with locked(path):
            self.refused("clio-load", *self.base.words, "--ids", "ids.db", "--delete", "--wait", "1",
                         why="somebody else has it locked; try again; nothing is changed")
        self.assertEqual(path.read_bytes(), content)

    def test_full(self) -> None:
        """A database that can't grow, as on a full disk, stays as it was."""
        self.file("mapping.clio", "mapping 1; source { set part { no, slot; } } target { set category { kid, name; "
                                  "key (kid); } } rule part(n, s) -> category(n, s);")
        self.file("part.csv", "no,slot\n1,a\n")
        self.printed("clio-load", *self.base.words)
        rows = "".join(f"{one},{'a long name of the thing' * 2} {one}\n" for one in range(20000))
        self.file("part.csv", "no,slot\n" + rows)
        size = 3 * len(rows) // 2
        run = subprocess.run([sys.executable, "-B", TOOLS / "clio-load", *self.base.words, "--delete"], cwd=self.folder,
                             capture_output=True, check=False, text=True,
                             preexec_fn=lambda: resource.setrlimit(resource.RLIMIT_FSIZE, (size, size)))
        self.assertEqual((run.returncode, run.stdout), (2, ""), run.stderr)
        self.assertIn("SQLite: ", run.stderr)
        self.assertEqual(len(run.stderr.splitlines()), 1, run.stderr)
        self.assertEqual(self.base.all("SELECT kid, name FROM {0}category"), [("1", "a")])

    def test_places(self) -> None:
        """What is no SQLite file is refused."""
        self.source(FIRST)
        self.refused("clio-load", "sqlite", "none.db", why="none.db is no file")
        self.file("none.db", "nothing" * 1000)
        self.refused("clio-load", "sqlite", "none.db", why="not a database")


class OnPostgres(Common):
    """PostgreSQL."""

    truth = "t", "f"
    plain_total = "0.10"
    base: PostgresBase
    times = {"2026-11-10T10:01:00Z": "2026-11-10 10:01:00+00", "2026-11-11 09:00:00+02": "2026-11-11 07:00:00+00"}

    def setUp(self) -> None:
        super().setUp()
        if not PLACE:
            self.skipTest("there is no server")
        self.base = PostgresBase(PLACE[0])
        self.addCleanup(self.base.session.close)

    def test_lock(self) -> None:
        """Tables that somebody else has locked stay as they were."""
        self.first()
        self.source(changed(FIRST, word=[]))
        with self.base.session.transaction():
            self.base.run('LOCK TABLE "product label" IN SHARE MODE')
            self.refused("clio-load", *self.base.words, "--ids", "ids.db", "--delete", "--wait", "1",
                         why="somebody else uses these tables; nothing is changed")
        self.assertEqual(len(self.base.state()["product label"]), 3)

    def test_sequence(self) -> None:
        """A sequence is behind the greatest number."""
        self.first()
        self.base.run("INSERT INTO country VALUES ('AT'); INSERT INTO town (name, iso) VALUES ('Graz', 'AT')")
        numbers = sorted(int(number or 0) for number in self.base.numbers()["town"].values())
        self.assertEqual(int(self.base.numbers()["town"]["Graz AT"] or 0), numbers[-1])

    def test_descending_sequence(self) -> None:
        """Numbers that go down stay behind the least one, and those of a load with numbers are passed by."""
        self.base.run("ALTER TABLE town ALTER tid SET INCREMENT -5 SET MINVALUE -1000 SET MAXVALUE 1000 RESTART 100")
        self.base.run("INSERT INTO country VALUES ('AT'); INSERT INTO town (tid, name, iso) OVERRIDING SYSTEM VALUE "
                      "VALUES (95, 'Graz', 'AT')")
        self.source(FIRST)
        self.load("--identity")
        numbers = [int(number or 0) for number in self.base.numbers()["town"].values()]
        self.assertEqual(sorted(numbers, reverse=True), [95, 90, 85, 80])
        self.base.run("INSERT INTO town (name, iso) VALUES ('Linz', 'AT')")
        self.assertEqual(self.base.numbers()["town"]["Linz AT"], "75")

    def test_identity_past_the_sequence(self) -> None:
        """A number that somebody wrote into a row, and that the sequence has not given yet, is no new thing's."""
        self.base.run("INSERT INTO country VALUES ('AT'); INSERT INTO town (tid, name, iso) OVERRIDING SYSTEM VALUE "
                      "VALUES (2, 'Graz', 'AT')")
        self.source(FIRST)
        self.load("--identity")
        self.assertEqual(self.base.numbers()["town"].pop("Graz AT"), "2")
        self.assertEqual(len(self.base.numbers()["town"]), 4)
        self.assertEqual(self.dry("--identity", "--others")[0], 0)

    def test_silent(self) -> None:
        """What a type would alter without a word is listed too."""
        self.source(changed(FIRST, offer=[["a-1", "Tea", "2.505", "drink"]],
                            depot=[["N", "A town with a very long name", "DE"]],
                            client=[["ann@x", "Ann", "1980-02-29 10:00", "true"]], sale=[], item=[], held=[], visit=[],
                            word=[]))
        status, out, said = self.tool("clio-load", *self.base.words, "--ids", "ids.db")
        self.assertEqual((status, out), (2, ""))
        for part in ('column price is "2.505"', 'column name is "A town with', 'column born is "1980-02-29 10:00"',
                     "3 misfits"):
            self.assertIn(part, said)

    def test_rights(self) -> None:
        """Who may make no schema for the record is told what to do; a dry run needs none."""
        self.base.run("CREATE TABLE thing (a TEXT PRIMARY KEY)")
        if self.base.rows("SELECT to_regnamespace('clio_load')") != [(None,)]:
            self.base.run("ALTER SCHEMA clio_load RENAME TO clio_load_before")
            self.addCleanup(self.base.run, "ALTER SCHEMA clio_load_before RENAME TO clio_load")
        self.base.run(f'CREATE ROLE guest LOGIN; GRANT USAGE ON SCHEMA "{self.base.words[2]}" TO guest; '
                      "GRANT ALL ON thing TO guest")
        self.addCleanup(self.base.run, "DROP OWNED BY guest; DROP ROLE guest")
        self.file("mapping.clio", "mapping 1; source { set s { a; } } target { set thing { a; key (a); } } "
                                  "rule s(x) -> thing(x);")
        self.file("s.csv", "a\nx\n")
        words = ["postgres", PLACE[0].replace("user=clio", "user=guest"), self.base.words[2]]
        self.assertEqual(self.tool("clio-load", *words, "--dry-run")[0], 1)
        self.refused("clio-load", *words, why='CREATE SCHEMA clio_load AUTHORIZATION "guest"; nothing is changed')
        self.assertEqual(self.base.rows("SELECT a FROM thing"), [])

    def test_partitions(self) -> None:
        """Rows of a table in parts have no places of their own, so without a key they can't be told apart."""
        self.base.run("CREATE TABLE part (a TEXT, b INTEGER) PARTITION BY LIST (a); CREATE TABLE part1 PARTITION OF "
                      "part"
                      " FOR VALUES IN ('x'); CREATE TABLE part2 PARTITION OF part FOR VALUES IN ('y')")
        self.file("mapping.clio", "mapping 1; source { set s { a, b; } } target { set part { a, b; } } rule s(x, y) -> "
                                  "part(x, y);")
        self.file("s.csv", "a,b\nx,1\ny,1\n")
        self.refused("clio-load", *self.base.words, why='table "part" has no key with a value in each row')
        self.printed("clio-load", *self.base.words, "--key", "part=a,b")
        self.file("s.csv", "a,b\ny,1\n")
        self.printed("clio-load", *self.base.words, "--key", "part=a,b", "--delete")
        self.assertEqual(self.base.rows("SELECT a, b FROM part"), [("y", "1")])

    def test_circle(self) -> None:
        """Foreign keys in a circle that can be deferred are."""
        self.base.run("CREATE TABLE one (a TEXT PRIMARY KEY, b TEXT); CREATE TABLE two (b TEXT PRIMARY KEY, a TEXT "
                      "REFERENCES one"
                      " DEFERRABLE); ALTER TABLE one ADD FOREIGN KEY (b) REFERENCES two DEFERRABLE")
        self.file("mapping.clio", "mapping 1; source { set s { a, b; } } target { set one { a, b; key (a); } set two { "
                                  "b, a; key (b); } }"
                                  " rule s(x, y) -> one(x, y), two(y, x);")
        for rows in "x,u\ny,v\n", "y,w\nz,u\n", "":
            self.file("s.csv", "a,b\n" + rows)
            self.printed("clio-load", *self.base.words, "--delete")
            self.assertEqual(["".join(f"{a},{b}\n" for a, b in self.base.rows("SELECT a, b FROM one"))], [rows])

    def test_schema(self) -> None:
        """A schema that is not there is refused."""
        self.source(FIRST)
        self.refused("clio-load", "postgres", PLACE[0], "nowhere", why="there is no table in the schema nowhere")


del Common, Loads  # they are run by their subclasses alone


if __name__ == "__main__":
    unittest.main()
