"""clio-tables: what it prints, and what it refuses. Whether databases take it is tried by dev/check."""
import shutil
import subprocess
import unittest

from trial import Trial, copy_mapping

from clio_tools import csv as clio_csv

SHOP = """mapping 1;
source { set sale { id, buyer, price, day; } }
target {
  set customer { cid, cname, phone; key (cid); key (cname); }
  set orders { oid, price, day, cid; key (oid); ref (cid) -> customer (cid); }
}
line sale.id -> orders.oid;
line sale.price -> orders.price;
line sale.day -> orders.day;
line sale.buyer -> customer.cname;
"""
HOSTILE = [["5\"-6\" disk"], ["5\" disk"], ["\\."], ["\\N"], ["a\n\\.\nb"], ["\t\\t"], [""], ["a\r\nb\rc"],
           ["'; DROP TABLE x; --"], ["?"], ["\\"], ["$1 é \u2028"]]
BACK = {"\\\\": "\\", "\\t": "\t", "\\n": "\n", "\\r": "\r"}


def copied(sql: str) -> dict[str, list[list[str | None]]]:
    """The rows of the copy format in a script, by the names of their tables."""
    found: dict[str, list[list[str | None]]] = {}
    rows: list[list[str | None]] | None = None
    for line in sql.split("\n"):
        if rows is None and line.startswith("COPY "):
            rows = found[line.split('"')[1]] = []
        elif rows is not None and line == "\\.":
            rows = None
        elif rows is not None:
            rows.append([None if cell == "\\N" else unescaped(cell) for cell in line.split("\t")])
    return found


def unescaped(cell: str) -> str:
    text, place = "", 0
    while place < len(cell):
        sign = cell[place : place + (2 if cell[place] == "\\" else 1)]
        text, place = text + BACK.get(sign, sign), place + len(sign)
    return text


class Copy(Trial):
    def test_source_has_the_texts_of_the_file(self) -> None:
        self.file("mapping.clio", copy_mapping(["x"]))
        clio_csv.write_table(self.folder / "a0.csv", ["x"], HOSTILE)
        self.assertEqual(copied(self.printed("clio-tables", "source"))["a0"], HOSTILE)
        self.file("a0.csv", b'x\r\n5"-6" disk\n5" disk\r\n"\\."\n\n"a"b"\r')
        self.assertEqual(copied(self.printed("clio-tables", "source"))["a0"],
                         [['5"-6" disk'], ['5" disk'], ["\\."], ['ab"']])

    def test_target_has_the_texts_of_the_file(self) -> None:
        self.file("mapping.clio", copy_mapping(["x"]))
        clio_csv.write_table(self.folder / "a0.csv", ["x"], HOSTILE)
        self.assertEqual(self.clio("exchange")[0], 0)
        rows = list(clio_csv.read_table(self.folder / "out/b0.csv", ["x"]))
        self.assertEqual(copied(self.printed("clio-tables", "postgres"))["b0"], rows)
        if shutil.which("sqlite3"):
            sql = self.printed("clio-tables", "sqlite") + ".mode quote\nSELECT count(*) FROM b0;\n"
            done = subprocess.run(["sqlite3", ":memory:"], cwd=self.folder, input=sql.encode(), capture_output=True,
                                  check=True)
            self.assertEqual(done.stdout, b"%d\n" % len(rows))

    def test_documents(self) -> None:
        self.file("mapping.clio", "mapping 1; source { set club { cname; set member { mname; } } } target { set b { x; "
                                  "} }")
        self.file("club.json", '[{"cname": "\\\\.", "member": [{"mname": 7}, {}]}, {"cname": null}]')
        rows = copied(self.printed("clio-tables", "source"))
        self.assertEqual(rows, {"club": [["#0", "\\."], ["#1", ""]], "member": [["#0", "7"], ["#0", ""]]})
        self.file("club.json", '[{"cname": "a", "town": "b"}]')
        self.refused("clio-tables", "source", why="club.json: unknown member at /0/town")


class Shop(Trial):
    def shop(self, rows: list[list[str]]) -> str:
        """Exchanges these sales, and gives the summary."""
        self.file("mapping.clio", SHOP)
        clio_csv.write_table(self.folder / "sale.csv", ["id", "buyer", "price", "day"], rows)
        status, summary = self.clio("exchange")
        self.assertEqual(status, 0)
        return summary


class Refusals(Shop):
    def test_summary(self) -> None:
        summary = self.shop([["1", "ann", "1.5", "2024-02-29"], ["2", "bob", "", ""]])
        for what in "sqlite", "postgres", "types":
            self.printed("clio-tables", what, "--summary", "-", text=summary)
        self.refused("clio-tables", "sqlite", "--summary", "-", why="the summary is empty")
        self.refused("clio-tables", "sqlite", "--summary", "-", text="usage: clio", why="does not print")
        self.refused("clio-tables", "sqlite", "--summary", "-", text="rules.txt 1\n", why="has no customer.csv")
        orders = self.folder / "out/orders.csv"
        orders.write_bytes(orders.read_bytes().rsplit(b"\n", 2)[0] + b"\n")
        self.refused("clio-tables", "postgres", "--summary", "-", text=summary, why="has 1 row, and the summary says 2")

    def test_files(self) -> None:
        self.file("mapping.clio", copy_mapping(["x", "y"]))
        self.refused("clio-tables", "sqlite", why="out/b0.csv is missing")
        for content, why in [(b"x\n", "the header is x"), (b"x,y\n1\n", "record 1 has 1 field"),
                             (b"x,y\n1,\xff\n", "not UTF-8"), (b"x,y\n1,a\0\n", "byte 0")]:
            self.file("out/b0.csv", content)
            self.refused("clio-tables", "postgres", why=why)
            self.refused("clio-tables", "sqlite", why=why)
        self.refused("clio-tables", "postgres", "other.clio", why="clio-tables: other.clio: No such file")
        self.refused("clio-tables", "mysql", why="usage")
        self.file("mapping.clio", "mapping 1; source { set x {")
        self.refused("clio-tables", "source", why="mapping.clio")

    def test_names(self) -> None:
        self.file("mapping.clio", copy_mapping(["n" * 64]))
        self.file("out/b0.csv", "n" * 64 + "\n")
        self.refused("clio-tables", "postgres", why="after 63 letters")
        self.file("mapping.clio", copy_mapping(["x", "X"]))
        self.refused("clio-tables", "sqlite", why="takes x and X as one name")
        self.file("mapping.clio", copy_mapping(["x", "ctid"]))
        self.file("a0.csv", "x,ctid\n1,2\n")
        for what in "postgres", "source":
            self.refused("clio-tables", what, why="PostgreSQL has a column ctid of its own")


DEPENDENT = """mapping 3;
source { set a { x; } }
target {
  set addr { who, zip, town, land; dep (zip) -> (town, zip, land); set phone { kind, num; dep (kind) -> (num); } }
}
"""
ADDRESSES = [["?0.0.0", "ann", "10", "Rome", "it"], ["?0.0.1", "bob", "10", "Rome", "it"],
             ["?0.0.2", "cy", "20", "?1.0.0", "fr"]]
PHONES = [["?0.0.0", "home", "1"], ["?0.0.1", "home", "2"]]


class Dependencies(Trial):
    """Of a dependency there is a comment, and a query for what breaks it."""

    def checks(self, addresses: list[list[str]], phones: list[list[str]],
               what: str = "sqlite") -> tuple[str, list[str]]:
        """The queries for these rows."""
        self.file("mapping.clio", DEPENDENT)
        self.file("out/addr.csv", clio_csv.record_text(["#id", "who", "zip", "town", "land"])
                  + "".join(map(clio_csv.record_text, addresses)))
        self.file("out/phone.csv", clio_csv.record_text(["#up", "kind", "num"])
                  + "".join(map(clio_csv.record_text, phones)))
        sql = self.printed("clio-tables", what)
        return sql, [line.removeprefix("-- check: ") for line in sql.split("\n") if line.startswith("-- check: ")]

    def broken(self, addresses: list[list[str]], phones: list[list[str]]) -> str:
        """What the queries list, in SQLite."""
        sql, checks = self.checks(addresses, phones)
        done = subprocess.run(["sqlite3", ":memory:"], cwd=self.folder, input="\n".join([sql, *checks]).encode(),
                              capture_output=True, check=True)
        return done.stdout.decode()

    def test_text(self) -> None:
        _, checks = self.checks(ADDRESSES, PHONES, "postgres")
        self.assertEqual(checks, [
            'SELECT DISTINCT a."zip", a."town", b."town" FROM target."addr" AS a, target."addr" AS b WHERE a."zip" = '
            'b."zip" AND a."town" < b."town";',
            'SELECT DISTINCT a."zip", a."land", b."land" FROM target."addr" AS a, target."addr" AS b WHERE a."zip" = '
            'b."zip" AND a."land" < b."land";',
            'SELECT DISTINCT a."#up", a."kind", a."num", b."num" FROM target."phone" AS a, target."phone" AS b'
            ' WHERE a."#up" = b."#up" AND a."kind" = b."kind" AND a."num" < b."num";'])

    @unittest.skipUnless(shutil.which("sqlite3"), "sqlite3 is missing")
    def test_what_is_listed(self) -> None:
        self.assertEqual(self.broken(ADDRESSES, PHONES), "")
        pisa = [["?0.0.3", "dee", "10", "Pisa", "it"], ["?0.0.4", "eve", "10", "Pisa", "it"]]
        self.assertEqual(self.broken(ADDRESSES + pisa, PHONES), "10|Pisa|Rome\n")
        self.assertEqual(self.broken(ADDRESSES + [["?0.0.3", "dee", "20", "?1.0.1", "be"]], PHONES),
                         "20|?1.0.0|?1.0.1\n20|be|fr\n")
        self.assertEqual(self.broken(ADDRESSES, PHONES + [["?0.0.1", "home", "3"]]), "?0.0.1|home|2|3\n")


class Types(Shop):
    def test_inferred(self) -> None:
        self.shop([["1", "ann", "1.5", "2024-02-29"], ["2", "bob", "12", ""], ["3", "7", "0.10", "2023-01-01"]])
        types = self.printed("clio-tables", "types")
        self.assertEqual(types.split("\n")[3:7],
                         ["orders.oid integer", "orders.price numeric", "orders.day date", "orders.cid text"])
        self.file("types.txt", types)
        sql = self.printed("clio-tables", "postgres", "--types", "types.txt")
        self.assertIn('"oid" INTEGER NOT NULL,\n  "price" NUMERIC,\n  "day" DATE,\n  "cid" TEXT NOT NULL', sql)
        self.assertIn(["2", "12", None, "?0.0.1"], [row[:4] for row in copied(sql)["orders"]])
        self.refused("clio-tables", "sqlite", "--types", "types.txt", why="0.10, and SQLite would keep it as 0.1")

    def test_what_holds_no_type(self) -> None:
        day = ["1", "ann", "007", "2023-02-29"]
        self.shop([day, ["2", "bob", "-0", "2023-02-28"]])
        self.assertIn("orders.price text\norders.day text", self.printed("clio-tables", "types"))
        for line, why in [("orders.price integer", "no integer"), ("orders.day date", "no date"),
                          ("customer.cid integer\norders.cid integer", "clio-ids"),
                          ("orders.cid integer", "one type"), ("orders.price money", "none of the types"),
                          ("orders.nothing text", "line 1"), ("a", "line 1")]:
            self.file("types.txt", line)
            self.refused("clio-tables", "postgres", "--types", "types.txt", why=why)

    def test_numbers_at_their_limits(self) -> None:
        """A number that a database would give back with other digits, or not at all, is refused."""
        kept = ["7.25", "-0.5", "9007199254740993", "99999999999999.5"]
        changed = ["12.0", "0.30000000000000004", "999999999999999.5", "0.00001", "100000000000000000000"]
        self.shop([[str(place), "ann", price, ""] for place, price in enumerate(kept + changed)])
        types = self.printed("clio-tables", "types")
        self.assertIn("orders.price numeric", types)
        self.file("types.txt", types)
        self.printed("clio-tables", "postgres", "--types", "types.txt")
        for price in changed:
            self.shop([["1", "ann", price, ""]])
            self.refused("clio-tables", "sqlite", "--types", "types.txt",
                         why=f"is {price}, and SQLite would keep it as")
        self.shop([[str(place), "ann", price, ""] for place, price in enumerate(kept)])
        sql = self.printed("clio-tables", "sqlite", "--types", "types.txt")
        if shutil.which("sqlite3"):
            query = f"{sql}SELECT price FROM orders ORDER BY oid;"
            done = subprocess.run(["sqlite3", ":memory:"], cwd=self.folder, input=query.encode(), capture_output=True,
                                  check=True)
            self.assertEqual(done.stdout.decode().split(), kept)
        self.shop([["1", "ann", "0." + "1" * 16384, ""]])
        self.assertIn("orders.price text", self.printed("clio-tables", "types"))
        self.shop([["1", "ann", "1e-400", ""], ["2", "bob", "0e-400", ""]])
        self.file("types.txt", "orders.price real")
        self.refused("clio-tables", "postgres", "--types", "types.txt", why="is '1e-400', which is no real")

    def test_numbered_keys(self) -> None:
        self.shop([["1", "ann", "", ""], ["2", "bob", "", ""]])
        for name in "customer", "orders":
            path = self.folder / "out" / f"{name}.csv"
            path.write_text(path.read_text().replace("?0.0.0", "1").replace("?0.0.1", "2"))
        types = self.printed("clio-tables", "types")
        self.assertIn("customer.cid integer", types)
        self.assertIn("orders.cid integer", types)


if __name__ == "__main__":
    unittest.main()
