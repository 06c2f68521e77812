"""clio-given on SQLite: the files that it writes of a target. PostgreSQL is read by the same module as in clio-draft,
which dev/check tries.
"""
import sqlite3
import unittest
from collections.abc import Sequence

from trial import Trial

MAPPING = """mapping 2;
source { set a { x; } }
target {
  set client { cid, name, city; key (cid); }
  set sale { number, client, helper, note; ref (client) -> client (cid); ref (helper) -> client (cid) optional; }
  set unit { label; set staff { sname; } }
}
"""
TABLES = """
CREATE TABLE client (city TEXT, cid INTEGER PRIMARY KEY, name TEXT, since TEXT);
CREATE TABLE sale (number INTEGER, client INTEGER, helper INTEGER, note TEXT);
CREATE TABLE unit ("#id" TEXT, label TEXT);
CREATE TABLE staff ("#up" TEXT, sname TEXT);
CREATE TABLE other (x TEXT);
"""
Rows = Sequence[tuple[str, Sequence[tuple[object, ...]]]]
ROWS: Rows = [
    ("client", [("Rome", 7, "Ann", "2020"), (None, 8, "?", "")]),
    ("sale", [(1, 7, 8, "a,\"b\"\n"), (2, 7, None, ""), (8, None, 7, None)]),
    ("unit", [("?0.0.0", "toys")]),
    ("staff", [("?0.0.0", "?1.2.3")]),
]


class Given(Trial):
    def base(self, script: str = TABLES, rows: Rows = ROWS) -> None:
        self.file("mapping.clio", MAPPING)
        base = sqlite3.connect(self.folder / "new.db")
        base.executescript(script)
        for name, listed in rows:
            base.executemany(f"INSERT INTO {name} VALUES ({', '.join('?' * len(listed[0]))})", listed)
        base.commit()
        base.close()

    def given(self, name: str, folder: str = "given") -> str:
        return (self.folder / folder / f"{name}.csv").read_bytes().decode()

    def test_each_null_is_one_of_its_own(self) -> None:
        self.base()
        self.assertEqual(self.printed("clio-given", "sqlite", "new.db"), "")
        self.assertEqual(self.given("client"), "cid,name,city\n7,Ann,Rome\n8,??,?0.0.0\n")
        self.assertEqual(self.given("sale"),
                         'number,client,helper,note\n1,7,8,"a,""b""\n"\n2,7,?0.0.1,\n8,?0.0.2,7,?0.0.3\n')
        self.assertEqual(self.given("unit"), "#id,label\n??0.0.0,toys\n")
        self.assertEqual(self.given("staff"), "#up,sname\n??0.0.0,??1.2.3\n")
        self.assertEqual(sorted(path.name for path in (self.folder / "given").iterdir()),
                         ["client.csv", "sale.csv", "staff.csv", "unit.csv"])

    def test_surrogates(self) -> None:
        self.base()
        self.printed("clio-given", "sqlite", "new.db", "--surrogate", "client.cid", "--surrogate", "unit.#id", "--into",
                     "there")
        self.assertEqual(self.given("client", "there"), "cid,name,city\n?0.0.0,Ann,Rome\n?0.0.1,??,?0.0.2\n")
        self.assertEqual(self.given("sale", "there"),
                         'number,client,helper,note\n1,?0.0.0,?0.0.1,"a,""b""\n"\n2,?0.0.0,?0.0.3,\n'
                         '8,?0.0.4,?0.0.0,?0.0.5\n')
        self.assertEqual(self.given("unit", "there"), "#id,label\n?0.0.6,toys\n")
        self.assertEqual(self.given("staff", "there"), "#up,sname\n?0.0.6,??1.2.3\n")
        self.assertFalse((self.folder / "given").exists())

    def test_refusals(self) -> None:
        self.base()
        self.refused("clio-given", "sqlite", "new.db", "--surrogate", "client.pid",
                     why="--surrogate client.pid: the target has no such column")
        self.refused("clio-given", "sqlite", "gone.db", why="gone.db is no file")
        self.refused("clio-given", "sqlite", "new.db", "--mapping", "other.clio", why="other.clio")
        self.refused("clio-given", "sqlite", "new.db", "schema", why="has no schema")
        self.base("DROP TABLE staff; DROP TABLE unit; CREATE TABLE unit (label TEXT);", [])
        self.refused("clio-given", "sqlite", "new.db", why="the mapping has a set staff")
        self.base("CREATE TABLE staff (sname TEXT);", [])
        self.refused("clio-given", "sqlite", "new.db", why='"unit" has no column for #id of the set unit: it has label')


if __name__ == "__main__":
    unittest.main()
