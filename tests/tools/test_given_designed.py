"""clio-given on databases that are well designed: types, NULL for the empty text, a table that refers to itself,
identity columns, views. What it writes of a right load gets the verdict core, on SQLite and on PostgreSQL."""
import sqlite3
import unittest

from server import started
from trial import Trial

MAPPING = """mapping 1;
source { set emp { id, name, boss, pay, active, born, seen, note; } }
target {
  set party { party_id, name, manager_id, pay, active, born, seen, note; key (party_id); key (name); }
  set client { cid, who; key (cid); key (who); }
}
rule emp(i, n, b, p, a, d, t, o) -> party(y, n, m, p, a, d, t, o), client(y, n);
rule emp(i, n, b, p, a, d, t, o), emp(b, c, e, q, f, g, h, k) ->
  party(y, n, m, p, a, d, t, o), party(m, c, x, q, f, g, h, k);
"""
EMP = """id,name,boss,pay,active,born,seen,note
1,ann,,10.9,1,1990-01-02,2026-03-01T10:00:00Z,
2,bob,1,12,0,1991-03-04,2026-03-02T11:30:00Z,late
3,cyd,1,0.5,1,,2026-03-03T00:00:00Z,?
"""
ROWS = """INSERT INTO party (name, manager_id, pay, active, born, seen, note) VALUES
 ('ann', NULL, 10.9, {t}, '1990-01-02', '2026-03-01 10:00:00{z}', NULL),
 ('bob', 1, 12, {f}, '1991-03-04', '2026-03-02 11:30:00{z}', 'late'),
 ('cyd', 1, 0.5, {t}, NULL, '2026-03-03 00:00:00{z}', '?');
CREATE VIEW client AS SELECT party_id AS cid, name AS who FROM party;
"""
SQLITE = """CREATE TABLE party (party_id INTEGER PRIMARY KEY, name TEXT NOT NULL UNIQUE,
 manager_id INTEGER REFERENCES party, pay NUMERIC NOT NULL, active BOOLEAN NOT NULL, born DATE, seen TIMESTAMP,
 note TEXT, city TEXT);
""" + ROWS.format(t=1, f=0, z="")
POSTGRES = """CREATE TABLE party (party_id integer GENERATED ALWAYS AS IDENTITY PRIMARY KEY, name text NOT NULL UNIQUE,
 manager_id integer REFERENCES party, pay numeric(10,2) NOT NULL, active boolean NOT NULL, born date, seen timestamptz,
 note text, city text);
""" + ROWS.format(t="true", f="false", z="Z")
WORDS = ["--identity", "--surrogate", "client.cid=party.party_id", "--null-is", "party.note=empty",
         "--null-is", "party.born=empty", "--types", "catalog"]


class Designed(Trial):
    """The same on both databases."""

    def given(self, name: str) -> list[str]:
        """What was written of a set."""
        return (self.folder / "given" / f"{name}.csv").read_text().splitlines()

    def exchanged(self) -> None:
        """The mapping, its source and `out`."""
        self.file("mapping.clio", MAPPING)
        self.file("emp.csv", EMP)
        self.assertEqual(self.clio("exchange")[0], 0)

    def try_designed(self, *place: str) -> None:
        """A right load is a core."""
        self.assertEqual(self.printed("clio-given", *place, *WORDS), "")
        self.assertEqual(self.given("party"), [
            "party_id,name,manager_id,pay,active,born,seen,note",
            "?0.0.0,ann,?0.0.1,10.9,1,1990-01-02,2026-03-01T10:00:00Z,",
            "?0.0.2,bob,?0.0.0,12,0,1991-03-04,2026-03-02T11:30:00Z,late",
            "?0.0.3,cyd,?0.0.0,0.5,1,,2026-03-03T00:00:00Z,??"])
        self.assertEqual(self.given("client"), ["cid,who", "?0.0.0,ann", "?0.0.2,bob", "?0.0.3,cyd"])
        self.assertEqual(self.clio("judge"), (0, "verdict core\n"))

    def try_less(self, *place: str) -> None:
        """Without one of the options it is something else."""
        self.printed("clio-given", *place, *WORDS[1:])
        self.assertEqual(self.clio("judge"), (0, "verdict core\n"))  # the view's numbers are those of the table
        for less in range(1, len(WORDS), 2):
            self.printed("clio-given", *place, *WORDS[1:less], *WORDS[less + 2:])
            self.assertNotEqual(self.clio("judge"), (0, "verdict core\n"), WORDS[less:less + 2])
        self.printed("clio-given", *place, *WORDS[:3], "--null-is", "empty", "--types", "catalog")
        self.assertEqual(self.clio("judge"), (0, "verdict core\n"))
        empty = ["--null-is", "empty", "--null-is", "party.note=null"]
        self.printed("clio-given", *place, *WORDS[:3], *empty, *WORDS[-2:])
        self.assertNotEqual(self.clio("judge"), (0, "verdict core\n"))

    def try_types(self, *place: str) -> None:
        """A file of types says which columns are no texts; texts of one value are reported; a value that the target
        doesn't have is written as it is printed."""
        self.file("types.txt", "party.pay numeric\nparty.seen timestamp\n")
        self.printed("clio-given", *place, "--types", "types.txt")
        self.assertEqual(self.given("party")[2].split(",")[3], "12")
        self.assertEqual(self.given("party")[2].split(",")[6], "2026-03-02T11:30:00Z")
        self.file("emp.csv", EMP.replace("10.9", "10.90").replace("0.5", "10.900").replace(",12,", ",13,"))
        self.clio("exchange")
        status, _, said = self.tool("clio-given", *place, "--types", "types.txt")
        self.assertEqual((status, said), (0, "clio-given: party.pay has '10.90' and '10.900' for one value of the "
                                             "database: the first is written\n"))
        pays = [line.split(",")[3] for line in self.given("party")[1:]]
        self.assertEqual(pays[0], "10.90")
        self.assertIn(pays[1], ("12", "12.00"))
        (self.folder / "out" / "party.csv").unlink()
        self.refused("clio-given", *place, "--types", "types.txt", why="out/party.csv is missing, which has the texts")
        self.refused("clio-given", *place, "--null-is", "party.note=never", why="party.note=never: it is null or empty")
        self.refused("clio-given", *place, "--null-is", "party.x=empty", why="--null-is party.x: the target has no")
        self.refused("clio-given", *place, "--surrogate", "client.cid=party.x",
                     why="--surrogate party.x: the target has no such column")
        self.printed("clio-given", *place, "--null", "n/a")
        self.assertEqual(self.given("party")[1].split(",")[2:], ["n/a", *self.given("party")[1].split(",")[3:7], "n/a"])

    def test_sqlite(self) -> None:
        self.exchanged()
        base = sqlite3.connect(self.folder / "new.db")
        base.executescript(SQLITE)
        base.close()
        self.try_designed("sqlite", "new.db")
        self.try_less("sqlite", "new.db")
        self.try_types("sqlite", "new.db")

    def test_postgres(self) -> None:
        with started() as server:
            self.exchanged()
            server.run(self.folder, POSTGRES)
            self.try_designed("postgres", server.place[0])
            self.try_types("postgres", server.place[0])


if __name__ == "__main__":
    unittest.main()
