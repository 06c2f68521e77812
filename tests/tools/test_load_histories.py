"""clio-load over random histories: sources that change, loads of several kinds, edits of the database by hand; at the
end the
tables have the rows that a load into empty ones gives, and no made-up number has ever moved.

HISTORIES says how many there are for each database.
"""
from __future__ import annotations

import contextlib
import copy
import os
import pathlib
import random
import tempfile
import unittest

import server
from forked import ended
from warehouse import FIRST, Base, PostgresBase, Source, SqliteBase, write_source

HISTORIES = int(os.environ.get("HISTORIES", "1"))
FIRST_SEED = int(os.environ.get("FIRST_SEED", "0"))
LOADS = 4
KEYS = {"client": 1, "sale": 1, "item": 2, "offer": 1, "depot": 1, "held": 2, "visit": 2, "word": 2}
STARTED = contextlib.ExitStack()
PLACE: list[str] = []


def setUpModule() -> None:
    """Starts a server if there is one."""
    with contextlib.suppress(unittest.SkipTest):
        PLACE.append(STARTED.enter_context(server.started()).place[0])


def tearDownModule() -> None:
    """Stops the server."""
    STARTED.close()


class World:
    """A source that changes such that its keys hold."""

    def __init__(self, choice: random.Random) -> None:
        self.choice = choice
        self.source: Source = copy.deepcopy(FIRST)

    def row(self, name: str) -> list[str]:
        """A new row of a table; what it refers to may be there or not."""
        pick, one = self.choice.randrange, self.choice.choice
        mail, sku, code = f"m{pick(6)}@x", f"s-{pick(6)}", one("NSWXYZ")
        day = f"2026-{pick(1, 13):02}-{pick(1, 29):02}"
        return {
            "client": [mail, one(["Ann", "Bob", "?", "O'Neil", "a,b", ""]), one([day, ""]), one(["true", "false"])],
            "sale": [str(pick(8)), mail, one([f"{day}T10:00:00Z", ""]), f"{pick(1000) / 100:.2f}"],
            "item": [str(pick(8)), sku, str(pick(9))],
            "offer": [sku, one(["Tea", "Cup", "Line\nbreak"]), f"{pick(1000) / 100:.2f}",
                      one(["drink", "ware", "new"])],
            "depot": [code, one(["Bonn", "Ulm", "Paris", "Rome"]), one(["DE", "FR", "IT"])],
            "held": [code, sku, one([str(pick(99)), ""])],
            "visit": [mail, one([day, ""])],
            "word": [sku, one(["hot", "bio", "new"])],
        }[name]

    def step(self) -> None:
        """Some changes."""
        for _ in range(self.choice.randrange(1, 14)):
            name = self.choice.choice(sorted(KEYS))
            rows, row = self.source[name], self.row(name)
            size = KEYS[name]
            if rows and self.choice.random() < 0.35:
                rows.remove(self.choice.choice(rows))
            elif rows and self.choice.random() < 0.4:
                place = self.choice.randrange(len(rows))
                if size < len(row):
                    rows[place] = rows[place][:size] + row[size:]
            elif all(one[:size] != row[:size] for one in rows):
                rows.append(row)


class Hand:
    """Somebody who edits the database between the loads."""

    def __init__(self, choice: random.Random, base: Base) -> None:
        self.choice, self.base = choice, base
        self.own = 0

    def step(self) -> None:
        """Some edits, of rows that loads wrote and of their own."""
        for _ in range(self.choice.randrange(4)):
            self.base.run(self.choice.choice(self.edits()))

    def edits(self) -> list[str]:
        """Ten kinds of edits."""
        self.own += 1
        return ["UPDATE customer SET name = 'Eve' WHERE cid = (SELECT min(cid) FROM customer)",
                "UPDATE product SET price = 99, title = 'x' WHERE pid = (SELECT max(pid) FROM product)",
                'UPDATE "order line" SET amount = amount + 1',
                "DELETE FROM stock", "DELETE FROM visit WHERE day IS NULL",
                'DELETE FROM "product label" WHERE pid = (SELECT min(pid) FROM "product label")',
                'DELETE FROM "order line" WHERE number = (SELECT max(number) FROM "order line")',
                f"INSERT INTO country VALUES ('{chr(65 + self.own % 26)}{self.own % 10}')",
                f"INSERT INTO \"Größe\" VALUES ('own{self.own}')",
                "UPDATE orders SET placed = NULL, cid = (SELECT max(cid) FROM customer)"]


def others(base: Base) -> dict[str, object]:
    """The rows of the hand."""
    return {"country": [row for row in base.all("SELECT iso FROM {0}country") if str(row[0])[1:].strip().isdigit()],
            "Größe": base.all("SELECT name FROM {0}\"Größe\" WHERE name LIKE 'own%'")}


class Histories(unittest.TestCase):
    """What is wanted of both databases."""

    def base(self, folder: pathlib.Path) -> Base:
        """A database with empty tables."""
        raise NotImplementedError

    def load(self, folder: pathlib.Path, base: Base, crosswalk: str, *words: str) -> None:
        status, _, said = ended("clio-load", [*base.words, "--ids", crosswalk, *words], folder)
        self.assertEqual(status, 0, said)

    def history(self, seed: int) -> None:
        """One history."""
        choice = random.Random(seed)
        with tempfile.TemporaryDirectory() as name:
            folder = pathlib.Path(name)
            world, base = World(choice), self.base(folder)
            hand = Hand(choice, base)
            numbers: dict[tuple[str, str | None], str | None] = {}
            for step in range(LOADS):
                write_source(folder, world.source)
                before = others(base)
                kind = ["--delete"] if step == LOADS - 1 else choice.choice([[], ["--delete"]])
                self.load(folder, base, "ids.db", *kind)
                self.assertEqual(others(base), before)
                for table, found in base.numbers().items():
                    for key, number in found.items():
                        self.assertEqual(numbers.setdefault((table, key), number), number, (table, key))
                if step < LOADS - 1:
                    world.step()
                    hand.step()
            self.check_rebuilt(folder, base)

    def check_rebuilt(self, folder: pathlib.Path, base: Base) -> None:
        """The tables have the rows that a load into empty ones gives, and those of the hand; a dry run agrees."""
        status, out, said = ended("clio-load", [*base.words, "--ids", "ids.db", "--delete", "--others", "--dry-run"],
                                  folder)
        self.assertEqual(status, 0, out + said)
        found = base.state()
        for table, rows in others(base).items():
            found[table] = [row for row in found[table] if row not in list(rows)]  # type: ignore[call-overload]
        (folder / "other").mkdir()
        rebuilt = self.base(folder / "other")
        self.load(folder, rebuilt, "other.db")
        self.assertEqual(found, rebuilt.state())


class OnSqlite(Histories):
    """SQLite."""

    def base(self, folder: pathlib.Path) -> Base:
        return SqliteBase(folder / "house.db")

    def test_histories(self) -> None:
        """As many as are asked for."""
        for seed in range(FIRST_SEED, FIRST_SEED + HISTORIES):
            with self.subTest(seed=seed):
                self.history(seed)


class OnPostgres(Histories):
    """PostgreSQL."""

    def base(self, folder: pathlib.Path) -> Base:
        base = PostgresBase(PLACE[0])
        self.addCleanup(base.session.close)
        return base

    def test_histories(self) -> None:
        """As many as are asked for."""
        if not PLACE:
            self.skipTest("there is no server")
        for seed in range(FIRST_SEED, FIRST_SEED + HISTORIES):
            with self.subTest(seed=seed):
                self.history(seed)
                self.doCleanups()


if __name__ == "__main__":
    unittest.main()
