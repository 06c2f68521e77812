"""The life of a loaded shop, in both databases, for dev/check: a first load, a changed reload, an audit after an edit
by hand, a refusal, and a load that is killed amid its last table.
"""
import contextlib
import pathlib
import shutil
import sqlite3
import subprocess
import sys
import time
from collections.abc import Callable, Mapping, Sequence

from clio_tools.databases.postgres import Session
from forked import TOOLS, ended
from servers import Differs, Postgres, output, tool

SHOP = TOOLS.parent / "examples" / "shop"
ROWS = ("SELECT full_name, day, code, quantity FROM bought JOIN purchase USING (number) JOIN person USING (pid)"
        " JOIN article USING (aid) ORDER BY 1, 2, 3")
FIRST = [("Ann Ore", "2026-03-01", "I-01", "2"), ("Ann Ore", "2026-03-01", "P-01", "1"),
         ("Ann Ore", "2026-03-05", "I-01", "5"), ("Ann Ore", "2026-03-05", "X-01", "1"),
         ("Bob Orr", "2026-03-02", "I-02", "1")]
WEEK = """UPDATE customer SET name = 'Bob Orr-Day' WHERE id = 2; DELETE FROM "order item" WHERE amount = 5;
INSERT INTO "order item" VALUES (102, 3, 4);"""
SECOND = [*FIRST[:2], FIRST[3], ("Bob Orr-Day", "2026-03-02", "I-02", "1"), ("Bob Orr-Day", "2026-03-02", "P-01", "4")]
LOADED = {"person": (3, 0, 0, 0), "article": (4, 0, 0, 0), "purchase": (3, 0, 0, 0), "bought": (5, 0, 0, 0)}
RELOADED = {"person": (0, 1, 0, 2), "article": (0, 0, 0, 4), "purchase": (0, 0, 0, 3), "bought": (1, 0, 1, 4)}
SLOW = {"sqlite": f"CREATE TRIGGER slow AFTER INSERT ON bought BEGIN SELECT count(*) FROM {', '.join(['bought'] * 20)};"
                  " END;",
        "postgres": "CREATE FUNCTION slow() RETURNS trigger LANGUAGE plpgsql AS 'BEGIN PERFORM pg_sleep(5); RETURN new;"
                    " END'; CREATE TRIGGER slow AFTER INSERT ON bought FOR EACH ROW EXECUTE FUNCTION slow();"}
Row = tuple[str | None, ...]


class Shop:
    """A copy of the example with new tables in a database; `rows` and `run` reach that, `is_amid` whether a load is in
    its last table."""

    def __init__(self, kind: str, folder: pathlib.Path, words: list[str], rows: Callable[[str], list[Row]],
                 run: Callable[[str], object], is_amid: Callable[[], bool]) -> None:
        self.kind, self.folder, self.words, self.rows, self.run, self.is_amid = kind, folder, words, rows, run, is_amid
        shutil.copytree(SHOP, folder)
        output([folder / "make-shop"], folder)
        self.read_source()

    def read_source(self, change: str = "") -> None:
        """The source files of the shop, after a change of it."""
        with contextlib.closing(sqlite3.connect(self.folder / "shop.db")) as base:
            base.executescript(change)
        tool("clio-draft", "sqlite", "shop.db", "--data", ".", "--mapping", "mapping.clio", folder=self.folder)

    def load(self, *words: str) -> tuple[int, str, str]:
        """How a load ends."""
        return ended("clio-load", [*self.words, "--ids", "ids.db", "--delete", *words], self.folder)

    def check(self, what: str, found: object, wanted: object) -> None:
        """Refuses anything else than what is wanted."""
        if found != wanted:
            raise Differs(f"clio-load {self.kind}: {what}: {found} instead of {wanted}")

    def check_loaded(self, counts: Mapping[str, Sequence[int]], rows: Sequence[Row]) -> None:
        """A load that succeeds says the numbers of rows of each table, and the tables have these rows then."""
        said = "".join(f"{table}: {counted[0]} inserted, {counted[1]} changed{' (full_name 1)' * counted[1]},"
                       f" {counted[2]} deleted, {counted[3]} equal\n" for table, counted in counts.items())
        self.check("a load", self.load(), (0, said, ""))
        self.check("rows", self.rows(ROWS), rows)

    def check_audit(self) -> None:
        """What is edited by hand is found by a dry run, which changes nothing, and mended by a load."""
        self.run("UPDATE bought SET quantity = 9 WHERE quantity = 4")
        status, said, _ = self.load("--dry-run")
        self.check("an audit", (status, 'quantity "9" -> "4"' in said), (1, True))
        self.check("rows after an audit", self.rows("SELECT quantity FROM bought WHERE quantity = 9"), [("9",)])
        self.load()
        self.check("an audit without a difference", self.load("--dry-run")[0], 0)

    def check_refused(self) -> None:
        """A price that is none is listed with its record, and nothing is changed."""
        self.read_source("UPDATE product SET price = 'much' WHERE id = 2; DELETE FROM \"order item\"")
        status, printed, said = self.load()
        self.check("a refusal", (status, printed), (2, ""))
        self.check(f"a refusal says {said}", 'record 2: column price is "much"' in said, True)
        self.check("rows after a refusal", self.rows(ROWS), SECOND)

    def check_killed(self) -> None:
        """A load that is killed amid its last table leaves all tables as they were; the next one does its work."""
        self.read_source("UPDATE product SET price = 7; UPDATE customer SET name = 'Bob Orr' WHERE id = 2;"
                         "INSERT INTO \"order item\" VALUES (101, 1, 2), (101, 3, 1), (102, 2, 1), (103, 4, 1),"
                         " (103, 1, 5)")
        self.run(SLOW[self.kind])
        run = subprocess.Popen([sys.executable, "-B", TOOLS / "clio-load", *self.words, "--ids", "ids.db", "--delete"],
                               cwd=self.folder, stdout=subprocess.DEVNULL, stderr=subprocess.DEVNULL)
        while run.poll() is None and not self.is_amid():
            time.sleep(0.02)
        run.kill()
        self.check("a killed load", run.wait(), -9)
        self.check("rows after a killed load", self.rows(ROWS), SECOND)
        self.run("DROP TRIGGER slow" + (" ON bought" if self.kind == "postgres" else ""))
        self.check("the next load", self.load()[0], 0)
        self.check("rows after the next load", self.rows(ROWS), FIRST)


def life_of(shop: Shop) -> None:
    """Tries it all."""
    shop.check_loaded(LOADED, FIRST)
    shop.read_source(WEEK)
    shop.check_loaded(RELOADED, SECOND)
    shop.check_audit()
    shop.check_refused()
    shop.check_killed()


def try_sqlite(folder: pathlib.Path) -> None:
    """In a file."""
    def rows(query: str) -> list[Row]:
        with contextlib.closing(sqlite3.connect(folder / "new.db")) as base:
            return [tuple(str(cell) for cell in row) for row in base.execute(query)]

    def run(text: str) -> None:
        with contextlib.closing(sqlite3.connect(folder / "new.db")) as base:
            base.executescript(text)

    shop = Shop("sqlite", folder, ["sqlite", "new.db"], rows, run, (folder / "new.db-journal").exists)
    run((folder / "new.sql").read_text(encoding="utf-8"))
    life_of(shop)


def try_postgres(folder: pathlib.Path, server: Postgres) -> None:
    """In a schema of a server."""
    with Session(server.place[0], client_min_messages="warning") as session:
        session.run("DROP SCHEMA IF EXISTS shop, clio_load CASCADE; CREATE SCHEMA shop; SET search_path = shop")
        shop = Shop("postgres", folder, ["postgres", server.place[0], "shop"], session.rows, session.run,
                    lambda: session.value("SELECT 1 FROM pg_stat_activity WHERE wait_event = 'PgSleep'") is not None)
        session.run((folder / "new.sql").read_text(encoding="utf-8"))
        life_of(shop)
        session.run("DROP SCHEMA shop, clio_load CASCADE")
