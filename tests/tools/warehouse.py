"""A warehouse of twelve tables for the tests of clio-load: its mapping, its tables in both databases, its sources, and
what the target is.

The tables have types, constraints, foreign keys, a name with a space and one with an umlaut, an identity column, and
columns that the
mapping doesn't know; two tables beside them, which the mapping doesn't know either, refer to them.
"""
from __future__ import annotations

import contextlib
import pathlib
import sqlite3
from collections.abc import Iterator, Sequence

from clio_tools.csv import write_table
from clio_tools.databases.postgres import Session

MAPPING = """mapping 1;
source {
  set sale { no, mail, placed, total; }
  set client { mail, name, born, active; }
  set item { no, sku, amount; }
  set offer { sku, title, price, kind; }
  set depot { code, town, land; }
  set held { code, sku, pieces; }
  set visit { mail, day; }
  set word { sku, text; }
}
target {
  set country { iso; key (iso); }
  set town { tid, name, iso; key (tid); key (name, iso); ref (iso) -> country (iso); }
  set warehouse { code, tid; key (code); ref (tid) -> town (tid); }
  set category { kid, name; key (kid); key (name); }
  set product { pid, sku, title, price, kid, made; key (pid); key (sku); ref (kid) -> category (kid); }
  set product_label { pid, label; key (pid, label); ref (pid) -> product (pid); }
  set customer { cid, mail, name, born, active; key (cid); key (mail); }
  set orders { number, cid, placed, total; key (number); ref (cid) -> customer (cid); }
  set order_line {
    number, pid, amount;
    key (number, pid);
    ref (number) -> orders (number);
    ref (pid) -> product (pid);
  }
  set stock { code, pid, pieces; key (code, pid); ref (code) -> warehouse (code); ref (pid) -> product (pid); }
  set visit { cid, day; ref (cid) -> customer (cid); }
  set Grosse { name; key (name); }
}
rule depot(c, t, l) -> warehouse(c, i), town(i, t, l), country(l);
rule offer(s, t, p, k) -> product(i, s, t, p, j, m), category(j, k);
rule client(m, n, b, a) -> customer(i, m, n, b, a);
rule sale(n, m, p, t), client(m, x, b, a) -> orders(n, i, p, t), customer(i, m, x, b, a);
rule item(n, s, a), sale(n, m, p, t), client(m, x, b, v), offer(s, u, r, k)
  -> order_line(n, i, a), product(i, s, u, r, j, f), category(j, k);
rule held(c, s, q), offer(s, t, p, k), depot(c, o, l) -> stock(c, i, q), product(i, s, t, p, j, f), category(j, k);
rule visit(m, d), client(m, n, b, a) -> visit(i, d), customer(i, m, n, b, a);
rule word(s, w), offer(s, t, p, k) -> product_label(i, w), product(i, s, t, p, j, f), category(j, k);
rule offer(s, t, p, k) -> Grosse(k);
"""
TABLES = """
CREATE TABLE country (iso CHAR(2) PRIMARY KEY);
CREATE TABLE town (tid INTEGER {identity} PRIMARY KEY, name VARCHAR(20) NOT NULL,
  iso CHAR(2) NOT NULL REFERENCES country (iso), UNIQUE (name, iso));
CREATE TABLE warehouse (code TEXT PRIMARY KEY, tid INTEGER NOT NULL REFERENCES town (tid),
  opened DATE DEFAULT '2020-01-01');
CREATE TABLE category (kid INTEGER PRIMARY KEY, name TEXT NOT NULL UNIQUE);
CREATE TABLE product (pid INTEGER PRIMARY KEY, sku TEXT NOT NULL UNIQUE, title TEXT NOT NULL,
  price NUMERIC(10,2) CHECK (price >= 0), kid INTEGER NOT NULL REFERENCES category (kid),
  made TEXT NOT NULL DEFAULT 'unknown');
CREATE TABLE "product label" (pid INTEGER NOT NULL REFERENCES product (pid), label TEXT NOT NULL,
  PRIMARY KEY (pid, label));
CREATE TABLE customer (cid INTEGER PRIMARY KEY, mail TEXT NOT NULL UNIQUE, name TEXT, born DATE, active BOOLEAN,
  points INTEGER NOT NULL DEFAULT 7, gone BOOLEAN NOT NULL DEFAULT false);
CREATE TABLE orders (number INTEGER PRIMARY KEY, cid INTEGER NOT NULL REFERENCES customer (cid), placed {moment},
  total NUMERIC(10,2));
CREATE TABLE "order line" (number INTEGER NOT NULL REFERENCES orders (number),
  pid INTEGER NOT NULL REFERENCES product (pid), amount INTEGER NOT NULL, PRIMARY KEY (number, pid));
CREATE TABLE stock (code TEXT NOT NULL REFERENCES warehouse (code), pid INTEGER NOT NULL REFERENCES product (pid),
  pieces INTEGER, PRIMARY KEY (code, pid));
CREATE TABLE visit (cid INTEGER NOT NULL REFERENCES customer (cid), day DATE);
CREATE TABLE "Größe" (name TEXT PRIMARY KEY);
CREATE TABLE review (rid INTEGER PRIMARY KEY, pid INTEGER REFERENCES product (pid), said TEXT);
CREATE TABLE complaint (nid INTEGER PRIMARY KEY, number INTEGER REFERENCES orders (number) ON DELETE CASCADE);
"""
NAMES = ["country", "town", "warehouse", "category", "product", "product label", "customer", "orders", "order line",
         "stock", "visit", "Größe"]
HEADERS = {"sale": ["no", "mail", "placed", "total"], "client": ["mail", "name", "born", "active"],
           "item": ["no", "sku", "amount"],
           "offer": ["sku", "title", "price", "kind"], "depot": ["code", "town", "land"],
           "held": ["code", "sku", "pieces"],
           "visit": ["mail", "day"], "word": ["sku", "text"]}
Source = dict[str, list[list[str]]]
Rows = list[tuple[str | None, ...]]
FIRST: Source = {
    "client": [["ann@x", "Ann", "1980-02-29", "true"], ["bob@x", "Bob", "", "false"],
               ["cyd@x", "?", "1970-01-01", "true"]],
    "sale": [["1", "ann@x", "2026-11-10T10:01:00Z", "12.50"], ["2", "bob@x", "2026-11-11 09:00:00+02", "0.10"],
             ["3", "ann@x", "", "7"]],
    "offer": [["a-1", "Tea, green", "2.50", "drink"], ["b-2", "Cup \"big\"", "10", "ware"],
              ["c-3", "Line\nbreak", "0", "ware"]],
    "item": [["1", "a-1", "2"], ["1", "b-2", "1"], ["2", "a-1", "4"], ["3", "c-3", "1"]],
    "depot": [["N", "Bonn", "DE"], ["S", "Ulm", "DE"], ["W", "Paris", "FR"]],
    "held": [["N", "a-1", "100"], ["S", "a-1", "5"], ["W", "b-2", ""]],
    "visit": [["ann@x", "2026-11-01"], ["ann@x", "2026-11-02"], ["bob@x", ""]],
    "word": [["a-1", "hot"], ["a-1", "bio"], ["b-2", "hot"]],
}
JOINED = {  # what the rows are, with the keys of things in place of made-up numbers
    "country": "SELECT iso FROM {0}country",
    "town": "SELECT name, iso FROM {0}town",
    "warehouse": "SELECT w.code, t.name, w.opened FROM {0}warehouse w JOIN {0}town t ON t.tid = w.tid",
    "category": "SELECT name FROM {0}category",
    "product": "SELECT p.sku, p.title, p.price, c.name, p.made FROM {0}product p JOIN {0}category c ON c.kid = p.kid",
    "product label": "SELECT p.sku, l.label FROM {0}\"product label\" l JOIN {0}product p ON p.pid = l.pid",
    "customer": "SELECT mail, name, born, active, points FROM {0}customer",
    "orders": "SELECT o.number, c.mail, o.placed, o.total FROM {0}orders o JOIN {0}customer c ON c.cid = o.cid",
    "order line": "SELECT l.number, p.sku, l.amount FROM {0}\"order line\" l JOIN {0}product p ON p.pid = l.pid",
    "stock": "SELECT s.code, p.sku, s.pieces FROM {0}stock s JOIN {0}product p ON p.pid = s.pid",
    "visit": "SELECT c.mail, v.day FROM {0}visit v JOIN {0}customer c ON c.cid = v.cid",
    "Größe": "SELECT name FROM {0}\"Größe\"",
}
NUMBERS = {"town": "SELECT name || ' ' || iso, tid FROM {0}town", "category": "SELECT name, kid FROM {0}category",
           "product": "SELECT sku, pid FROM {0}product", "customer": "SELECT mail, cid FROM {0}customer"}


def write_source(folder: pathlib.Path, source: Source) -> None:
    """Writes the files of a source, with the mapping."""
    (folder / "mapping.clio").write_text(MAPPING, encoding="utf-8")
    for name, header in HEADERS.items():
        write_table(folder / f"{name}.csv", header, source.get(name, []))


class Base:
    """A database with the tables of the warehouse."""

    words: list[str]
    prefix: str

    def rows(self, sql: str) -> Rows:
        """The rows of a query as texts, in their order by their texts."""
        raise NotImplementedError

    def run(self, sql: str) -> None:
        """Runs statements."""
        raise NotImplementedError

    def all(self, query: str) -> Rows:
        """The rows of a query of JOINED or NUMBERS."""
        return self.rows(query.format(self.prefix))

    def state(self) -> dict[str, Rows]:
        """All rows, with keys in place of made-up numbers."""
        return {name: self.all(query) for name, query in JOINED.items()}

    def numbers(self) -> dict[str, dict[str | None, str | None]]:
        """The made-up numbers of things by their keys."""
        return {name: {row[0]: row[1] for row in self.all(query)} for name, query in NUMBERS.items()}

    def written(self, name: str) -> int:
        """How many rows of a table were written since this was asked before."""
        raise NotImplementedError


class SqliteBase(Base):
    """An SQLite file."""

    prefix = ""
    as_of_load = ("1", "2026-11-10T10:01:00Z", "0")

    def __init__(self, path: pathlib.Path) -> None:
        self.path, self.words = path, ["sqlite", str(path)]
        self.run(TABLES.format(identity="", moment="TIMESTAMP"))

    def rows(self, sql: str) -> Rows:
        with contextlib.closing(sqlite3.connect(self.path)) as base:
            return sorted((tuple(None if cell is None else str(cell) for cell in row) for row in base.execute(sql)),
                          key=order)

    def run(self, sql: str) -> None:
        with contextlib.closing(sqlite3.connect(self.path)) as base:
            base.executescript("PRAGMA foreign_keys = ON;" + sql)

    def written(self, name: str) -> int:
        """How many rows of a table were written since the last question, by triggers."""
        quoted = '"' + name + '"'
        with contextlib.closing(sqlite3.connect(self.path)) as base:
            base.execute("CREATE TABLE IF NOT EXISTS seen_writes (name TEXT)")
            for what in "INSERT", "UPDATE", "DELETE":
                base.execute(f"CREATE TRIGGER IF NOT EXISTS \"{what} {name}\" AFTER {what} ON {quoted} BEGIN INSERT "
                             f"INTO seen_writes VALUES ('{name}'); END")
            count: int = base.execute("SELECT count(*) FROM seen_writes WHERE name = ?", (name,)).fetchone()[0]
            base.execute("DELETE FROM seen_writes WHERE name = ?", (name,))
            base.commit()
            return count


class PostgresBase(Base):
    """A schema of a PostgreSQL server."""

    count = 0

    def __init__(self, place: str) -> None:
        PostgresBase.count += 1
        self.schema = f"House {PostgresBase.count}"
        self.session = Session(place)
        self.words, self.prefix = ["postgres", place, self.schema], f'"{self.schema}".'
        self.session.run(f'CREATE SCHEMA "{self.schema}"; SET search_path = "{self.schema}"; SET client_min_messages = '
                         f'warning')
        self.session.run("SET timezone = 'UTC'")
        self.run(TABLES.format(identity="GENERATED ALWAYS AS IDENTITY", moment="TIMESTAMPTZ"))
        self.versions: dict[str, set[str | None]] = {}

    def rows(self, sql: str) -> Rows:
        return sorted(self.session.rows(sql), key=order)

    def run(self, sql: str) -> None:
        self.session.run(sql)

    def written(self, name: str) -> int:
        """How many rows of a table were written since the last question, by the versions of rows."""
        found = {row[0] for row in self.rows(f'SELECT xmin::text || \' \' || ctid::text FROM "{name}"')}
        before, self.versions[name] = self.versions.get(name, set()), found
        return len(before ^ found)


def order(row: Sequence[str | None]) -> list[tuple[bool, str]]:
    """What rows are sorted by."""
    return [(cell is not None, cell or "") for cell in row]


def changed(source: Source, **tables: list[list[str]]) -> Source:
    """A source with other rows in some tables."""
    return {**source, **tables}


@contextlib.contextmanager
def locked(path: pathlib.Path) -> Iterator[None]:
    """An SQLite file that somebody else has locked."""
    with contextlib.closing(sqlite3.connect(path, isolation_level=None)) as base:
        base.execute("BEGIN IMMEDIATE")
        yield
