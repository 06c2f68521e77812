"""The crosswalk: an SQLite file that keeps which number each thing has.

    kind       how things are named: by a column of a set, and the columns of a key there, as a list of JSON
    name       by a kind and the key's values (a list of JSON) a number, and what the name is: OWN, OTHER or LED
    term       by the SHA-256 of a rule, a variable and values the number of what has no other name: RULE or FOLDED
    numbered   which columns have numbers
    written    the SHA-256 of each file that was written last
    next       the next number

A number that has a name OWN has no name OTHER and no term; one that has a name OTHER has no term.

Beside it are tables of the run alone, which SQLite keeps in a file of its own, so that they may be larger than the
memory:

    asked      the names of this run: kind, text, null, and what the name is
    kept       those of them that are in the crosswalk
    told       the terms of nulls
    reserved   the numbers that are texts of the target
"""
import hashlib
import json
import pathlib
import sqlite3
from array import array
from collections.abc import Iterable, Iterator
from typing import NamedTuple

from clio_tools.ids.damage import check_contents
from clio_tools.ids.sureness import LED, OTHER, OWN, RULE
from clio_tools.program import Refused
from clio_tools.safe_files import check_place

VERSION = 2
OF_HASHES = 1  # the version that kept a SHA-256 in the place of each name
SIGN = 0x636C696F  # application_id: the letters clio
CACHE = 65536  # KiB of each file that are held in memory
LONGEST = 400  # letters of a key that are kept as they are
TABLES = """
    CREATE TABLE kind (kind INTEGER PRIMARY KEY, set_name TEXT NOT NULL, column_name TEXT NOT NULL,
                       key_columns TEXT NOT NULL, is_key INTEGER NOT NULL, UNIQUE (set_name, column_name, key_columns));
    CREATE TABLE name (kind INTEGER NOT NULL, text TEXT NOT NULL, number INTEGER NOT NULL, sureness INTEGER NOT NULL,
                       PRIMARY KEY (kind, text)) WITHOUT ROWID;
    CREATE TABLE term (digest BLOB PRIMARY KEY, number INTEGER NOT NULL, sureness INTEGER NOT NULL) WITHOUT ROWID;
    CREATE TABLE numbered (set_name TEXT, column_name TEXT, is_numbered INTEGER NOT NULL,
                           PRIMARY KEY (set_name, column_name));
    CREATE TABLE written (name TEXT PRIMARY KEY, digest BLOB NOT NULL);
    CREATE TABLE next (number INTEGER NOT NULL);
"""
WORK = """
    CREATE TEMP TABLE asked (line INTEGER PRIMARY KEY, kind INTEGER, text TEXT, null_number INTEGER, sureness INTEGER);
    CREATE TEMP TABLE kept (line INTEGER PRIMARY KEY, number INTEGER, sureness INTEGER);
    CREATE TEMP TABLE hinted (line INTEGER PRIMARY KEY, kind INTEGER, text TEXT, null_number INTEGER);
    CREATE TEMP TABLE told (line INTEGER PRIMARY KEY, null_number INTEGER, sureness INTEGER, digest BLOB);
    CREATE TEMP TABLE moved (kind INTEGER, number INTEGER, PRIMARY KEY (kind, number)) WITHOUT ROWID;
    CREATE TEMP TABLE raised (number INTEGER PRIMARY KEY, is_own INTEGER);
    CREATE TEMP TABLE number (null_number INTEGER PRIMARY KEY, number INTEGER, is_written INTEGER);
    CREATE TEMP TABLE reserved (number INTEGER PRIMARY KEY, place INTEGER, column_place INTEGER);
"""
FIND_NAMES = """INSERT INTO kept SELECT a.line, k.number, k.sureness FROM asked AS a
 CROSS JOIN main.name AS k ON k.kind = a.kind AND k.text = a.text WHERE a.line > ?"""
FIND_HINTS = f"""SELECT h.null_number, k.number, {OTHER} AS rank, {OTHER} AS before, h.line FROM hinted AS h
 CROSS JOIN main.name AS k ON k.kind = h.kind AND k.text = h.text WHERE k.sureness = {OTHER}
 UNION ALL SELECT t.null_number, k.number, t.sureness, k.sureness, t.line FROM told AS t
 CROSS JOIN main.term AS k ON k.digest = t.digest ORDER BY 3, 4, 1, 5"""
FIND_MOVED = f"""INSERT OR IGNORE INTO moved SELECT a.kind, n.number FROM asked AS a
 JOIN number AS n ON n.null_number = a.null_number LEFT JOIN kept AS k ON k.line = a.line
 WHERE a.sureness = {OWN} AND n.number < ? AND k.number IS NOT n.number"""
FORGET_MOVED = f"""DELETE FROM main.name WHERE sureness = {OWN}
 AND EXISTS (SELECT 1 FROM moved AS m WHERE m.kind = main.name.kind AND m.number = main.name.number)"""
KEEP_NAMES = """INSERT INTO main.name SELECT a.kind, a.text, n.number, a.sureness FROM asked AS a
 JOIN number AS n ON n.null_number = a.null_number LEFT JOIN kept AS k ON k.line = a.line
 WHERE k.number IS NOT n.number OR k.sureness IS NOT a.sureness
  OR EXISTS (SELECT 1 FROM moved AS m WHERE m.kind = a.kind AND m.number = n.number)
 ORDER BY a.kind, a.text
 ON CONFLICT (kind, text) DO UPDATE SET number = excluded.number, sureness = excluded.sureness"""
KEEP_TERMS = """INSERT INTO main.term SELECT t.digest, n.number, t.sureness FROM told AS t
 JOIN number AS n ON n.null_number = t.null_number WHERE is_loose(t.null_number)
 ORDER BY t.digest, t.sureness DESC, t.null_number DESC, t.line DESC
 ON CONFLICT (digest) DO UPDATE SET number = excluded.number, sureness = excluded.sureness"""
CHANGES = """ FROM kept AS k JOIN asked AS a ON a.line = k.line JOIN number AS n ON n.null_number = a.null_number
 JOIN main.kind AS d ON d.kind = a.kind WHERE k.number <> n.number AND n.is_written ORDER BY a.line"""


class Kind(NamedTuple):
    """A column in which a thing is named, and the columns of the key by which it is."""
    set: str
    column: str
    key: tuple[str, ...]


class Change(NamedTuple):
    """A row that is known by its key had another number in a column when it was there last."""
    kind: Kind
    text: str
    before: int
    now: int


class Crosswalk:
    """Names and their numbers, and which columns have numbers. Nothing is kept before `commit`."""

    def __init__(self, path: str) -> None:
        self.path = path
        self.is_new = check_file(path)
        try:
            self.base = sqlite3.connect(path, isolation_level=None, timeout=5)
            self.base.execute(f"PRAGMA main.cache_size = -{CACHE}")
            self.base.executescript(f"PRAGMA temp.cache_size = -{CACHE}; {WORK}")
            self.base.execute("BEGIN IMMEDIATE")
            if self.is_new:
                self.make()
            self.check()
        except sqlite3.Error as error:
            raise Refused(f"{path}: {error}{in_use(error)}") from None
        kinds = self.base.execute("SELECT kind, set_name, column_name, key_columns FROM kind")
        self.kinds: dict[Kind, int] = {Kind(name, column, tuple(json.loads(key))): kind
                                       for kind, name, column, key in kinds}

    def make(self) -> None:
        """The tables of an empty file."""
        self.base.execute(f"PRAGMA application_id = {SIGN}")
        self.base.execute(f"PRAGMA user_version = {VERSION}")
        for statement in statements():
            self.base.execute(statement)
        self.base.execute("INSERT INTO next VALUES (1)")

    def check(self) -> None:
        """The file is one that clio-ids made, and whole."""
        made_by = self.one("PRAGMA user_version")
        if self.one("PRAGMA application_id") != SIGN:
            raise Refused(f"{self.path} is no crosswalk")
        if made_by == OF_HASHES:
            raise Refused(f"{self.path} was made by an older clio-ids, which kept names as hashes alone, so its numbers"
                          " can't be taken over: name a new file, and load all tables anew")
        if made_by != VERSION:
            raise Refused(f"{self.path} was made by another clio-ids than this one")
        why = check_contents(self.base, statements())
        if why:
            raise Refused(f"{self.path} is damaged: {why}. Nothing is changed: put a copy in its place that is whole")
        self.next = self.first_new = int(str(self.one("SELECT number FROM next")))
        self.is_empty = self.next == 1
        self.has_hints = bool(self.one("SELECT EXISTS (SELECT 1 FROM term)")
                              or self.one(f"SELECT EXISTS (SELECT 1 FROM name WHERE sureness = {OTHER})"))

    def one(self, query: str, *values: object) -> object:
        """The first value of the first row, or None."""
        row = self.base.execute(query, values).fetchone()
        return row and row[0]

    def kind(self, kind: Kind, is_key: bool) -> int:
        """The number of a kind of names; whether its column is a key by itself is kept."""
        number = self.kinds.setdefault(kind, len(self.kinds) + 1)
        self.base.execute("INSERT INTO kind VALUES (?, ?, ?, ?, ?)"
                          " ON CONFLICT (kind) DO UPDATE SET is_key = excluded.is_key",
                          (number, kind.set, kind.column, json.dumps(kind.key), int(is_key)))
        return number

    def hinting(self) -> list[Kind]:
        """The kinds that have names OTHER."""
        found = {number for number, in self.base.execute(f"SELECT DISTINCT kind FROM name WHERE sureness = {OTHER}")}
        return [kind for kind, number in self.kinds.items() if number in found]

    def ask(self, names: Iterable[tuple[int, str, int, int]]) -> int:
        """Takes names, each as kind, text, null and what it is; answers the number of the last one before them."""
        before = self.last()
        self.base.executemany("INSERT INTO asked (kind, text, null_number, sureness) VALUES (?, ?, ?, ?)", names)
        if not self.is_empty:
            self.base.execute(FIND_NAMES, (before,))
        return before

    def last(self) -> int:
        """The number of the last name that was asked."""
        return int(str(self.one("SELECT max(line) FROM asked") or 0))

    def found(self, since: int, kind: int, sureness: int) -> Iterator[tuple[int, int]]:
        """Of the names of a kind that were asked after a number, the null and the number kept, as they were asked."""
        return iter(() if self.is_empty else self.base.execute(
            "SELECT a.null_number, k.number FROM kept AS k JOIN asked AS a ON a.line = k.line WHERE k.line > ?"
            " AND a.kind = ? AND k.sureness = ? AND a.sureness = k.sureness ORDER BY k.line", (since, kind, sureness)))

    def asked(self, since: int, sureness: int) -> Iterator[tuple[int]]:
        """The nulls of the names that were asked after a number."""
        return self.base.execute("SELECT null_number FROM asked WHERE line > ? AND sureness = ? ORDER BY line",
                                 (since, sureness))

    def tell(self, terms: Iterable[tuple[int, int, str]]) -> None:
        """Takes the terms of nulls, each as null, what it is, and text."""
        self.base.executemany("INSERT INTO told (null_number, sureness, digest) VALUES (?, ?, ?)",
                              ((null, sureness, digest_of(text)) for null, sureness, text in terms))

    def hint(self, names: Iterable[tuple[int, str, int]]) -> None:
        """Takes names by which a null may have been known that has surer ones now."""
        self.base.executemany("INSERT INTO hinted (kind, text, null_number) VALUES (?, ?, ?)", names)

    def hints(self) -> Iterator[tuple[int, int, int, int, int]]:
        """Nulls and the numbers that they had by names that come after the surest, the surest first."""
        return iter(() if self.is_empty else self.base.execute(FIND_HINTS))

    def raised(self, number: int, is_own: bool) -> None:
        """A number has a surer name now."""
        self.base.execute("INSERT OR REPLACE INTO raised VALUES (?, ?)", (number, int(is_own)))

    def reserve(self, numerals: Iterable[tuple[int, int, int]]) -> None:
        """Takes numbers that are texts of the target, each with its column."""
        self.base.executemany("INSERT OR REPLACE INTO reserved VALUES (?, ?, ?)", numerals)

    def new_numbers(self) -> Iterator[int]:
        """Numbers that no thing has had, and that are no texts of the target."""
        reserved = self.base.execute("SELECT number FROM reserved WHERE number >= ? ORDER BY number", (self.next,))
        barred = next(reserved, (None,))[0]
        while True:
            self.next += 1
            if self.next - 1 == barred:
                barred = next(reserved, (None,))[0]
            else:
                yield self.next - 1

    def number(self, numbers: "array[int]", written: bytearray) -> None:
        """Takes the numbers of all nulls, and marks of those that are written as numbers."""
        self.base.executemany("INSERT INTO number VALUES (?, ?, ?)",
                              ((null, number, written[null]) for null, number in enumerate(numbers)))

    def taken(self) -> Iterator[tuple[int, int, int]]:
        """The numbers that are written as such and are texts of the target, each with its column."""
        return self.base.execute("SELECT r.number, r.place, r.column_place FROM reserved AS r"
                                 " JOIN number AS n ON n.number = r.number WHERE n.is_written LIMIT 1")

    def changes(self, most: int) -> tuple[int, list[Change]]:
        """How many rows have another number than before, and the first of them."""
        count = int(str(self.one("SELECT count(*)" + CHANGES)))
        rows = self.base.execute("SELECT d.set_name, d.column_name, d.key_columns, a.text, k.number, n.number"
                                 + CHANGES + " LIMIT ?", (most,))
        return count, [Change(Kind(name, column, tuple(json.loads(key))), *rest) for name, column, key, *rest in rows]

    def keep(self, ranks: bytearray) -> None:
        """Keeps the names with the numbers of their nulls, and the terms of the nulls that have no names."""
        self.base.execute(FIND_MOVED, (self.first_new,))
        if self.one("SELECT EXISTS (SELECT 1 FROM moved)"):
            self.base.execute(FORGET_MOVED)
        self.base.execute(KEEP_NAMES)
        self.base.execute("DELETE FROM main.term WHERE number IN (SELECT number FROM raised)")
        self.base.execute(f"UPDATE main.name SET sureness = {LED} WHERE sureness = {OTHER}"
                          " AND number IN (SELECT number FROM raised WHERE is_own)")
        self.base.create_function("is_loose", 1, lambda null: ranks[null] >= RULE)
        self.base.execute(KEEP_TERMS)

    def is_numbered(self, table: str, column: str) -> bool | None:
        """Whether a column has numbers; None if that isn't decided yet."""
        found = self.one("SELECT is_numbered FROM numbered WHERE set_name = ? AND column_name = ?", table, column)
        return None if found is None else bool(found)

    def decide(self, table: str, column: str, is_numbered: bool) -> None:
        """Keeps whether a column has numbers."""
        self.base.execute("INSERT OR REPLACE INTO numbered VALUES (?, ?, ?)", (table, column, int(is_numbered)))

    def written(self) -> dict[str, bytes]:
        """The digests of the files that were written last."""
        return dict(self.base.execute("SELECT name, digest FROM written"))

    def commit(self, files: dict[str, bytes]) -> None:
        """Keeps all, with the digests of the files that are to be written."""
        try:
            self.base.execute("UPDATE next SET number = ?", (self.next,))
            self.base.execute("DELETE FROM written")
            self.base.executemany("INSERT INTO written VALUES (?, ?)", files.items())
            self.base.execute("COMMIT")
        except sqlite3.Error as error:
            raise Refused(f"{self.path}: {error}") from None

    def close(self) -> None:
        """Leaves the file as it was, if it wasn't committed."""
        self.base.close()


def check_file(path: str) -> bool:
    """Whether a crosswalk is to be made; a link, and what is no file, are refused."""
    place = pathlib.Path(path)
    if place.is_symlink():
        raise Refused(f"{path} is a link: name the file that it leads to")
    check_place(place)
    return not place.exists() or place.stat().st_size == 0


def in_use(error: sqlite3.Error) -> str:
    """What a refusal of SQLite leaves out, if another process has the file."""
    return ": another run works on it" if "locked" in str(error) else ""


def statements() -> list[str]:
    """The statements that make the tables."""
    return [" ".join(statement.split()) for statement in TABLES.split(";") if statement.strip()]


def text_of_key(text: str) -> str:
    """The text of a key's values, a list of JSON; of a long one its beginning and its SHA-256."""
    return text if len(text) <= LONGEST else f"{text[:LONGEST]}.. {digest_of(text).hex()}"


def digest_of(text: str) -> bytes:
    """The SHA-256 of a text."""
    return hashlib.sha256(text.encode("utf-8", "surrogatepass")).digest()

