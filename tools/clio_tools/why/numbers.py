"""The numbers that clio-ids gave, put back to nulls: names and numbers are read from its crosswalk, never changed."""
from __future__ import annotations

import json
import pathlib
import sqlite3
import urllib.parse
from collections.abc import Iterator

from clio_tools.ids.crosswalk import SIGN, VERSION, digest_of, text_of_key
from clio_tools.ids.nulls import json_text
from clio_tools.ids.sureness import OTHER
from clio_tools.ids.target import names_of
from clio_tools.program import Refused
from clio_tools.why.exchange import Exchange, is_null, null_of, value_text
from clio_tools.why.finding import rows_of, values_of
from clio_tools.why.lookup import Row

Kind = tuple[str, str, tuple[str, ...]]  # a set, a column, and the columns of a key there
NAMES = """SELECT k.set_name, k.column_name, k.key_columns, n.text FROM name AS n JOIN kind AS k ON k.kind = n.kind
 WHERE n.number = ? AND n.sureness <= ? ORDER BY n.sureness, k.kind"""
NUMBER = """SELECT n.number FROM name AS n JOIN kind AS k ON k.kind = n.kind WHERE k.set_name = ? AND k.column_name = ?
 AND k.key_columns = ? AND n.text = ? AND n.sureness <= ?"""


class Numbers:
    """Which number each null of an exchange has, and which null each number is."""

    def __init__(self, path: str, exchange: Exchange) -> None:
        self.path, self.exchange = path, exchange
        self.tables = {table.name: table for table in exchange.mapping.target}
        if not pathlib.Path(path).is_file():
            raise Refused(f"{path} is no file")
        place = urllib.parse.quote(str(pathlib.Path(path).resolve()))
        self.base = sqlite3.connect(f"file:{place}?mode=ro", uri=True)
        if self.ask("PRAGMA application_id") != [(SIGN,)] or self.ask("PRAGMA user_version") != [(VERSION,)]:
            raise Refused(f"{path} is no crosswalk of this clio-ids")
        kinds = self.ask("SELECT set_name, column_name, key_columns FROM kind ORDER BY kind")
        self.kinds: list[Kind] = [(str(name), str(column), tuple(json.loads(str(key)))) for name, column, key in kinds
                                  if name in self.tables]
        self.numbered = {(name, column) for name, column, is_numbered
                         in self.ask("SELECT set_name, column_name, is_numbered FROM numbered") if is_numbered}
        self.known: dict[str, int | None] = {}
        self.given: dict[int, set[int]] = {}  # the numbers of things to which clio-load --identity gave other ones
        if self.ask("SELECT 1 FROM sqlite_master WHERE name = 'given'"):
            for number, value in self.ask("SELECT number, value FROM given"):
                self.given.setdefault(int(str(number)), set()).add(int(str(value)))

    def ask(self, query: str, *values: object) -> list[tuple[object, ...]]:
        """The rows of a query."""
        try:
            return self.base.execute(query, values).fetchall()
        except sqlite3.Error as error:
            raise Refused(f"{self.path}: {error}") from None

    def values(self, name: str, column: str, text: str) -> set[str]:
        """What a value that was given may be in a column of the target: the null that has this number, or the text."""
        if (name, column) in self.numbered and text.isascii() and text.isdigit():
            return {null for number in self.of_thing(int(text)) for null in self.nulls(name, column, number)}
        return values_of(text)

    def of_thing(self, number: int) -> list[int]:
        """The crosswalk's numbers of things that have a number in the database."""
        return [one for one, given in self.given.items() if number in given] + [number] * (number not in self.given)

    def in_database(self, number: int) -> int:
        """The number in the database of a thing that has one of the crosswalk's."""
        return min(self.given.get(number, {number}))

    def nulls(self, name: str, column: str, number: int) -> Iterator[str]:
        """The nulls that have a number: by the keys that it is known by, or else by what nulls of the column are made
        of."""
        names = self.ask(NAMES, number, OTHER)
        for of, at, key, text in names:
            if of in self.tables:
                yield from self.named(str(of), str(at), tuple(json.loads(str(key))), str(text))
        digests = {digest for digest, in self.ask("SELECT digest FROM term WHERE number = ?", number)}
        if digests and not names:
            place = self.tables[name].columns.index(column)
            for row in self.rows(name, [{}]):
                if is_null(row[place]) and digest_of(self.term(row[place])) in digests:
                    yield row[place]

    def rows(self, name: str, ways: list[dict[str, set[str]]]) -> Iterator[Row]:
        """Rows of the target."""
        for row in rows_of(self.exchange.out / f"{name}.csv", self.tables[name], ways):
            yield row.values

    def named(self, name: str, column: str, key: tuple[str, ...], text: str) -> Iterator[str]:
        """The nulls in a column of the rows that have a key."""
        way: dict[str, set[str]] = {}
        try:
            parts = json.loads(text)
        except ValueError:  # only the begin of a long text is kept
            parts = []
        for at, part in zip(key, parts):
            way[at] = {part} if isinstance(part, str) else set(self.nulls(name, at, part))
        place = self.tables[name].columns.index(column)
        for row in self.rows(name, [way]):
            if is_null(row[place]) and self.text_of(name, row, key) == text:
                yield row[place]

    def text_of(self, name: str, row: Row, key: tuple[str, ...]) -> str | None:
        """The text by which a row is known: that of a key, in which numbers stand for nulls."""
        parts = []
        for column in key:
            value = row[self.tables[name].columns.index(column)]
            number = self.number(value) if is_null(value) else None
            if is_null(value) and number is None:
                return None
            parts.append(json_text(value) if number is None else str(number))
        return text_of_key(f"[{', '.join(parts)}]")

    def number(self, null: str) -> int | None:
        """The number of a null, if it has one."""
        if null not in self.known:
            self.known[null] = None  # a key that has the null itself doesn't tell it
            self.known[null] = self.by_name(null) or self.by_term(null)
        return self.known[null]

    def by_name(self, null: str) -> int | None:
        """The number that is known by a key of a row with a null."""
        for name, column, key in self.kinds:
            for row in self.rows(name, [{column: {null}}]):
                text = self.text_of(name, row, key)
                found = self.ask(NUMBER, name, column, json.dumps(list(key)), text, OTHER) if text else []
                if found:
                    return int(str(found[0][0]))
        return None

    def by_term(self, null: str) -> int | None:
        """The number that is known by what a null is made of."""
        found = self.ask("SELECT number FROM term WHERE digest = ?", digest_of(self.term(null)))
        return int(str(found[0][0])) if found else None

    def term(self, null: str) -> str:
        """What a null is made of, as clio-ids says it."""
        rule, variable, place = null_of(null)
        matches = self.exchange.matches[rule]
        if place >= len(matches.lookup.rows):
            raise Refused(f"the source has no match for the null {null}: {self.exchange.stale()}")
        pairs = [[f"x{number}", value_text(text)] for number, text in zip(matches.exported, matches.lookup.rows[place])]
        return json.dumps(["rule", names_of(self.exchange.printed)[rule], variable, pairs])

    def shown(self, value: str) -> str:
        """The name of a null, with its number."""
        number = self.number(value)
        return value if number is None else f"{value} (number {self.in_database(number)})"

    def all_known(self) -> dict[str, int | None]:
        """The number in the database of each null that was looked at."""
        return {null: None if number is None else self.in_database(number) for null, number in self.known.items()}
