"""The tables of an SQLite file, by its pragmas, and their rows."""
import os
import pathlib
import sqlite3
import urllib.parse
from collections.abc import Iterator

from clio_tools.csv import NotText, text
from clio_tools.draft.model import Column, Ref, Table
from clio_tools.draft.names import shown
from clio_tools.program import Refused


def quoted(name: str) -> str:
    return '"' + name.replace('"', '""') + '"'


class Base:
    """An SQLite file, read in one transaction."""

    def __init__(self, path: str, views: bool = False) -> None:
        """A file; its views are tables too if that is asked for."""
        if not pathlib.Path(path).is_file():
            raise Refused(f"{path} is no file")
        self.path, self.kinds = path, "'table', 'view'" if views else "'table'"
        address = f"file:{urllib.parse.quote(os.fsencode(pathlib.Path(path).resolve()))}?mode=ro"
        try:
            self.base = sqlite3.connect(address, uri=True, isolation_level=None)
        except sqlite3.Error as error:
            raise Refused(f"{path}: {error}") from None
        self.base.text_factory = lambda content: content.decode("utf-8", "surrogateescape")
        self.ask("BEGIN")

    def ask(self, query: str) -> sqlite3.Cursor:
        try:
            return self.base.execute(query)
        except (sqlite3.Error, ValueError) as error:
            raise Refused(f"{self.path}: {error}") from None

    def tables(self) -> list[Table]:
        names = self.ask(f"SELECT name, sql FROM sqlite_master WHERE type IN ({self.kinds})"
                         " AND name NOT LIKE 'sqlite\\_%' ESCAPE '\\' ORDER BY type, rowid").fetchall()
        found = {name: self._table(name, sql or "") for name, sql in names if not self._is_shadow(name)}
        for table in found.values():
            if not table.why_not:
                self._add_keys(table)
                self._add_refs(table, found)
        return list(found.values())

    def _is_shadow(self, name: str) -> bool:
        """Whether a table belongs to a virtual one (SQLite before 3.37 doesn't say)."""
        try:
            return any(row[2] == "shadow" for row in self.base.execute(f"PRAGMA table_list({quoted(name)})"))
        except sqlite3.Error:
            return False

    def _table(self, name: str, sql: str) -> Table:
        if sql.upper().startswith("CREATE VIRTUAL"):
            return Table(name, [], why_not="it is a virtual table: read it by a table of its own")
        columns = []
        listed = self.ask(f"PRAGMA table_xinfo({quoted(name)})").fetchall()
        is_alone = sum(1 for row in listed if row[5]) == 1
        for _, column, kind, filled, default, place, hidden in listed:
            if hidden != 1:
                why_not = "it is a BLOB, which is no text" if "BLOB" in kind.upper() else ""
                is_numbered = is_alone and bool(place) and kind.upper() == "INTEGER"
                columns.append(Column(column, not filled and not place, why_not, "", kind, is_numbered,
                                      default is not None))
        return Table(name, columns, is_of_catalog=True)

    def _add_keys(self, table: Table) -> None:
        ranked = sorted((row[5], row[1]) for row in self.ask(f"PRAGMA table_xinfo({quoted(table.name)})") if row[5])
        if ranked:
            table.keys.append([name for _, name in ranked])
        indexes = self.ask(f"PRAGMA index_list({quoted(table.name)})").fetchall()
        for _, index, unique, origin, partial, *_ in sorted(indexes):
            if unique and not partial and origin != "pk":
                columns = [row[2] for row in self.ask(f"PRAGMA index_info({quoted(index)})")]
                if None in columns:
                    table.notes.append(f"the index {shown(index)} is over an expression, so it is no key here")
                else:
                    table.keys.append(columns)

    def _add_refs(self, table: Table, found: dict[str, Table]) -> None:
        named = {name.lower(): other for name, other in found.items()}
        links: dict[tuple[int, str], list[tuple[str, str | None]]] = {}
        for number, _, other, column, referred, *_ in self.ask(f"PRAGMA foreign_key_list({quoted(table.name)})"):
            links.setdefault((number, other), []).append((column, referred))
        for (_, other_name), pairs in sorted(links.items(), reverse=True):
            other = named.get(other_name.lower())
            columns = [own_name(table, column) for column, _ in pairs]
            if other is None:
                wanted = [column or "" for _, column in pairs]
                table.refs.append(Ref(columns, Table(other_name, []), wanted, "there is no such table"))
                continue
            referred = [column for _, column in pairs if column is not None]
            if len(referred) < len(pairs):  # the primary key is meant
                key = self.ask(f"PRAGMA table_xinfo({quoted(other.name)})").fetchall()
                referred = [name for _, name in sorted((row[5], row[1]) for row in key if row[5])]
            referred = [own_name(other, column) for column in referred]
            missing = [column for column in referred if all(one.name != column for one in other.columns)]
            table.refs.append(Ref(columns, other, referred, "there is no such column" if missing else ""))

    def rows(self, table: Table) -> Iterator[list[str | None]]:
        """The rows as texts, with nothing for NULL."""
        listed = ", ".join(quoted(column.name) for column in table.said)
        cursor = self.ask(f"SELECT {listed} FROM {quoted(table.name)}")
        number = 0
        try:
            for number, row in enumerate(cursor, 1):
                yield [cell_text(cell) for cell in row]
        except (TypeError, NotText) as why:
            said = why if isinstance(why, TypeError) else "has a text that is not UTF-8"
            raise Refused(f"{self.path}: row {number} of {shown(table.name)} {said}") from None
        except sqlite3.Error as error:
            raise Refused(f"{self.path}: {error}") from None


def own_name(table: Table, name: str) -> str:
    """A column's name as its table has it; SQLite doesn't tell capitals."""
    return next((column.name for column in table.columns if column.name.lower() == name.lower()), name)


def cell_text(cell: str | bytes | int | float | None) -> str | None:
    """The text of a value; a double by as many digits as tell it from all others."""
    if cell is None:
        return None
    if isinstance(cell, str):
        return text(cell)
    if isinstance(cell, bytes):
        raise TypeError("has a BLOB, which is no text: read the table by a view with hex() or without the column")
    return repr(cell)
