"""The tables of a database as a load needs them: columns with their types, keys, and foreign keys."""
from __future__ import annotations

from dataclasses import dataclass, field

TEXT, INTEGER, NUMBER, BOOLEAN, DATE, TIME, OTHER = "text", "integer", "number", "boolean", "date", "time", "other"


@dataclass(frozen=True)
class Column:
    """A column: `type` is its type as SQL has it, `kind` what texts become there."""

    name: str
    word: str  # its name in a mapping text
    type: str
    kind: str
    may_be_null: bool
    is_filled: bool  # it has a value if none is given
    is_identity: bool = False  # the database gives it numbers
    is_computed: bool = False
    sequence: str | None = None  # what gives it numbers, as SQL has it
    base: str = ""  # its type, or what that is made of, if it is a domain, or an array of one
    is_row: bool = False  # whether that, or its elements, are rows of several columns


@dataclass(frozen=True)
class ForeignKey:
    """Columns of a table, the child, that refer to columns of another, the parent; tables by their words of SQL."""

    child: str
    columns: tuple[str, ...]
    parent: str
    referred: tuple[str, ...]
    acts: bool = False  # whether rows of the child are deleted or altered with what they refer to


@dataclass
class Table:
    """A table: its name, its word in a mapping text, its name as SQL has it, its keys, the primary key first."""

    name: str
    word: str
    sql: str
    columns: list[Column]
    keys: list[list[str]] = field(default_factory=list)
    has_places: bool = True  # whether a row has a place by which it can be named
    is_shared: bool = False  # whether it shows rows of other tables too, which its keys don't bind

    def column(self, name: str) -> Column | None:
        """The column of this name."""
        return next((column for column in self.columns if column.name == name), None)

    def place(self, name: str) -> int:
        """The place of a column among all."""
        return next(place for place, column in enumerate(self.columns) if column.name == name)


@dataclass
class Catalog:
    """The tables that can be loaded, and the foreign keys that lead to them, from whatever table."""

    tables: list[Table]
    foreign_keys: list[ForeignKey]
