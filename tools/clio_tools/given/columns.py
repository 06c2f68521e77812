"""Which columns hold made-up values, and what NULL is in each."""
from __future__ import annotations

from clio_tools.draft.model import Table
from clio_tools.mapping.meaning import Mapping
from clio_tools.mapping.rules import EXISTENTIAL
from clio_tools.mapping.text import Set
from clio_tools.program import Refused
from clio_tools.sql_types import Column

Pair = tuple[Column, Column]


def column_of(text: str, option: str, sets: list[Set]) -> Column:
    """A column of the target by SET.COLUMN."""
    name, _, column = text.partition(".")
    if not any(one.name == name and column in one.columns for one in sets):
        raise Refused(f"{option} {text}: the target has no such column")
    return name, column


def linked(sets: list[Set], tables: list[Table]) -> list[Pair]:
    """The columns that have the same values: by refs of the mapping, and by foreign keys between these tables."""
    pairs = [((one.name, own), (other, referred)) for one in sets
             for columns, other, listed in one.links + one.optional_refs for own, referred in zip(columns, listed)]
    named = {id(table): one for table, one in zip(tables, sets)}
    for table, one in zip(tables, sets):
        for ref in table.refs:
            other = named.get(id(ref.other))
            if other is not None and not ref.why_not:
                own, referred = ref.words(table)
                pairs += [((one.name, column), (other.name, to)) for column, to in zip(own, referred)
                          if column in one.columns and to in other.columns]
    return pairs


def joined(columns: dict[Column, str], pairs: list[Pair]) -> dict[Column, str]:
    """The names that columns have, each given on to the columns with the same values."""
    found = dict(columns)
    while new := [(one, other) for one, other in pairs if (one in found) != (other in found)]:
        for one, other in new:
            name = found.get(one) or found[other]
            found.setdefault(one, name)
            found.setdefault(other, name)
    return found


class Domains:
    """The columns that hold the same made-up values: for each its domain's name, and none for all others."""

    def __init__(self, sets: list[Set], surrogates: list[str], pairs: list[Pair]) -> None:
        own: dict[Column, str] = {}
        more: list[Pair] = []
        for text in surrogates:
            first, mark, second = text.partition("=")
            column = column_of(first, "--surrogate", sets)
            if mark:
                more.append((column, column_of(second, "--surrogate", sets)))
                own.setdefault(more[-1][1], second)
            else:
                own.setdefault(column, text)
        self.of = joined(own, pairs + more)


def numbered(sets: list[Set], tables: list[Table], mapping: Mapping, pairs: list[Pair]) -> list[str]:
    """The columns to which the database gives numbers, as SET.COLUMN, without those that a line or a rule fills, or a
    column with the same values."""
    filled: dict[Column, str] = {}
    for line in mapping.lines:
        table = mapping.target[line.target.table]
        filled[table.name, table.columns[line.target.column]] = "line"
    for rule in mapping.rules:
        for atom in rule.conclusion:
            table = mapping.target[atom.table]
            filled.update(((table.name, table.columns[column]), "rule") for column, cell in enumerate(atom.cells)
                          if cell.kind != EXISTENTIAL)
    filled = joined(filled, pairs)
    return [f"{one.name}.{column.word}" for one, table in zip(sets, tables) for column in table.said
            if column.is_numbered and column.word in one.columns and (one.name, column.word) not in filled]


class NullIs:
    """What NULL is in each column: a null of its own, or a text."""

    def __init__(self, sets: list[Set], words: list[str], text: str | None) -> None:
        self.kinds: dict[Column | None, str | None] = {None: None if text is None else text}
        for word in words:
            column, mark, kind = word.rpartition("=")
            if kind not in ("null", "empty"):
                raise Refused(f"--null-is {word}: it is null or empty, for all columns, or with SET.COLUMN= in front")
            at = column_of(column, "--null-is", sets) if mark else None
            self.kinds[at] = "" if kind == "empty" else None

    def text(self, column: Column, is_made_up: bool) -> str | None:
        """The text that NULL is in a column, or None for a null; where values are made up it is one, if nothing else is
        said of the column."""
        if column in self.kinds:
            return self.kinds[column]
        return None if is_made_up else self.kinds[None]
