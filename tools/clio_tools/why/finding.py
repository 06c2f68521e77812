"""Which rows are asked about: words of a command, as values of keys or as COLUMN=VALUE."""
from __future__ import annotations

import pathlib
from collections.abc import Iterator
from typing import NamedTuple

from clio_tools.csv import records
from clio_tools.mapping.tables import Table
from clio_tools.program import Refused
from clio_tools.why.lookup import Row

Wanted = dict[str, str]


class Written(NamedTuple):
    """A row of a file that clio wrote, and its line."""

    line: int
    values: Row


def wanted(table: Table, words: list[str]) -> list[Wanted]:
    """What rows are to have in columns, in one of some ways: what COLUMN=VALUE says; or the values of a key that has so
    many columns, for each such key; or, if there is none, the values of the first columns."""
    named = [word.partition("=") for word in words]
    if all(mark and column in table.columns for column, mark, _ in named):
        return [{column: value for column, _, value in named}]
    declared = [column for column in table.columns if not column.startswith("#")]
    keys = [[table.columns[column] for column in key if table.columns[column] in declared] for key in table.keys]
    found = [dict(zip(key, words)) for key in keys if len(key) == len(words)]
    if found:
        return found
    if len(words) > len(declared):
        raise Refused(f"{table.name} has {len(declared)} columns, and here are {len(words)} values")
    return [dict(zip(declared, words))]


def rows_of(path: pathlib.Path, table: Table, ways: list[dict[str, set[str]]]) -> Iterator[Written]:
    """The rows of a file that have one of the given values in each column of one of some ways."""
    try:
        entries = records(path.read_bytes())
    except OSError as error:
        raise Refused(f"{path.name}: {error.strerror}") from None
    if next(entries, (0, []))[1] != table.columns:
        raise Refused(f"{path.name} has other columns than {table.name}: run clio exchange again")
    places = [[(table.columns.index(column), values) for column, values in way.items()] for way in ways]
    firsts = [(*way[0], way[1:]) if way else (0, None, []) for way in places]
    for line, fields in entries:
        for place, values, rest in firsts:
            if (values is None or fields[place] in values) and all(fields[at] in others for at, others in rest):
                yield Written(line, tuple(fields))
                break


def values_of(text: str) -> set[str]:
    """How a value that was given may be in a file that clio wrote: a text as it is, one that begins with `?` with one
    more in front, or a null by its name."""
    return {text, f"?{text}"} if text.startswith("?") else {text}
