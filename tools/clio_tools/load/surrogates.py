"""Which columns of the target the database fills by itself, and which numbers its rows have already."""
from __future__ import annotations

import pathlib
from collections.abc import Iterator

from clio_tools.ids.damage import GREATEST
from clio_tools.ids.keys import home_columns
from clio_tools.load.catalog import INTEGER, NUMBER, Catalog
from clio_tools.load.database import Database, identifier
from clio_tools.mapping.text import Set
from clio_tools.sql.script import Cell, Rule

Place = tuple[str, str]  # the names of a set and a column


def unfilled(sets: list[Set], rules: pathlib.Path) -> set[Place]:
    """The columns that no rule fills: in each there is an unknown that stands nowhere else.

    Such a column is the database's own: it keeps its values there, and gets its default in new rows."""
    seen: set[str] = set()
    filled: set[Place] = set()
    named = {one.name: one for one in sets}
    for line in rules.read_text(encoding="utf-8").splitlines():
        atoms = Rule(line).conclusion
        cells = [cell for atom in atoms for cell in atom.cells]
        for atom in atoms:
            seen.add(atom.table)
            filled |= {(atom.table, name) for name, cell in zip(named[atom.table].columns, atom.cells)
                       if is_filled(cell, cells)}
    return {(one.name, name) for one in sets if one.name in seen for name in one.columns} - filled


def is_filled(cell: Cell, cells: list[Cell]) -> bool:
    """Whether a cell of a rule is something that is known, or an unknown that stands elsewhere too."""
    return cell.kind != "y" or cells.count(cell) > 1


def taken_numbers(database: Database, catalog: Catalog, sets: list[Set], least: int) -> Iterator[tuple[int, int, int]]:
    """The numbers that rows have in columns of surrogate keys, from the least that can be given, with the places of
    set and column: no other thing gets one of them."""
    tables = {table.word: table for table in catalog.tables}
    for number, one in enumerate(sets):
        table, homes = tables.get(one.name), home_columns(one, sets)
        for place, word in enumerate(one.columns):
            column = next((column for column in table.columns if column.word == word), None) if table else None
            if table and column and word in homes and column.kind in (INTEGER, NUMBER):
                name = identifier(column.name)
                for cell, in database.rows(f"SELECT {name} FROM {table.sql} WHERE {name} >= {least} AND {name} <= "
                                           f"{GREATEST}"):
                    if cell is not None and cell.isdigit():
                        yield int(cell), number, place
