"""By which keys the rows of a table can be known: keys of texts, in which the number of a thing stands for its null."""
from array import array
from collections.abc import Callable
from typing import NamedTuple

from clio_tools.ids.crosswalk import LONGEST, Kind, text_of_key
from clio_tools.ids.nulls import NONE, json_text
from clio_tools.mapping.text import Set

TextOfRow = Callable[[int, list[str]], str | None]


class Column(NamedTuple):
    """A column that has nulls: its place, its nulls, whether a row here can be a null's own row, and whether it is a
    key by itself.
    """
    place: int
    cells: "array[int]"
    is_home: bool
    is_key: bool


class Key(NamedTuple):
    """A key of a table by the places of its columns, and the text of its values in a row, if it has one."""
    places: tuple[int, ...]
    text: TextOfRow


class Rows:
    """A table of the target: the columns that have nulls, and its keys. `known` gives the number of a null that a key
    can have, or 0.
    """

    def __init__(self, table: Set, tables: list[Set], cells: "list[array[int]]", known: Callable[[int], int]) -> None:
        self.table, self.cells = table, cells
        homes, alone = home_columns(table, tables), {key[0] for key in table.keys if len(key) == 1}
        self.columns = [Column(place, cells[place], name in homes, name in alone)
                        for place, name in enumerate(table.columns) if has_nulls(cells[place])]
        self.homes = [column for column in self.columns if column.is_home]
        self.keys = [Key(places, text_of_row(places, cells, known)) for places in
                     (tuple(table.columns.index(name) for name in key) for key in table.keys)]

    def kind(self, column: int, key: tuple[int, ...]) -> Kind:
        """The kind of the names by a key in a column."""
        return Kind(self.table.name, self.table.columns[column], tuple(self.table.columns[place] for place in key))


def has_nulls(cells: "array[int]") -> bool:
    """Whether a column has a null."""
    return bool(cells) and max(cells) != NONE


def text_of_row(places: tuple[int, ...], cells: "list[array[int]]", known: Callable[[int], int]) -> TextOfRow:
    """The text of a key's values in a row; None if a null stands there that is not known."""
    if not any(has_nulls(cells[place]) for place in places):
        return text_of_texts(places)

    def of_row(number: int, row: list[str]) -> str | None:
        parts = []
        for place in places:
            null = cells[place][number]
            if null == NONE:
                parts.append(json_text(row[place]))
            elif one := known(null):
                parts.append(str(one))
            else:
                return None
        return text_of_key(f"[{', '.join(parts)}]")
    return of_row


def text_of_texts(places: tuple[int, ...]) -> TextOfRow:
    """The text of a key's values in a row that has texts alone there."""
    if len(places) == 1:
        only = places[0]
        return lambda _, row: text if len(text := f"[{json_text(row[only])}]") <= LONGEST else text_of_key(text)
    return lambda _, row: text_of_key(f"[{', '.join([json_text(row[place]) for place in places])}]")


def home_columns(table: Set, tables: list[Set]) -> set[str]:
    """The columns that are a key by themselves, or that a ref leads to by itself."""
    names = {key[0] for key in table.keys if len(key) == 1}
    return names | {referred[0] for other in tables for _, to, referred in other.links
                    if to == table.name and len(referred) == 1}
