"""Which columns have numbers, and which numbers can't be given."""
import re

from clio_tools.ids.crosswalk import Crosswalk
from clio_tools.ids.damage import GREATEST
from clio_tools.ids.nulls import NONE
from clio_tools.ids.target import Target
from clio_tools.mapping.text import Set
from clio_tools.program import Refused

NUMERAL = re.compile(r"[1-9][0-9]{0,18}")


def key_columns(table: Set, tables: list[Set]) -> list[int]:
    """The columns of a table that are in a key or a ref, or that a ref leads to."""
    names = {name for key in table.keys for name in key} | {name for own, _, _ in table.links for name in own}
    names |= {name for other in tables for _, to, referred in other.links if to == table.name for name in referred}
    return [table.columns.index(name) for name in sorted(names)]


def decided(target: Target, crosswalk: Crosswalk, chosen: dict[tuple[str, str], bool]) -> set[tuple[int, int]]:
    """The places of the columns that have numbers: those of keys and refs with nulls alone, as they were decided when
    they first had rows.
    """
    found = set()
    for place, table in enumerate(target.tables):
        for column in range(len(table.columns)):
            name, cells = (table.name, table.columns[column]), target.cells[place][column]
            was = crosswalk.is_numbered(*name)
            now = chosen.get(name, was)
            if now is None and cells and column in key_columns(table, target.tables):
                now = min(cells) != NONE
            if now is not None and now != was:
                crosswalk.decide(*name, now)
            if now:
                found.add((place, column))
    return found


def numbered_nulls(target: Target, columns: set[tuple[int, int]]) -> bytearray:
    """For each null a mark, whether it stands in a column with numbers: such nulls are numbers wherever they stand."""
    marks = bytearray(target.nulls.count)
    for place, column in columns:
        for null in target.cells[place][column]:
            if null != NONE:
                marks[null] = 1
    return marks


def list_numerals(target: Target, columns: set[tuple[int, int]], numbered: bytearray, crosswalk: Crosswalk) -> None:
    """Makes a list of the numbers that are texts already in a column in which numbers stand, each with the column."""
    held = {(place, column) for place, listed in enumerate(target.cells) for column, cells in enumerate(listed)
            if (place, column) in columns or any(numbered[null] for null in cells if null != NONE)}
    for place, table in enumerate(target.tables):
        wanted = [column for column in range(len(table.columns))
                  if (place, column) in held and NONE in target.cells[place][column]]
        if wanted:
            crosswalk.reserve((int(row[column]), place, column) for row in target.rows(table) for column in wanted
                              if NUMERAL.fullmatch(row[column]) and int(row[column]) <= GREATEST)


def check_numbers(target: Target, crosswalk: Crosswalk) -> None:
    """No number that a thing has is a text in such a column."""
    for number, place, column in crosswalk.taken():
        table = target.tables[place]
        name = table.columns[column]
        raise Refused(f"out/{table.name}.csv has the text {number} in column {name}, and {number} is the number of"
                      f" another thing: give the column another form, or keep its nulls by --keep {table.name}.{name}")
