"""The values that a database's own identity gave to things: they stand there in place of the crosswalk's numbers.

The table `given` is in the crosswalk only if a load has asked for it.
"""
from collections.abc import Iterable, Iterator

from clio_tools.ids.crosswalk import Crosswalk
from clio_tools.ids.damage import GIVEN


def given_values(crosswalk: Crosswalk, table: str, column: str) -> Iterator[tuple[int, int]]:
    """The numbers that have values in a column, with these."""
    if not crosswalk.one("SELECT EXISTS (SELECT 1 FROM main.sqlite_master WHERE name = 'given')"):
        return iter(())
    return crosswalk.base.execute("SELECT number, value FROM main.given WHERE set_name = ? AND column_name = ?",
                                  (table, column))


def keep_values(crosswalk: Crosswalk, table: str, column: str, pairs: Iterable[tuple[int, int]]) -> None:
    """Keeps numbers and their values in a column; nothing is kept before the crosswalk is committed."""
    if not crosswalk.one("SELECT EXISTS (SELECT 1 FROM main.sqlite_master WHERE name = 'given')"):
        crosswalk.base.execute(GIVEN)
    crosswalk.base.executemany("INSERT INTO main.given VALUES (?, ?, ?, ?)",
                               ((table, column, number, value) for number, value in pairs))
