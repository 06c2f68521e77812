"""The words in which the SQL of engines differs. All other SQL of the exchange is the same for each."""
import re
from dataclasses import dataclass, replace

from clio_tools.mapping.meanings import CONVERSIONS, TESTS, Sql
from clio_tools.program import Refused

CALL = re.compile(r'"([A-Za-z_][A-Za-z0-9_]*)"\((.*)\)')
COLUMN = re.compile(r'a[0-9]+\."[^"]+"')


def quoted(text: str) -> str:
    """A text of SQL."""
    return "'" + text.replace("'", "''") + "'"


@dataclass(frozen=True)
class Words:
    """A dialect of SQL."""
    name: str
    table: str  # what a work table is made as
    view: str  # what a work view is made as
    by_bytes: str  # has texts compared by their bytes
    by_language: str  # has them compared as the engine likes it
    least: str  # the least of some cells that isn't NULL
    cell: str  # one of those cells
    engine: str  # its name in the table of conversions and tests
    has_indexes: bool  # whether joins need them
    has_statistics: bool  # whether the engine has to be told that a table has its rows
    divided: str = "{} / {}"  # an integer divided by another one, as an integer
    names_lists: bool = False  # whether the columns of a list of values get their names from the query alone
    was_run: bool = True

    def listed(self, rows: list[str], width: int) -> str:
        """A list of rows of values as the table v, with the columns column1 and so on."""
        names = ", ".join(f"column{place + 1}" for place in range(width))
        return f"(VALUES {', '.join(rows)}) AS v" + f" ({names})" * self.names_lists

    def text(self, literal: str) -> str:
        """A literal of SQL as a text that is compared by its bytes."""
        return f"CAST({literal} AS text){self.by_bytes}"

    @property
    def no_text(self) -> str:
        """The constant of a cell that has a null."""
        return self.text("NULL")

    def least_of(self, cells: list[str]) -> str:
        """The least of some cells that isn't NULL."""
        return self.least.format(", ".join(self.cell.format(cell) for cell in cells))

    def agree(self, one: str, other: str, kind: str) -> str:
        """That two cells are equal, of which each may be NULL."""
        if self.has_indexes:
            return f"{one} IS {other}"
        nothing = "''" if kind == "c" else "-1"
        return f"coalesce({one}, {nothing}) = coalesce({other}, {nothing})"

    def exported(self, expression: str) -> str:
        """An expression of a script: a column, or a conversion of columns."""
        if COLUMN.fullmatch(expression):
            return expression
        call = CALL.fullmatch(expression)
        if not call or call[1] not in CONVERSIONS:
            raise Refused(f"clio-sql knows no conversion {call[1] if call else expression}")
        return self.of_engine(CONVERSIONS[call[1]].sql).format(*call[2].split(", "))

    def passes(self, column: str, test: str) -> str:
        """That a column satisfies a row test."""
        if test not in TESTS:
            raise Refused(f"clio-sql knows no row test {test}")
        return self.of_engine(TESTS[test].sql).format(column)

    def of_engine(self, sql: Sql) -> str:
        """An expression as this engine has it."""
        return str(getattr(sql, self.engine))


POSTGRES = Words(
    name="PostgreSQL", table="UNLOGGED TABLE", view="VIEW",
    by_bytes=' COLLATE "C"', by_language=' COLLATE "default"', least="LEAST({})", cell="{}",
    engine="postgres", has_indexes=False, has_statistics=True)

SQLITE = Words(
    name="SQLite", table="TABLE", view="TEMP VIEW",
    by_bytes=" COLLATE BINARY", by_language="", least="(SELECT min(column1) FROM (VALUES {}))", cell="({})",
    engine="sqlite", has_indexes=True, has_statistics=False)

# as its manual has them: integers are divided by //, tests match a whole text, texts are compared by their bytes anyway
DUCKDB = replace(
    POSTGRES, name="DuckDB", table="TABLE", by_bytes="", by_language="", has_statistics=False, divided="{} // {}",
    names_lists=True, was_run=False, engine="duckdb")
DIALECTS = {"postgres": POSTGRES, "duckdb": DUCKDB}
