"""What SQLite's types make of texts."""
from __future__ import annotations

import decimal
import pathlib
import re
from collections.abc import Callable, Iterator

from clio_tools.csv import read_table
from clio_tools.load.catalog import BOOLEAN, DATE, INTEGER, NUMBER, OTHER, TEXT, TIME, Column
from clio_tools.load.database import Options
from clio_tools.load.plan import TablePlan
from clio_tools.program import Refused

WORDS = {"t": 1, "true": 1, "y": 1, "yes": 1, "on": 1, "f": 0, "false": 0, "n": 0, "no": 0, "off": 0}
DECLARED = [(INTEGER, "INT"), (TEXT, "CHAR|CLOB|TEXT"), (OTHER, "BLOB|^$|ANY|JSON|UUID"), (NUMBER, "REAL|FLOA|DOUB"),
            (BOOLEAN, "BOOL"), (TIME, "TIME"), (DATE, "DATE")]  # kinds by what is in the name of a type, the first one
FITS = {INTEGER: "typeof({0}) = 'integer'", NUMBER: "typeof({0}) IN ('integer', 'real')",
        BOOLEAN: "typeof({0}) = 'integer'",
        DATE: "date({0}) IS NOT NULL", TIME: "coalesce(date(substr({0}, 1, 10)), time(substr({0}, 1, 5))) IS NOT NULL"}

ROUNDED = " is rounded"  # behind a number that a column would round, so that it is no number

Value = str | int | None
Made = Callable[[str], Value]


def kind_of(declared: str) -> str:
    """What texts become in a column of a declared type, by SQLite's own rules and by the names of others' types."""
    name = declared.upper()
    for kind, pattern in DECLARED:
        if re.search(pattern, name):
            return kind
    return NUMBER if re.search("NUM|DEC|MONEY", name) else OTHER


def affinity(column: Column) -> str:
    """A type such that a work table keeps values as the column does."""
    name = column.type.upper()
    if "INT" in name:
        return "INTEGER"
    if re.search("CHAR|CLOB|TEXT", name):
        return "TEXT"
    if "BLOB" in name or name == "ANY":
        return "BLOB"
    return "REAL" if re.search("REAL|FLOA|DOUB", name) else "NUMERIC"


def maker(column: Column, options: Options) -> Made:
    """What makes a value of a cell: nulls and the text for NULL are NULL, and so is the empty text but in a text."""
    opened = {options.null_text} if column.kind in (TEXT, OTHER) else {options.null_text, ""}

    def text(cell: str) -> Value:
        if cell[:1] == "?":
            if cell[:2] != "??":
                return None
            cell = cell[1:]
        return None if cell in opened else cell

    def boolean(cell: str) -> Value:
        found = text(cell)
        return WORDS.get(found.lower(), found) if isinstance(found, str) else None

    def number(cell: str) -> Value:
        found = text(cell)
        return f"{found}{ROUNDED}" if isinstance(found, str) and is_rounded(found, column) else found

    return {BOOLEAN: boolean, NUMBER: number}.get(column.kind, text)


def is_rounded(text: str, column: Column) -> bool:
    """Whether a number would be rounded in a column, which keeps 15 digits in any case."""
    if len(text) <= 15 and "e" not in text.lower():
        return False
    try:
        exact = decimal.Decimal(text)
        if affinity(column) == "NUMERIC" and abs(exact) < 1 << 63 and exact == int(exact):
            return False
        return exact != decimal.Decimal(repr(float(text)))
    except (ValueError, ArithmeticError):
        return False  # it is no number


def checked(path: pathlib.Path, plan: TablePlan) -> Iterator[list[str]]:
    """The rows of a file; a text with a byte 0 is refused, as SQLite's functions end there."""
    for number, row in enumerate(read_table(path, plan.set.columns), 1):
        if "\0" in "".join(row):
            raise Refused(f"out/{path.name}: record {number}: a text has a byte 0, and a database would cut or refuse "
                          f"it")
        yield row


def text_of(cell: object) -> str | None:
    """A value as a text."""
    return None if cell is None else cell if isinstance(cell, str) else repr(cell)
