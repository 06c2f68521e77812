"""What PostgreSQL's types make of texts, and what they would alter without a word, as by rounding it."""
from __future__ import annotations

import itertools
import pathlib
import re
from collections.abc import Iterator
from typing import IO

from clio_tools.csv import read_records, read_table
from clio_tools.databases.postgres import pieces_of_file
from clio_tools.load.catalog import DATE, TEXT, Column
from clio_tools.load.database import NotDirect
from clio_tools.load.plan import TablePlan
from clio_tools.program import Refused

SIZED = re.compile(r"(character varying|character)\((\d+)\)")
SCALED = re.compile(r"numeric\(\d+,(\d+)\)")
TIMED = re.compile(r"((?:timestamp|time)[^(]*)\(\d\)(.*)")  # of so many places behind the point
INTERVAL = re.compile(r"interval[ (][^\[]+")  # one of some units, or of so many places behind the point
RANGE = re.compile(r"(date|ts|tstz)(multi)?range(\[\])?")
FLOATS = {"real": 6, "double precision": 15}  # so many digits are kept in any case
ROUNDED = *FLOATS, "money"  # types that round a number
BITS = re.compile(r"bit( varying)?\(\d+\)")
CUT = "name", '"char"'  # types of texts that cut them
MOVING = "now|today|tomorrow|yesterday"  # words of which dates and times are made, another one each time
MOVING_WORDS = re.compile(MOVING.encode(), re.IGNORECASE)
NONE = re.compile("(?!)")


def altered(cell: str, column: Column) -> str | None:
    """A condition: the type of a column would alter a text without a word, as by rounding it."""
    if column.is_row:
        return f"({cell})::{column.type}::text <> ({cell})"
    return altered_part(cell, column) if is_of_time(column) else altered_text(cell, column.base)


def altered_text(cell: str, base: str) -> str | None:
    """That condition for a type, or an array of one, that is no date or time."""
    one, many = base.removesuffix("[]"), "[]" * base.endswith("[]")
    if size := SIZED.fullmatch(one):
        whole = "varchar" if size[1].endswith("varying") else "bpchar"
        return f"({cell})::{whole}[] <> ({cell})::{base}::{whole}[]" if many else f"char_length({cell}) > {size[2]}"
    if one in CUT:
        return f"({cell})::text{many} <> ({cell})::{base}::text{many}"
    if one.startswith("numeric("):
        return f"({cell})::numeric{many} <> ({cell})::{base}::numeric{many}"
    if one in ROUNDED:
        kept = f"({cell})::{base}::{'' if one == 'money' else 'text::'}numeric{many}"
        form = '([-+.0-9eE{}, "]|NULL)' if many else "[-+.0-9eE]"
        return f"CASE WHEN ({cell}) ~ '^{form}*$' THEN ({cell})::numeric{many} <> {kept} END"
    if BITS.fullmatch(one):
        return f"({cell})::bit varying{many} <> ({cell})::{base}::bit varying{many}"
    return None


def altered_part(cell: str, column: Column) -> str:
    """That condition for dates, times, ranges of them, and arrays of all these."""
    one, many = column.base.removesuffix("[]"), "[]" * column.base.endswith("[]")
    loses = "false"
    if column.kind == DATE:
        loses = f"char_length({cell}) > 10 AND ({cell})::timestamp <> ({cell})::date"
    elif one == "date":
        loses = f"({cell})::timestamp[] <> ({cell})::date[]::timestamp[]"
    elif one.startswith("date"):
        loses = f"({cell}) ~ ':'"
    elif INTERVAL.fullmatch(one):
        loses = f"({cell})::interval{many} <> ({cell})::{column.base}"
    elif timed := TIMED.fullmatch(column.base):
        loses = f"({cell})::{timed[1]}{timed[2]} <> ({cell})::{column.base}"
    return f"CASE WHEN ({cell}) ~* '{MOVING}' THEN true ELSE {loses} END"


def is_of_time(column: Column) -> bool:
    """Whether a column has dates or times, or ranges of them."""
    return column.base.startswith(("date", "time", "interval")) or RANGE.fullmatch(column.base) is not None


def value_of(cell: str, column: Column) -> str:
    """A value of a column in SQL; a text that would be altered becomes one that PostgreSQL refuses."""
    loses = altered(cell, column)
    cast = "" if column.kind == TEXT else f"::{column.type}"
    value = f"({cell}){cast}" if cast else cell
    wrong = f"('no value: ' || {cell})::int::text{cast}"
    return value if loses is None else f"CASE WHEN {loses} THEN {wrong} ELSE {value} END"


def plain(column: Column) -> re.Pattern[str] | None:
    """A form of texts that the type of a column doesn't alter; nothing if it alters none."""
    base = column.base
    if base.endswith("[]") or column.is_row or base in CUT or INTERVAL.fullmatch(base) or "range" in base:
        return None if altered("", column) is None else NONE
    if size := SIZED.fullmatch(base):
        return re.compile(f".{{0,{size[2]}}}", re.DOTALL)
    if TIMED.fullmatch(base):
        return re.compile("[^.]*", re.DOTALL)
    if base in ROUNDED:
        return re.compile(f"-?[0-9.]{{0,{FLOATS[base]}}}" if base in FLOATS else "-?[0-9]*")
    if scale := SCALED.fullmatch(base):
        return re.compile(f"(-?[0-9]+(\\.[0-9]{{0,{scale[1]}}})?)?")
    return re.compile(".{0,10}", re.DOTALL) if column.kind == DATE else None


def plain_pieces(plan: TablePlan, path: pathlib.Path, file: IO[bytes]) -> Iterator[bytes]:
    """A file in pieces; while the server reads them, texts that may be altered are looked for."""
    rows = iter(read_table(path, plan.set.columns))
    forms = [(place, form) for place, column in plan.columns if (form := plain(column))]
    is_watched = any(map(is_of_time, plan.loaded))
    end = b""
    for piece in without_zero(path, file):
        if is_watched and MOVING_WORDS.search(end + piece):
            raise NotDirect
        end = piece[-16:]
        yield piece
        for row in itertools.islice(rows, piece.count(b"\n") if forms else 1):
            if not all(form.fullmatch(row[place]) for place, form in forms):
                raise NotDirect
    if forms and not all(form.fullmatch(row[place]) for row in rows for place, form in forms):
        raise NotDirect


def without_zero(path: pathlib.Path, file: IO[bytes]) -> Iterator[bytes]:
    """A file in pieces; a text with a byte 0 is refused by its record."""
    for piece in pieces_of_file(file):
        if b"\0" in piece:
            number = next(number for number, row in enumerate(read_records(path)) if "\0" in "".join(row))
            raise Refused(f"out/{path.name}: record {number}: a text has a byte 0, and a database would cut or refuse "
                          f"it")
        yield piece
