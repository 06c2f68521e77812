"""The SQL types that clio-tables gives to columns, which of them hold a column's texts unchanged, and the file that
names them.
"""
import datetime
import re
from collections.abc import Callable, Iterable

from clio_tools.mapping.text import Set
from clio_tools.program import Refused

Column = tuple[str, str]  # the names of a table and of its column
Types = dict[Column, str]

INTEGER = re.compile(r"0|-?[1-9][0-9]{0,18}")
NUMERIC = re.compile(r"-?(0|[1-9][0-9]{0,131071})(\.[0-9]{1,16383})?")  # as many digits as PostgreSQL has room for
REAL = re.compile(r"[+-]?[0-9]+(\.[0-9]+)?([eE][+-]?[0-9]{1,3})?")
DATE = re.compile(r"[0-9]{4}-[0-9]{2}-[0-9]{2}")
TIMESTAMP = re.compile(r"[0-9]{4}-[0-9]{2}-[0-9]{2}[ T][0-9]{2}:[0-9]{2}:[0-9]{2}(\.[0-9]{1,6})?")


def _integer(text: str, bits: int) -> bool:
    return bool(INTEGER.fullmatch(text)) and -(1 << (bits - 1)) <= int(text) < 1 << (bits - 1)


def _is_double(text: str) -> bool:
    """Whether a double is near a number: it is neither too large nor too small."""
    return abs(float(text)) != float("inf") and (float(text) != 0 or not re.search("[1-9]", re.split("[eE]", text)[0]))


def _dated(text: str, form: re.Pattern[str]) -> bool:
    try:
        return bool(form.fullmatch(text)) and bool(datetime.datetime.fromisoformat(text))
    except ValueError:
        return False


HOLDS: dict[str, Callable[[str], bool]] = {
    "integer": lambda text: _integer(text, 32),
    "bigint": lambda text: _integer(text, 64),
    "numeric": lambda text: bool(NUMERIC.fullmatch(text)) and not (text.startswith("-") and not text.strip("-0.")),
    "real": lambda text: bool(REAL.fullmatch(text)) and _is_double(text),
    "boolean": lambda text: text in ("true", "false"),
    "date": lambda text: _dated(text, DATE),
    "timestamp": lambda text: _dated(text, TIMESTAMP),
    "text": lambda text: True,
}
UNCHANGED = {name: HOLDS[name] for name in ("integer", "bigint", "numeric", "boolean", "date")}
UNCHANGED["timestamp"] = lambda text: ("T" not in text and not re.search(r"\.[0-9]*0$", text)
                                       and HOLDS["timestamp"](text))
WIDER = {("integer", "bigint"): "bigint", ("integer", "numeric"): "numeric", ("bigint", "numeric"): "numeric"}


FORMS = {"integer": "whole and below 2147483648", "bigint": "whole and below 2^63",
         "numeric": "digits, with a point at most", "real": "as 1.5 or 1e9", "boolean": "true or false",
         "date": "as 2026-11-30", "timestamp": "as 2026-11-30 23:59:59"}  # what is a value of a type
null_texts: set[str] = set()  # the text that stands for NULL, if there is one


def read_as_null(text: str) -> None:
    """Takes a text of the source for NULL, as clio-draft --null writes it."""
    null_texts.add("?" + text if text.startswith("?") else text)


def is_open(text: str) -> bool:
    """Whether a cell of a target is a null or the empty text, which is NULL under a type."""
    return not text or (text.startswith("?") and not text.startswith("??")) or text in null_texts


class Guess:
    """The types that hold each text of a column so far."""

    def __init__(self, is_key: bool) -> None:
        self.types = list(UNCHANGED)
        self.is_key = is_key
        self.seen = False

    def look(self, text: str) -> None:
        if not self.types:
            return
        if is_open(text):
            if self.is_key:
                self.types = []
        else:
            self.seen = True
            self.types = [name for name in self.types if UNCHANGED[name](text)]

    def type(self) -> str:
        return self.types[0] if self.seen and self.types else "text"


def joined(one: str, other: str) -> str:
    """The type of two columns that a ref links."""
    return one if one == other else WIDER.get((one, other)) or WIDER.get((other, one)) or "text"


def key_columns(tables: Iterable[Set]) -> dict[Column, set[Column]]:
    """The columns of keys and refs, each as its table's name and its own, with those that refs link it to."""
    linked: dict[Column, set[Column]] = {}
    for table in tables:
        for column in [column for key in table.keys for column in key]:
            linked.setdefault((table.name, column), set())
        for columns, other, referred in table.links:
            for column, to in zip(columns, referred):
                linked.setdefault((table.name, column), set()).add((other, to))
                linked.setdefault((other, to), set()).add((table.name, column))
    return linked


def nullable(types: Types, tables: Iterable[Set]) -> set[Column]:
    """The columns that may be NULL: those of a type other than text that no key and no ref has."""
    keys = key_columns(tables)
    return {place for place, name in types.items() if name != "text" and place not in keys}


def settled(types: Types, tables: Iterable[Set]) -> Types:
    """The types, after columns that refs link have been given one type."""
    linked = key_columns(tables)
    changed = True
    while changed:
        changed = False
        for place, others in linked.items():
            for other in others:
                both = joined(types[place], types[other])
                changed = changed or (types[place], types[other]) != (both, both)
                types[place] = types[other] = both
    return types


def infer(tables: list[Set], rows: Callable[[Set], Iterable[list[str]]]) -> Types:
    """The narrowest type of each column that holds its texts unchanged; `rows` gives the rows of a table."""
    keys = key_columns(tables)
    types: Types = {}
    for table in tables:
        guesses = [Guess((table.name, column) in keys) for column in table.columns]
        for row in rows(table):
            for guess, cell in zip(guesses, row):
                guess.look(cell)
        for column, guess in zip(table.columns, guesses):
            types[table.name, column] = guess.type()
    return settled(types, tables)


def printed(types: Types) -> str:
    """The text of a file of types: one line for each column."""
    return "".join(f"{table}.{column} {name}\n" for (table, column), name in types.items())


def read_types(path: str, tables: list[Set]) -> Types:
    """The types that a file names; a column that it leaves out is a text."""
    types = {(table.name, column): "text" for table in tables for column in table.columns}
    with open(path, encoding="utf-8-sig", errors="replace") as file:
        lines = file.read().split("\n")
    for number, line in enumerate(lines, 1):
        words = line.partition("//")[0].split()
        if not words:
            continue
        name, _, of_table = words[0].partition(".")
        place = name, of_table
        if len(words) != 2 or place not in types:
            raise Refused(f"{path}: line {number}: a line is a column of the target and its type,"
                          " as in person.age integer")
        if words[1] not in HOLDS:
            raise Refused(f"{path}: line {number}: {words[1]} is none of the types {', '.join(HOLDS)}")
        types[place] = words[1]
    for (table, column), others in key_columns(tables).items():
        for other in others:
            if types[other] != types[table, column]:
                raise Refused(f"{path}: a ref links {table}.{column} to {'.'.join(other)}: they must have one type")
    return types


def check_cell(text: str, type_name: str, is_key: bool) -> str | None:
    """Why a cell can't be held under its column's type, or nothing."""
    if type_name == "text":
        return None
    if is_open(text):
        return (f"is {text or 'empty'}, and a column of a key or ref must have a value in each row: give it the type"
                " text, numbers by clio-ids, or a rule that fills it") if is_key else None
    return None if HOLDS[type_name](text) else f"is {text[:80]!r}, which is no {type_name} ({FORMS[type_name]})"
