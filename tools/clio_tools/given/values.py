"""What the values of a database are as texts of a mapping: nulls, and texts of the same value."""
from __future__ import annotations

import datetime
import decimal
import pathlib
from collections.abc import Callable

from clio_tools.csv import read_table
from clio_tools.mapping.text import Set
from clio_tools.program import Refused, remark

WORDS = {word: "true" for word in ("t", "true", "y", "yes", "on", "1")} | {
    word: "false" for word in ("f", "false", "n", "no", "off", "0")}
KINDS = [("timestamp", "TIME"), ("date", "DATE"), ("boolean", "BOOL"),
         ("number", "INT|NUM|DEC|REAL|FLOA|DOUB|SERIAL|MONEY")]  # what is in the name of a type, the first one


class Nulls:
    """Names for nulls: a new one for each NULL, and one for each made-up value."""

    def __init__(self) -> None:
        self.count = 0
        self.named: dict[tuple[str, str], str] = {}

    def fresh(self) -> str:
        """A name that no other null has."""
        self.count += 1
        return f"?0.0.{self.count - 1}"

    def of(self, domain: str, cell: str) -> str:
        """The name of a made-up value."""
        if (domain, cell) not in self.named:
            self.named[domain, cell] = self.fresh()
        return self.named[domain, cell]


def kind_of(type_name: str) -> str:
    """What kind of value a type of a database, or of a file of types, has: text, if its texts are as they are."""
    upper = type_name.upper()
    return next((kind for kind, parts in KINDS if any(part in upper for part in parts.split("|"))), "text")


def number(text: str) -> str:
    """A number without zeros that say nothing."""
    value = decimal.Decimal(text)
    return f"{value.normalize():f}" if value else "0"


def date(text: str) -> str:
    """A day; the first moment of it is it too."""
    moment = datetime.datetime.fromisoformat(text)
    if moment.time() != datetime.time():
        raise ValueError
    return moment.date().isoformat()


def timestamp(text: str) -> str:
    """A moment; one without a zone is of UTC."""
    moment = datetime.datetime.fromisoformat(text)
    if moment.tzinfo is not None:
        moment = moment.astimezone(datetime.timezone.utc).replace(tzinfo=None)
    return moment.isoformat()


VALUES: dict[str, Callable[[str], str]] = {
    "number": number, "date": date, "timestamp": timestamp, "boolean": lambda text: WORDS[text.lower()]}


def value_of(text: str, kind: str) -> str | None:
    """What a text is as a value of a kind, in one way for all texts of the value; None if it is none."""
    try:
        return VALUES[kind](text.strip(" "))
    except (ValueError, KeyError, ArithmeticError, OverflowError):
        return None


class Texts:
    """The texts that the target of an exchange has in the columns of a set that are no texts in the database."""

    def __init__(self, folder: pathlib.Path, one: Set, kinds: dict[str, str]) -> None:
        self.kinds = {column: kind for column, kind in kinds.items() if kind != "text"}
        self.texts: dict[str, dict[str, str]] = {column: {} for column in self.kinds}
        path = folder / f"{one.name}.csv"
        if self.kinds:
            if not path.is_file():
                raise Refused(f"{path} is missing, which has the texts of typed columns: run clio exchange")
            for row in read_table(path, one.columns):
                for column in self.kinds:
                    self.add(one, column, row[one.columns.index(column)])

    def add(self, one: Set, column: str, cell: str) -> None:
        """A cell of the target."""
        if cell[:1] == "?":
            return
        value = value_of(cell, self.kinds[column])
        if value is not None and self.texts[column].setdefault(value, cell) != cell:
            remark("clio-given", f"{one.name}.{column} has {self.texts[column][value]!r} and {cell!r} for one value of"
                                 " the database: the first is written")

    def text(self, column: str, cell: str) -> str:
        """The text of a value of the database: that which the target has for it, or its own."""
        if column not in self.kinds:
            return cell
        value = value_of(cell, self.kinds[column])
        return cell if value is None else self.texts[column].get(value, cell)
