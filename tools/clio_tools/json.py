"""JSON documents as clio reads them, for the tools beside this file.

A document is an array of objects, one for each row of a root set. A column is a text, an integer of 64 bits, true,
false, null or missing; an inner set is an array of objects, null or missing. All else is refused with its path.
"""
from __future__ import annotations

import json
import pathlib
import re
from collections.abc import Iterator
from typing import NoReturn, TextIO, TypeAlias

from clio_tools.mapping.text import Set
from clio_tools.program import Refused

Value: TypeAlias = "None | bool | int | float | str | list[Value] | Object"
Object: TypeAlias = "dict[str, Value]"
Found: TypeAlias = dict[str, list[list[str]]]  # the rows of sets by their names
Above: TypeAlias = tuple[str, str, str | None]  # of an array: its path, how the `#id` of its rows begin, their `#up`

MARK = b"\xef\xbb\xbf"


class Integer(str):
    """An integer of a document, by its digits."""


class Fraction(str):
    """A number with a fraction or an exponent, as it is written."""


def _no_constant(name: str) -> NoReturn:
    raise ValueError(f"{name} is no value of JSON")


def _once(pairs: list[tuple[str, Value]]) -> Object:
    """An object none of whose members stands twice."""
    made: Object = {}
    for name, value in pairs:
        if name in made:
            raise Refused(f"an object has a member twice: {name}")
        made[name] = value
    return made


def _halves(value: Value) -> str | None:
    """The first half of a surrogate pair in the texts of a value."""
    pending = [value]
    while pending:
        one = pending.pop()
        if isinstance(one, str) and (found := re.search("[\ud800-\udfff]", one)):
            return f"\\u{ord(found[0]):04x}"
        if isinstance(one, dict):
            pending += [*one.keys(), *one.values()]
        elif isinstance(one, list):
            pending += one
    return None


def parse(content: bytes, place: object, twice: bool = True) -> Value:
    """The value of a document; numbers stay as they are written. `place` names it in a refusal.

    If a member of an object stands twice, the last one counts, as for clio; or, without `twice`, it is refused.
    """
    try:
        value: Value = json.loads(content.removeprefix(MARK).decode("utf-8"), parse_int=Integer, parse_float=Fraction,
                                  parse_constant=_no_constant, object_pairs_hook=None if twice else _once)
    except (ValueError, RecursionError) as error:
        raise Refused(f"{place}: not JSON: {error}") from None
    except Refused as why:
        raise Refused(f"{place}: {why}") from None
    if re.search(rb"\\u[dD][89a-fA-F]", content) and (half := _halves(value)):
        raise Refused(f"{place}: not JSON: a text has half of a surrogate pair, {half}")
    return value


class Elements:
    """The values of a document that is an array, one after the other, read from its file a part at a time."""
    PART = 1 << 20
    FILLED = re.compile(r"[^ \t\r\n]")

    def __init__(self, path: pathlib.Path, decoder: json.JSONDecoder | None = None) -> None:
        self.path, self.decoder, self.text, self.at = path, decoder or json.JSONDecoder(), "", 0
        self.file: TextIO

    def __iter__(self) -> Iterator[Value]:
        try:
            with open(self.path, encoding="utf-8-sig", newline="") as self.file:
                yield from self.values()
        except (ValueError, RecursionError) as error:
            raise Refused(f"{self.path}: not JSON: {error}") from None

    def values(self) -> Iterator[Value]:
        """The values, with the marks around them."""
        self.mark("[")
        if self.sign() == "]":
            self.mark("]")
        else:
            yield self.value()
            while self.mark(",]") == ",":
                yield self.value()
        if self.sign():
            raise ValueError(f"the array is followed by {self.sign()!r}")

    def more(self) -> bool:
        """Reads on; a value that is longer than a part is tried again only when as much as was there has come."""
        part = self.file.read(max(self.PART, len(self.text) - self.at))
        self.text, self.at = self.text[self.at:] + part, 0
        return bool(part)

    def sign(self) -> str:
        """The next sign that isn't blank, or nothing at the end."""
        while True:
            found = self.FILLED.search(self.text, self.at)
            self.at = found.start() if found else len(self.text)
            if self.at < len(self.text) or not self.more():
                return self.text[self.at:self.at + 1]

    def mark(self, wanted: str) -> str:
        """Takes one of some signs."""
        found = self.sign()
        if not found or found not in wanted:
            raise ValueError(f"{found!r} is where one of {wanted} must be")
        self.at += 1
        return found

    def value(self) -> Value:
        """Takes a value; what ends where the text ends may be cut, and is tried again."""
        self.sign()
        while True:
            try:
                value: Value
                value, end = self.decoder.raw_decode(self.text, self.at)
                if end < len(self.text) or not self.more():
                    self.at += end - self.at
                    return value
            except ValueError:
                if not self.more():
                    raise


def scalar(value: Value, path: str) -> str:
    """The text of a column, as clio takes it."""
    if value is None:
        return ""
    if isinstance(value, bool):
        return "true" if value else "false"
    if isinstance(value, Fraction) or (isinstance(value, Integer) and not _fits(value)):
        raise Refused(f"number at {path}: {value} is no integer of 64 bits")
    if not isinstance(value, str):
        raise Refused(f"wrong shape at {path}: a column is a single value")
    return str(value)


def _fits(digits: str) -> bool:
    return digits != "-0" and len(digits) <= 20 and -(2**63) <= int(digits) < 2**64


def rows(content: bytes, root: Set, path: object) -> Found:
    """The rows of a document by the names of their sets, each with its `#id` and `#up`."""
    found: Found = {}
    try:
        _objects(root, parse(content, path), ("", "", None), found)
    except Refused as why:
        raise Refused(str(why) if str(why).startswith(f"{path}:") else f"{path}: {why}") from None
    return found


def rows_in_parts(path: pathlib.Path, root: Set) -> Iterator[Found]:
    """The rows of a document by the names of their sets, those of one object of the array after the other, with `#id`
    and `#up`.
    """
    decoder = json.JSONDecoder(parse_int=Integer, parse_float=Fraction, parse_constant=_no_constant)
    for place, one in enumerate(Elements(path, decoder)):
        found: Found = {}
        try:
            _object(root, one, place, ("", "", None), found)
        except Refused as why:
            raise Refused(f"{path}: {why}") from None
        yield found


def _objects(table: Set, array: Value, above: Above, found: Found) -> None:
    """Puts the rows of an array of objects, and of the arrays inside them, to those that were found."""
    path = above[0]
    if not isinstance(array, list) and (array is not None or not path):
        raise Refused(f"wrong shape at {path}: an array of objects must be there")
    for place, one in enumerate(array or []):
        _object(table, one, place, above, found)


def _object(table: Set, one: Value, place: int, above: Above, found: Found) -> None:
    """Puts the row of an object, and those of the arrays inside it, to those that were found."""
    path, name, up = above
    here = f"{path}/{place}"
    if not isinstance(one, dict):
        raise Refused(f"wrong shape at {here}: an object must be there")
    if unknown := sorted(set(one) - set(table.declared) - {inner.name for inner in table.inner}):
        raise Refused(f"unknown member at {here}/{unknown[0]}")
    own = ([f"#{name}{place}"] if table.inner else []) + ([] if up is None else [up])
    cells = [scalar(one.get(column), f"{here}/{column}") for column in table.declared]
    found.setdefault(table.name, []).append(own + cells)
    for inner in table.inner:
        _objects(inner, one.get(inner.name), (f"{here}/{inner.name}", f"{name}{place}.", f"#{name}{place}"), found)
