"""Edits of a text that answer a fault or a warning, as data: messages say them in words, and a page can do them."""
from typing import NamedTuple


class By(NamedTuple):
    """The column at the fault goes by this way."""

    way: str


class LineBy(NamedTuple):
    """A line from a whole set to a column goes by this way."""

    source: str
    target: str
    column: str
    way: str


class RowsFrom(NamedTuple):
    """The rows of a target set come from a source set; without a name from one from which lines go there."""

    target: str
    source: str = ""


class With(NamedTuple):
    """The rows of a target set, only with what ways lead to."""

    target: str
    ways: tuple[str, ...]


class Lookup(NamedTuple):
    """Links to a source set go through a set of their own."""

    source: str


class Key(NamedTuple):
    """A target set has a key of columns; without any it may be of each column that a line fills."""

    target: str
    columns: tuple[str, ...] = ()


class Optional(NamedTuple):
    """A ref of a set is optional; without a set each ref that leads to another."""

    side: str
    set: str
    columns: tuple[str, ...]
    to: str


class NoRef(NamedTuple):
    """A ref of a set is left out."""

    side: str
    set: str
    columns: tuple[str, ...]
    to: str


class NoLine(NamedTuple):
    """The rows of a target set from a source set have no line yet: one is to be drawn."""

    target: str
    source: str


Cure = By | LineBy | RowsFrom | With | Lookup | Key | Optional | NoRef | NoLine
