"""Values, rows and facts: what an instance is made of, in which order it stands and how it is written."""
import re
from typing import NamedTuple

NUMERAL = "(0|[1-9][0-9]*)"
NULL_TEXT = re.compile(r"\?%s\.%s\.%s" % (NUMERAL, NUMERAL, NUMERAL))


class Constant(NamedTuple):
    """A constant is a text."""
    text: str


class Null(NamedTuple):
    """A null stands for a value that is not known; a rule, an existential variable and a place name it."""
    rule: int
    variable: int
    place: int


Value = Constant | Null
Row = tuple[Value, ...]


class Fact(NamedTuple):
    """A fact is a row of a table."""
    table: int
    row: Row


def value_order(value):
    """Constants stand before nulls; constants ascend by their bytes, nulls by rule, variable and place."""
    if isinstance(value, Null):
        return (1, b"") + tuple(value)
    return (0, value.text.encode())


def row_order(row):
    """Rows are ordered by their first value, then by the second, and so on."""
    return [value_order(value) for value in row]


def ascending(facts):
    """The facts in their order."""
    return sorted(facts, key=lambda fact: (fact.table, row_order(fact.row)))


def value_text(value):
    """A null is written `?rule.variable.place`, a constant as it is, with one more `?` before a leading one."""
    if isinstance(value, Null):
        return "?%d.%d.%d" % value
    return "?" + value.text if value.text.startswith("?") else value.text


def read_value(text):
    """The value that a value text stands for, or None for a text that is none."""
    if text.startswith("??"):
        return Constant(text[1:])
    if not text.startswith("?"):
        return Constant(text)
    found = NULL_TEXT.fullmatch(text)
    numbers = [int(numeral) for numeral in found.groups()] if found else []
    return Null(*numbers) if numbers and max(numbers) < 2 ** 32 else None


def nulls_of(facts):
    """All nulls that stand in some of the facts."""
    return {value for fact in facts for value in fact.row if isinstance(value, Null)}


def image(facts, send):
    """The facts with each value replaced by what `send` makes of it."""
    return {Fact(fact.table, tuple(send(value) for value in fact.row)) for fact in facts}
