"""What clio knows by name, the conversions and the tests: what each means, here and in the SQL of each engine.

All tools take them from here, in the order of clio's codes; a name that isn't here is refused."""
import re
from typing import Callable, NamedTuple


class Sql(NamedTuple):
    """An expression of SQL, in which {0} and {1} are texts, as each engine has it."""

    postgres: str
    sqlite: str
    duckdb: str


class Conversion(NamedTuple):
    """A conversion: how many texts it takes, and what it makes of them."""

    arity: int
    apply: Callable[..., str]
    sql: Sql


class RowTest(NamedTuple):
    """A test of a text."""

    holds: Callable[[str], bool]
    sql: Sql


def _trim(text: str) -> str:
    return text.strip(" ")


def _digits(text: str) -> str:
    return "".join(sign for sign in text if sign in "0123456789")


def own(name: str) -> str:
    """The name in SQLite of the function that clio-sql makes of a conversion."""
    return f"clio_{name}"


DIGITS = "regexp_replace({0}, '[^0123456789]', '', 'g')"
PAIR = "{0} || ' ' || {1}"
FILLED = "{0} <> ''"

CONVERSIONS: dict[str, Conversion] = {
    "trim": Conversion(1, _trim, Sql("btrim({0}, ' ')", "trim({0}, ' ')", "trim({0}, ' ')")),
    "digits": Conversion(1, _digits, Sql(DIGITS, own("digits") + "({0})", DIGITS)),
    "pair": Conversion(2, lambda first, second: f"{first} {second}", Sql(PAIR, PAIR, PAIR)),
}
TESTS: dict[str, RowTest] = {
    "filled": RowTest(lambda text: text != "", Sql(FILLED, FILLED, FILLED)),
    "numeric": RowTest(lambda text: re.fullmatch("[0-9]+", text) is not None,
                       Sql("{0} ~ '^[0123456789]+$'", "({0} <> '' AND {0} NOT GLOB '*[^0-9]*')",
                           "regexp_full_match({0}, '[0123456789]+')")),
}
