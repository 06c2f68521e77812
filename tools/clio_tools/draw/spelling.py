"""Parts of a mapping text as they are written, made of what the page asks for; what is no such part is refused."""
import re
from dataclasses import dataclass

from ..mapping import tree
from ..mapping.meanings import CONVERSIONS
from ..mapping.parser import parse
from ..mapping.printing import quoted
from ..mapping.tokens import lexed
from .change import CannotEdit

WORD = re.compile(r"[A-Za-z_][A-Za-z0-9_]*")
NOTE_KINDS = {"word", "string", ".", ",", "(", ")", "="}


@dataclass(frozen=True)
class Left:
    """The left side of a line: a text, a column or a whole set, or a conversion of columns; each column has its way."""

    literal: str | None
    columns: tuple[tuple[str, str | None], ...]
    by: tuple[str, ...]
    conversion: str | None

    @property
    def written(self) -> str:
        """What is in front of the arrow."""
        if self.literal is not None:
            return text(self.literal)
        names = [name if column is None else f"{name}.{column}" for name, column in self.columns]
        if self.conversion is None:
            return names[0]
        ways = [name + (f" by {way}" if way else "") for name, way in zip(names, self.by)]
        return f"{self.conversion}({', '.join(ways)})"

    @property
    def behind(self) -> str:
        """The way that is behind the target."""
        return self.by[0] if self.conversion is None and self.by else ""


def left_of(asked: dict[str, object]) -> Left:
    """The left side that the page asks for."""
    literal, conversion = asked.get("literal"), asked.get("conversion")
    if literal is not None:
        if not isinstance(literal, str):
            raise CannotEdit("a text is wanted")
        return Left(literal, (), (), None)
    columns = tuple(_argument(one) for one in _list(asked.get("columns")))
    by = tuple(way(one) for one in _list(asked.get("by") or [""] * len(columns)))
    if len(by) != len(columns):
        raise CannotEdit("each column has one way")
    if conversion is None:
        if len(columns) != 1:
            raise CannotEdit("a line without a conversion has one column")
        return Left(None, columns, by, None)
    known = CONVERSIONS.get(conversion) if isinstance(conversion, str) else None
    if known is None or not isinstance(conversion, str):
        raise CannotEdit(f"there is no conversion {conversion}")
    if known.arity != len(columns):
        raise CannotEdit(f"{conversion} takes {known.arity} columns")
    return Left(None, columns, by, conversion)


def _list(value: object) -> list[object]:
    if not isinstance(value, list):
        raise CannotEdit("a list is wanted")
    return value


def _argument(value: object) -> tuple[str, str | None]:
    """A column, or a set without one."""
    match value:
        case [str(name), None]:
            return word(name), None
        case [str(name), str(column)]:
            return word(name), word(column)
    raise CannotEdit("a column is a set and a column")


def place(value: list[object]) -> str:
    """A column as a line names it."""
    name, column = _argument(value)
    if column is None:
        raise CannotEdit("a column is a set and a column")
    return f"{name}.{column}"


def word(value: object) -> str:
    """A name."""
    if not isinstance(value, str) or not WORD.fullmatch(value):
        raise CannotEdit("a name has letters, digits and _ alone, and begins with no digit")
    return value


def words(value: list[object]) -> str:
    """Names with commas between them."""
    if not value:
        raise CannotEdit("name a column")
    return ", ".join(map(word, value))


def text(value: str) -> str:
    """A text in quotes."""
    if any(sign < " " for sign in value):
        raise CannotEdit("a text in a mapping has no line ends and no control characters")
    return quoted(value)


def way(value: object) -> str:
    """The steps of a way, or nothing."""
    return _noted(value, "by") if value else ""


def tests(value: object) -> str:
    """The tests behind `where`, or nothing."""
    return _noted(value, "where") if value else ""


def musts(value: object) -> str:
    """The ways behind `with`, or nothing."""
    return _noted(value, "with") if value else ""


def _noted(value: object, after: str) -> str:
    """What can be behind a word of a note, and nothing besides."""
    if not isinstance(value, str):
        raise CannotEdit("a text is wanted")
    found = lexed(value.encode("utf-8", "replace"))
    read = f"mapping 3; source {{ }} target {{ }} rows x from y {after} {value};"
    parsed = parse(read.encode("utf-8", "replace"), drawing=True)
    kinds = {token.kind for token in found.tokens[:-1]}
    is_one = len(parsed.tree.rows) == 1 and sum(map(bool, parts_of(parsed.tree.rows[0]))) == 1
    if parsed.faults or found.comments or not kinds <= NOTE_KINDS or "\n" in value or not is_one:
        raise CannotEdit(f"this can't be read: {parsed.faults[0].said if parsed.faults else value}")
    return value.strip()


def parts_of(rows: tree.Rows) -> tuple[object, object, object]:
    """The notes of a `rows` statement."""
    return rows.by, rows.musts, rows.tests


def rule(value: str) -> str:
    """The text of one whole rule, and nothing besides."""
    made = value.strip()
    parsed = parse(("mapping 3; source { } target { } " + made).encode("utf-8", "replace"), drawing=True)
    if parsed.faults or len(parsed.tree.items) != 1 or len(parsed.tree.rules) != 1:
        said = parsed.faults[0].said if parsed.faults else "a rule is like rule SET(x, y) -> SET(x, z);"
        raise CannotEdit(f"this is not one rule: {said}")
    return made
