"""The schema that a side declares: its tables in order, with numbered columns, keys, dependencies and links.

A set is a table; one with inner sets has the column `#id` in front, an inner one `#up`, the `#id` of its outer row. A
link leads from columns of a table to those of another: from `#up` to the outer `#id`, and along each ref."""
from dataclasses import dataclass
from functools import cached_property
from typing import Iterable, NamedTuple, Optional

from .places import Fault
from .tokens import Token
from .tree import Ref, SetText, Side

TABLES, COLUMNS = 64, 64
RESERVED = ("nulls", "fold")


@dataclass(frozen=True)
class Link:
    """Each row's texts in the columns `own` are those of the columns `referred` in a row of the table.

    A link of an inner row to its outer one has no ref. A circular one is on a circle of links, which only a drawing
    can have."""

    own: tuple[int, ...]
    table: int
    referred: tuple[int, ...]
    ref: Optional[Ref] = None
    circular: bool = False

    @property
    def optional(self) -> bool:
        """Whether the ref is optional."""
        return self.ref is not None and self.ref.optional is not None

    @property
    def is_up(self) -> bool:
        """Whether it leads to the outer row."""
        return self.ref is None


@dataclass(frozen=True)
class Table:
    """A set as a table; `text` is what declares it."""

    number: int
    name: str
    columns: tuple[str, ...]
    parent: Optional[int]
    inner: tuple[int, ...]
    keys: tuple[tuple[int, ...], ...]
    dependencies: tuple[tuple[tuple[int, ...], tuple[int, ...]], ...]
    links: tuple[Link, ...]
    text: SetText

    @property
    def declared(self) -> tuple[str, ...]:
        """The columns that are written in the text."""
        return tuple(name for name in self.columns if not name.startswith("#"))

    def places(self, names: Iterable[str]) -> tuple[int, ...]:
        """The numbers of columns."""
        return tuple(self.columns.index(name) for name in names)

    def named(self, places: Iterable[int]) -> list[str]:
        """The names of columns."""
        return [self.columns[place] for place in places]


@dataclass(frozen=True)
class Schema:
    """The tables of a side, each before its inner ones."""

    side: str
    tables: tuple[Table, ...]

    @cached_property
    def numbers(self) -> dict[str, int]:
        """The number of each table by its name; of two with one name the first."""
        return {table.name: table.number for table in reversed(self.tables)}

    def find(self, name: str) -> Optional[Table]:
        """The table of this name."""
        number = self.numbers.get(name)
        return None if number is None else self.tables[number]


class Read(NamedTuple):
    """A schema and the faults of its text, in the order in which clio looks at them."""

    schema: Schema
    faults: list[Fault]


def schema_of(side: Side, name: str, circles: bool = False) -> Read:
    """The schema of the source or of the target; `circles` allows refs in a circle, as drawings have them."""
    faults: list[Fault] = []
    sets = side.every()
    parents = {id(inner): one for one in sets for inner in one.inner}
    if len(sets) > TABLES:
        faults.append(Fault("limit", sets[TABLES].start, sets[TABLES].name.end,
                            f"a side has at most {TABLES} sets, and here are {len(sets)}"))
    _double_sets(sets, name, faults)
    tables = [_table(number, one, sets, parents.get(id(one))) for number, one in enumerate(sets)]
    for table in tables:
        _columns_of(table, faults)
    numbers = {table.name: table.number for table in reversed(tables)}
    linked = [_linked(table, tables, numbers, name, faults) for table in tables]
    return Read(Schema(name, _circled(linked, circles, faults)), faults)


def _double_sets(sets: list[SetText], side: str, faults: list[Fault]) -> None:
    seen: set[str] = set()
    for one in sets:
        if one.name.text in seen:
            faults.append(_at(one.name, "double name", f"the {side} has two sets {one.name.text}"))
        elif side == "target" and one.name.text in RESERVED:
            faults.append(_at(one.name, "reserved name", f"a target set can't have the name {one.name.text}: clio "
                              f"writes out/{one.name.text}.csv"))
        seen.add(one.name.text)


def _table(number: int, one: SetText, sets: list[SetText], parent: Optional[SetText]) -> Table:
    """A table without its keys and links."""
    columns = ["#id"] * bool(one.inner) + ["#up"] * (parent is not None) + [word.text for word in one.columns]
    at = {id(each): place for place, each in enumerate(sets)}
    inner = tuple(at[id(each)] for each in one.inner)
    return Table(number, one.name.text, tuple(columns), None if parent is None else at[id(parent)], inner, (), (), (),
                 one)


def _columns_of(table: Table, faults: list[Fault]) -> None:
    if len(table.columns) > COLUMNS:
        faults.append(_at(table.text.name, "limit", f"a set has at most {COLUMNS} columns, and {table.name} has "
                          f"{len(table.columns)}"))
    seen: set[str] = set()
    for word in table.text.columns + tuple(inner.name for inner in table.text.inner):
        if word.text in seen:
            faults.append(_at(word, "double name", f"{table.name} has two columns or inner sets {word.text}"))
        seen.add(word.text)


def _linked(table: Table, tables: list[Table], numbers: dict[str, int], side: str, faults: list[Fault]) -> Table:
    """The table with its keys, dependencies and links, as far as their names are right."""
    up = table.places(["#up"]) if table.parent is not None else ()
    keys = [table.places(["#id"])] if table.inner else []
    for key in table.text.keys:
        if _are_columns(key.columns, table, faults):
            keys.append(up + _places(table, key.columns))
    dependencies = []
    for one in table.text.dependencies:
        if _are_columns(one.columns, table, faults) and _are_columns(one.decided, table, faults):
            dependencies.append((up + _places(table, one.columns), _places(table, one.decided)))
    links = []
    if table.parent is not None:
        links.append(Link(up, table.parent, tables[table.parent].places(["#id"])))
    for ref in table.text.refs:
        link = _link(ref, table, tables, numbers, side, faults)
        if link:
            links.append(link)
    return Table(table.number, table.name, table.columns, table.parent, table.inner, tuple(keys), tuple(dependencies),
                 tuple(links), table.text)


def _link(ref: Ref, table: Table, tables: list[Table], numbers: dict[str, int], side: str,
          faults: list[Fault]) -> Optional[Link]:
    """The link of a ref."""
    right = _are_columns(ref.columns, table, faults)
    if ref.set.text not in numbers:
        faults.append(_at(ref.set, "unknown name", f"the {side} has no set {ref.set.text}"))
        return None
    other = tables[numbers[ref.set.text]]
    if not _are_columns(ref.referred, other, faults) or not right:
        return None
    if len(ref.columns) != len(ref.referred):
        faults.append(Fault("bad link", ref.start, ref.end, f"a ref has as many columns at both ends, and here are "
                            f"{len(ref.columns)} and "
                                                            f"{len(ref.referred)}"))
        return None
    return Link(_places(table, ref.columns), other.number, _places(other, ref.referred), ref)


def _places(table: Table, words: tuple[Token, ...]) -> tuple[int, ...]:
    return table.places(word.text for word in words)


def _are_columns(words: tuple[Token, ...], table: Table, faults: list[Fault]) -> bool:
    """Whether the words are columns, none twice."""
    before = len(faults)
    for place, word in enumerate(words):
        if word.text not in table.declared:
            faults.append(_at(word, "unknown name", f"{table.name} has no column {word.text}; it has "
                              f"{', '.join(table.declared)}"))
        elif word.text in [one.text for one in words[:place]]:
            faults.append(_at(word, "double name", f"{word.text} is here twice"))
    return len(faults) == before


def _circled(tables: list[Table], allowed: bool, faults: list[Fault]) -> tuple[Table, ...]:
    """The tables with those links marked that are on a circle; a fault for each such ref if circles aren't allowed."""
    reach = [_reached(tables, table.number) for table in tables]
    found = []
    for table in tables:
        links = []
        for link in table.links:
            circular = link.ref is not None and table.number in reach[link.table] | {link.table}
            if circular and link.ref and not allowed:
                faults.append(Fault("cyclic links", link.ref.start, link.ref.end,
                                    f"this ref leads back to {table.name}: refs can't lead in a "
                                    "circle, and an inner set leads to its outer one"))
            links.append(Link(link.own, link.table, link.referred, link.ref, circular))
        found.append(Table(table.number, table.name, table.columns, table.parent, table.inner, table.keys,
                           table.dependencies, tuple(links),
                           table.text))
    return tuple(found)


def _reached(tables: list[Table], start: int) -> set[int]:
    """The tables to which links lead from a table."""
    seen: set[int] = set()
    left = [link.table for link in tables[start].links]
    while left:
        number = left.pop()
        if number not in seen:
            seen.add(number)
            left += [link.table for link in tables[number].links]
    return seen


def _at(word: Token, kind: str, said: str) -> Fault:
    return Fault(kind, word.start, word.end, said)
