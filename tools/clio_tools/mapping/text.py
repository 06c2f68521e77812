"""The sets and conditions that a mapping text declares, by their names: for tools that load, draft and number tables.

It reads texts that clio accepts; of another one it says where its first fault is (`clio-explain show` says more).
"""
from __future__ import annotations

from collections.abc import Iterable, Iterator
from dataclasses import dataclass, field
from typing import NamedTuple

from clio_tools.mapping.meaning import read_mapping
from clio_tools.mapping.meanings import TESTS
from clio_tools.mapping.tables import SetTree, Table
from clio_tools.program import Refused

Ref = tuple[list[str], str, list[str]]  # columns, the other set's name, its columns


class Condition(NamedTuple):
    """A test that the texts of a source column have to pass."""

    set: str
    column: str
    test: str


@dataclass(eq=False)
class Set:
    """A set as a table: its columns with #id and #up, its keys and dependencies, and its links to other tables."""

    name: str
    parent: Set | None
    declared: list[str]
    declared_keys: list[list[str]]
    declared_dependencies: list[tuple[list[str], list[str]]]  # the columns that decide, and those that they decide
    refs: list[Ref]
    optional_refs: list[Ref]
    inner: list[Set] = field(default_factory=list)

    @property
    def columns(self) -> list[str]:
        """The columns, with #id in front if there are inner sets, and #up if this is one."""
        own = (["#id"] if self.inner else []) + (["#up"] if self.parent else [])
        return own + self.declared

    @property
    def keys(self) -> list[list[str]]:
        """The keys, that of #id first; in an inner set they begin with #up."""
        up = ["#up"] if self.parent else []
        return ([["#id"]] if self.inner else []) + [up + key for key in self.declared_keys]

    @property
    def dependencies(self) -> list[tuple[list[str], list[str]]]:
        """The dependencies; in an inner set their left sides begin with #up."""
        up = ["#up"] if self.parent else []
        return [(up + left, right) for left, right in self.declared_dependencies]

    @property
    def links(self) -> list[Ref]:
        """The link to the outer set, then the refs that are not optional."""
        up: list[Ref] = [(["#up"], self.parent.name, ["#id"])] if self.parent else []
        return up + self.refs


def set_of(tree: SetTree, parent: Set | None) -> Iterator[Set]:
    """A set and those inside it, in preorder."""
    refs: dict[bool, list[Ref]] = {False: [], True: []}
    for one in tree.references:
        refs[one.optional].append((list(one.own), str(one.name), list(one.referred)))
    made = Set(str(tree.name), parent, list(tree.columns), [list(key) for key in tree.keys],
               [(list(one.left), list(one.right)) for one in tree.dependencies], refs[False], refs[True])
    yield made
    for inner in tree.inner:
        below = list(set_of(inner, made))
        made.inner.append(below[0])
        yield from below


def sets_of(tables: Iterable[Table]) -> list[Set]:
    """The sets of a side, in preorder."""
    return [one for table in tables if table.parent is None for one in list(set_of(table.tree, None))]


class Mapping:
    """The tables of the source and those of the target, each side in preorder, and the conditions."""

    def __init__(self, text: str) -> None:
        try:
            read = read_mapping(text.encode("utf-8", "surrogateescape"))
        except Refused as why:
            raise ValueError(str(why)) from None
        self.source, self.target = sets_of(read.source), sets_of(read.target)
        self.conditions = [Condition(self.source[one.column.table].name,
                                     self.source[one.column.table].columns[one.column.column], one.test)
                           for one in read.conditions]

    def passing(self, table: Set, rows: Iterable[list[str]]) -> Iterator[list[str]]:
        """Those of a source table's rows that satisfy all conditions on it."""
        tests = [(table.columns.index(one.column), TESTS[one.test].holds) for one in self.conditions
                 if one.set == table.name]
        return (row for row in rows if all(test(row[place]) for place, test in tests))


def read_sets(text: str) -> dict[str, list[Set]]:
    """The tables of the source and those of the target, each side in preorder."""
    mapping = Mapping(text)
    return {"source": mapping.source, "target": mapping.target}


def in_order_of_links(tables: list[Set]) -> list[Set]:
    """The tables, each after those that it refers to."""
    ordered: list[Set] = []
    named = {table.name: table for table in tables}

    def place(table: Set) -> None:
        if table not in ordered:
            for _, other, _ in table.links:
                place(named[other])
            ordered.append(table)

    for table in tables:
        place(table)
    return ordered
