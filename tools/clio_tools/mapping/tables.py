"""The tables that a side declares, as clio numbers them: columns with `#id` and `#up` in front, keys, links, and
optional links.
"""
from __future__ import annotations

from collections.abc import Iterable, Iterator
from dataclasses import dataclass, field
from typing import NamedTuple

from clio_tools.mapping.tokens import Token
from clio_tools.mapping.tree import SetText, Side

Columns = tuple[int, ...]


class Word(str):
    """A word of the text that knows the byte at which it begins."""

    start: int

    @classmethod
    def of(cls, token: Token) -> Word:
        """The word of a token."""
        word = cls(token.text)
        word.start = token.start
        return word


class Reference(NamedTuple):
    """A ref: columns of its set, the set that it names, and that set's columns."""

    own: list[Word]
    name: Word
    referred: list[Word]
    optional: bool


class Dependency(NamedTuple):
    """A functional dependency: rows that agree on the left columns agree on the right ones."""

    left: list[Word]
    right: list[Word]


@dataclass
class SetTree:
    """A set with its inner sets, as it is declared."""

    name: Word
    columns: list[Word]
    keys: list[list[Word]]
    references: list[Reference]
    inner: list[SetTree]
    dependencies: list[Dependency]


class Link(NamedTuple):
    """Each row's values in `own` are those of the columns `referred` in a row of the table."""

    own: Columns
    table: int
    referred: Columns


@dataclass
class Table:
    """A set as a table."""

    name: str
    columns: list[str]
    tree: SetTree
    parent: int | None
    inner: list[int] = field(default_factory=list)
    keys: list[Columns] = field(default_factory=list)
    links: list[Link] = field(default_factory=list)
    optional_links: list[Link] = field(default_factory=list)

    def every_link(self) -> list[Link]:
        """The links, then the optional ones."""
        return self.links + self.optional_links

    def determinations(self) -> list[tuple[Columns, Columns]]:
        """What rows agree on, and on what they then have to agree: for each key all columns, then the dependencies."""
        up = ["#up"] if self.parent is not None else []
        every = tuple(range(len(self.columns)))
        return [(key, every) for key in self.keys] + [(self.numbers([*up, *one.left]), self.numbers(one.right))
                                                      for one in self.tree.dependencies]

    def numbers(self, names: Iterable[str]) -> Columns:
        """The numbers of columns."""
        return tuple(self.columns.index(name) for name in names)


def words(tokens: Iterable[Token]) -> list[Word]:
    """The words of tokens."""
    return [Word.of(token) for token in tokens]


def tree_of(one: SetText) -> SetTree:
    """A set as it is declared."""
    references = [Reference(words(ref.columns), Word.of(ref.set), words(ref.referred), ref.optional is not None)
                  for ref in one.refs]
    dependencies = [Dependency(words(each.columns), words(each.decided)) for each in one.dependencies]
    return SetTree(Word.of(one.name), words(one.columns), [words(key.columns) for key in one.keys], references,
                   [tree_of(inner) for inner in one.inner], dependencies)


def trees_of(side: Side) -> list[SetTree]:
    """The root sets of a side."""
    return [tree_of(one) for one in side.sets]


def preorder(trees: Iterable[SetTree]) -> Iterator[SetTree]:
    """All sets, each before its inner sets."""
    for tree in trees:
        yield tree
        yield from preorder(tree.inner)


def tables_of(trees: Iterable[SetTree]) -> list[Table]:
    """The tables of sets whose names are right, in preorder, with their keys and links."""
    tables: list[Table] = []

    def visit(tree: SetTree, parent: int | None) -> None:
        number = len(tables)
        columns = ["#id"] * bool(tree.inner) + ["#up"] * (parent is not None) + list[str](tree.columns)
        tables.append(Table(tree.name, columns, tree, parent))
        if parent is not None:
            tables[parent].inner.append(number)
        for inner in tree.inner:
            visit(inner, number)

    for tree in trees:
        visit(tree, None)
    numbers = {table.name: number for number, table in enumerate(tables)}
    for table in tables:
        up = ["#up"] if table.parent is not None else []
        declared = [[*up, *key] for key in table.tree.keys]
        table.keys = [table.numbers(key) for key in [["#id"]] * bool(table.tree.inner) + declared]
        if table.parent is not None:
            table.links.append(Link(table.numbers(up), table.parent, tables[table.parent].numbers(["#id"])))
        for one in table.tree.references:
            other = numbers[one.name]
            link = Link(table.numbers(one.own), other, tables[other].numbers(one.referred))
            (table.optional_links if one.optional else table.links).append(link)
    return tables
