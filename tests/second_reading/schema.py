"""Schemas: set trees as the mapping text declares them, and the tables, keys and links that they stand for."""
from dataclasses import dataclass, field
from typing import NamedTuple, Optional


@dataclass
class Reference:
    """A ref: columns of its set, the set that it names and that set's columns."""
    own: list
    name: str
    referred: list
    optional: bool = False


class Dependency(NamedTuple):
    """A functional dependency: rows that agree on the left columns agree on the right ones."""
    left: list
    right: list


@dataclass
class SetTree:
    """A set has a name, columns, keys, refs, inner sets and dependencies."""
    name: str
    columns: list
    keys: list = field(default_factory=list)
    references: list = field(default_factory=list)
    inner: list = field(default_factory=list)
    dependencies: list = field(default_factory=list)


class Link(NamedTuple):
    """A link says that each row's values in `own` stand in the columns `referred` of some row of `table`."""
    own: tuple
    table: int
    referred: tuple


@dataclass
class Table:
    """A table is a set with its numbered columns, `#id` and `#up` before the declared ones."""
    name: str
    columns: list
    tree: SetTree
    parent: Optional[int]
    inner: list = field(default_factory=list)
    keys: list = field(default_factory=list)
    links: list = field(default_factory=list)
    optional_links: list = field(default_factory=list)

    def every_link(self):
        """The links, then the optional ones."""
        return self.links + self.optional_links

    def determinations(self):
        """What rows agree on, and on what they then have to agree: for each key all columns, then the dependencies."""
        up = ["#up"] if self.parent is not None else []
        every = tuple(range(len(self.columns)))
        return [(key, every) for key in self.keys] + [(self.numbers(up + one.left), self.numbers(one.right))
                                                      for one in self.tree.dependencies]

    def numbers(self, names):
        return tuple(self.columns.index(name) for name in names)


def preorder(trees):
    """All sets, each before its inner sets."""
    for tree in trees:
        yield tree
        yield from preorder(tree.inner)


def tables_of(trees):
    """The tables of a schema are its sets in preorder, with their keys and links."""
    tables = []

    def visit(tree, parent):
        number = len(tables)
        columns = ["#id"] * bool(tree.inner) + ["#up"] * (parent is not None) + tree.columns
        tables.append(Table(tree.name, columns, tree, parent))
        if parent is not None:
            tables[parent].inner.append(number)
        for inner in tree.inner:
            visit(inner, number)

    for tree in trees:
        visit(tree, None)
    for table in tables:
        table.keys = keys_of(table)
        table.links = links_of(table, tables)
        table.optional_links = refs_of(table, tables, True)
    return tables


def keys_of(table):
    """The keys of a table: `#id` alone, then the declared ones, which in an inner set have `#up` in front."""
    up = ["#up"] if table.parent is not None else []
    declared = [table.numbers(up + key) for key in table.tree.keys]
    return ([table.numbers(["#id"])] if table.tree.inner else []) + declared


def links_of(table, tables):
    """The links of a table: `#up` to the parent's `#id`, then the refs that aren't optional."""
    links = []
    if table.parent is not None:
        links.append(Link(table.numbers(["#up"]), table.parent, tables[table.parent].numbers(["#id"])))
    return links + refs_of(table, tables, False)


def refs_of(table, tables, optional):
    """The refs of a table that are optional, or those that aren't."""
    links = []
    for reference in table.tree.references:
        if reference.optional != optional:
            continue
        number = next(n for n, other in enumerate(tables) if other.name == reference.name)
        links.append(Link(table.numbers(reference.own), number, tables[number].numbers(reference.referred)))
    return links


def is_acyclic(tables):
    """Whether no walk along links comes back to its start."""
    finished, open_now = set(), set()

    def leads_back(number):
        if number in open_now:
            return True
        if number in finished:
            return False
        open_now.add(number)
        back = any(leads_back(link.table) for link in tables[number].every_link())
        open_now.remove(number)
        finished.add(number)
        return back

    return not any(leads_back(number) for number in range(len(tables)))
