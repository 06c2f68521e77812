"""The tree of a mapping text or of a drawing: what is written, word by word, with the bytes of each; nothing of it is
looked up yet.

Each part has `start` and `end`, the bytes from its first word up to behind its last mark. A part is never changed; a
changed text is read again. A drawing is a mapping text with notes: `rows` and `lookup` statements, `by`, `from` and
`where` on lines, lines from whole sets, and cells with names in rules."""
from dataclasses import dataclass, field
from typing import Optional, Union

from .tokens import Comment, Token


@dataclass(frozen=True)
class Part:
    """A part of a text, by its bytes."""

    start: int
    end: int


@dataclass(frozen=True)
class Key(Part):
    """`key (a, b);`: rows that agree on the columns are one."""

    columns: tuple[Token, ...]


@dataclass(frozen=True)
class Dependency(Part):
    """`dep (a) -> (b);`: rows that agree on the left columns agree on the right ones."""

    columns: tuple[Token, ...]
    decided: tuple[Token, ...]


@dataclass(frozen=True)
class Ref(Part):
    """`ref (a) -> other (b) optional;`: the texts of a are those of b in a row of the other set."""

    columns: tuple[Token, ...]
    set: Token
    referred: tuple[Token, ...]
    optional: Optional[Token]


@dataclass(frozen=True)
class SetText(Part):
    """A set with its columns, and its keys, dependencies, refs and inner sets in the order in which they are
    written."""

    name: Token
    columns: tuple[Token, ...]
    clauses: tuple[Union[Key, Dependency, Ref, "SetText"], ...]

    @property
    def keys(self) -> list[Key]:
        """The keys in order."""
        return [one for one in self.clauses if isinstance(one, Key)]

    @property
    def dependencies(self) -> list[Dependency]:
        """The dependencies in order."""
        return [one for one in self.clauses if isinstance(one, Dependency)]

    @property
    def refs(self) -> list[Ref]:
        """The refs in order."""
        return [one for one in self.clauses if isinstance(one, Ref)]

    @property
    def inner(self) -> list["SetText"]:
        """The inner sets in order."""
        return [one for one in self.clauses if isinstance(one, SetText)]


@dataclass(frozen=True)
class Step(Part):
    """A step of a way: a ref by its columns, or the one word `up` to the outer row."""

    words: tuple[Token, ...]


@dataclass(frozen=True)
class Argument(Part):
    """What a line takes: a column of a source set, or the whole set if there is no column; `by` has the steps that
    lead there."""

    set: Token
    column: Optional[Token]
    by: tuple[Step, ...] = ()


@dataclass(frozen=True)
class Place(Part):
    """A column of a set, as `set.column`."""

    set: Token
    column: Token


@dataclass(frozen=True)
class Test(Part):
    """A test of the column at the end of steps: that it is a text, or one of clio's tests by its name."""

    steps: tuple[Step, ...]
    column: Token
    text: Optional[Token]
    name: Optional[Token]


@dataclass(frozen=True)
class Line(Part):
    """A line to a target column: from a text, or from an argument, or from several by a conversion."""

    literal: Optional[Token]
    conversion: Optional[Token]
    arguments: tuple[Argument, ...]
    target: Place
    source: Optional[Token] = None
    tests: tuple[Test, ...] = ()

    @property
    def is_plain(self) -> bool:
        """Whether the line is one of a mapping: it has no note."""
        return self.source is None and not self.tests and all(one.column and not one.by for one in self.arguments)


@dataclass(frozen=True)
class Rows(Part):
    """`rows T from S by .. with .. where ..;`: each row of T comes from a row of S."""

    target: Token
    source: Token
    by: tuple[Step, ...] = ()
    musts: tuple[tuple[Step, ...], ...] = ()
    tests: tuple[Test, ...] = ()


@dataclass(frozen=True)
class Lookup(Part):
    """`lookup D, E;`: links to these sets go through sets of their own in the target."""

    sets: tuple[Token, ...]


@dataclass(frozen=True)
class Only(Part):
    """`only S.c test;`: rows of S that fail the test don't count."""

    place: Place
    test: Token


@dataclass(frozen=True)
class Cell(Part):
    """A cell of an atom: a name or a text, with the column that it is for if the cells of the atom have names."""

    column: Optional[Token]
    value: Token


@dataclass(frozen=True)
class Atom(Part):
    """A set, or in a call a conversion, with its cells."""

    name: Token
    cells: tuple[Cell, ...]

    @property
    def is_named(self) -> bool:
        """Whether the cells have the names of their columns."""
        return any(cell.column for cell in self.cells)


@dataclass(frozen=True)
class Derived(Part):
    """`m = trim(n)`: a name for what a conversion makes."""

    name: Token
    call: Atom


@dataclass(frozen=True)
class Rule(Part):
    """A rule written by hand."""

    premise: tuple[Atom, ...]
    derived: tuple[Derived, ...]
    conclusion: tuple[Atom, ...]

    @property
    def is_plain(self) -> bool:
        """Whether the rule is one of a mapping: no cell has the name of its column."""
        return not any(atom.is_named for atom in self.premise + self.conclusion)


Item = Union[Line, Rows, Lookup, Only, Rule]


@dataclass(frozen=True)
class Side(Part):
    """The source or the target, with its root sets."""

    sets: tuple[SetText, ...]

    def every(self) -> list[SetText]:
        """All sets, each before its inner ones."""
        found: list[SetText] = []

        def visit(one: SetText) -> None:
            found.append(one)
            for inner in one.inner:
                visit(inner)

        for root in self.sets:
            visit(root)
        return found


@dataclass(frozen=True)
class Tree:
    """A whole text. Where it has faults, it holds what could be read."""

    content: bytes
    version: int
    version_at: Token
    source: Side
    target: Side
    items: tuple[Item, ...]
    comments: tuple[Comment, ...]
    tokens: tuple[Token, ...] = field(repr=False, default=())

    @property
    def lines(self) -> list[Line]:
        """The lines in order."""
        return [one for one in self.items if isinstance(one, Line)]

    @property
    def rules(self) -> list[Rule]:
        """The rules written by hand, in order."""
        return [one for one in self.items if isinstance(one, Rule)]

    @property
    def conditions(self) -> list[Only]:
        """The conditions in order."""
        return [one for one in self.items if isinstance(one, Only)]

    @property
    def rows(self) -> list[Rows]:
        """The `rows` statements in order."""
        return [one for one in self.items if isinstance(one, Rows)]

    @property
    def lookups(self) -> list[Token]:
        """The words of all sets that are looked up."""
        return [word for one in self.items if isinstance(one, Lookup) for word in one.sets]
