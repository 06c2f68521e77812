"""The reasons as data: what is said of a row of the target, and of a row of the source.

Values of the target are as clio writes them: a null as `?r.v.k`, a text that begins with `?` with one more in front.
Texts of the source are as they are."""
from __future__ import annotations

from dataclasses import dataclass
from typing import Literal


@dataclass(frozen=True)
class Part:
    """A part of the mapping text: the line on which it begins, its bytes, and its text on one line."""

    line: int
    start: int
    end: int
    text: str


@dataclass(frozen=True)
class SourceRow:
    """A row of a source set: its number among the different rows that pass, its file, and where it is there: the line
    and the number of a record, or the path of an object."""

    set: str
    number: int
    file: str
    line: int
    record: int
    path: str
    columns: tuple[str, ...]
    texts: tuple[str, ...]

    @property
    def where(self) -> str:
        """The place in the file, in words."""
        return f"{self.file}{self.path}" if self.path else f"{self.file}, line {self.line} (record {self.record})"


@dataclass(frozen=True)
class Match:
    """A match of a rule that asks for a row: its place among the matches of the rule, which atom of the right side
    asks, the row before anything was replaced, and the source rows that give the match, for the first of those that
    give the same texts; `count` has how many do."""

    rule: int
    place: int
    atom: int
    row: tuple[str, ...]
    sources: tuple[tuple[SourceRow, ...], ...]
    count: int


@dataclass(frozen=True)
class Given:
    """The text of a source column from which a cell is."""

    set: str
    column: str
    text: str
    row: SourceRow


@dataclass(frozen=True)
class CellReason:
    """Where the value of a cell is from, by which match.

    `column` and `conversion`: from the texts in `given`; `literal`: a text of the mapping; `open`: nobody gave it, so
    it is a null, which the match has in the columns of `shared` too. `part` is the line or the rule of the mapping that
    says so. If the text was given for another row, `instead_of` is the null of this row that it replaced."""

    column: str
    value: str
    kind: Literal["column", "conversion", "literal", "open"]
    match: Match
    conversion: str
    given: tuple[Given, ...]
    part: Part | None
    shared: tuple[str, ...]
    instead_of: str


@dataclass(frozen=True)
class Replacement:
    """A value took the place of a null. By `key` or `dep`: `matches` ask for two rows of a set that agree in `columns`,
    on the values in `agreed`. By `core`: core mode left out the row that the first match asks for, as the row of the
    second says as much. `unknown`: the way is too long to be looked for."""

    null: str
    value: str
    by: Literal["key", "dep", "core", "unknown"]
    set: str
    columns: tuple[str, ...]
    agreed: tuple[str, ...]
    matches: tuple[Match, ...]
    part: Part | None


@dataclass(frozen=True)
class RowReason:
    """Why a row of the target is there: a reason for each cell, the first matches that ask for it, how many do in all
    and by each rule, and what replaced the nulls that these matches had there."""

    set: str
    columns: tuple[str, ...]
    row: tuple[str, ...]
    cells: tuple[CellReason, ...]
    asked: tuple[Match, ...]
    count: int
    rules: tuple[tuple[int, int], ...]
    replaced: tuple[Replacement, ...]


@dataclass(frozen=True)
class Made:
    """A row of the target in which a source row has a part, and the rule with the place of its match."""

    set: str
    columns: tuple[str, ...]
    row: tuple[str, ...]
    rule: int
    place: int


@dataclass(frozen=True)
class Edit:
    """A change of the mapping text: bytes that get another text."""

    start: int
    end: int
    text: str


@dataclass(frozen=True)
class Miss:
    """What a source row missed.

    `unread`: no rule reads the set. `condition`: the text in a column fails a test. `ref`: no row that counts has the
    texts to which a ref leads, from columns of its set or of a set on the way; `join`: the same of what a rule joins.
    `set` with `columns` is where `texts` were looked for; `failing` is a row there that has them and fails a condition,
    `near` a text there that differs by case or by signs that aren't seen; `test` is the condition's, or which columns
    have to be equal there; `part` is the condition, the ref or the rule. If a rule takes only rows of the set itself in
    which some columns are equal, these are the columns on both sides."""

    kind: Literal["unread", "condition", "ref", "join"]
    rule: int | None
    from_set: str
    from_columns: tuple[str, ...]
    set: str
    columns: tuple[str, ...]
    texts: tuple[str, ...]
    test: str
    part: Part | None
    near: str
    failing: SourceRow | None


@dataclass(frozen=True)
class SourceReason:
    """What became of a source row: the first rows of the target in which it has a part, in how many matches it is in
    all and by each rule; or what it missed, with the changes of the mapping that would keep it, if a few words do. All
    of these changes are needed."""

    row: SourceRow
    made: tuple[Made, ...]
    more: bool
    count: int
    rules: tuple[tuple[int, int], ...]
    misses: tuple[Miss, ...]
    edits: tuple[Edit, ...]
    besides: tuple[Miss, ...] = ()  # what one that rules use misses in others
