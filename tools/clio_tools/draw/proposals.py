"""Lines that could be meant: for each target column without a line, source columns with a like name, a like set, or the
same texts.

The score is a sum that each proposal shows with its parts: at most 70 points for the names of the columns, 15 for the
sets (their names, or lines that go between them already), 30 for texts that both columns have, if the folder has rows
of the target in `given`; 25 less for a column that other sets refer to, whose values clio can make. From 45 points on
it is proposed."""
import itertools
import pathlib

from ..csv import records
from ..explain.source import file_of
from ..mapping.meaning import Mapping
from ..mapping.rules import EXISTENTIAL
from ..mapping.tables import Table
from ..why.exchange import is_null
from .likeness import alike, with_set
from .outline import Data

LEAST = 45
PER_COLUMN = 3
MOST_VALUES = 2000
MOST_BYTES = 1 << 20

Place = tuple[int, int]  # a table and a column, both by number
Scored = tuple[int, Data]


class Proposals:
    """Proposals for a mapping and its folder."""

    def __init__(self, mapping: Mapping, folder: pathlib.Path) -> None:
        self.mapping, self.folder = mapping, folder
        self.values: dict[pathlib.Path, list[set[str]] | None] = {}
        self.own = [(one, there) for one, table in enumerate(mapping.source)
                    for there, name in enumerate(table.columns) if name in table.tree.columns]
        self.given = {table.name for table in mapping.target if (folder / "given" / f"{table.name}.csv").is_file()}
        self.referred = {(link.table, column) for table in mapping.target for link in table.every_link()
                         for column in link.referred}
        self.between = {(column.table, line.target.table) for line in mapping.lines for column in line.columns}

    def made(self) -> list[Data]:
        """All proposals, the best first."""
        found: list[Scored] = []
        filled = self._filled()
        for number, table in enumerate(self.mapping.target):
            for column, name in enumerate(table.columns):
                if name in table.tree.columns and (number, column) not in filled and not self._is_link(number, column):
                    found += self._of_column((number, column))
        return [one for _, one in sorted(found, key=lambda one: -one[0])]

    def _filled(self) -> set[Place]:
        """The target columns that a line or a rule fills."""
        filled: set[Place] = {(line.target.table, line.target.column) for line in self.mapping.lines}
        for rule in self.mapping.rules:
            filled |= {(atom.table, column) for atom in rule.conclusion for column, cell in enumerate(atom.cells)
                       if cell.kind != EXISTENTIAL}
        return filled

    def _is_link(self, number: int, column: int) -> bool:
        """Whether a target column leads to another set: its values come along the ref."""
        return any(column in link.own for link in self.mapping.target[number].every_link())

    def _of_column(self, target: Place) -> list[Scored]:
        """The best proposals for a target column."""
        scored = [self._scored(own, target) for own in self.own if self._is_near(own, target)]
        return sorted((one for one in scored if one[0] >= LEAST), key=lambda one: -one[0])[:PER_COLUMN]

    def _is_near(self, own: Place, target: Place) -> bool:
        """Whether a pair is worth a closer look."""
        source, table = self.mapping.source[own[0]], self.mapping.target[target[0]]
        name, other = source.columns[own[1]], table.columns[target[1]]
        return alike(name, other) > .35 or table.name in self.given or with_set(source.name, name, other) > .35

    def _scored(self, own: Place, place: Place) -> Scored:
        """A pair of columns with its score and the reasons."""
        source, target = self.mapping.source[own[0]], self.mapping.target[place[0]]
        name, other = source.columns[own[1]], target.columns[place[1]]
        parts = [self._by_names(source, name, other), self._by_sets((own[0], place[0])), self._by_referring(place),
                 self._by_texts((source, own[1]), (target, place[1]))]
        score = min(round(sum(points for points, _ in parts)), 100)
        return score, {"source": [source.name, name], "target": [target.name, other], "score": score,
                       "reasons": [said for _, said in parts if said]}

    @staticmethod
    def _by_names(source: Table, name: str, other: str) -> tuple[float, str]:
        best = max(alike(name, other), with_set(source.name, name, other) * .9)
        if best <= .3:
            return 0, ""
        return 70 * best, f"names alike: {best:.0%} ({round(70 * best)} points)"

    def _by_sets(self, pair: tuple[int, int]) -> tuple[float, str]:
        sets = alike(self.mapping.source[pair[0]].name, self.mapping.target[pair[1]].name)
        if pair in self.between:
            return 15, "lines go between these sets already (15)"
        return (15 * sets, f"sets alike: {sets:.0%} ({round(15 * sets)})") if sets > .4 else (0, "")

    def _by_referring(self, place: Place) -> tuple[float, str]:
        if place not in self.referred:
            return 0, ""
        return -25, "other sets refer to it: without a line clio makes its values, as surrogate keys (-25)"

    def _by_texts(self, own: tuple[Table, int], target: tuple[Table, int]) -> tuple[float, str]:
        """How many of the given texts of a target column are in a source column."""
        if target[0].name not in self.given:
            return 0, ""
        name = f"given/{target[0].name}.csv"
        wanted = self._texts(self.folder / name, target[0].columns)
        found = self._texts(self.folder / file_of(own[0]), own[0].columns)
        texts = {text for text in wanted[target[1]] if text and not is_null(text)} if wanted and found else set()
        if not texts or not found:
            return 0, ""
        share = len(texts & found[own[1]])
        points = 30 * share / len(texts)
        return points, f"{share} of {len(texts)} texts of {name} are in {file_of(own[0])} ({round(points)})"

    def _texts(self, path: pathlib.Path, columns: list[str]) -> list[set[str]] | None:
        """The different texts of each column of a file's first rows."""
        if path not in self.values:
            self.values[path] = self._read(path, columns) if path.suffix == ".csv" and path.is_file() else None
        return self.values[path]

    @staticmethod
    def _read(path: pathlib.Path, columns: list[str]) -> list[set[str]] | None:
        with path.open("rb") as file:
            entries = records(file.read(MOST_BYTES))
        if next(entries, (1, []))[1] != columns:
            return None
        made: list[set[str]] = [set() for _ in columns]
        for _, fields in itertools.islice(entries, MOST_VALUES):
            for one, field in zip(made, fields):
                one.add(field)
        return made
