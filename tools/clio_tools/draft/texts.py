"""Which columns of a source and of a target have the same texts: the files of the one, and the rows of the other."""
import pathlib
from collections.abc import Iterable

from clio_tools.csv import read_records

MOST_ROWS = 20_000  # rows of a table that are looked at
LEAST = 3  # different texts that a column has at least, so that they say something: flags have two
SHARE = .9  # of the texts of a target column, so many have to be in the source's


class Texts:
    """The texts in the columns of source sets, of the files that a folder has, and in those of target sets."""

    def __init__(self, folder: pathlib.Path) -> None:
        self.folder = folder
        self.source: dict[str, dict[str, set[str]]] = {}
        self.target: dict[tuple[str, str], set[str]] = {}

    def add(self, name: str, words: list[str], rows: Iterable[Iterable[str | None]]) -> None:
        """Takes the rows of a target set."""
        for word, texts in zip(words, _columns(len(words), rows)):
            self.target[name, word] = texts

    def of_source(self, name: str) -> dict[str, set[str]]:
        """The texts of each column of a source set; none if it has no file."""
        if name not in self.source:
            path, found = self.folder / f"{name}.csv", dict[str, set[str]]()
            if path.is_file():
                records = read_records(path)
                head: list[str] = next(records, [])
                found = dict(zip(head, _columns(len(head), records)))
            self.source[name] = found
        return self.source[name]

    def are_alike(self, source: str, column: str, target: str, word: str) -> bool:
        """Whether nearly all texts of a target column are in a source column, too."""
        wanted, there = self.target.get((target, word), set()), self.of_source(source).get(column, set())
        return len(wanted) >= LEAST and len(wanted & there) >= SHARE * len(wanted)


def _columns(width: int, rows: Iterable[Iterable[str | None]]) -> list[set[str]]:
    """The different texts of each column of the first rows, without empty ones; all rows are read, as a server asks."""
    found: list[set[str]] = [set() for _ in range(width)]
    for number, row in enumerate(rows):
        for texts, cell in zip(found, row if number < MOST_ROWS else ()):
            if cell:
                texts.add(cell)
    return found
