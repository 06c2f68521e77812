"""The source of a live run: the folder's files as they are if they are small, else the first rows of each with those
that links lead to.

A file that isn't there has made-up rows, so that a mapping can be drawn before there is data; a file that clio would
refuse is passed on whole, so that clio says why."""
import json
import os
import pathlib
from dataclasses import dataclass, field

from ..csv import write_table
from ..explain.source import file_of
from ..mapping.meaning import Mapping
from ..mapping.tables import Table
from .choosing import Kept, choose, root_of
from .meant import Meant
from .outline import Data
from .roots import CsvRoot, DocumentRoot, Root, Unreadable

SMALL = 256 * 1024  # up to so many bytes of all files together they are taken whole
MOST_BYTES = 64 << 20  # clio takes no longer file
MADE_UP = 3


@dataclass(frozen=True)
class Taken:
    """What was taken of a file: the kind, how many of its rows, and where each of them is in the whole file."""

    file: str
    kind: str  # whole, sample, made up, or test for the set of a drawing's test
    rows: int = 0
    of: int = 0
    places: list[str] = field(default_factory=list)

    def as_data(self) -> Data:
        """Without the places."""
        return {"file": self.file, "kind": self.kind, "rows": self.rows, "of": self.of}


Report = dict[str, Taken]


class Sampler:
    """Writes the source files of a live run into the current folder; what it read of large files is kept for the next
    run."""

    def __init__(self, folder: pathlib.Path) -> None:
        self.folder = folder
        self.kept: dict[str, tuple[tuple[object, ...], Kept]] = {}

    def prepare(self, mapping: Mapping, given: Meant, most: int | None) -> Report:
        """Writes all files, at most so many rows of large ones; answers what was taken of each root."""
        roots = [number for number, table in enumerate(mapping.source) if table.parent is None]
        sizes = {number: self._size(mapping.source[number]) for number in roots}
        is_small = most is None or sum(size or 0 for size in sizes.values()) <= SMALL
        report: Report = {}
        large: dict[int, Kept] = {}
        for number in roots:
            table, size = mapping.source[number], sizes[number]
            name = file_of(table)
            if os.path.lexists(name):
                os.unlink(name)
            if name in given.files:
                pathlib.Path(name).write_text(given.files[name], encoding="utf-8", newline="")
                report[table.name] = Taken(name, "test")
            elif name in given.links:
                os.symlink(given.links[name], name)
            elif size is None:
                made_up(number, mapping, name)
                report[table.name] = Taken(name, "made up")
            elif is_small or size > MOST_BYTES or not self._is_kept(number, mapping, large):
                os.symlink(self.folder / name, name)
                report[table.name] = Taken(name, "whole")
        numbers = {file_of(mapping.source[number]): number for number in roots}
        same = {numbers[name]: numbers[of] for name, of in given.links.items()}
        self._write_large(mapping, large, choose(large, mapping, most or 0, same), report)
        for name, of in given.links.items():
            taken = report[of.partition(".")[0]]
            report[name.partition(".")[0]] = taken
        return report

    def _size(self, table: Table) -> int | None:
        path = self.folder / file_of(table)
        return path.stat().st_size if path.is_file() else None

    def _is_kept(self, number: int, mapping: Mapping, large: dict[int, Kept]) -> bool:
        """Whether the rows of a root could be read; they are put to the large ones."""
        try:
            large[number] = self._root(number, mapping)
        except (Unreadable, OSError, MemoryError):
            return False
        return True

    def rows_of(self, number: int, mapping: Mapping) -> Kept:
        """The rows of the file in which a table is."""
        return self._root(root_of(number, mapping.source), mapping)

    def _root(self, number: int, mapping: Mapping) -> Kept:
        """The rows of a root's file, read anew if the file or its columns changed."""
        table = mapping.source[number]
        path = self.folder / file_of(table)
        stat = path.stat()
        shape = [each.columns for one, each in enumerate(mapping.source) if root_of(one, mapping.source) == number]
        stamp = (stat.st_mtime_ns, stat.st_size, str(shape), number)
        if path.name not in self.kept or self.kept[path.name][0] != stamp:
            self.kept[path.name] = (stamp, Kept(root_at(number, mapping, path)))
        return self.kept[path.name][1]

    @staticmethod
    def _write_large(mapping: Mapping, large: dict[int, Kept], taken: dict[int, list[int]], report: Report) -> None:
        for number, chosen in taken.items():
            rows, table = large[number].root, mapping.source[number]
            rows.write(pathlib.Path(file_of(table)), chosen)
            report[table.name] = Taken(file_of(table), "sample", len(chosen), rows.count, rows.places(chosen))


def root_at(number: int, mapping: Mapping, path: pathlib.Path) -> Root:
    """The rows of a root's file."""
    table = mapping.source[number]
    if table.inner:
        return DocumentRoot(number, path, mapping.source)
    return CsvRoot(number, table, path)


def made_up(number: int, mapping: Mapping, name: str) -> None:
    """A file with a few rows whose texts are the names of their columns, numbered; refs lead to rows that are there."""
    table = mapping.source[number]
    if not table.inner:
        write_table(name, table.columns, [_row(number, mapping, one, 8) for one in range(1, MADE_UP + 1)])
        return

    def objects(one: int, mark: str) -> list[Data]:
        own = mapping.source[one]
        found = []
        for count in range(1, 3):
            values: Data = {column: f"{column} {mark}{count}" for column in own.tree.columns}
            values.update({mapping.source[inner].name: objects(inner, f"{mark}{count}.") for inner in own.inner})
            found.append(values)
        return found

    pathlib.Path(name).write_text(json.dumps(objects(number, "")), encoding="utf-8")


def _row(number: int, mapping: Mapping, one: int, depth: int) -> list[str]:
    """A made-up row; its links agree with the rows of this number, as deep as links are followed."""
    cells = [f"{column} {one}" for column in mapping.source[number].columns]
    for link in mapping.source[number].every_link() if depth else []:
        other = _row(link.table, mapping, one, depth - 1)
        for own, referred in zip(link.own, link.referred):
            cells[own] = other[referred]
    return cells
