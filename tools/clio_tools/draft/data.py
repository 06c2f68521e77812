"""The files that a side reads, written into a folder."""
import json
import pathlib
from collections.abc import Callable, Iterable, Iterator, Sequence
from typing import TextIO, TypeAlias

from clio_tools.csv import read_table, record_text
from clio_tools.draft.model import Made, Remark, Table
from clio_tools.program import Refused
from clio_tools.safe_files import replaced

Rows = Iterable[Sequence[str | None]]  # the texts of rows, with nothing for NULL
Filled: TypeAlias = "dict[str, str | list[Filled]]"

MOST_CELLS = 4_000_000
MOST_BYTES = 67_108_864


class Written:
    """Writes files and counts what clio limits; `remark` takes what a reader should know."""

    def __init__(self, folder: str, sources: Iterable[str | pathlib.Path], remark: Remark,
                 null: str | None = None) -> None:
        self.folder = pathlib.Path(folder)
        self.folder.mkdir(parents=True, exist_ok=True)
        self.sources = [pathlib.Path(one).resolve() for one in sources]
        self.remark = remark
        self.null = null
        self.cells = 0
        self.bytes = 0

    def _replace(self, name: str, write: Callable[[TextIO], object]) -> None:
        """Writes a file, which takes its place when it is whole."""
        path = self.folder / name
        if path.resolve() in self.sources:
            raise Refused(f"{path} is read itself: write into another folder")
        with replaced(path) as file:
            write(file)
        self.bytes += path.stat().st_size

    def table(self, table: Table, rows: Rows, words: list[str], order: list[str]) -> None:
        """Writes a table as CSV: rows have the columns with these words, and are written in this order."""
        places = [words.index(word) for word in order]
        nulls, empties = [0] * len(words), [0] * len(words)
        count = 0

        def write(file: TextIO) -> None:
            nonlocal count
            file.write(record_text(order))
            for row in rows:
                count += 1
                for place, cell in enumerate(row):
                    if not cell:
                        (nulls if cell is None else empties)[place] += 1
                file.write(record_text([self.text(row[place], f"{table.word}.{words[place]}") for place in places]))

        self._replace(table.word + ".csv", write)
        self.cells += count * len(order)
        for word, null, empty in zip(words, nulls, empties):
            if null and empty and not self.null:
                both = f"NULL ({times(null)}) and the empty text ({times(empty)})"
                self.remark(f"{table.word}.{word}: {both} are both written as the empty text: --null TEXT keeps them"
                            " apart")

    def text(self, cell: str | None, column: str) -> str:
        """The text of a cell; nothing else than NULL may be the text of NULL."""
        if cell is None:
            return self.null or ""
        if cell == self.null and cell:
            raise Refused(f"{column} has the text {cell[:60]!r} itself: give --null another one")
        return cell

    def document(self, table: Table, objects: list[Made]) -> None:
        """Writes the objects of a set with inner ones as a document."""
        filled = [self.filled(one, table.word) for one in objects]
        self._replace(table.word + ".json", lambda file: file.write(json.dumps(filled, ensure_ascii=False) + "\n"))
        self.cells += sum(one.size() for one in objects)

    def filled(self, one: Made, name: str) -> Filled:
        """An object with a text in the place of each null."""
        made: Filled = {word: self.text(cell, f"{name}.{word}") for word, cell in one.cells.items()}
        for word, array in one.inner.items():
            made[word] = [self.filled(each, word) for each in array]
        return made

    def check_limits(self) -> None:
        for what, count, most in ("cells", self.cells, MOST_CELLS), ("bytes", self.bytes, MOST_BYTES):
            if count > most:
                self.remark(f"the files have {count} {what}, and clio takes at most {most}: split them, or run the"
                            " script on your own engine")

    def check_refs(self, table: Table, drawing: bool = False) -> None:
        """Says how many rows of a table have no match along each ref."""
        for ref in table.refs:
            own, referred = ref.words(table)
            there = set(tuples(self.folder, ref.other, referred))
            missing = sum(1 for row in tuples(self.folder, table, own) if row not in there)
            if missing:
                rows, them = ("1 row has", "it") if missing == 1 else (f"{missing} rows have", "them")
                what = "" if drawing else f": lines along the ref drop {them}"
                self.remark(f"{table.word}: {rows} no match in {ref.other.word} by ({', '.join(own)}){what}")


def times(count: int) -> str:
    return "once" if count == 1 else f"{count} times"


def tuples(folder: pathlib.Path, table: Table, words: list[str]) -> Iterator[tuple[str, ...]]:
    """The texts of these columns in each row of a file that was written."""
    columns = header_of(folder / (table.word + ".csv"))
    places = [columns.index(word) for word in words]
    for row in read_table(folder / (table.word + ".csv"), columns):
        yield tuple(row[place] for place in places)


def header_of(path: pathlib.Path) -> list[str]:
    with open(path, encoding="utf-8") as file:
        return file.readline().rstrip("\n").split(",")
