"""All that differs between a given target and what the rules ask for, in words; what they ask for is what
`clio exchange` writes, in a folder of its own."""
import contextlib
import os
import pathlib
import subprocess
import tempfile
from collections.abc import Callable, Iterator, Sequence

from clio_tools.csv import read_table
from clio_tools.explain.alignment import Alignment, Row, is_null
from clio_tools.explain.differences import At, Differences, differences
from clio_tools.explain.said import amount, listed, shown, visible
from clio_tools.explain.source import file_of
from clio_tools.mapping.meaning import Mapping
from clio_tools.program import program
from clio_tools.why.reasons import Reasons

MOST = 5  # of each kind that are listed of a table
MOST_CELLS = 8  # of a row
Given = list[list[Row]]


def said_value(value: str) -> str:
    """A value as it is written: a null as it is, a text in quotes."""
    return visible(value) if is_null(value) else shown(value.removeprefix("?"), 40)


@contextlib.contextmanager
def asked_for(mapping: Mapping) -> Iterator[Reasons | None]:
    """What the rules ask for, in a folder that goes again; None if there is no such target."""
    with tempfile.TemporaryDirectory(prefix="clio-explain-") as name:
        folder = pathlib.Path(name)
        for file in ["mapping.clio", *(file_of(table) for table in mapping.source if table.parent is None)]:
            (folder / file).symlink_to(os.path.abspath(file))
        command = [os.path.abspath(program()), "exchange"]
        ended = subprocess.run(command, stdin=subprocess.DEVNULL, capture_output=True, check=False, cwd=folder)
        yield Reasons.of_folder(folder) if ended.returncode == 0 else None


class Judged:
    """The differences of a given target in words; `lines` has the line of each given row, and with `is_all` each is
    listed."""

    def __init__(self, mapping: Mapping, given: Given, lines: list[list[int]], is_all: bool) -> None:
        self.tables, self.given, self.lines, self.mapping = mapping.target, given, lines, mapping
        self.most = None if is_all else MOST

    def words(self) -> Iterator[str]:
        """All differences, table by table."""
        with asked_for(self.mapping) as reasons:
            if reasons is None:
                yield "no target is right, since the sources contradict each other: clio-explain exchange says how"
                return
            asked = [[tuple(row) for row in read_table(reasons.exchange.out / f"{table.name}.csv", table.columns)]
                     for table in self.tables]
            found = differences(Alignment(self.tables, asked, self.given))
            for number, one in enumerate(found):
                if one.is_any():
                    yield from self.of_table(number, one, reasons)
            if not any(one.is_any() for one in found):
                yield "each row by itself is asked for; together they say more, as some of their nulls are one"

    def of_table(self, number: int, one: Differences, reasons: Reasons) -> Iterator[str]:
        """The differences of one table: how many there are, then the first ones."""
        claims = {row for rows in one.invented.values() for row in rows}
        counts = [(len(one.missing), "is missing", "are missing"), (len(one.changed), "differs", "differ"),
                  (len(one.extra), "is there that nothing asks for", "are there that nothing asks for"),
                  (len(claims), "has a text that nobody gave", "have texts that nobody gave"),
                  (len(one.shared), "has a value that other rows share", "have values that other rows share")]
        told = [f"{amount(count, 'row')} {single if count == 1 else many}" for count, single, many in counts if count]
        yield f"{visible(one.table.name)}: {'; '.join(told)}"
        yield from self.some([self.missing(number, row, reasons) for row in one.missing[:self.most]], len(one.missing))
        yield from self.some([self.changed(number, *row, reasons) for row in one.changed[:self.most]], len(one.changed))
        yield from self.some([f"nothing asks for {self.row(number, row)}" for row in one.extra[:self.most]],
                             len(one.extra))
        for column, rows in one.invented.items():
            yield f"   {self.invented(number, column, rows)}"
        yield from self.some([self.shared(*pair) for pair in one.shared[:self.most]], len(one.shared))

    def some(self, told: list[str], count: int) -> Iterator[str]:
        """The first of some differences, and how many more there are."""
        yield from (f"   {one}" for one in told)
        if count > len(told):
            yield f"   and {count - len(told):,} more; clio-explain judge --all lists all"

    def missing(self, number: int, row: Row, reasons: Reasons) -> str:
        """A row that is asked for and not given."""
        cells = self.cells(number, row, lambda value: not is_null(value)) or "a row of nulls"
        return f"missing: {cells}{self.sources(number, row, reasons)}"

    def changed(self, number: int, row: Row, at: int, wanted: dict[int, str], reasons: Reasons) -> str:
        """A given row that differs from the one that is asked for under its key."""
        given, columns = self.given[number][at], self.tables[number].columns
        told = [f"{visible(columns[column])} is {said_value(given[column])} and must be {said_value(value)}"
                + " (the empty text, which is not a null)" * (value == "" and is_null(given[column]))
                for column, value in wanted.items()]
        return f"{self.place(number, at)}: {', '.join(told)}{self.sources(number, row, reasons)}"

    def sources(self, number: int, row: Row, reasons: Reasons) -> str:
        """The source rows of the first match that asks for a row."""
        match = reasons.row(self.tables[number].name, row, 1).asked[0]
        return f", by rule {match.rule} from " + " and ".join(dict.fromkeys(one.where for one in match.sources[0]))

    def place(self, number: int, at: int) -> str:
        """Where a given row is, and its key."""
        table = self.tables[number]
        texts = [key for key in table.keys if not any(is_null(self.given[number][at][column]) for column in key)]
        cells = self.cells(number, self.given[number][at], lambda _: True, texts[0] if texts else ())
        return f"line {self.lines[number][at]}" + f" ({cells})" * bool(cells)

    def row(self, number: int, at: int) -> str:
        """A given row with its line."""
        return f"line {self.lines[number][at]}: {self.cells(number, self.given[number][at], lambda _: True)}"

    def cells(self, number: int, row: Row, is_told: Callable[[str], bool], columns: Sequence[int] | None = None) -> str:
        """Cells of a row: those of some columns, or all."""
        names = self.tables[number].columns
        told = [f"{visible(names[column])} = {said_value(row[column])}"
                for column in (range(len(row)) if columns is None else columns) if is_told(row[column])]
        return ", ".join(told[:MOST_CELLS]) + ", .." * (len(told) > MOST_CELLS)

    def invented(self, number: int, column: int, rows: list[int]) -> str:
        """The texts of a column that nobody gave."""
        name, given = f"{self.tables[number].name}.{self.tables[number].columns[column]}", self.given[number]
        lines = listed((f"{said_value(given[row][column])} in line {self.lines[number][row]}" for row in rows), 3)
        hint = ""
        if len({given[row][column] for row in rows}) == len(rows) > 1 and self.is_key(number, column):
            hint = f"; if they are made up, as by a sequence: clio-given .. --surrogate {visible(name)}"
        return f"nobody gave {visible(name)}: {lines}{hint}"

    def is_key(self, number: int, column: int) -> bool:
        """Whether a column is a key by itself, or a link leads there."""
        return (column,) in self.tables[number].keys or any(
            link.table == number and column in link.referred for table in self.tables for link in table.every_link())

    def shared(self, value: str, cells: list[At]) -> str:
        """A null that is in several cells, which nothing makes one."""
        told = listed((f"{self.tables[at.table].name}.{self.tables[at.table].columns[at.column]} in line "
                       f"{self.lines[at.table][at.row]}" for at in cells), 6)
        return f"nothing makes {visible(value)} one value in {told}"
