"""The tables of a folder of delimited files, by their headers, and their rows."""
import pathlib
from collections.abc import Iterator

from clio_tools.csv import read_records
from clio_tools.draft.model import Column, Table
from clio_tools.program import Refused, counted

SIGNS = {"tab": "\t", "\\t": "\t", "comma": ",", "semicolon": ";", "pipe": "|"}


def delimiter_of(word: str) -> str:
    """The sign that a word of the command line means."""
    sign = SIGNS.get(word, word)
    if len(sign) != 1 or sign in '"\r\n':
        raise Refused(f"--delimiter takes one sign, or one of {', '.join(SIGNS)}: not {word!r}")
    return sign


class Base:
    """A folder of files."""

    def __init__(self, folder: pathlib.Path, delimiter: str) -> None:
        self.folder = pathlib.Path(folder)
        if not self.folder.is_dir():
            raise Refused(f"{folder} is no folder")
        self.delimiter = delimiter
        self.paths: dict[int, pathlib.Path] = {}  # of the files, by the ids of their tables

    def tables(self) -> list[Table]:
        tables = []
        for path in sorted(self.folder.iterdir()):
            if path.is_file() and path.suffix.lower() in (".csv", ".tsv"):
                header = next(read_records(path, self.delimiter), None)
                if header is None:
                    raise Refused(f"{path}: no header")
                tables.append(Table(path.stem, unique_columns(header)))
                self.paths[id(tables[-1])] = path
        if not tables:
            raise Refused(f"{self.folder} has no file .csv or .tsv")
        return tables

    def rows(self, table: Table) -> Iterator[list[str]]:
        """The rows; a quote that is never closed, text after one, and a record of another width are refused."""
        path = self.paths[id(table)]
        records = read_records(path, self.delimiter, strict=True)
        next(records)
        for number, row in enumerate(records, 1):
            if len(row) != len(table.columns):
                raise Refused(f"{path}: record {number} has {counted(len(row), 'field')}, and the header"
                              f" {len(table.columns)}")
            yield row


def unique_columns(header: list[str]) -> list[Column]:
    """The columns of a header, a name that stands twice with its number."""
    columns: list[Column] = []
    count: dict[str, int] = {}
    for name in header:
        count[name] = count.get(name, 0) + 1
        columns.append(Column(name if count[name] == 1 else f"{name} ({count[name]})"))
    return columns
