"""CSV as clio reads it and writes it, for the tools beside this file.

One byte order mark in front is dropped. Fields end with a comma, records with LF, CRLF or CR; empty lines are skipped.
A field that begins with a quote ends with the next single one, and what follows up to the comma belongs to it;
elsewhere quotes are ordinary characters. A quote that is never closed runs to the end of the file. Fields may be of any
length and hold any bytes.
"""
import csv
import io
import itertools
import os
import pathlib
from collections.abc import Iterable, Iterator

from clio_tools.program import Refused, counted
from clio_tools.safe_files import check_file, replaced

Path = str | os.PathLike[str]
Row = list[str]
Record = tuple[int, Row]  # the line on which it begins, from 1, and its fields

MARK = b"\xef\xbb\xbf"
csv.field_size_limit(2**31 - 1)


class NotText(ValueError):
    """A field isn't UTF-8."""


def _numbered(lines: Iterable[str], delimiter: str = ",", strict: bool = False) -> Iterator[Record]:
    """The records of an opened text, each as the line on which it begins (from 1) and its fields."""
    reader = csv.reader(lines, delimiter=delimiter, strict=strict)
    line = 1
    for fields in reader:
        if fields:
            yield line, fields
        line = reader.line_num + 1


def records(content: bytes) -> Iterator[Record]:
    """The records of a file's bytes, the header first, each as the line on which it begins (from 1) and its fields.

    A byte that is no UTF-8 stands in a field as a surrogate: see `text`.
    """
    content = content.removeprefix(MARK)
    return _numbered(io.StringIO(content.decode("utf-8", "surrogateescape"), newline=""))


def ends_open(content: bytes) -> bool:
    """Whether a quote is never closed: what is put behind the bytes is then no record of its own."""
    return sum(1 for _ in records(content + b"\nz")) == sum(1 for _ in records(content))


def text(field: str) -> str:
    """The text of a field; a field whose bytes aren't UTF-8 is refused."""
    if field.isascii():
        return field
    try:
        return field.encode("utf-8", "surrogateescape").decode("utf-8")
    except UnicodeDecodeError as error:
        raise NotText(str(error)) from None


def read_records(path: Path, delimiter: str = ",", strict: bool = False) -> Iterator[Row]:
    """The records of a file, the header first, each as a list of texts; one that is no UTF-8 is refused by its number.

    If strict, so are a quote that is never closed, and text between a closing quote and the end of its field.
    """
    given = 0
    check_file(pathlib.Path(path))
    try:
        with open(path, newline="", encoding="utf-8-sig") as file:
            for given, fields in enumerate(filter(None, csv.reader(file, delimiter=delimiter, strict=strict)), 1):
                yield fields
    except UnicodeDecodeError:
        # a quote may stand between the bytes of a character: then the fields are texts, though the file is none
        yield from itertools.islice(_counted_records(path, delimiter, strict), given, None)
    except csv.Error:
        for _ in _counted_records(path, delimiter, strict):
            pass
        raise Refused(f"{path} was changed while it was read") from None


def _counted_records(path: Path, delimiter: str, strict: bool) -> Iterator[Row]:
    """The same, slower: it knows the number and the line of what it refuses."""
    with open(path, newline="", encoding="utf-8-sig", errors="surrogateescape") as file:
        reader = csv.reader(file, delimiter=delimiter, strict=strict)
        number = before = line = 0
        try:
            for fields in reader:
                line, before = before + 1, reader.line_num
                if not fields:
                    continue
                if not "".join(fields).isascii():
                    fields = [text(field) for field in fields]
                yield fields
                number += 1
        except NotText:
            raise Refused(f"{path}: record {number}, at line {line}, is not UTF-8") from None
        except csv.Error as error:
            why = str(error)
            if "end of data" in why:
                why = "a quote is never closed"
            elif strict:
                why = "there is text after a closing quote"
            raise Refused(f"{path}: the record after line {line}: {why}") from None


def read_table(path: Path, columns: list[str]) -> Iterator[Row]:
    """The rows of a file whose header must be these columns; another header, and a record of another width, are
    refused.
    """
    rows = read_records(path)
    header = next(rows, None)
    if header is None:
        raise Refused(f"{path}: no header")
    if header != columns:
        raise Refused(f"{path}: the header is {','.join(header)[:200]}, and must be {','.join(columns)[:200]}")
    for number, row in enumerate(rows, 1):
        if len(row) != len(columns):
            raise Refused(f"{path}: record {number} has {counted(len(row), 'field')}, and must have {len(columns)}")
        yield row


def record_text(fields: Row) -> str:
    """A record as clio writes it, with its line feed."""
    alone = len(fields) == 1
    line = ",".join(fields)
    if not alone and line.count(",") == len(fields) - 1 and '"' not in line and "\n" not in line and "\r" not in line:
        return line + "\n"
    return ",".join(field_text(field, alone) for field in fields) + "\n"


def field_text(field: str, alone: bool) -> str:
    """A field, in quotes if it holds a comma, a quote or an end of line, or is empty and the only one of its record."""
    if any(mark in field for mark in ',"\n\r') or (alone and not field):
        return '"' + field.replace('"', '""') + '"'
    return field


def write_table(path: Path, columns: list[str], rows: Iterable[Row]) -> int:
    """Writes a file as clio reads it, which takes its place when it is whole, and gives the number of its rows."""
    count = 0
    with replaced(pathlib.Path(path)) as file:
        file.write(record_text(columns))
        for count, row in enumerate(rows, 1):
            file.write(record_text(row))
    return count
