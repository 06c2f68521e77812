"""What a refusal of a CSV file leaves out: the expected and the found header; the record, its fields, its line, why."""
import os
import re
from collections.abc import Iterator, Sequence

from clio_tools.csv import MARK, NotText, ends_open, records, text
from clio_tools.explain.said import amount, listed, shown, visible
from clio_tools.mapping.tables import Table

DELIMITERS = {";": "semicolons", "\t": "tabs", "|": "bars"}
MOST_FIELDS = 70


def absent(file: str, table: Table) -> Iterator[str]:
    """A file that isn't there, and what is there in its place."""
    here = sorted(os.listdir("."))
    stem, ending = os.path.splitext(file)
    other = stem + (".csv" if ending == ".json" else ".json")
    if os.path.islink(file):
        yield f"{file} is a link to {visible(os.readlink(file))}, which isn't there"
    if other in here:
        yield f"{other} is there, but {table.name} has " + (
            "inner sets, so it is read from a document" if table.inner else
            f"no inner sets, so it is read from {file}: clio-draft json {other} --data . makes it")
    alike = [name for name in here if name.lower() == file.lower() and name != file]
    if alike:
        yield f"there is {listed(alike)}: capitals count"
    same = [name for name in here if name.lower().endswith(ending) and name not in alike]
    yield f"the files of this kind in {visible(os.getcwd())}: {listed(same) or 'none'}"
    if table.inner:
        yield f"a set without rows has a document all the same: echo '[]' > {file}"
    else:
        yield ("a set without rows has a file with its header all the same:"
               f" echo '{','.join(table.tree.columns)}' > {file}")


def explain(message: str, file: str, content: bytes, columns: Sequence[str]) -> Iterator[str]:
    """The lines that explain what is wrong with a file that must have these columns."""
    if content.startswith((b"\xff\xfe", b"\xfe\xff")):
        yield f"the file is UTF-16: iconv -f UTF-16 -t UTF-8 {file} > new; mv new {file}"
        return
    if message == "no header":
        yield f"the file has {amount(len(content), 'byte')} and no record"
        yield f"its first line must be: {','.join(columns)}"
        return
    found = re.fullmatch(r"header at column ([0-9]+)", message)
    if found:
        yield from header(int(found[1]), columns, content, file)
        return
    found = re.fullmatch(r"(?:width of record ([0-9]+)|record ([0-9]+) is not text)", message)
    if found:
        yield from record(int(found[1] or found[2]), bool(found[1]), columns, content, file)


def header(place: int, columns: Sequence[str], content: bytes, file: str) -> Iterator[str]:
    """The expected and the found header, and in what they differ."""
    _, found = next(records(content))
    yield "expected: " + ",".join(columns)
    yield "found:    " + ",".join(visible(name[:60]) for name in found[:MOST_FIELDS])
    expected = shown(columns[place]) if place < len(columns) else "no column"
    given = shown(found[place]) if place < len(found) else "no column"
    yield f"column {place + 1}: expected {expected}, found {given}"
    single = found[0] if len(found) == 1 else ""
    for delimiter, name in DELIMITERS.items():
        if delimiter in single:
            yield (f"the file has {name} between its fields, and clio reads commas: in a folder of such files,"
                   f" clio-draft csv . --delimiter '{visible(delimiter)}' --data FOLDER writes them anew")
            return
    if sorted(found) == sorted(columns):
        yield "the columns are the same in another order: declare them as the file has them"
    elif [name.strip().lower() for name in found] == [name.lower() for name in columns]:
        yield "only capitals or spaces differ, and both count"
    if content.removeprefix(MARK).startswith(MARK):
        yield f"the file has a second byte order mark: sed -i '1s/^\\xef\\xbb\\xbf//' {file}"
    lacking = [one for one in columns if one not in found]
    more = [one for one in found if one not in columns]
    if lacking:
        yield f"declared, but not in the file: {listed(lacking)}"
    if more:
        yield f"in the file, but not declared: {listed(more)}"


def record(number: int, is_width: bool, columns: Sequence[str], content: bytes, file: str) -> Iterator[str]:
    """A record with its fields and its line, and what is wrong with it."""
    for place, (line, fields) in enumerate(records(content)):
        if place == number:
            break
    else:
        return
    yield (f"record {number} of {file} begins on line {line} and has"
           f" {amount(len(fields), 'field')} for {amount(len(columns), 'column')}:")
    for position in range(max(min(len(fields), MOST_FIELDS), len(columns))):
        name = columns[position] if position < len(columns) else "(no column)"
        yield f"    {name} = {shown(fields[position])}" if position < len(fields) else f"    {name}: no field"
    if len(fields) > MOST_FIELDS:
        yield f"    .. and {len(fields) - MOST_FIELDS} more"
    yield from (swallowed if is_width else no_text)(fields, columns)
    if is_width and ends_open(content):
        yield f"the last field of {file} runs to the end of the file, since its quote is never closed"


def swallowed(fields: list[str], columns: Sequence[str]) -> Iterator[str]:
    """Fields with line ends in them, often by a quote that isn't closed."""
    for position, field in enumerate(fields):
        ends = field.count("\n")
        if ends:
            name = columns[position] if position < len(columns) else f"field {position + 1}"
            yield f"{name} has {amount(ends, 'line end')} in it: a quote may not be closed where it should"


def no_text(fields: list[str], columns: Sequence[str]) -> Iterator[str]:
    """The bytes that aren't UTF-8, and what they are as Latin-1."""
    for position, field in enumerate(fields):
        try:
            text(field)
        except NotText:
            content = field.encode("utf-8", "surrogateescape")
            try:
                content.decode("utf-8")
            except UnicodeDecodeError as error:
                byte = content[error.start:error.start + 1].hex()
                yield (f"{columns[position]} isn't UTF-8 from its byte {error.start + 1} on, {byte};"
                       f" as Latin-1 it is {shown(content.decode('latin-1'))}")
