"""What a refusal of a given target leaves out: the record with its fields, and which of them is no value."""
import os
import pathlib
import re
from collections.abc import Iterator

from clio_tools.csv import NotText, records, text
from clio_tools.explain import table_faults
from clio_tools.explain.said import amount, shown, visible
from clio_tools.mapping.tables import Table

FOLDER = "given/"
NULL = re.compile(r"\?(0|[1-9][0-9]*)\.(0|[1-9][0-9]*)\.(0|[1-9][0-9]*)")
MOST = 2**32 - 1  # the greatest number in the name of a null


def explain(message: str, tables: list[Table]) -> Iterator[str]:
    """The lines that explain what is wrong with a file of a given target; `message` begins with the file's name."""
    for table in tables:
        file = f"{FOLDER}{table.name}.csv"
        if message == f"{file} is absent":
            yield from absent(file, table)
        elif message.startswith(f"{file}: "):
            rest, content = message.removeprefix(f"{file}: "), pathlib.Path(file).read_bytes()
            found = re.fullmatch(r"record ([0-9]+) is not a value", rest)
            if found:
                yield from no_value(int(found[1]), file, content, table)
            else:
                yield from table_faults.explain(rest, file, content, table.columns)


def absent(file: str, table: Table) -> Iterator[str]:
    """A file that isn't there, and what is there in its place."""
    yield f"clio judge reads a file for each set of the target from the folder {FOLDER} in {visible(os.getcwd())}"
    if not os.path.isdir(FOLDER):
        yield (f"there is no folder {FOLDER}"
               + ("; to judge what clio wrote: cp -r out given" if os.path.isdir("out") else ""))
        return
    if os.path.islink(file):
        yield f"{file} is a link to {visible(os.readlink(file))}, which isn't there"
    yield f"a set without rows has a file with its header all the same: echo '{','.join(table.columns)}' > {file}"


def no_value(number: int, file: str, content: bytes, table: Table) -> Iterator[str]:
    """A record with a field that is no value text."""
    line, fields = next((one for place, one in enumerate(records(content)) if place == number), (0, []))
    if len(fields) != len(table.columns):
        return
    yield f"record {number} of {file} begins on line {line} and has {amount(len(fields), 'field')}:"
    for name, field in zip(table.columns, fields):
        yield f"    {name} = {shown(field)}"
    for name, field in zip(table.columns, fields):
        why = reason(field)
        if why:
            yield f"{name} is no value: {why}"
            yield ("what begins with ? is a null, like ?0.1.2, or a text with one ? more in front:"
                   f" {shown('?' + field)} is the text {shown(field)}")
            return


def reason(field: str) -> str | None:
    """Why a field is no value text; nothing if it is one."""
    try:
        text(field)
    except NotText:
        return None
    if field[:1] != "?" or field[1:2] == "?":
        return None
    found = NULL.fullmatch(field)
    if not found:
        numbers = field[1:].split(".")
        if len(numbers) == 3 and all(one.isascii() and one.isdigit() for one in numbers):
            return "the numbers of a null have no zero in front"
        return "a null has three numbers with points between them, and nothing else"
    if max(map(int, found.groups())) > MOST:
        return f"the numbers of a null are at most {MOST:,}"
    return None
