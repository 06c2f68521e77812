"""What the tests of drawings have in common: the target that clio makes of a drawing is compared with SQL over the
source."""
import csv
import io
import json
import os
import pathlib
import sqlite3
import subprocess
from typing import Any, Iterator, NamedTuple, Optional

from trial import PROGRAM

from clio_tools.mapping.tree import Argument, Line
from clio_tools.rules.lines_alone import bare_text, circular_refs
from clio_tools.rules.whole import printed, read, worked_out
from clio_tools.rules.writing import write

os.environ["PATH"] = os.path.dirname(PROGRAM) + os.pathsep + os.environ["PATH"]  # clio-rules asks for it there
Table = list[tuple[Optional[str], ...]]


class Wanted(NamedTuple):
    """What a query over the source says, and which one over the target has to say the same; `nulls` keeps nulls as
    texts."""

    name: str
    over_source: str
    over_target: str
    nulls: bool = False


def draw(folder: pathlib.Path) -> str:
    """Writes the mapping of the drawing in a folder; answers its text."""
    drawing = worked_out((folder / "drawing.clio").read_bytes())
    made = printed(drawing)
    write(folder, made, "drawing.clio")
    return made.text


def lines_alone(content: bytes) -> str:
    """The mapping of a drawing's lines without their notes."""
    drawing = read(content)
    lines = [Line(one.start, one.end, one.literal, one.conversion,
                  tuple(Argument(of.start, of.end, of.set, of.column) for of in one.arguments), one.target)
             for one in drawing.tree.lines if all(of.column for of in one.arguments)]
    return bare_text(drawing, lines, list(drawing.tree.target.sets), circular_refs(drawing))


def clio(folder: pathlib.Path, *words: str) -> tuple[int, str, str]:
    """Status, output and message of the program."""
    done = subprocess.run([PROGRAM, *words], cwd=folder, capture_output=True, text=True, check=False, timeout=600)
    return done.returncode, done.stdout, done.stderr.strip()


def differences(folder: pathlib.Path, wanted: tuple[Wanted, ...], *words: str) -> list[str]:
    """What is otherwise in the target than SQL says, after an exchange."""
    status, _, message = clio(folder, "exchange", *words)
    if status:
        return [f"status {status}: {message}"]
    source, said = source_base(folder), []
    for one in wanted:
        target = target_base(folder, one.nulls)
        right, got = (in_order(base.execute(query).fetchall())
                      for base, query in ((source, one.over_source), (target, one.over_target)))
        if right != got:
            less, more = [row for row in right if row not in got], [row for row in got if row not in right]
            said.append(f"{one.name}: SQL has {len(right)} rows, clio {len(got)}; missing {less[:4]}, too many "
                        f"{more[:4]}")
    return said


def in_order(rows: list[Any]) -> Table:
    """Rows in an order that nulls have a place in."""
    return sorted(rows, key=lambda row: [(one is None, str(one)) for one in row])


def value(text: str) -> Optional[str]:
    """A value text as SQL has it: a null of clio is NULL."""
    if text.startswith("??"):
        return text[1:]
    return None if text.startswith("?") else text


def load(base: sqlite3.Connection, name: str, head: list[str], rows: list[Any]) -> None:
    """Makes a table."""
    columns = ", ".join(f'"{one}"' for one in head)
    base.execute(f'CREATE TABLE "{name}" ({columns})')
    base.executemany(f'INSERT INTO "{name}" VALUES ({", ".join("?" * len(head))})', rows)


def records(path: pathlib.Path) -> list[list[str]]:
    """The records of a file."""
    return list(csv.reader(io.StringIO(path.read_text(encoding="utf-8"), newline="")))


def source_base(folder: pathlib.Path) -> sqlite3.Connection:
    """The source files as tables; those of documents have the columns id_ and up_."""
    base = sqlite3.connect(":memory:")
    for path in folder.glob("*.csv"):
        if not path.is_symlink():
            head, *rest = records(path)
            load(base, path.stem, head, rest)
    for path in folder.glob("*.json"):
        found: dict[str, list[dict[str, str]]] = {}
        for name, row in entries(path.stem, json.loads(path.read_text(encoding="utf-8")), path.stem):
            found.setdefault(name, []).append(row)
        for name, listed in found.items():
            columns = list(dict.fromkeys(column for row in listed for column in row))
            load(base, name, columns, [[row.get(column) for column in columns] for row in listed])
    return base


def entries(name: str, document: list[dict[str, Any]], up: str) -> Iterator[tuple[str, dict[str, str]]]:
    """The rows of a document with the sets in which they are."""
    for number, entry in enumerate(document):
        own = f"{up}.{number}"
        yield name, {"id_": own, "up_": up, **{key: str(one) for key, one in entry.items()
                                               if not isinstance(one, list)}}
        for key, one in entry.items():
            if isinstance(one, list):
                yield from entries(key, one, own)


def target_base(folder: pathlib.Path, nulls: bool) -> sqlite3.Connection:
    """The target's files as tables; `#id` and `#up` are id_ and up_."""
    base = sqlite3.connect(":memory:")
    for path in (folder / "out").glob("*.csv"):
        if path.stem not in ("nulls", "fold"):
            head, *rest = records(path)
            head = [one.replace("#", "") + "_" if one.startswith("#") else one for one in head]
            load(base, path.stem, head, [[one if nulls else value(one) for one in row] for row in rest])
    return base
