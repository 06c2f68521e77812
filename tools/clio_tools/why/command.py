"""Says why a row of the target is there, or what became of a row of the source.

    clio-why [OPTION ..] TABLE KEY ..
    clio-why [OPTION ..] --not SET KEY ..

Run it after `clio exchange`, in the folder of the mapping. KEY are the values of a key of the table (or of its first
columns, if it has no key of so many), or COLUMN=VALUE for any columns, as in `clio-why person ann@x.org` or
`clio-why sale day=2026-03-02 client=17`.

Of a row of the target it says for each cell from which column, record and line of which file its text is, by which line
or rule of the mapping, or that nobody gave it; then which matches of which rules ask for the row, with their source
rows; then which key or dependency put what in the place of a null that these matches left open, since which two rows
agree; or which row says as much, if core mode left it out.

With --not, of a row of a source set: the rows of the target in which it has a part, and what isn't there that other
rules look for, as along an optional ref; or, if no rule uses it, the condition that it fails, the row that a ref of it,
or of a row to which it leads, or a rule, looks for and that isn't there (or fails a condition, or has the text with
other capitals or blanks), and the change of mapping.clio that would keep it. Such a change is tried before it is said.

Of the rules of a mapping that clio-rules printed, it says which statements of the drawing led to them.

All is read from what clio wrote: the rules, fold.csv, the tables in out, and the source files. If these aren't of one
run, it says so. If out is missing, or has the rules of another mapping or the numbers of clio-ids, or isn't of one run
and there is `--ids`, clio-why itself runs `clio exchange`, in a folder of its own.

OPTIONS
`--ids CROSSWALK`: if clio-ids or clio-load gave a number to a null, KEY can have this number, as a database has it, and
nulls are printed with theirs.

`--core`: if clio-why runs clio itself, it does so in core mode.

`--all` prints all rows and matches, in place of the first ones and how many more there are; `--json` prints JSON.

EXIT STATUS
0 if a row was found, 1 if there is none with this key, 2 for what it refuses.

It is not proved; its tests look up each text of its reasons in the files, and compare the matches with another reading
of the rules. At 4,000,000 cells it takes some seconds, and up to 1 GB.
"""
from __future__ import annotations

import argparse
import contextlib
import gc
import itertools
import json
import os
import pathlib
import subprocess
import sys
import tempfile
from collections.abc import Iterator

from clio_tools.explain.drawn import with_drawing
from clio_tools.explain.source import file_of
from clio_tools.mapping.meaning import Unread, read_mapping
from clio_tools.program import Refused, harmless, program, remark, run
from clio_tools.why.exchange import AGAIN, Exchange, read_bytes, rules_in
from clio_tools.why.finding import rows_of, values_of, wanted
from clio_tools.why.numbers import Numbers
from clio_tools.why.reasons import MOST_MADE, MOST_MATCHES, Reasons
from clio_tools.why.source import Fact
from clio_tools.why.words import Words, as_json

MOST_ROWS = 3  # rows that are told, if a key has more
Told = tuple[dict[str, object], list[str]]  # a reason as JSON, and in words


def words_of(words: list[str]) -> argparse.Namespace:
    """The words of the command."""
    parser = argparse.ArgumentParser(
        prog="clio-why", allow_abbrev=False, epilog="The manual is man clio-why.",
        description="Says why a row of the target is there, or what became of a row of the source.")
    parser.add_argument("--not", dest="is_source", action="store_true", help="ask about a row of the source")
    parser.add_argument("--ids", metavar="CROSSWALK", help="KEY can have the numbers that clio-ids gave to nulls")
    parser.add_argument("--core", action="store_true", help="if clio-why runs clio itself, do so in core mode")
    parser.add_argument("--all", action="store_true", help="print all rows and matches")
    parser.add_argument("--json", action="store_true", help="print JSON")
    parser.add_argument("table", metavar="TABLE")
    parser.add_argument("key", metavar="KEY", nargs="+")
    return parser.parse_args(words)


@contextlib.contextmanager
def exchanged(folder: pathlib.Path, is_core: bool, has_ids: bool) -> Iterator[Reasons]:
    """The reasons of a folder: of what is in `out`, or of a run in a folder of its own."""
    if is_current(folder, has_ids):
        yield Reasons.of_folder(folder)
        return
    with tempfile.TemporaryDirectory(prefix="clio-why-") as name:
        own = pathlib.Path(name)
        for file in ["mapping.clio", *files_of(folder)]:
            if (folder / file).exists():
                (own / file).symlink_to((folder / file).resolve())
        command = [os.path.abspath(program()), "exchange", *["--core"] * is_core]
        ended = subprocess.run(command, stdin=subprocess.DEVNULL, capture_output=True, check=False, cwd=own)
        if ended.returncode:
            said = ended.stderr.decode("utf-8", "replace").strip()
            raise Refused(said or f"clio exchange ended with status {ended.returncode}")
        yield Reasons.of_folder(own)


def files_of(folder: pathlib.Path) -> list[str]:
    """The files of the source."""
    try:
        mapping = read_mapping(read_bytes(folder / "mapping.clio"))
    except Unread as why:
        raise Refused(f"mapping.clio: {why}") from None
    return [file_of(table) for table in mapping.source if table.parent is None]


def check_one_run(folder: pathlib.Path) -> None:
    """Refuses files that clio didn't write after the mapping and the sources were as they are."""
    read = [path for name in ["mapping.clio", *files_of(folder)] if (path := folder / name).exists()]
    newest = max(read, key=lambda path: path.stat().st_mtime_ns)
    targets = [f"{table.name}.csv" for table in read_mapping(read_bytes(folder / "mapping.clio")).target]
    for path in (folder / "out" / name for name in ["rules.txt", "nulls.csv", "fold.csv", *targets]):
        if not path.is_file():  # a device or a pipe may never end
            raise Refused(f"{path} is missing, or is no file: {AGAIN}")
        if path.stat().st_mtime_ns < newest.stat().st_mtime_ns:
            raise Refused(f"out is not of these files, {AGAIN}: {path} is older than {newest}")


def is_current(folder: pathlib.Path, has_ids: bool) -> bool:
    """Whether `out` can be taken. It is refused if it isn't of these files; but a row with the numbers of a crosswalk
    is one of a database, and what an earlier run left here doesn't matter."""
    if not is_usable(folder):
        return False
    try:
        check_one_run(folder)
    except Refused:
        if not has_ids:
            raise
        return False
    return True


def is_usable(folder: pathlib.Path) -> bool:
    """Whether `out` has a run of this mapping, with nulls as clio names them."""
    if not all((folder / "out" / name).is_file() for name in ("nulls.csv", "rules.txt")):
        return False
    try:
        with open(folder / "out" / "nulls.csv", "rb") as file:
            is_renamed = file.readline().startswith(b"id,")
        return not is_renamed and rules_in((folder / "out" / "rules.txt").read_bytes()) == Exchange.rules_of(folder)
    except OSError:
        return False


def of_target(reasons: Reasons, given: argparse.Namespace) -> Iterator[Told]:
    """Why each row of the target is there that was asked for."""
    exchange = reasons.exchange
    table = exchange.mapping.target[exchange.table(given.table)]
    numbers = Numbers(given.ids, exchange) if given.ids else None
    ways = [{column: numbers.values(table.name, column, value) if numbers else values_of(value)
             for column, value in way.items()} for way in wanted(table, given.key)]
    words = Words(exchange.printed, exchange.content, *[numbers.shown] if numbers else [])
    for row in rows_of(exchange.out / f"{table.name}.csv", table, ways):
        reason = reasons.row(table.name, row.values, None if given.all else MOST_MATCHES)
        place = f", line {row.line} of out/{table.name}.csv" if exchange.folder == pathlib.Path() else ""
        said = list(with_drawing(words.of_row(reason, table.name + place), "", exchange.content))
        yield as_json(reason) | {"numbers": numbers.all_known() if numbers else {}}, said


def of_source(reasons: Reasons, given: argparse.Namespace) -> Iterator[Told]:
    """What became of each row of the source that was asked for."""
    table = reasons.exchange.mapping.source[reasons.source_table(given.table)]
    words = Words(reasons.exchange.printed, reasons.exchange.content)
    found: dict[tuple[str, ...], Fact] = {}
    for way in wanted(table, given.key):
        found.update((fact.row, fact) for fact in reasons.source_rows(table.name, way))
    for fact in found.values():
        reason = reasons.source_fact(fact, None if given.all else MOST_MADE)
        yield as_json(reason), list(with_drawing(words.of_source_row(reason), "", reasons.exchange.content))


def work(words: list[str]) -> None:
    """Answers the question."""
    given = words_of(words)
    gc.disable()  # millions of texts are made, none of them in a circle
    with exchanged(pathlib.Path(), given.core, given.ids is not None) as reasons:
        said = (of_source if given.is_source else of_target)(reasons, given)
        told = list(said if given.all else itertools.islice(said, MOST_ROWS + 1))
    more = len(told) > MOST_ROWS and not given.all
    told = told[:MOST_ROWS] if more else told
    if given.json:
        json.dump({"reasons": [reason for reason, _ in told], "more": more}, sys.stdout, ensure_ascii=False, indent=1)
        print()
    elif told:
        print(harmless("\n\n".join("\n".join(lines) for _, lines in told)))
        if more:
            print("\nmore rows have this key: name more columns, or ask for --all")
    if not told:
        numbers = "" if given.ids or given.is_source else "; --ids CROSSWALK knows the numbers of clio-ids"
        remark("clio-why", f"no row of {given.table} has {' '.join(given.key)}{numbers}")
        sys.exit(1)


def main() -> None:
    """Runs the tool on the words of its command line."""
    run("clio-why", work)
