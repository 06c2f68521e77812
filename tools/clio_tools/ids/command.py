"""Gives the nulls of a target numbers that stay from run to run.

    clio-ids CROSSWALK [--number SET.COLUMN] [--keep SET.COLUMN] [--nested]

Nulls are named by rule, variable and place, so a surrogate key may have another name after the next row of the source.
clio-ids reads what `clio exchange` wrote into the folder out, and rewrites it: run it in the folder of the mapping,
before clio-tables. The same thing gets the same number in each run, a new one a new number. The numbers are kept in
CROSSWALK, an SQLite file, which is made by the first run.

If the row of a null (the one in which it is itself a key, or is referred to) has another key of texts, that alone
decides which thing it is; in a key the number of a thing replaces its null. So the `cid` of a customer is known by
the customer's name if that is a key. With several keys the first one that is known decides, and a thing has one value
of each key at a time: that of the last run. A null without such a row is known by the keys of the rows in which it
is; one that has none of these either by the text of its rule and the values that nulls.csv has, and so for each
null that became this one (fold.csv), for which the source files are read again. What was known by a later name alone
keeps its number when it gets a surer one. If two things become one, one of their numbers stays. A number is never given
to a second thing.

A null becomes a number if it is in a column of a key or a ref that has nulls alone when it first has rows; that is
kept for later runs. `--number` and `--keep` decide it by hand, and may be repeated. Each other null is a value that
nobody knows: it stays one, and gets a name that stays, ?999.0.N with N from the same numbers. Rows are written in
clio's order. In nulls.csv the first column has the new names and is called `id`; in fold.csv they are in the second.
With `--nested` the documents are rewritten too.

It prints how many nulls had a number, how many are new, and in how many rows that are known by a key another thing
is in a column than when they were there last, with the first ten of these: `sale.c of (n) ["2"]: 2 is now 3`.

The crosswalk is changed before the files are, and each file is replaced as a whole. If it is stopped in between, the
next run says so: run `clio exchange` again, and the numbers are the same. Run twice, it changes nothing. It refuses a
number that is a text of such a column already, files that are not of one run, a folder out that is a link, and a
crosswalk that is a link, that another run works on, or that something else has changed (it says what is wrong). It is
not proved, but has tests.

Time grows with the cells and the nulls, memory with the nulls alone, a few bytes for each. A target of 4,000,000 cells
with 1,000,000 nulls took 28 seconds of a busy processor and 230 MB, 25 MB for the crosswalk, and a temporary file (in
the folder that SQLITE_TMPDIR names, or /var/tmp).
"""
import contextlib
import os
import pathlib
import sqlite3

from clio_tools.ids.crosswalk import Crosswalk
from clio_tools.ids.naming import Naming, told_change
from clio_tools.ids.numbering import check_whole, number
from clio_tools.ids.target import is_renamed
from clio_tools.mapping.text import Set, read_sets
from clio_tools.program import Refused, harmless, remark, run
from clio_tools.safe_files import content_of

USAGE = "usage: clio-ids CROSSWALK [--number SET.COLUMN] [--keep SET.COLUMN] [--nested]; the manual is man clio-ids"

Chosen = dict[tuple[str, str], bool]


def words_of(words: list[str]) -> tuple[str, Chosen, bool]:
    """The crosswalk, which columns are decided by hand, and whether documents are rewritten."""
    plain: list[str] = []
    chosen: Chosen = {}
    nested, rest = False, list(words)
    while rest:
        word = rest.pop(0)
        if word in ("--number", "--keep") and rest and rest[0].count(".") == 1:
            name, column = rest.pop(0).split(".")
            chosen[name, column] = word == "--number"
        elif word == "--nested":
            nested = True
        elif word.startswith("-"):
            raise Refused(USAGE)
        else:
            plain.append(word)
    if len(plain) != 1:
        raise Refused(USAGE)
    return plain[0], chosen, nested


def tables_of(chosen: Chosen) -> list[Set]:
    """The tables of the target; a column that was chosen must be there."""
    try:
        tables = read_sets(content_of(pathlib.Path("mapping.clio")).decode("utf-8", "replace"))["target"]
    except ValueError as error:
        raise Refused(f"mapping.clio: {error}") from None
    for name, column in chosen:
        if not any(table.name == name and column in table.columns for table in tables):
            raise Refused(f"mapping.clio: the target has no column {name}.{column}")
    return tables


def work(words: list[str]) -> None:
    """Gives the nulls of `out` their numbers."""
    path, chosen, nested = words_of(words)
    tables = tables_of(chosen)
    try:
        rewrite(path, chosen, nested, tables)
    except sqlite3.Error as error:
        raise Refused(f"SQLite says of {path}, or of a file that it needs beside it: {error}") from None


def rewrite(path: str, chosen: Chosen, nested: bool, tables: list[Set]) -> None:
    """Gives the nulls their numbers; a crosswalk that was made for nothing goes away again."""
    is_done = is_renamed()
    is_new = not os.path.lexists(path)
    with contextlib.ExitStack() as at_the_end:
        if is_new:
            at_the_end.callback(pathlib.Path(path).unlink, missing_ok=True)
        crosswalk = Crosswalk(path)
        at_the_end.callback(crosswalk.close)
        if is_done:
            check_whole(crosswalk)
            remark("clio-ids", "out/ has its numbers already, and nothing is changed")
            return
        naming = number(tables, crosswalk, chosen, nested)
        at_the_end.pop_all()
    crosswalk.close()
    tell(naming)


def tell(naming: Naming) -> None:
    """Prints how many numbers are known, new and changed, and the first changes."""
    print(f"known {naming.known}\nnew {naming.new}\nchanged {naming.changed}")
    for change in naming.changes:
        print(harmless(told_change(change)))
    if naming.changed > len(naming.changes):
        print(f"and {naming.changed - len(naming.changes)} more")


def main() -> None:
    """Runs the tool on the words of its command line."""
    run("clio-ids", work)
