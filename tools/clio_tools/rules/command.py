"""Prints the mapping that a drawing means.

    clio-rules [FOLDER]
    clio-rules --write [--large] [FOLDER]
    clio-rules --what-lines-say [FOLDER]
    clio-rules --propose [FOLDER]
    clio-rules --json [FOLDER]

A drawing is a mapping text with notes: which set makes the rows of a target set, and by which refs values come. It is
drawing.clio of FOLDER, or of the current folder. Without an option the mapping is printed: the same sets, and rules in
the place of lines, each with a comment that says it in words, and the comments of the statements that led to it. clio
reads what is printed like any other mapping, so all that is proved of an exchange holds of it.

OPTIONS
`--write` writes mapping.clio beside the drawing, and the files that tests take. The first line of mapping.clio names
the drawing, and has a sum of the rest: a mapping of another origin, or one that was edited since, is not overwritten.
What is the same already stays as it is.

`--large` writes also if the rules make more cells of the files here than clio takes, for clio-sql.

`--what-lines-say` says in words which rules the lines alone had, which of them follow from the drawing under the keys
of the target, which the notes leave out, and what the notes add.

`--propose` prints a whole drawing: a `rows` for each target set without one, and above each line that could go several
ways a comment with the ways. Comments also have the lines for refs that could go several ways, and the `rows` of sets
of nothing but refs. If there is no drawing.clio, it takes mapping.clio.

`--json` prints the sets, the lines with their ways, the rules in words, remarks and faults as data, for a page that
draws them. All places are bytes of the drawing.

THE NOTES
What a drawing can say besides what a mapping can:

    rows T from S;
    rows T from S with r, s.u where kind = "F";
    rows T from S by r;
    line D.c -> T.x by r.s;
    line pair(D.c by r, D.c by s) -> T.x;
    line D -> T.x by r;
    line "cat" -> T.x from cat;
    line D.c -> T.x where kind = "F", buyer.tax filled;
    lookup D;
    rule D(c = v) -> T(x = v);

`rows`: each row of T comes from a row of S. Several `rows` of one T add up, and meet under its key. `with`: only the
rows of S that have what these ways lead to. `by`: T is an inner set, and its rows are in the outer row made of what r
leads to.

`line .. by`: the value is that of the D to which ref r and then ref s lead. A step is the ref's column, `(c, d)` for
several, or `up` to the outer row. Without `by`, and behind the steps that are said, a line goes the only way there is;
if there are several, it is refused, with all of them. A line from a whole set is for a column with a ref, which then
leads to the row made of that D; without such a line a ref that nothing fills goes the only way there is.

`from` is for the rows from one set alone. `where` is for rows that satisfy all tests: a text, `filled` or `numeric`. A
ref in a circle can be in a drawing; the printed mapping leaves it out. In a rule, columns that aren't named are open;
`id` and `up` are the columns `#id` and `#up`. Sets without `rows` keep what lines say. No word is reserved.

WHAT IT MEANS
A way from a row is a list of refs (or `up`); the row at its end is any that agrees on the columns of each step. For R =
`rows T from S ..`:

base(R) is what each row needs: the ways after `with`, the tests after `where`, ways to outer rows, and in an inner set
the way to the outer row's source row, with the base of the outer set's `rows`.

need(l) of a line l is the ways of its columns, with all their beginnings, and its tests.

K(R) is what makes a row the same row: the first key of T of which each column has a line with need inside base(R), or a
ref whose way is inside base(R), or is `#up`. If there is none, T has inner sets and S is an outer set of a document,
it is `#id`, which takes the text of S's own `#id`: that keeps the grouping of a tree.

For each different E among {} and the sets need(l) - base(R), and those of T's refs that lines from whole sets fill,
there is one rule: for each match of S, base(R) and E in the source there is a row of T that has, in each column with a
line l such that need(l) is inside base(R) and E, the value of l; and in the columns of a ref, the columns of the row
of U that is known by K(R'), where R' are the `rows` of U. If there is more than one E and no K(R), the drawing is
refused: nothing could make the rows of two rules one.

So, if a match of base(R) is a seed:

1. Each row of T comes from a seed, or a target ref asks for it. Lines from a dimension make no fact.
2. No seed is dropped: E = {} is among the rules, whatever is not matched.
3. It is the LEFT JOIN: if no column of T is filled from elsewhere for this key, and each way leads from each seed to at
most one row, then the row of a seed has the value of l if need(l) is matched, and a null otherwise. A way that leads to
two rows with different values is a clash, and SQL would double the row.
4. There are 1 + (number of different needs) rules, if lines have the product over all optional refs (2^k).
5. In core mode the same holds up to what a core leaves out.
6. Two rows of a set without a key that say the same are one row, as always in clio.

`lookup D;` changes how links to D are said: the target gets one more set, `lookup_D`, with the link's columns as its
key and a column for each value that links take from D. Then all links are in one rule, T needs no key, and a row of T
costs its cells once. Two rows with one unmatched key share a null then, and `out` has files that nobody asked for.

FILES
`where` with a text takes a set of one row, is_F.csv, and with `filled` or `numeric` a second name of the file, a link
like cust_tax_filled.csv: clio has no tests in rules. `--write` makes both, and overwrites nothing that is otherwise.

This tool is not proved; its tests compare what it prints, run by clio, with LEFT JOINs in SQLite.
"""
import argparse
import json
import pathlib
import sys

from ..mapping.places import Text
from ..program import Refused, remark, run
from ..safe_files import content_of
from .comparing import what_lines_say
from .data import as_data, faults_as_data
from .model import Drawing
from .printed import marked
from .proposed import proposed
from .sizes import Sizes
from .whole import Faulty, printed, read, worked_out
from .writing import write

SHOWN = 20  # faults that are shown


def words_of(words: list[str]) -> argparse.Namespace:
    """The options and the folder."""
    parser = argparse.ArgumentParser(prog="clio-rules", description="Prints the mapping that a drawing means.",
                                     epilog="The manual is man clio-rules.")
    kinds = parser.add_mutually_exclusive_group()
    kinds.add_argument("--write", action="store_true", help="write mapping.clio and the files that tests take")
    kinds.add_argument("--what-lines-say", action="store_true", help="say what the notes make of the lines")
    kinds.add_argument("--propose", action="store_true", help="print a drawing with a `rows` for each target set")
    kinds.add_argument("--json", action="store_true", help="print places, choices, rules and faults as data")
    parser.add_argument("--large", action="store_true", help="write what exceeds clio's limit of target cells")
    parser.add_argument("folder", nargs="?", default=".", metavar="FOLDER")
    return parser.parse_args(words)


def work(words: list[str]) -> None:
    """What the tool does."""
    asked = words_of(words)
    folder = pathlib.Path(asked.folder)
    path = folder / "drawing.clio"
    if asked.propose and not path.exists():
        path = folder / "mapping.clio"
    content = content_of(path)
    try:
        if asked.propose:
            sys.stdout.write(proposed(read(content)))
        else:
            _show(asked, folder, path, content)
    except Faulty as why:
        if not asked.json:
            raise Refused(_faults_said(path, content, why)) from None
        print(json.dumps(faults_as_data(why.faults, content), indent=1))


def _show(asked: argparse.Namespace, folder: pathlib.Path, path: pathlib.Path, content: bytes) -> None:
    """Works a drawing out, and shows or writes what is asked for."""
    drawing = worked_out(content)
    made = printed(drawing)
    if asked.json:
        print(json.dumps(as_data(drawing, made), indent=1))
        return
    if asked.what_lines_say:
        sys.stdout.write(what_lines_say(drawing, made))
        return
    for one in drawing.remarks:
        remark("clio-rules", one.said)
    _look_at_sizes(asked, folder, drawing)
    if asked.write:
        write(folder, made, path.name)
    else:
        sys.stdout.write(marked(made.text, path.name))


def _look_at_sizes(asked: argparse.Namespace, folder: pathlib.Path, drawing: Drawing) -> None:
    """Refuses to write what the program would refuse for its size, and remarks it otherwise."""
    said = Sizes(drawing, folder).too_many()
    if said and asked.write and not asked.large:
        raise Refused(said)
    if said:
        remark("clio-rules", said)


def _faults_said(path: pathlib.Path, content: bytes, why: Faulty) -> str:
    """The faults, each with its line and carets."""
    text = Text(content)
    shown = [text.shown(str(path), fault) for fault in why.faults[:SHOWN]]
    more = len(why.faults) - len(shown)
    return "\n".join(shown + ([f"and {more} more"] if more else []))


def main() -> None:
    """The program clio-rules."""
    run("clio-rules", work)
