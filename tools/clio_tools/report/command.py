"""Writes a page on what an exchange did with each row and each column.

    clio-report [FOLDER] > report.html

Run it after `clio exchange`, in the folder of the mapping, or with its FOLDER. The page says for each set of the source
how many of its rows some rule used, how many none used, which and why (the first twenty; all are written to
out/not-used-SET.csv); which columns of the source no rule uses; for each rule its matches and its rows; for each set of
the target how many rows rules asked for, how many were asked for again, merged by keys and dependencies, or left out by
core mode, and by which rules the rows in out are; how many texts, empty texts and nulls each column has, and which rule
left the nulls open; what replaced the nulls, by which key or dependency. Figures add up, and the page says how. It also
has the picture of the mapping (see clio-picture).

It is one file that loads nothing and has no script, light or dark as the browser is set. All figures are counted anew,
in Python: the matches of the rules in the source files, and what fold.csv makes of the rows that they ask for. If that
is not what out has, the files are not of one run, and the tool says so: run it before clio-ids, which gives nulls other
names. For data at clio's limits it takes a minute or two, and up to 1 GB (documents 1.4). It is not proved; its figures
are tested against counts by SQL.
"""
import os
import pathlib
import sys

from clio_tools.csv import write_table
from clio_tools.mapping.meaning import read_mapping
from clio_tools.picture.whole import Picture
from clio_tools.program import Refused, run
from clio_tools.report import sections
from clio_tools.report.figures import Figures
from clio_tools.report.page import whole
from clio_tools.safe_files import check_folder, content_of

USAGE = "usage: clio-report [FOLDER] > report.html; the manual is man clio-report"


def write_not_used(figures: Figures) -> dict[int, str]:
    """Writes the rows that no rule used, a file for each set; answers the files."""
    check_folder(pathlib.Path("out"))
    written: dict[int, str] = {}
    for number, one in enumerate(figures.source):
        path = pathlib.Path("out", f"not-used-{one.table.name}.csv")
        path.unlink(missing_ok=True)
        if one.not_used:
            places = [column for column, name in enumerate(one.table.columns) if not name.startswith("#")]
            rows = ([sections.where(figures, number, row), *(one.rows.rows[row][place] for place in places)]
                    for row in one.not_used)
            write_table(path, ["where", *(one.table.columns[place] for place in places)], rows)
            written[number] = str(path)
    return written


def picture_of_mapping(name: str, shown: list[str]) -> str:
    """The picture, from the mapping as it is written; `shown` has the rules as clio prints them."""
    content = content_of(pathlib.Path("mapping.clio"))
    return sections.picture(Picture(read_mapping(content), name, shown).drawn())


def work(words: list[str]) -> None:
    if len(words) > 1 or words[:1] and words[0].startswith("-"):
        raise Refused(USAGE)
    os.chdir(words[0] if words else ".")
    figures = Figures()
    name = os.path.basename(os.path.realpath("."))
    parts = [*sections.head(figures, name), picture_of_mapping(name, figures.printed),
             *sections.source(figures, write_not_used(figures)), *sections.rules(figures), *sections.target(figures),
             *sections.nulls(figures)]
    sys.stdout.write(whole(f"The exchange of {name}", parts))


def main() -> None:
    run("clio-report", work)
