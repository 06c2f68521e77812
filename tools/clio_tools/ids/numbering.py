"""One run: the names of the nulls are kept, and the files rewritten."""
import pathlib

from clio_tools.ids.columns import check_numbers, decided, list_numerals, numbered_nulls
from clio_tools.ids.crosswalk import Crosswalk
from clio_tools.ids.naming import Naming
from clio_tools.ids.nulls import AGAIN
from clio_tools.ids.rewriting import Files
from clio_tools.ids.target import OUT, Target
from clio_tools.mapping.text import Set
from clio_tools.program import Refused
from clio_tools.safe_files import digest_of_file


def check_whole(crosswalk: Crosswalk) -> None:
    """The files that have numbers are all of the run that this crosswalk knows."""
    files = crosswalk.written()
    for name in files or ["nulls.csv"]:
        path = OUT / name
        if pathlib.Path(name).name != name or not path.is_file() or digest_of_file(path) != files.get(name):
            raise Refused(f"out/nulls.csv has numbers, and {path} is not of the run in which {crosswalk.path} gave"
                          f" them: {AGAIN}")


def prepared(tables: list[Set], crosswalk: Crosswalk, chosen: dict[tuple[str, str], bool],
             nested: bool) -> tuple[Naming, Files, dict[str, bytes]]:
    """Names the nulls, and writes the files beside those that are there, with their digests; the crosswalk keeps
    nothing
    before it is committed.
    """
    target = Target(tables)
    columns = decided(target, crosswalk, chosen)
    is_written = numbered_nulls(target, columns)
    list_numerals(target, columns, is_written, crosswalk)
    naming = Naming(target, crosswalk, is_written)
    check_numbers(target, crosswalk)
    naming.keep()
    files = Files(target, naming.numbers, is_written, crosswalk.base)
    try:
        return naming, files, files.write(nested)
    except BaseException:
        files.clear()
        raise


def number(tables: list[Set], crosswalk: Crosswalk, chosen: dict[tuple[str, str], bool], nested: bool) -> Naming:
    """Names the nulls, keeps the names, and rewrites the files."""
    naming, files, digests = prepared(tables, crosswalk, chosen, nested)
    try:
        crosswalk.commit(digests)
        files.replace()
    finally:
        files.clear()
    return naming
