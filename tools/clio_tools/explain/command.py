"""Runs clio, and says what its message or its verdict leaves out.

    clio-explain [WORD..]
    clio-explain version

It runs `clio` with these words in the current folder: the one on the path, or else the one of the repository. What clio
prints and its status are passed on unchanged, its message with control characters as \\u{..}. Below the message it says
more on standard error, each text in quotes, cut if it is long, and without control characters:

    mapping: ..          line, column, carets under the word, what can be there, and the names that exist there
    rows: ..             the expected and the found header; the record with its fields and its line; the place in a
                         document; the field that is no value
    clash: ..            all clashes, each with the source rows behind its texts, and how keys made the nulls in its key
                         equal; what of the mapping makes the first one
    limit: ..            which sets, lines, refs or rules exceed it, how large it is, and what to do, in at most 40
                         lines
    read fault: ..       the system's reason
    write fault: ..      which file, and the system's reason
    out of memory        how much there is
    query: ..            line, column, carets under the word, what can be there, and the sets and variables that exist
                         there
    other: ..            the same of the second mapping; in what two schemas differ; the conditions, or the rule, that
                         keep mappings from being compared
    verdict not a ..     the source rows of the match and the given row that comes nearest, or the rows that break a key
                         or a link; then all that differs, table by table: keys and links that don't hold, rows that are
                         missing, cells that differ, rows that nothing asks for, texts that nobody gave, values that
                         nothing makes one; the first five of each kind, or all after `clio-explain judge --all`
    verdict solution     which rows say more than they may, in the same way
    forward .., backward ..  the rule that says more, the rows that show it (twelve, or all after `clio-explain compare
                         --all`), and what is not there

If nothing was refused it warns of what the manual calls traps: a rule of lines that has a set twice, a ref of the
source that drops rows, with their number, and whether a line uses it; columns of the source that go nowhere, and
columns of the target that nothing fills; records that are there twice, and matches that became one; rows of nothing but
nulls; rows with nothing in their key; rows of lines without the key that other rows of their set have; a set that has
no key to group by; a quote that is never closed, or text after one that is; a text that differs from another by a
space; a line from a text that no rule has; a ref of the target to no key. Each warning ends with its name and its set:
the comment `// clio-explain: off NAME SET` in the mapping switches it off, without SET all of this name. After `show`
it speaks of the mapping alone.

If lines say more than was meant, the notes of a drawing (man clio-rules) follow that would say it. Of the rules of a
mapping that clio-rules printed, it says which statements of the drawing led to them.

It reads the mapping and the files anew after clio has ended, and runs `clio show` for the rules, and `clio judge` for a
verdict, with `clio exchange`, or `clio compare` once more, in a folder of its own. For data at clio's limits that takes
up to a minute.

`clio-explain version` prints the version, and which program `clio` is: its SHA-256, the sum of its sources, its
toolchain.

A message that it can't explain, as that of a mapping in a later version of the text, is passed on alone. At most 1,000
clashes are listed. Rows are listed of the first 50 groups that agree on a key: those of eight texts, or of two if the
key is empty. If rules have more than 20,000,000 matches, no clash is listed.

EXIT STATUS
That of clio; 128 and the number of a signal if one ended it; 1 if there is no clio.
"""
import os
import subprocess
import sys
import traceback
from collections.abc import Iterable

from clio_tools.explain.endings import explained
from clio_tools.explain.said import visible
from clio_tools.program import WHOLE, Refused, ending, program, run
from clio_tools.version import version_lines


def say(lines: Iterable[str], before: str) -> None:
    """Prints lines on standard error as they come; a failure to explain is no failure of the run."""
    try:
        for line in lines:
            os.write(2, f"{before}{line}\n".encode("utf-8", "backslashreplace"))
    except Exception as error:  # pylint: disable=broad-except
        if os.environ.get(WHOLE):
            traceback.print_exc()
        said = f"clio-explain: no more can be said of it: {visible(ending(error)[1])}\n"
        os.write(2, said.encode("utf-8", "backslashreplace"))


def work(words: list[str]) -> None:
    """Runs clio, then explains."""
    if words == ["version"]:
        print("\n".join(version_lines()))
        return
    try:
        clio = program()
        own = words[:1] if words in (["judge", "--all"], ["compare", "--all"]) else words
        ended = subprocess.run([clio, *own], stderr=subprocess.PIPE, check=False)
    except Refused as why:
        sys.exit(f"clio-explain: {why}")
    except OSError as error:
        sys.exit(f"clio-explain: {clio}: {error.strerror}")
    try:
        message = ended.stderr.decode("utf-8", "surrogateescape").removesuffix("\n")
        if message:
            said = message if ended.returncode == 2 else visible(message)
            os.write(2, f"{said}\n".encode("utf-8", "backslashreplace"))
        say(explained(ended.returncode, message, words), "clio-explain: " if ended.returncode == 0 else "  ")
    except OSError:
        pass  # nobody reads standard error
    sys.exit(ended.returncode if ended.returncode >= 0 else 128 - ended.returncode)


def main() -> None:
    """Runs the tool."""
    run("clio-explain", work)
