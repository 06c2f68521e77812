"""What can be said of each way in which clio ends, by its status and its message."""
import pathlib
import re
import signal
from collections.abc import Iterator

from clio_tools.explain import (clashes, compared, document_faults, drawing_notes, drawn, given_faults, mapping_faults,
                                other_faults, query_faults, sizes, system_faults, table_faults, traps, verdicts)
from clio_tools.explain.pieces import Piece, first_lines, printed
from clio_tools.explain.placed import MappingText
from clio_tools.explain.said import visible
from clio_tools.explain.source import file_of
from clio_tools.mapping.tables import tables_of
from clio_tools.program import Refused
from clio_tools.safe_files import content_of

MOST_OF_LIMITS = 40  # lines that are said of a limit, whatever the mapping
SIGNALS: dict[int, str] = {signal.SIGSEGV: ": the stack ran out", signal.SIGKILL: ": memory may have run out"}
OPTIONS = {"show": {"--core"}, "exchange": {"--core", "--nested"}, "demo": {"--core"}}


def text_of(name: str) -> bytes | None:
    """The bytes of a text of the current folder, if it can be read."""
    try:
        return content_of(pathlib.Path(name))
    except (OSError, Refused):
        return None


def usage(words: list[str], message: str) -> Iterator[str]:
    """Which word clio doesn't take; its commands are those of its message."""
    commands = list(dict.fromkeys(re.findall(r"\bclio ([a-z]+)", message))) or list(OPTIONS)
    listed = f"{', '.join(commands[:-1])} or {commands[-1]}"
    if not words:
        yield f"there is no command: {listed}"
        return
    if words[0] not in commands:
        is_help = words[0] in ("help", "--help", "-h")
        yield f"`{visible(words[0][:60])}` is no command: {listed}" + (
            "; the manual is man clio, that of clio-explain is man clio-explain" if is_help else "")
        return
    numbers = [word for word in words[1:] if re.fullmatch("[1-9][0-9]{0,4}|100000", word)]
    known: set[str] = OPTIONS.get(words[0], set())
    for place, word in enumerate(words[1:], 1):
        if word in words[1:place]:
            yield f"`{visible(word)}` is there twice"
        elif word not in known and not (words[0] == "demo" and word in numbers):
            yield (f"`{visible(word[:60])}` is no word that {words[0]} takes;"
                   f" it takes {', '.join(sorted(known)) or 'none'}"
                   + (" and a number from 1 to 100000" if words[0] == "demo" else ""))
    if words[0] == "demo" and len(numbers) != 1:
        yield "demo takes one number from 1 to 100000, without a sign or a zero in front"


def rows(message: str) -> Iterator[Piece]:
    """What is wrong with a source file."""
    text = MappingText(text_of("mapping.clio") or b"")
    if message.startswith("rows: given/"):
        yield from given_faults.explain(message.removeprefix("rows: "), tables_of(text.target))
        return
    tables = tables_of(text.source)
    for number, table in enumerate(tables):
        file = file_of(table)
        if table.parent is not None or not message.startswith(f"rows: {file}"):
            continue
        if message == f"rows: {file} is absent":
            yield from table_faults.absent(file, table)
        elif message.startswith(f"rows: {file}: "):
            rest, found = message.removeprefix(f"rows: {file}: "), pathlib.Path(file).read_bytes()
            if table.inner:
                yield from document_faults.explain(rest, file, found, tables, number)
            else:
                yield from table_faults.explain(rest, file, found, table.tree.columns)


def explained(status: int, message: str, words: list[str]) -> Iterator[str]:
    """The lines that explain how clio ended."""
    return printed(explanation(status, message, words))


def explanation(status: int, message: str, words: list[str]) -> Iterator[Piece]:
    """What explains how clio ended, and of rules of a printed mapping what in its drawing led to them."""
    content = text_of("mapping.clio")
    yield from drawn.with_drawing(ending(status, message, words, content), message, content)


def ending(status: int, message: str, words: list[str], content: bytes | None) -> Iterator[Piece]:
    """What is said of the way in which clio ended."""
    if status < 0:
        yield f"clio was ended by the signal {signal.Signals(-status).name}" + SIGNALS.get(-status, "")
    elif status == 0 and words[0] in ("show", "exchange") and content is not None:
        yield from drawing_notes.after_warnings(traps.explain(words, content), content)
    elif status == 0 and words[:1] == ["judge"] and content is not None:
        yield from verdicts.explain(content, "--all" in words)
    elif status == 0 and words[:1] == ["compare"]:
        yield from compared.explain("--all" in words)
    elif status == 2:
        yield from usage(words, message)
    elif status == 3 and content is not None:
        yield from clashes.explain(message, content)
        yield from drawing_notes.after_clash(message, content)
    elif status == 4:
        yield from mapping_faults.explain(message, content)
    elif status == 5:
        yield from rows(message)
    elif status == 6:
        yield from first_lines(sizes.explain(message, content, words), MOST_OF_LIMITS)
        yield from drawing_notes.after_limit(message, content)
    elif status == 7:
        yield from system_faults.reading(message.removeprefix("read fault: "))
    elif status == 8:
        yield from system_faults.writing(message, content, words)
    elif status == 9:
        yield from system_faults.memory(content)
    elif status == 10 and content is not None:
        yield from query_faults.explain(message, text_of("query.clio"), content)
    elif status == 11 and content is not None:
        yield from other_faults.explain(message, text_of("other.clio"), content)
