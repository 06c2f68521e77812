"""The notes of a drawing that would say what was meant, if lines alone say too much: ready to paste."""
import re
from typing import Iterable, Iterator, Optional

from clio_tools.explain.pieces import Warned
from clio_tools.explain.program import mapping_of
from clio_tools.rules.model import Drawing
from clio_tools.rules.proposing import Proposing
from clio_tools.rules.whole import Faulty, read

MOST = 40  # notes that are printed
LIMITS = ("ways", "variants", "candidates")
HEAD = ("a drawing says what is meant: name the text drawing.clio, put these in, in the place of the lines that they "
        "repeat, and run clio-rules --write (man clio-rules):")


def after_limit(message: str, content: Optional[bytes]) -> Iterator[str]:
    """The notes for all sets, if the lines have too many ways, variants or candidates."""
    if content is not None and message.split(" ")[1:2] and message.split(" ", 1)[1].rsplit(" ", 1)[0] in LIMITS:
        yield from notes(content, None)


def after_clash(message: str, content: bytes) -> Iterator[str]:
    """The notes for the table of a clash, if something is open in its lines."""
    found = re.match(r"clash: table (\w+), ", message)
    drawing = _read(content)
    if found and drawing and any(True for _ in _open_lines(drawing, found[1])):
        yield from notes(content, {found[1]})


def after_warnings(warnings: Iterable[Warned], content: bytes) -> Iterator[str]:
    """The lines of warnings as they come, and then the notes for the sets, and for those of the rules, that they
    doubt."""
    sets: set[str] = set()
    rules: set[int] = set()
    for one in warnings:
        yield from one.lines()
        sets.update(one.sets)
        rules.update(one.rules)
    mapping = mapping_of(content)[0] if rules else None
    if mapping:
        sets |= {mapping.target[atom.table].name for number in rules for atom in mapping.rules[number].conclusion}
    if sets:
        yield from notes(content, sets)


def notes(content: bytes, tables: Optional[set[str]]) -> Iterator[str]:
    """The `rows` of some target sets, or of all, and the lines of which something is open."""
    drawing = _read(content)
    if drawing is None or not drawing.tree.lines or drawing.tree.rows:
        return
    proposing, found = Proposing(drawing), []
    wanted = [table for table in proposing.open if tables is None or table.name in tables]
    for table in wanted:
        found += list(proposing.rows(table)) if proposing.lines(table) else []
    for table in wanted:
        found += _open_lines(drawing, table.name, proposing)
    if found:
        yield HEAD
        yield from ("   " + note for note in found[:MOST])
        if len(found) > MOST:
            yield f"   and {len(found) - MOST} more: clio-rules --propose prints the whole drawing"


def _read(content: bytes) -> Optional[Drawing]:
    """The mapping as a drawing, if it is one."""
    try:
        return read(content)
    except Faulty:
        return None


def _open_lines(drawing: Drawing, name: str, proposing: Optional[Proposing] = None) -> Iterator[str]:
    """The lines to a set of which something is open, each with its choices."""
    proposing = proposing or Proposing(drawing)
    for line in drawing.tree.lines:
        chosen = proposing.chosen(line) if line.target.set.text == name else None
        if chosen:
            yield chosen
