"""The mapping that a text means: a mapping text is itself, and of a drawing it is what clio-rules prints."""
import re
from collections.abc import Container
from dataclasses import dataclass, field, replace

from ..mapping import tree
from ..mapping.cures import NoLine
from ..mapping.meaning import Mapping, mapping_of_tree
from ..mapping.parser import parse
from ..mapping.places import Fault
from ..program import Refused
from ..rules.model import Drawing, Remark
from ..rules.printed import Printed
from ..rules.saying import said
from ..rules.ways import Wrong
from ..rules.whole import Faulty, read, worked_out
from .outline import Outline


@dataclass(frozen=True)
class Behind:
    """What is behind a rule of a drawing: its lines by number, its words, and its `rows` by number."""

    lines: list[int]
    says: str
    rows: int | None


@dataclass(frozen=True)
class Meant:
    """The text for clio, the files that tests of a drawing take, and what is behind the first rules of a drawing."""

    content: bytes
    is_drawing: bool = False
    files: dict[str, str] = field(default_factory=dict)
    links: dict[str, str] = field(default_factory=dict)
    plain: int = 0  # so many rules come of lines without notes, before those of the notes
    behind: tuple[Behind, ...] = ()
    remarks: tuple[Remark, ...] = ()
    aside: tuple[Fault, ...] = ()  # of sets that are left out: without `rows`, or as long as theirs have no line
    faults: tuple[Fault, ...] = ()

    def behind_rule(self, number: int) -> Behind | None:
        """What is behind a rule that clio prints; None if lines without notes, or a rule by hand, made it."""
        place = number - self.plain
        return self.behind[place] if 0 <= place < len(self.behind) else None


def meant(content: bytes, set_by_set: bool = False) -> Meant:
    """The mapping of a text; what only a drawing can say makes it one, whatever the name of its file is.

    A set without `rows` of which lines say more than clio takes is left out, so that the others have their rows: in a
    target of many refs a first line may lead to that. So it is with a mapping that is taken set by set, and with rows
    for which no line is drawn yet."""
    if not set_by_set and not Outline(content).is_drawing:
        return Meant(content)
    aside: list[Fault] = []
    try:
        drawing, waiting = _worked_out(content)
        made = Printed(drawing, aside)
    except Faulty as why:
        return Meant(content, True, faults=tuple(why.faults))
    except Wrong as why:
        return Meant(content, True, faults=(why.fault,))
    text = made.text.encode()
    plain = len(parse(text).tree.rules) - len(drawing.made) - len(drawing.tree.rules)
    return Meant(text, True, made.sets.files(), made.sets.links(), plain, tuple(_behind(drawing, content)),
                 tuple(drawing.remarks), aside=(*waiting, *aside))


def _worked_out(content: bytes) -> tuple[Drawing, list[Fault]]:
    """The drawing of a text. Rows for which no line is drawn yet wait: they are left out, each with its fault; if there
    are other faults too, all are as they are without that."""
    text, waiting, first = content, dict[NoLine, Fault](), None
    while True:
        try:
            drawing = worked_out(text)
        except Faulty as why:
            first = first or why
            new = {cure: fault for fault in why.faults for cure in fault.cures if isinstance(cure, NoLine)}
            fewer = _without(text, new)
            if fewer == text:
                raise first from None
            waiting, text = {**new, **waiting}, fewer
            continue
        drawing.waiting = frozenset(one.target for one in waiting) - {one.target.text for one in drawing.tree.rows}
        return drawing, list(waiting.values())


def _without(content: bytes, waiting: Container[NoLine]) -> bytes:
    """A text with blanks in the place of some `rows`, so that all else stays in its place."""
    for one in parse(content, drawing=True).tree.rows:
        if NoLine(one.target.text, one.source.text) in waiting:
            content = content[:one.start] + re.sub(rb"[^\n]", b" ", content[one.start:one.end]) + content[one.end:]
    return content


def _behind(drawing: Drawing, content: bytes) -> list[Behind]:
    """What is behind each rule that notes make, by the numbers that the statements have in the whole text."""
    lines = {one.start: number for number, one in enumerate(drawing.tree.lines)}
    rows = {one.start: number for number, one in enumerate(parse(content, drawing=True).tree.rows)}

    def number_of(note: tree.Rows | None) -> int | None:
        return None if note is None else rows[note.start]

    return [Behind([lines[line.start] for line in made.lines], said(drawing, made), number_of(made.rows.note))
            for made in drawing.made]


def bare(content: bytes) -> Mapping:
    """The sets and lines of a text without its notes; a text that can't be read is Refused."""
    drawing = _read(content)
    items = [one for one in drawing.tree.items if isinstance(one, tree.Only)
             or isinstance(one, tree.Rule) and one.is_plain
             or isinstance(one, tree.Line) and all(each.column for each in one.arguments)]
    return mapping_of_tree(replace(drawing.tree, items=tuple(items)))


def _read(content: bytes) -> Drawing:
    try:
        return read(content)
    except Faulty as why:
        raise Refused(f"first mend the text: {why}") from None
