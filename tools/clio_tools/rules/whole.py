"""A drawing from its text to the mapping that it means.

Faults come all at once, as far as one doesn't follow from another: those of the text and of its names, then those of
the `rows` statements, of the lines, of the target's links, and at last of the rules."""
from typing import Callable

from ..mapping.names import faults_of_names
from ..mapping.parser import parse
from ..mapping.places import Fault
from ..mapping.schema import schema_of
from .asking import rules_of as rules_by_clio
from .limits import limit_said
from .links import work_out_links
from .lookups import look_up
from .making import make_rules
from .model import Drawing
from .notes import read_lines, read_rows
from .printed import Printed
from .ways import Ways, Wrong


class Faulty(Exception):
    """The drawing can't be meant; the faults say where and why."""

    def __init__(self, faults: list[Fault]) -> None:
        super().__init__(faults[0].said)
        self.faults = faults


def read(content: bytes) -> Drawing:
    """The drawing of a text with its schemas; its notes are not yet worked out."""
    parsed = parse(content, drawing=True)
    try:
        content.decode("utf-8")
    except UnicodeDecodeError as why:  # as comments may have it
        said = "the text isn't UTF-8 here, and clio-rules prints its comments again"
        raise Faulty([*parsed.faults, Fault("bad character", why.start, why.end, said)]) from None
    source, faults = schema_of(parsed.tree.source, "source", circles=True)
    target, others = schema_of(parsed.tree.target, "target", circles=True)
    found = list(parsed.faults) + faults + others
    if not found:
        found = faults_of_names(parsed.tree, source, target)
    if found:
        raise Faulty(sorted(found, key=lambda fault: fault.start))
    return Drawing(parsed.tree, source, list(target.tables), Ways(source))


def worked_out(content: bytes) -> Drawing:
    """The drawing of a text with its rules."""
    drawing = read(content)
    steps: list[Callable[[Drawing], None]] = [read_rows, read_lines, look_up, work_out_links, make_rules]
    for step in steps:
        step(drawing)
        if drawing.faults:
            raise Faulty(sorted(dict.fromkeys(drawing.faults), key=lambda fault: fault.start))
    return drawing


def printed(drawing: Drawing) -> Printed:
    """The mapping that a drawing means, which the program has accepted."""
    try:
        made = Printed(drawing)
    except Wrong as why:
        raise Faulty(drawing.faults or [why.fault]) from None
    _, message = rules_by_clio(made.text)
    if message:
        past = limit_said(drawing, made, message)
        raise Faulty([past or Fault("meaning", 0, 0, f"clio would refuse the printed mapping: {message}")])
    return made
