"""A clash as data for the page: what clio-explain says of it, and the source rows whose texts clash."""
from ..explain.clashes import FORM, Clashes
from ..explain.drawing_notes import after_clash
from ..explain.joins import TooMany
from ..mapping.meaning import Mapping
from .cures import of_clash as of_clash_in
from .faults import Shown
from .outline import Data, Outline
from .places import placed
from .sample import Report

TEXTS = 2  # so many of the texts of a clash are shown


def of_clash(message: str, mapping: Mapping, printed: list[str], content: bytes, shown: Shown, page: Outline) -> Data:
    """The fault of a run of a mapping text that ends with a clash; the page may have a drawing of it."""
    told = FORM.fullmatch(message)
    made: Data = {"status": 3, "message": message, "at": None, "cures": of_clash_in(told[1], page) if told else []}
    try:
        found = Clashes(mapping, printed, page.is_drawing)
    except TooMany:
        lines = ["the matches of the rules are too many to look for all clashes here"]
        return {**made, "lines": shown.pieces(lines), "clash": []}
    pieces = [*shown.pieces(found.pieces(message)), *shown.pieces(after_clash(message, content))]
    return {**made, "lines": pieces, "clash": _rows(found, message, mapping, shown.report)}


def _rows(found: Clashes, message: str, mapping: Mapping, report: Report) -> list[Data]:
    """For each of two texts of the clash that clio names: the source rows of a match that has it."""
    ordered = found.ordered(message)
    made: list[Data] = []
    for text, rows in list(ordered[0].texts.items())[:TEXTS] if ordered else []:
        origin = found.canonical.origins[ordered[0].table][rows[0]][0]
        rule = mapping.rules[origin.rule]
        chosen = found.matches[origin.rule].found[origin.tuple][0]
        made.append({"text": text, "rule": origin.rule,
                     "rows": [placed(found.source.row(atom.table, row), report)
                              for atom, row in zip(rule.premise, chosen)]})
    return made
