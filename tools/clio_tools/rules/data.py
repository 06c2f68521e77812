"""`--json`: a drawing as data, for a page that draws it: what is where in the text, what can be chosen there, and the
rules in words. All places are bytes."""
from typing import Any

from ..mapping import tree
from ..mapping.places import Fault, Text
from .model import Drawing
from .printed import Printed
from .proposing import Proposing
from .saying import said
from .ways import spelled


def as_data(drawing: Drawing, made: Printed) -> dict[str, Any]:
    """The sets of the target with their rows, the lines with their ways, the rules, and remarks."""
    proposing = Proposing(drawing)
    sets = {table.name: {"rows": [_rows(drawing, rows) for rows in drawing.noted.get(table.number, []) if rows.note],
                         "could_come_from": proposing.starts.get(table.number, [])} for table in drawing.targets}
    rules = [{"rule": rule, "says": said(drawing, one), "rows": one.rows.note.start if one.rows.note else None,
              "lines": [line.start for line in one.lines]} for one, rule in zip(drawing.made, made.rules)]
    return {"sets": sets, "lines": [_line(drawing, line) for line in drawing.tree.lines], "rules": rules,
            "remarks": [one.said for one in drawing.remarks], "faults": []}


def _rows(drawing: Drawing, rows: Any) -> dict[str, Any]:
    """One `rows` statement."""
    return {"from": rows.note.source.text, "start": rows.note.start, "end": rows.note.end,
            "key": drawing.target_of(rows).named(rows.key or ())}


def _line(drawing: Drawing, line: tree.Line) -> dict[str, Any]:
    """One line, with the ways that each column could come by from each set that makes the rows."""
    sets = drawing.noted.get(drawing.target_number(line.target.set.text), [])
    arguments = []
    for one in line.arguments:
        goal = drawing.source.numbers[one.set.text]
        ways = {drawing.source_of(rows).name: [spelled(way) for way in drawing.ways.walks(rows.source, goal)]
                for rows in sets if rows.note}
        arguments.append({"set": one.set.text, "column": one.column.text if one.column else None,
                          "by": [[word.text for word in step.words] for step in one.by], "ways": ways})
    return {"start": line.start, "end": line.end, "target": [line.target.set.text, line.target.column.text],
            "arguments": arguments}


def faults_as_data(faults: list[Fault], content: bytes) -> dict[str, Any]:
    """Faults as data."""
    text = Text(content)
    return {"faults": [{"kind": fault.kind, "start": fault.start, "end": fault.end,
                        "line": text.place(fault.start).line,
                        "column": text.place(fault.start).column, "said": fault.said,
                        "expected": list(fault.expected)} for fault in faults]}
