"""The edits that answer a fault of a drawing, a warning, or that a source row is not used: the page offers each as a
button."""
from collections.abc import Iterator, Sequence

from ..explain.pieces import Warned
from ..mapping import tree
from ..mapping.cures import By, Cure, Key, LineBy, Lookup, NoLine, NoRef, Optional, RowsFrom, With
from ..mapping.places import Fault
from ..rules.model import Remark
from ..why.data import Miss
from .outline import Data, Outline

MOST = 8  # edits that are offered of one fault


def of_fault(fault: Fault, outline: Outline) -> list[Data]:
    """The edits that answer a fault of a drawing, each with its title."""
    return [edit for cure in fault.cures for edit in _edits(cure, fault.start, outline)][:MOST]


def of_remark(remark: Remark, outline: Outline) -> list[Data]:
    """The edits that answer a remark on a drawing."""
    return [edit for cure in remark.cures for edit in _edits(cure, remark.at, outline)][:MOST]


def of_clash(table: str, outline: Outline) -> list[Data]:
    """The edits that answer a clash in a target set, if no `rows` says from which set its rows come."""
    if any(one.target.text == table for one in outline.tree.rows):
        return []
    return list(_edits(RowsFrom(table), -1, outline))[:MOST]


def of_warning(warned: Warned, outline: Outline) -> list[Data]:
    """The edits that answer a warning of clio-explain."""
    return list(_edits(warned.cure, -1, outline))[:MOST] if warned.cure else []


def _edits(cure: Cure, at: int, outline: Outline) -> Iterator[Data]:
    """The edits of a text that are meant; `at` is the place of the fault."""
    if isinstance(cure, By):
        yield from _by(cure.way, at, outline)
    elif isinstance(cure, LineBy):
        yield _titled(f"line {cure.source} -> {cure.target}.{cure.column} by {cure.way}",
                      {"do": "add_line", "source": {"columns": [[cure.source, None]], "by": [cure.way]},
                       "target": [cure.target, cure.column]})
    elif isinstance(cure, RowsFrom):
        for name in [cure.source] if cure.source else _sources(cure.target, outline):
            yield _titled(f"rows {cure.target} from {name}",
                          {"do": "add_rows", "target": cure.target, "source": name})
    elif isinstance(cure, Lookup):
        yield _titled(f"lookup {cure.source}", {"do": "lookup", "name": cure.source, "wanted": True})
    elif isinstance(cure, With):
        yield from _with(cure, at, outline)
    elif isinstance(cure, Key):
        for columns in [list(cure.columns)] if cure.columns else _filled(cure.target, outline):
            yield _titled(f"key ({', '.join(columns)}) of {cure.target}",
                          {"do": "add_clause", "side": "target", "set_name": cure.target,
                           "clause": {"kind": "key", "columns": columns}})
    elif not isinstance(cure, NoLine):
        yield from _of_refs(cure, outline)


def _titled(title: str, action: Data) -> Data:
    return {"title": title, "action": action}


def _by(way: str, at: int, outline: Outline) -> Iterator[Data]:
    """A way for the column of a line, or for the `rows` of an inner set, that could go several."""
    for number, line in enumerate(outline.tree.lines):
        for place, one in enumerate(line.arguments):
            if one.set.start == at:
                yield _titled(f"by {way}", {"do": "change_line", "index": number,
                                            "source": _left(outline, line, place, way)})
    for number, rows in enumerate(outline.tree.rows):
        if rows.source.start == at:
            asked = _asked(rows, outline)
            asked["by"] = way
            yield _titled(f"by {way}", {"do": "change_rows", "index": number, "asked": asked})


def _left(outline: Outline, line: tree.Line, place: int, way: str) -> Data:
    """The left side of a line, with another way of one column."""
    by = [outline.text(tree.Part(one.by[0].start, one.by[-1].end)) if one.by else "" for one in line.arguments]
    by[place] = way
    return {"columns": [[one.set.text, one.column.text if one.column else None] for one in line.arguments], "by": by,
            "conversion": line.conversion.text if line.conversion else None}


def _with(cure: With, at: int, outline: Outline) -> Iterator[Data]:
    """The `rows` of a target set, only with what ways lead to; if there are several, those of the fault."""
    found = [(number, one) for number, one in enumerate(outline.tree.rows) if one.target.text == cure.target]
    for number, one in found:
        if len(found) == 1 or one.target.start == at:
            asked = _asked(one, outline)
            asked["with"] = ", ".join([*[str(asked["with"])] * bool(asked["with"]), *cure.ways])
            yield _titled(f"rows {cure.target} from {one.source.text} with {asked['with']}",
                          {"do": "change_rows", "index": number, "asked": asked})


def _asked(rows: tree.Rows, outline: Outline) -> Data:
    """A `rows` as it is asked for."""
    by, where = (outline.text(tree.Part(part[0].start, part[-1].end)) if part else "" for part in (rows.by, rows.tests))
    musts = [outline.text(tree.Part(each[0].start, each[-1].end)) for each in rows.musts]
    return {"source": rows.source.text, "by": by, "where": where, "with": ", ".join(musts)}


def _sources(target: str, outline: Outline) -> list[str]:
    """The source sets from which lines go to a target set."""
    lines = [line for line in outline.tree.lines if line.target.set.text == target]
    return list(dict.fromkeys(one.set.text for line in lines for one in line.arguments))


def _filled(name: str, outline: Outline) -> list[list[str]]:
    """Each column of a target set that a line fills."""
    columns = [line.target.column.text for line in outline.tree.lines
               if line.target.set.text == name and line.literal is None]
    return [[column] for column in dict.fromkeys(columns)]


def _of_refs(cure: Optional | NoRef, outline: Outline) -> Iterator[Data]:
    """A ref that is made optional, or left out."""
    for one in outline.side(cure.side):
        for number, ref in enumerate(one.refs):
            columns = tuple(word.text for word in ref.columns)
            if ref.set.text != cure.to or cure.set and (one.name.text, columns) != (cure.set, cure.columns):
                continue
            if isinstance(cure, NoRef):
                yield _titled("leave the ref out", {"do": "delete_clause", "side": cure.side,
                                                    "set_name": one.name.text, "kind": "ref", "index": number})
            elif ref.optional is None:
                yield _titled(f"make the ref ({', '.join(columns)}) of {one.name.text} optional",
                              {"do": "optional", "side": cure.side, "set_name": one.name.text, "index": number,
                               "wanted": True})


# --- rows that are not used ------------------------------------------------------------------------------------------

def of_misses(misses: Sequence[Miss], outline: Outline) -> list[Data]:
    """The edits by which source rows don't miss what they missed."""
    return [cure for miss in misses for cure in _of_miss(miss, outline)][:MOST]


def _of_miss(miss: Miss, outline: Outline) -> Iterator[Data]:
    if miss.kind == "ref":
        yield from _of_refs(Optional("source", miss.from_set, miss.from_columns, miss.set), outline)
    elif miss.kind == "condition":
        for number, one_only in enumerate(outline.tree.conditions):
            place = (one_only.place.set.text, one_only.place.column.text, one_only.test.text)
            if place == (miss.set, miss.columns[0], miss.test):
                yield _titled(f"without only {place[0]}.{place[1]} {place[2]}",
                              {"do": "delete", "kind": "only", "index": number})
