"""Source rows with their places in the whole files."""
from ..explain.pieces import RowLine
from ..why.data import SourceRow
from .outline import Data
from .sample import Report, Taken


def placed(row: SourceRow, report: Report) -> Data:
    """A source row of a live run, which may have read a sample."""
    taken = report[row.file.rpartition(".")[0]]
    return {"set": row.set, "file": taken.file, "where": _where(row, taken), "made_up": taken.kind == "made up",
            "cells": [list(one) for one in zip(row.columns, row.texts)]}


def said(line: RowLine, report: Report) -> str:
    """A line of an explanation that has a row."""
    taken = report[line.row.file.rpartition(".")[0]]
    return line.said(f"{taken.file}{'' if line.row.path else ', '}{_where(line.row, taken)}")


def _where(row: SourceRow, taken: Taken) -> str:
    """The place of a row in its whole file."""
    if not row.path:
        return taken.places[row.record - 1] if taken.places else f"line {row.line} (record {row.record})"
    first, _, rest = row.path[1:].partition("/")
    return taken.places[int(first)] + ("/" + rest if rest else "") if taken.places else row.path
