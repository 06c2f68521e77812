"""What is said of a load: its summary, samples of what differs, and all of it as CSV."""
from __future__ import annotations

import json
import pathlib
from collections.abc import Iterator

from clio_tools.csv import write_table
from clio_tools.draft.names import shown
from clio_tools.load.comparing import DELETE, MARK, Comparison, Counts
from clio_tools.load.database import Cells, identifier
from clio_tools.load.plan import TablePlan

SAMPLES = 5
HEADER = ["table", "change", "key", "column", "database", "target"]


def said_of(plan: TablePlan, counts: Counts, is_dry: bool) -> str:
    """The line of a table in the summary."""
    insert, change, delete, mark = (("to insert", "to change", "to delete", "to mark") if is_dry else
                                    ("inserted", "changed", "deleted", "marked"))
    columns = ", ".join(f"{shown_name(name)} {count}" for name, count in counts.columns.items())
    parts = [f"{counts.inserted} {insert}", f"{counts.changed} {change}" + (f" ({columns})" if columns else ""),
             f"{counts.deleted} {delete}"]
    parts += [f"{counts.marked} {mark}"] if counts.marked else []
    parts += [f"{counts.equal} equal"]
    parts += [f"{counts.kept} kept"] if counts.kept else []
    parts += [f"{counts.referred} of them referred to"] if counts.referred else []
    parts += [f"{counts.others} of others"] if counts.others else []
    return f"{shown_name(plan.table.name)}: {', '.join(parts)}"


def shown_name(name: str) -> str:
    """A name, in quotes if it needs them."""
    return name if name.isidentifier() else shown(name)


def value_text(cell: str | None) -> str:
    """A value as a cell of clio: NULL is ?, and a text that begins with ? has one more."""
    return "?" if cell is None else "?" + cell if cell.startswith("?") else cell


class Differences:
    """What differs, row by row, of a comparison."""

    def __init__(self, comparison: Comparison) -> None:
        self.comparison, self.database = comparison, comparison.database

    def samples(self, plan: TablePlan) -> Iterator[str]:
        """Some rows of each kind, as lines."""
        counts = self.comparison.counts[plan.number]
        kinds = [(counts.inserted, self.inserted), (counts.changed, self.changed)]
        if not plan.is_empty:
            kinds.append((counts.deleted + counts.marked + counts.kept + counts.others, self.extra))
        for count, rows in kinds:
            shown_rows = list(rows(plan, SAMPLES)) if count else []
            for change, key, cells in shown_rows:
                said = ", ".join(f"{shown_name(name)} {self.pair(change, before, after)}" for name, before,
                                 after in cells)
                yield f"  {change} {key}: {said}"
            if count > len(shown_rows):
                yield f"  and {count - len(shown_rows)} more"

    def altered(self) -> Iterator[str]:
        """Once all is written, some rows that the database stores otherwise, as by a trigger, as lines."""
        for plan in self.comparison.plan.tables:
            count = self.comparison.count_altered(plan)
            name = shown_name(plan.table.name)
            lines = [f"{name} {key}: " + ", ".join(f"{shown_name(column)} {quoted(after)} would be stored as "
                                                   f"{quoted(before)}" for column, before, after in cells)
                     for _, key, cells in (self.changed(plan, SAMPLES) if count else ())]
            lines += [f"{name} {key} would not be stored as it is written"
                      for _, key, _ in (self.inserted(plan, SAMPLES - len(lines)) if count else ())]
            yield from lines
            if count > len(lines):
                yield f"{name}: {count - len(lines)} more would be stored otherwise"

    @staticmethod
    def pair(change: str, before: str | None, after: str | None) -> str:
        """A cell in a sample."""
        return f"{quoted(before)} -> {quoted(after)}" if change == "change" else quoted(after if change == "insert"
                                                                                        else before)

    def write(self, path: str) -> None:
        """Writes all that differs as CSV, a record for each cell."""
        write_table(pathlib.Path(path), HEADER, self.records())

    def records(self) -> Iterator[list[str]]:
        """The records of all tables."""
        for plan in self.comparison.plan.tables:
            for rows in self.inserted, self.changed, self.extra:
                if rows == self.extra and plan.is_empty:
                    continue
                for change, key, cells in rows(plan, None):
                    for name, before, after in cells:
                        yield [plan.table.name, change, key, name, "" if change == "insert" else value_text(before),
                               value_text(after) if change in ("insert", "change") else ""]

    def inserted(self, plan: TablePlan, most: int | None) -> "Iterator[Row]":
        """The rows that the database lacks."""
        cells = ", ".join(f"n.c{place}" for place in range(len(plan.columns)))
        source = f"{plan.work('new')} AS n" if plan.is_empty else f"{plan.work('diff')} AS n WHERE n.is_new = 1"
        names = [column.name for column in plan.loaded]
        for row in self.database.stream(limited(f"SELECT {cells} FROM {source}", most)):
            yield "insert", key_of(plan, row), [(name, None, cell) for name, cell in zip(names, row)]

    def changed(self, plan: TablePlan, most: int | None) -> "Iterator[Row]":
        """The rows that have other values in the database."""
        if plan.is_empty or plan.key is None:
            return
        differences = self.comparison.differences(plan, "t", "n")
        size = len(plan.columns)
        new = [f"n.c{place}" for place in range(size)]
        mark = [self.database.unmarked(plan.mark)] if plan.mark else []
        here = [f"t.{identifier(name)}" for name in differences]
        flags = [f"CASE WHEN {test} THEN 1 ELSE 0 END" for test in differences.values()]
        rows = limited(f"SELECT * FROM {plan.work('diff')} WHERE is_new = 0", most)
        sql = (f"SELECT {', '.join(new + mark + here + flags)} FROM ({rows}) AS n JOIN {plan.table.sql} AS t"
               f" ON {self.comparison.match(plan, 't', 'n')}")
        count = len(differences)
        for row in self.database.stream(sql):
            after, before, flagged = row[:count], row[count:2 * count], row[2 * count:]
            yield "change", key_of(plan, row), [cell for cell, flag in zip(zip(differences, before, after), flagged)
                                                if flag == "1"]

    def extra(self, plan: TablePlan, most: int | None) -> "Iterator[Row]":
        """The rows that the target lacks."""
        goes = {DELETE: "delete", MARK: "mark"}.get(self.comparison.gone, "keep")
        names = [column.name for column in plan.table.columns]
        cells = ", ".join(f"e.t{place}" for place in range(len(names)))
        sql = (f"SELECT e.is_gone, e.is_own, {cells} FROM {plan.work('extra')} AS e"
               " ORDER BY e.is_gone DESC, e.is_own DESC")
        for is_gone, is_own, *row in self.database.stream(limited(sql, most)):
            change = goes if is_gone == "1" else "keep" if is_own == "1" else "other"
            key = json.dumps([row[plan.table.place(name)] for name in plan.key_names()], ensure_ascii=False)
            yield change, key, [(name, cell, None) for name, cell in zip(names, row)]


Row = tuple[str, str, list[tuple[str, str | None, str | None]]]  # what is done, key; name, before and after of cells


def limited(sql: str, most: int | None) -> str:
    """A query that stops after some rows."""
    return sql if most is None else f"{sql} LIMIT {most}"


def key_of(plan: TablePlan, cells: Cells) -> str:
    """The key of a row of the target."""
    places = range(len(plan.columns)) if plan.key is None else plan.key
    return json.dumps([cells[place] for place in places], ensure_ascii=False)


def quoted(cell: str | None) -> str:
    """A value in a sample, cut if it is long."""
    return "NULL" if cell is None else shown(cell if len(cell) <= 60 else cell[:60] + "..")
