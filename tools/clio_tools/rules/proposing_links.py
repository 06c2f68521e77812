"""What `--propose` says of refs of the target that no line fills, as comments: from which sets they could be, by which
ways, and where the rows of a set of nothing but refs could come from."""
from typing import Iterator

from ..mapping.schema import Link, Table
from .proposing import Proposing
from .ways import spelled

MOST = 6  # lines that are proposed for a ref


def link_choices(proposing: Proposing, table: Table) -> Iterator[str]:
    """For each ref that could go several ways, the lines from which one is to be chosen; the only way needs no line."""
    for link in _open_links(proposing, table):
        of = f"{table.name}.{table.columns[link.own[0]]}"
        for start in proposing.starts[table.number]:
            lines = [f"line {goal} -> {of}{' by ' + spelled(way) if way else ''};"
                     for goal in proposing.starts[link.table] for way in proposing.walks(start, goal)]
            if len(lines) > 1:
                more = " or another" if len(lines) > MOST else ""
                yield f"// choose for {of} of each {start}: {' or '.join(lines[:MOST])}{more}"


def rows_of_links(proposing: Proposing, table: Table) -> Iterator[str]:
    """For a set that no line fills, the `rows` from the sets that lead to all to which its refs do; from those that
    make no rows yet, if there are such."""
    lines = [line for line in proposing.drawing.tree.lines if line.target.set.text == table.name]
    goals = [proposing.starts[link.table] for link in _open_links(proposing, table)]
    if lines or not goals or not all(goals):
        return
    found = [one.name for one in proposing.drawing.source.tables
             if all(any(proposing.walks(one.name, goal) for goal in some) for some in goals)]
    used = {name for starts in proposing.starts.values() for name in starts}
    found = [name for name in found if name not in used] or found
    for name in found:
        if not any(other != name and proposing.walks(name, other) for other in found):
            yield f"// rows {table.name} from {name};"


def _open_links(proposing: Proposing, table: Table) -> list[Link]:
    """The refs that no line from a column fills."""
    filled = {line.target.column.text for line in proposing.drawing.tree.lines if line.target.set.text == table.name}
    return [link for link in table.links
            if not link.is_up and not any(table.columns[column] in filled for column in link.own)]
