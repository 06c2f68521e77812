"""Reduces to a core what is left to look at: the rows with open nulls are fetched, and the proved reduction of `clio
exchange --core` decides.

A part of the rows, whole blocks of them, becomes the conclusions of rules, in which the open nulls are existential
variables; the rows to which these can go are copied by other rules. In both a constant and a null that stays are
texts. What clio folds is put into the tables.
"""
import pathlib
import subprocess
import tempfile
from collections.abc import Iterable, Iterator, Sequence
from dataclasses import dataclass, field
from typing import NamedTuple

from clio_tools.csv import read_table, write_table
from clio_tools.program import Refused, program
from clio_tools.sql.chase import Chase
from clio_tools.sql.rigid import Rigid, is_open, key_columns, same_key
from clio_tools.sql.stars import Part, at_home
from clio_tools.sql.tables import SHIFT, Heads, Table
from clio_tools.sql.work import Row

ROWS = 200_000  # no more rows are fetched
BLOCK_ROWS = 64  # clio takes no more tables in a rule
WIDTH = 60  # no source table of the mapping for clio has more columns
TABLES = 60  # nor has it more of them

Value = str  # c and a constant, or n and the number of a null that stays


class OpenRow(NamedTuple):
    """A row of a table, by the table's number: each cell is a value or an open null."""
    table: int
    cells: tuple[Value | int, ...]


class Rest(NamedTuple):
    """What the reduction looked at, and what it left out and why."""
    rows: int = 0
    blocks: int = 0
    left_rows: int = 0
    left_blocks: int = 0
    why: str = ""

    def told(self) -> str:
        """What is said of it."""
        if self.left_rows:
            return f"core except for {self.left_rows} rows in {self.left_blocks} blocks: {self.why}"
        return f"a core: {self.rows} rows in {self.blocks} blocks were reduced by clio" if self.rows else "a core"


class Shape(NamedTuple):
    """The form of a block: its rows, in which a cell is the number of a value, or that of a null less one, negated."""
    rows: tuple[tuple[int, tuple[int, ...]], ...]


@dataclass
class Block:
    """Rows that hang together by open nulls: their form, and the values and nulls in it."""
    shape: Shape
    values: tuple[Value, ...]
    nulls: tuple[int, ...]


def block_of(rows: Iterable[OpenRow]) -> Block:
    """A block of its rows."""
    ordered = sorted(rows, key=lambda row: (row.table, [cell if isinstance(cell, str) else "" for cell in row.cells],
                                            [cell for cell in row.cells if isinstance(cell, int)]))
    values: list[Value] = []
    nulls: dict[int, int] = {}
    form = []
    for row in ordered:
        cells = []
        for cell in row.cells:
            if isinstance(cell, str):
                cells.append(len(values))
                values.append(cell)
            else:
                cells.append(-1 - nulls.setdefault(cell, len(nulls)))
        form.append((row.table, tuple(cells)))
    return Block(Shape(tuple(form)), tuple(values), tuple(nulls))


def blocks_of(rows: Sequence[OpenRow]) -> list[list[OpenRow]]:
    """The rows in blocks."""
    leader: dict[int, int] = {}

    def found(null: int) -> int:
        while leader.setdefault(null, null) != null:
            leader[null] = null = leader[leader[null]]
        return null

    for row in rows:
        nulls = [cell for cell in row.cells if isinstance(cell, int)]
        for null in nulls:
            one, other = sorted((found(nulls[0]), found(null)))
            leader[other] = one
    blocks: dict[int, list[OpenRow]] = {}
    for row in rows:
        blocks.setdefault(found(next(cell for cell in row.cells if isinstance(cell, int))), []).append(row)
    return [blocks[null] for null in sorted(blocks)]


@dataclass
class Pass:
    """What clio reduces at once: blocks by their shapes, each list of values once, with the rows to which they can
    go."""
    shapes: dict[Shape, dict[tuple[Value, ...], Block]] = field(default_factory=dict)
    twins: list[tuple[Block, Block]] = field(default_factory=list)  # blocks that say what another one says

    def add(self, block: Block) -> None:
        """Puts a block to the others."""
        first = self.shapes.setdefault(block.shape, {}).setdefault(block.values, block)
        if first is not block:
            self.twins.append((block, first))

    def tables(self) -> int:
        """How many source tables its shapes take."""
        return sum(len(chunks(shape)) for shape in self.shapes)


def chunks(shape: Shape) -> list[range]:
    """The numbers of a shape's values, in parts that a table takes."""
    count = 1 + max((cell for _, cells in shape.rows for cell in cells), default=-1)
    return [range(start, min(start + WIDTH, count)) for start in range(0, max(count, 1), WIDTH)]


class Program:
    """A mapping and files on which clio reduces."""

    def __init__(self, widths: dict[int, int], one: Pass, fixed: Sequence[OpenRow]) -> None:
        self.widths, self.one, self.fixed = widths, one, fixed

    def fold(self) -> dict[int, Value | int]:
        """What the open nulls of the blocks became, of those that went."""
        with tempfile.TemporaryDirectory(prefix="clio-sql-") as name:
            folder = pathlib.Path(name)
            (folder / "mapping.clio").write_text(self.mapping(), encoding="utf-8")
            self.write(folder)
            ended = subprocess.run([program(), "exchange", "--core"], cwd=folder, stdin=subprocess.DEVNULL,
                                   capture_output=True, check=False)
            if ended.returncode:
                raise Refused(f"clio doesn't reduce the rest: {ended.stderr.decode(errors='replace').strip()}")
            nulls = self.nulls()
            found: dict[int, Value | int] = {}
            for null, value in read_table(folder / "out" / "fold.csv", ["null", "value"]):
                found[nulls[null]] = nulls[value] if value.startswith("?") else value
        for twin, first in self.one.twins:
            found.update({null: found.get(other, other) for null, other in zip(twin.nulls, first.nulls)})
        return found

    def nulls(self) -> dict[str, int]:
        """The open nulls by the names that clio gives them."""
        names = {}
        for rule, (_, blocks) in enumerate(self.one.shapes.items(), len(self.widths)):
            for place, values in enumerate(sorted(blocks, key=lambda values: [value.encode() for value in values])):
                for variable, null in enumerate(blocks[values].nulls):
                    names[f"?{rule}.{variable}.{place}"] = null
        return names

    def mapping(self) -> str:
        """The text of the mapping."""
        wide = {table: ", ".join(f"a{place}" for place in range(width)) for table, width in self.widths.items()}
        sets = [f"set f{table} {{ {columns}; }}" for table, columns in wide.items()]
        rules = [f"rule f{table}({columns}) -> t{table}({columns});" for table, columns in wide.items()]
        for number, shape in enumerate(self.one.shapes):
            parts = [["b", *(f"k{value}" for value in chunk)] for chunk in chunks(shape)]
            sets += [f"set s{number}_{part} {{ {', '.join(columns)}; }}" for part, columns in enumerate(parts)]
            premise = ", ".join(f"s{number}_{part}({', '.join(columns)})" for part, columns in enumerate(parts))
            rules.append(f"rule {premise} -> {', '.join(atom(*row) for row in shape.rows)};")
        target = "\n".join(f"set t{table} {{ {columns}; }}" for table, columns in wide.items())
        return "mapping 1;\nsource {\n%s\n}\ntarget {\n%s\n}\n%s\n" % ("\n".join(sets), target, "\n".join(rules))

    def write(self, folder: pathlib.Path) -> None:
        """The source files."""
        for table, width in self.widths.items():
            rows = [[cell if isinstance(cell, str) else f"n{cell}" for cell in row.cells]
                    for row in self.fixed if row.table == table]
            write_table(folder / f"f{table}.csv", [f"a{place}" for place in range(width)], rows)
        for number, (shape, blocks) in enumerate(self.one.shapes.items()):
            for part, chunk in enumerate(chunks(shape)):
                rows = [[str(block), *(values[value] for value in chunk)] for block, values in enumerate(blocks)]
                write_table(folder / f"s{number}_{part}.csv", ["b", *(f"k{value}" for value in chunk)], rows)


def atom(table: int, cells: tuple[int, ...]) -> str:
    """A row of a shape as a rule says it."""
    return f"t{table}({', '.join(f'k{cell}' if cell >= 0 else f'y{-1 - cell}' for cell in cells)})"


class Reducer:
    """Reduces what a search for nulls that stay left open."""

    def __init__(self, rigid: Rigid, chase: Chase, heads: Heads) -> None:
        self.rigid, self.chase, self.heads, self.work = rigid, chase, heads, rigid.work

    def run(self) -> Rest:
        """Fetches, has clio reduce, and puts what it folds into the tables."""
        rows, blocks = self.rigid.left()
        if not rows:
            return Rest()
        if rows > ROWS:
            return Rest(0, 0, rows, blocks, f"of more than {ROWS} rows none is fetched")
        opened, closed = self.fetched()
        if len(opened) + len(closed) > ROWS:
            return Rest(0, 0, rows, blocks, f"they can go to more than {ROWS} rows")
        with self.work.step("reducing by clio"):
            fold, rest = self.reduced(opened, closed)
        if fold:
            self.chase.apply(self.part(fold), None)
        return rest

    def fetched(self) -> tuple[list[OpenRow], list[OpenRow]]:
        """The rows with open nulls, and those without to which they may go."""
        opened: list[OpenRow] = []
        closed: list[OpenRow] = []
        for number, table in enumerate(self.rigid.tables):
            name, opens = self.rigid.marked(table), self.rigid.opens(table)
            some = " OR ".join(map(is_open, opens))
            columns = self.columns(table)
            opened += self.rows(number, table, f"SELECT {columns} FROM {name} AS r WHERE {some} LIMIT {ROWS + 1}")
            for hidden in self.rigid.forms(table, name):
                shown = [place for place in range(len(table.columns)) if place not in hidden]
                key = ", ".join(key_columns(table, shown)) or "1 AS one"
                these = f"SELECT DISTINCT {key} FROM {name} WHERE {self.rigid.is_form(table, hidden)}"
                none = " AND ".join(f"NOT {is_open(place, 'r.')}" for place in opens)
                same = same_key(table, shown, "r", "o")
                query = f"SELECT {columns} FROM {name} AS r JOIN ({these}) AS o ON {same} WHERE {none}"
                closed += self.rows(number, table, f"{query} LIMIT {ROWS + 1}")
        return opened, sorted(set(closed))

    def columns(self, table: Table) -> str:
        """For each column of marked rows its constant, its null, and its null if that stays."""
        opens, shown = self.rigid.opens(table), []
        for place, cell in enumerate(table.cells):
            null = f"r.o{place}" if cell.heads else "NULL"
            shown += [f"r.c{place}" if cell.texts else "NULL", null, f"r.k{place}" if place in opens else null]
        return ", ".join(shown)

    def rows(self, number: int, table: Table, query: str) -> Iterator[OpenRow]:
        """The rows that a query for these columns answers."""
        for row in self.work.engine.rows(query, []):
            thirds = [row[place:place + 3] for place in range(0, 3 * len(table.columns), 3)]
            yield OpenRow(number, tuple(f"c{c}" if o is None else o if k is None else f"n{o}" for c, o, k in thirds))

    def reduced(self, opened: Sequence[OpenRow], closed: Sequence[OpenRow]) -> tuple[dict[int, Value | int], Rest]:
        """What nulls become, pass by pass."""
        widths = {number: len(table.columns) for number, table in enumerate(self.rigid.tables)}
        if len(widths) > TABLES // 2:
            return {}, Rest(0, 0, len(opened), len(blocks_of(opened)), f"they are in more than {TABLES // 2} tables")
        blocks = blocks_of(opened)
        small = [rows for rows in blocks if len(rows) <= BLOCK_ROWS]
        fold: dict[int, Value | int] = {}
        for one in passes([block_of(rows) for rows in small], TABLES - len(widths)):
            here = {null for shape in one.shapes.values() for block in shape.values() for null in block.nulls}
            here |= {null for twin, _ in one.twins for null in twin.nulls}
            others = [row for row in moved(opened, fold) if not any(cell in here for cell in row.cells)]
            fold.update(Program(widths, one, sorted({*others, *closed}, key=repr)).fold())
        left = [rows for rows in blocks if len(rows) > BLOCK_ROWS]
        why = f"a block has more than {BLOCK_ROWS} rows" if left else ""
        return fold, Rest(sum(map(len, small)), len(small), sum(map(len, left)), len(left), why)

    def part(self, fold: dict[int, Value | int]) -> Part:
        """The part of the nulls that went."""
        rows: list[Row] = []
        for null, value in fold.items():
            is_text = isinstance(value, str) and value[0] == "c"
            number = value if isinstance(value, int) else int(value[1:]) if not is_text else None
            rows.append((null, number, str(value)[1:] if is_text else None))
        table = self.work.name("gone")
        self.work.engine.load(table, ["u bigint", "n bigint", f"c text{self.work.words.by_bytes}"], rows)
        after = {row[1] // SHIFT for row in rows if row[1] is not None}
        has_texts = any(row[2] is not None for row in rows)
        return Part(at_home(self.work, table), {row[0] // SHIFT for row in rows}, after, has_texts)


def passes(blocks: Iterable[Block], tables: int) -> Iterator[Pass]:
    """The blocks in parts that clio takes, by how many source tables it takes of them."""
    one = Pass()
    for block in blocks:
        if block.shape not in one.shapes and one.shapes and one.tables() + len(chunks(block.shape)) > tables:
            yield one
            one = Pass()
        one.add(block)
    if one.shapes:
        yield one


def moved(rows: Iterable[OpenRow], fold: dict[int, Value | int]) -> Iterator[OpenRow]:
    """The rows with what their nulls became."""
    for row in rows:
        yield OpenRow(row.table, tuple(fold.get(cell, cell) if isinstance(cell, int) else cell for cell in row.cells))
