"""The target that SQL makes of a random drawing, as files for `clio judge`: what SQL leaves open is a null of its own,
or of the row in which a link is looked up; a ref that isn't optional and leads nowhere asks for a row of nulls."""
import pathlib
from typing import Optional

from drawing_random import Random, Target, Value
from drawing_trial import Table, records, source_base

Cell = Optional[str]


class Unjudged(Exception):
    """What the names of the columns of a looked-up set would depend on the order of lines."""


class Given:
    """The tables of the target, with nulls."""

    def __init__(self, one: Random, folder: pathlib.Path, wanted: dict[str, Table]) -> None:
        self.one, self.folder, self.wanted, base = one, folder, wanted, source_base(folder)
        self.rows: dict[str, dict[str, dict[str, str]]] = {}
        for name in one.sets:
            cursor = base.execute(f"SELECT * FROM {name}")
            head = [each[0] for each in cursor.description]
            self.rows[name] = {row[0]: dict(zip(head, row)) for row in cursor}
        self.nulls: dict[tuple[str, ...], str] = {}
        self.held: dict[str, dict[str, Value]] = {}  # the columns of sets that are looked up
        self.tables: dict[str, list[list[str]]] = {}

    def null(self, *what: str) -> str:
        """The null of a thing."""
        return self.nulls.setdefault(what, f"?0.0.{len(self.nulls)}")

    def files(self) -> dict[str, str]:
        """All files."""
        for target in self.one.targets:
            names = target.names()
            self.tables.setdefault(target.name, []).insert(0, names)
            for row in self.wanted[target.name]:
                self.tables[target.name].append(self.row(target, dict(zip(names[1:], row))) if target.has_key
                                                else [cell or "" for cell in row])
        self.look_up()
        return {f"given/{name}.csv": "".join(",".join(cell or '""' for cell in row) + "\n" for row in table)
                for name, table in self.tables.items()}

    # --- target sets -------------------------------------------------------------------------------------------------

    def row(self, target: Target, row: dict[str, Cell]) -> list[str]:
        """A row of a target set; its `no` is the id of its source row."""
        key = row["no"] or ""
        made = [self.null(target.name, key), key]
        for column, value in target.columns.items():
            looked = self.looks(target.start, value, [*target.musts, *(steps for steps, _ in target.tests)])
            at_end = self.looked(looked[0], self.rows[target.start][key][looked[1]], looked[2]) if looked else None
            cell = row[column]
            made.append(cell if cell is not None else at_end or self.null(target.name, key, column))
        for column, other in target.links.items():
            made.append(self.linked(target, key, column, other, row[column]))
        return made

    def linked(self, target: Target, key: str, column: str, other: str, cell: Cell) -> str:
        """A link to a row; if there is none, to a row of nulls, or to none if the ref is optional."""
        if cell is not None:
            return self.null(other, cell)
        null = self.null(target.name, key, column)
        if column in target.required:
            self.asked(next(each for each in self.one.targets if each.name == other), null)
        return null

    def asked(self, target: Target, surrogate: str) -> None:
        """A row of nulls with a surrogate key."""
        made = [surrogate, *(self.null(target.name, surrogate, column) for column in ["no", *target.columns])]
        made += [self.linked(target, surrogate, column, other, None) for column, other in target.links.items()]
        self.tables.setdefault(target.name, []).append(made)

    # --- sets that are looked up -------------------------------------------------------------------------------------

    def looks(self, start: str, value: Value, needed: list[list[str]]) -> Optional[tuple[str, str, Value]]:
        """In which set a value is looked up, by which ref of the row, and what of the row there it is."""
        steps = [each[0] for each, _ in value.taken if each]
        if value.tests or len(steps) < len(value.taken) or len(set(steps)) > 1:
            return None
        end = dict(self.one.refs[start])[steps[0]]
        if end not in self.one.looked_up or any(must[0] == steps[0] for must in needed if must):
            return None
        rest = Value(value.conversion, [(each[1:], column) for each, column in value.taken])
        if value.conversion == "pair":
            raise Unjudged
        held, (ways, column) = self.held.setdefault(end, {}), rest.taken[0]
        name = "_".join([*ways, column] + [rest.conversion] * bool(rest.conversion))
        name = "id_" if name == "id" else name
        if name not in held:
            held[name] = rest
        return end, steps[0], rest

    def looked(self, name: str, key: str, value: Value) -> str:
        """What the row with a key of a looked-up set has."""
        row = self.rows[name].get(key)
        further = self.looks(name, value, [])
        if row and further:
            return self.looked(further[0], row[further[1]], further[2])
        text = self.found(name, row, value) if row else None
        return text if text is not None else self.null("lookup", name, key, str(value))

    def found(self, name: str, row: dict[str, str], value: Value) -> Cell:
        """The text to which ways lead from a row."""
        steps, column = value.taken[0]
        for step in steps:
            name = dict(self.one.refs[name])[step]
            there = self.rows[name].get(row[step])
            if there is None:
                return None
            row = there
        return row[column].strip() if value.conversion else row[column]

    def look_up(self) -> None:
        """The tables of the sets that are looked up: for each row of the source, and for each key that is asked."""
        asked: dict[str, set[str]] = {}
        for target in [target for target in self.one.targets if target.has_key]:
            for value in target.columns.values():
                looked = self.looks(target.start, value, [*target.musts, *(steps for steps, _ in target.tests)])
                if looked:
                    asked.setdefault(looked[0], set()).update(
                        self.rows[target.start][row[0] or ""][looked[1]] for row in self.wanted[target.name])
        known = 0
        while known < sum(map(len, self.held.values())):  # which grows by what is looked up from there
            known = sum(map(len, self.held.values()))
            for name, columns in list(self.held.items()):
                for value in list(columns.values()):
                    looked = self.looks(name, value, [])
                    if looked:
                        asked.setdefault(looked[0], set()).update(row[looked[1]] for row in self.rows[name].values())
        for name, columns in self.held.items():
            keys = sorted(self.rows[name].keys() | asked.get(name, set()))
            head = records(self.folder / "out" / f"lookup_{name}.csv")[0]  # the order of lines is the tool's
            listed = sorted(columns, key=lambda column: head.index(column) if column in head else len(head))
            self.tables["lookup_" + name] = [["id", *listed]] + [
                [key, *(self.looked(name, key, columns[column]) for column in listed)] for key in keys]
