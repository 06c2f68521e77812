"""The tables' own numbers: with `--identity` surrogate keys have these in place of the crosswalk's, which keeps them.

A domain is a column of surrogate keys, with the columns that refs of the mapping or foreign keys link to it. A thing
without a value yet gets that of the row which another key of its own leads to, or else the next one.
"""
from __future__ import annotations

from collections.abc import Iterator
from typing import NamedTuple

from clio_tools.ids.crosswalk import Crosswalk
from clio_tools.ids.given import given_values, keep_values
from clio_tools.ids.keys import home_columns
from clio_tools.load.catalog import INTEGER, NUMBER
from clio_tools.load.database import Database, identifier
from clio_tools.load.plan import Plan, TablePlan
from clio_tools.mapping.text import Set


class Domain(NamedTuple):
    """A column of surrogate keys, by its place among the loaded ones, and all columns with its values."""

    number: int
    home: TablePlan
    place: int
    members: list[tuple[TablePlan, int]]

    @property
    def work(self) -> str:
        """The work table with the numbers and values of the domain."""
        return f"clio_given{self.number}"

    @property
    def names(self) -> tuple[str, str]:
        """The names of the set and its column."""
        return self.home.set.name, self.home.set.columns[self.home.columns[self.place][0]]


class Identity:
    """Puts the database's values in the places of the crosswalk's numbers."""

    def __init__(self, database: Database, plan: Plan, sets: list[Set], crosswalk: Crosswalk) -> None:
        self.database, self.crosswalk = database, crosswalk
        self.domains: list[Domain] = []
        for home in plan.tables:
            homes = home_columns(home.set, sets)
            for place, (column_place, column) in enumerate(home.columns):
                if (column.kind in (INTEGER, NUMBER) and place in home.numbered
                        and home.set.columns[column_place] in homes):
                    members = linked(plan, sets, (home.set.name, home.set.columns[column_place]))
                    self.domains.append(Domain(len(self.domains), home, place, members))
        for domain in self.domains:
            for one, place in domain.members:
                one.numbered = [each for each in one.numbered if each != place]
                one.is_translated = True

    def translate(self, is_dry: bool) -> None:
        """Puts values into the staged tables, those of tables first to which others refer."""
        for domain in self.domains:
            self.database.run(f"CREATE TEMP TABLE {domain.work} (number bigint, value bigint, is_new integer)")
            self.database.insert(domain.work, ((str(number), str(value), "0") for number, value
                                               in given_values(self.crosswalk, *domain.names)))
            for key in domain.home.keys:
                if domain.place not in key:
                    self.database.run(self.read_back(domain, key))
            self.database.run(self.next_values(domain, is_dry))
            for one, place in domain.members:
                self.database.run(f"UPDATE {one.work('new')} AS n SET c{place} = g.value FROM {domain.work} AS g"
                                  f" WHERE n.c{place} = g.number")

    def read_back(self, domain: Domain, key: list[int]) -> str:
        """Takes the values of rows to which another key leads."""
        home = domain.home
        name = identifier(home.loaded[domain.place].name)
        equal = " AND ".join(f"t.{identifier(home.loaded[place].name)} = n.c{place}" for place in key)
        return (f"INSERT INTO {domain.work} (number, value, is_new) SELECT n.c{domain.place}, min(t.{name}), 1"
                f" FROM {home.work('new')} AS n JOIN {home.table.sql} AS t ON {equal}"
                f" LEFT JOIN {domain.work} AS g ON g.number = n.c{domain.place}"
                f" LEFT JOIN {domain.work} AS v ON v.value = t.{name}"
                f" WHERE g.number IS NULL AND v.value IS NULL GROUP BY n.c{domain.place}")

    def doubtful(self, plan: TablePlan) -> str | None:
        """A condition on changed rows `n` that are matched by a value of the crosswalk's: nothing else says that the
        row which has it is the same thing. Nothing for a table that isn't matched so."""
        domain = next((one for one in self.domains if one.home is plan and one.place in (plan.key or [])), None)
        if domain is None:
            return None
        name = identifier(plan.loaded[domain.place].name)
        known = f"n.c{domain.place} IN (SELECT g.value FROM {domain.work} AS g WHERE g.is_new = 0)"
        same = [" AND ".join(f"t.{identifier(plan.loaded[place].name)} = n.c{place}" for place in key)
                for key in plan.keys if domain.place not in key]
        test = " OR ".join(f"({one})" for one in same) or "1 = 0"
        return (f"{known} AND NOT EXISTS (SELECT 1 FROM {plan.table.sql} AS t WHERE t.{name} = n.c{domain.place}"
                f" AND ({test}))")

    def next_values(self, domain: Domain, is_dry: bool) -> str:
        """Gives new values to the things that have none."""
        home = domain.home
        value = self.database.next_value(home, home.loaded[domain.place], domain.work, is_dry)
        return (f"INSERT INTO {domain.work} (number, value, is_new) SELECT a.number, {value}, 1"
                f" FROM (SELECT f.number, row_number() OVER (ORDER BY f.number) AS place FROM"
                f" (SELECT DISTINCT n.c{domain.place} AS number FROM {home.work('new')} AS n) AS f"
                f" LEFT JOIN {domain.work} AS g ON g.number = f.number"
                " WHERE g.number IS NULL AND f.number IS NOT NULL) AS a ORDER BY a.number")

    def keep(self) -> None:
        """Has the crosswalk keep the new values."""
        for domain in self.domains:
            rows = self.database.rows(f"SELECT number, value FROM {domain.work} WHERE is_new = 1 ORDER BY number")
            if rows:
                keep_values(self.crosswalk, *domain.names, ((int(number or 0), int(value or 0)) for number,
                                                            value in rows))


def linked(plan: Plan, sets: list[Set], home: tuple[str, str]) -> list[tuple[TablePlan, int]]:
    """The loaded columns that refs or foreign keys link to a column, with itself."""
    pairs = [((one.name, own), (other, referred)) for one in sets for columns, other, listed in one.links
             + one.optional_refs
             for own, referred in zip(columns, listed)]
    pairs += foreign_pairs(plan)
    found = {home}
    while more := {one for pair in pairs for one in pair if found & set(pair)} - found:
        found |= more
    return [(one, number) for one in plan.tables for number, (place, _) in enumerate(one.columns)
            if (one.set.name, one.set.columns[place]) in found]


def foreign_pairs(plan: Plan) -> Iterator[tuple[tuple[str, str], tuple[str, str]]]:
    """The pairs of loaded columns that foreign keys link."""
    for key in plan.foreign_keys:
        child, parent = plan.by_sql(key.child), plan.by_sql(key.parent)
        if child is None or parent is None:
            continue
        for own, referred in zip(key.columns, key.referred):
            place, other = child.place_of(own), parent.place_of(referred)
            if place is not None and other is not None:
                yield ((child.set.name, child.set.columns[child.columns[place][0]]),
                       (parent.set.name, parent.set.columns[parent.columns[other][0]]))
