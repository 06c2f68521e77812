"""Which number a null gets: that of the thing which had one of its names, or else a new one.

If a null's own row (the null is itself a key there, or is referred to) has another key of texts, that alone decides: in
a key, the number of a thing stands for its null. Tables come in the order of their refs, and a null's own row is that
of the first table that has such a key; in it the first key that leads to a number decides. A null without an own row of
this kind is known by the keys of the rows in which it stands; one that has none of these either by its rule, its
variable and the values that nulls.csv has, and by those of all nulls that keys, or core mode, replaced by it.

A name that comes later may still lead to a number that never had a surer one: what was known by a rule alone keeps its
number when its key becomes known. No other number ever changes its thing.
"""
from array import array
from collections.abc import Iterator

from clio_tools.ids.crosswalk import Change, Crosswalk, Kind
from clio_tools.ids.keys import Column, Rows, TextOfRow
from clio_tools.ids.nulls import NONE, Marks
from clio_tools.ids.sureness import LED, OTHER, OWN, RULE
from clio_tools.ids.target import Target
from clio_tools.mapping.text import in_order_of_links

SHOWN = 10  # changes that are told

Name = tuple[int, str, int, int]  # kind, text, null, what it is


class Naming:
    """Gives each null of a target its number; `is_written` marks those that are written as numbers."""

    def __init__(self, target: Target, crosswalk: Crosswalk, is_written: bytearray) -> None:
        self.target, self.crosswalk, self.is_written = target, crosswalk, is_written
        count = target.nulls.count
        self.numbers = array("q", [0]) * count  # 0 as long as a null has none
        self.ranks = bytearray(count)  # what the surest name is
        self.homes = array("i", [NONE]) * count  # the table of the own row
        self.taken, self.known, self.new = Marks(), 0, 0
        self.new_numbers = crosswalk.new_numbers()
        self.is_told = False
        self.kinds: dict[tuple[str, int, tuple[int, ...]], int] = {}
        known = self.numbers.__getitem__
        self.rows = [Rows(table, target.tables, cells, known) for table, cells in zip(target.tables, target.cells)]
        self.order = [target.tables.index(table) for table in in_order_of_links(target.tables)]
        self.by_keys()
        self.by_rules()
        crosswalk.number(self.numbers, is_written)

    def by_keys(self) -> None:
        """Names by keys, until none leads further: first by those of own rows, then by those of others."""
        is_first = True
        while True:
            before = self.known + self.new
            for place in self.order:
                self.by_own_rows(place)
            for place in self.order:
                self.by_other_rows(place, is_first)
            if before == self.known + self.new:
                return
            is_first = False

    def by_own_rows(self, place: int) -> None:
        """Numbers for nulls whose own row is in a table and has a key of texts."""
        rows, ways = self.rows[place], []
        for column in rows.homes:
            keys = [key for key in rows.keys if column.place not in key.places]
            if keys and any(null != NONE and not self.numbers[null] for null in column.cells):
                ways.append((column, [(self.kind(rows, column, key.places), key.text) for key in keys]))
        if ways:
            since = self.crosswalk.ask(self.own_names(place, ways))
            self.decide(since, [kind for _, keys in ways for kind, _ in keys], OWN)

    def own_names(self, place: int, ways: list[tuple[Column, list[tuple[int, TextOfRow]]]]) -> Iterator[Name]:
        """The names by keys of own rows."""
        numbers, homes, cells = self.numbers, self.homes, [column.cells for column, _ in ways]
        for number, row in enumerate(self.target.rows(self.target.tables[place])):
            for (_, keys), nulls in zip(ways, cells):
                null = nulls[number]
                if null == NONE or numbers[null]:
                    continue
                for kind, text_of in keys:
                    text = text_of(number, row)
                    if text is not None:
                        homes[null] = place
                        yield kind, text, null, OWN

    def by_other_rows(self, place: int, is_first: bool) -> None:
        """Numbers for nulls that stand in rows of a table with a key of texts, and have no such row of their own."""
        rows = self.rows[place]
        columns = [column for column in rows.columns if self.is_looked_at(place, column, is_first)]
        if not columns:
            return
        owners = [column for column in rows.homes if column.is_key]
        is_of_one = len(owners) == 1 and all(null != NONE and self.numbers[null] for null in owners[0].cells)
        names = (self.names_by_owner(place, columns, owners[0], is_first) if is_of_one
                 else self.names_by_texts(place, columns, is_first))
        before = self.crosswalk.ask(names)
        self.decide(before, [kind for (name, _, _), kind in self.kinds.items() if name == rows.table.name], OTHER)

    def is_looked_at(self, place: int, column: Column, is_first: bool) -> bool:
        """Whether a column has a null whose name by another row is wanted."""
        return any(null != NONE and self.sureness(place, column, null, is_first) for null in column.cells)

    def sureness(self, place: int, column: Column, null: int, is_first: bool) -> int:
        """What a name by another row is for a null: OTHER if it has no number, LED if the number is another thing's, or
        0 if none is wanted.
        """
        if not self.numbers[null]:
            return OTHER
        if not is_first:
            return 0
        if self.ranks[null] == OTHER:
            return OTHER
        return LED if self.is_written[null] and not (column.is_home and self.homes[null] == place) else 0

    def names_by_owner(self, place: int, columns: list[Column], owner: Column, is_first: bool) -> Iterator[Name]:
        """The names of nulls in rows that are each a thing's own: by its number."""
        for column in columns:
            kind = self.kind(self.rows[place], column, (owner.place,)) if column is not owner else 0
            for null, one in zip(column.cells, owner.cells) if kind else ():
                if null != NONE and (sureness := self.sureness(place, column, null, is_first)):
                    yield kind, f"[{self.numbers[one]}]", null, sureness

    def names_by_texts(self, place: int, columns: list[Column], is_first: bool) -> Iterator[Name]:
        """The names of nulls by the keys of their rows: by the numbers of things whose own row it is, or else by all
        keys of texts.
        """
        rows = self.rows[place]
        ways = [(column, [(self.kind(rows, column, key.places), key) for key in rows.keys
                          if column.place not in key.places]) for column in columns]
        for number, row in enumerate(self.target.rows(rows.table)):
            owners = self.owners(rows, number)
            for column, keys in ways:
                null = column.cells[number]
                sureness = 0 if null == NONE else self.sureness(place, column, null, is_first)
                others = owners - {(column.place,)} if sureness else owners
                for kind, key in keys if sureness else ():
                    if not others or key.places in others:
                        text = key.text(number, row)
                        if text is not None:
                            yield kind, text, null, sureness

    def owners(self, rows: Rows, number: int) -> set[tuple[int, ...]]:
        """The keys of a row that are a null with a number: the row is that thing's own."""
        return {(column.place,) for column in rows.homes
                if column.is_key and (null := column.cells[number]) != NONE and self.numbers[null]}

    def kind(self, rows: Rows, column: Column, key: tuple[int, ...]) -> int:
        """The number of a kind of names."""
        place = rows.table.name, column.place, key
        if place not in self.kinds:
            self.kinds[place] = self.crosswalk.kind(rows.kind(column.place, key), column.is_key)
        return self.kinds[place]

    def decide(self, since: int, kinds: list[int], rank: int) -> None:
        """Gives numbers to the nulls whose names were asked after a number: known ones, or else new ones."""
        for kind in kinds:
            for null, number in self.crosswalk.found(since, kind, rank):
                if not self.numbers[null] and self.taken.add(number):
                    self.give(null, number, rank)
        if self.crosswalk.has_hints:
            self.by_hints({null for null, in self.crosswalk.asked(since, rank) if not self.numbers[null]}, rank)
        for null, in self.crosswalk.asked(since, rank):
            if not self.numbers[null]:
                self.give_new(null, rank)

    def give(self, null: int, number: int, rank: int) -> None:
        """Gives a null a number that is known."""
        self.numbers[null], self.ranks[null] = number, rank
        self.known += 1

    def give_new(self, null: int, rank: int) -> None:
        """Gives a null a new number."""
        self.numbers[null], self.ranks[null] = next(self.new_numbers), rank
        self.new += 1

    def by_hints(self, nulls: set[int], rank: int) -> None:
        """Gives nulls the numbers that their later names lead to."""
        if not nulls:
            return
        self.tell()
        for null, number, sureness, *_ in self.crosswalk.hints():
            if null in nulls and not self.numbers[null] and sureness > rank and self.taken.add(number):
                self.give(null, number, rank)
                self.crosswalk.raised(number, rank == OWN)

    def tell(self) -> None:
        """Looks up all later names of the nulls that have no number yet: by keys of rows, and by rules."""
        if self.is_told:
            return
        self.is_told = True
        for kind in self.crosswalk.hinting():
            self.crosswalk.hint(self.hints_of(kind))
        wanted = bytearray(not number for number in self.numbers)
        self.crosswalk.tell(self.target.terms(wanted))
        self.crosswalk.tell(self.target.folded_terms(self.crosswalk.base, wanted))

    def hints_of(self, kind: Kind) -> Iterator[tuple[int, str, int]]:
        """The names of a kind that nulls without a number have."""
        place = next((place for place, rows in enumerate(self.rows) if rows.table.name == kind.set), None)
        if place is None or not {kind.column, *kind.key} <= set(self.rows[place].table.columns):
            return
        rows = self.rows[place]
        key = next((key for key in rows.keys if rows.kind(0, key.places).key == kind.key), None)
        cells = rows.cells[rows.table.columns.index(kind.column)]
        if key is None or not any(null != NONE and not self.numbers[null] for null in cells):
            return
        for number, row in enumerate(self.target.rows(rows.table)):
            null = cells[number]
            if null != NONE and not self.numbers[null] and (text := key.text(number, row)) is not None:
                yield self.crosswalk.kinds[kind], text, null

    def by_rules(self) -> None:
        """Numbers for the nulls that no key of texts names."""
        if all(self.numbers):
            return
        self.tell()
        for null, number, rank, *_ in self.crosswalk.hints():
            if not self.numbers[null] and rank >= RULE and self.taken.add(number):
                self.give(null, number, rank)
        for null, number in enumerate(self.numbers):
            if not number:
                self.give_new(null, RULE)

    def keep(self) -> None:
        """Keeps all names with the numbers of their nulls; takes down which rows have another thing in a column than
        when they were there last.
        """
        self.changed, self.changes = self.crosswalk.changes(SHOWN)
        self.crosswalk.keep(self.ranks)

    def by_name(self) -> dict[str, int]:
        """The number of each null by its name."""
        return {f"?{rule}.{variable}.{place}": self.numbers[null] for rule, variable, place, null in self.target.nulls}


def told_change(change: Change) -> str:
    """A change in words."""
    kind = change.kind
    return f"{kind.set}.{kind.column} of ({', '.join(kind.key)}) {change.text}: {change.before} is now {change.now}"

