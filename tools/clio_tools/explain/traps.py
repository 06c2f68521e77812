"""Warnings after a run without a refusal: what the manual's traps name. A comment of the mapping switches one off."""
import pathlib
import re
from collections.abc import Iterable, Iterator

from clio_tools.csv import ends_open, records
from clio_tools.explain.joins import Matches, TooMany
from clio_tools.explain.open_keys import is_unknown, open_keys
from clio_tools.explain.pieces import Piece, RowLine, Warned
from clio_tools.explain.program import mapping_of
from clio_tools.explain.quotes import odd_fields
from clio_tools.explain.said import amount, listed, shown, visible
from clio_tools.explain.source import Source, file_of, files_of
from clio_tools.mapping import cures
from clio_tools.mapping.meaning import Mapping, read_mapping
from clio_tools.mapping.rules import (EXISTENTIAL, LITERAL, VARIABLE, Cell, Conclusion, Premise, Rule, TooLarge,
                                       closed)
from clio_tools.mapping.rules import printed as printed_rule
from clio_tools.mapping.tables import Columns, Link, Table

OFF = re.compile(r"//[ \t]*clio-explain:[ \t]*off[ \t]+([a-z-]+)(?:[ \t]+([\w#]+))?")
ESCAPED = "a backslash is in front of the quote that closes it, but a quote in a quoted field is written twice"
BEHIND = "what follows the quote that closes it belongs to the field"


def switched_off(content: bytes) -> set[tuple[str, str]]:
    """The warnings that comments of a mapping text switch off: by name, and by set, or for all sets."""
    return {(found[1], found[2] or "") for found in OFF.finditer(content.decode("utf-8", "replace"))}


def wanted(warnings: Iterable[Warned], content: bytes) -> Iterator[Warned]:
    """The warnings that no comment of a mapping text switches off."""
    off = switched_off(content)
    return (one for one in warnings if not off.intersection({(one.name, ""), (one.name, one.set)}))


def differs_by_space(text: str, others: set[str]) -> str | None:
    """The text among others that differs from one by blanks, line ends or other signs that aren't seen."""
    plain = seen(text)
    return next((other for other in sorted(others) if other != text and seen(other) == plain), None)


def seen(text: str) -> str:
    """What is seen of a text."""
    return "".join(sign for sign in text if sign.isprintable() and not sign.isspace())


class Traps:
    """The warnings on a mapping, and with its source on what happened to the rows."""

    def __init__(self, mapping: Mapping, printed: list[str], content: bytes) -> None:
        self.mapping, self.printed = mapping, printed
        self.source, self.target, self.rules = mapping.source, mapping.target, mapping.rules
        written = read_mapping(content)
        self.lines = written.lines
        self.by_hand: set[str] = set()
        for rule in written.rules:
            try:
                self.by_hand.add(printed_rule(closed(rule, self.target), self.source, self.target))
            except TooLarge:
                pass

    def of_mapping(self) -> Iterator[Warned]:
        """What the mapping alone shows."""
        yield from self.sets_twice()
        yield from self.unused_columns()
        yield from self.unfilled_columns()
        yield from self.ungrouped()
        yield from self.hidden_literals()
        yield from self.refs_to_no_key()
        yield from self.open_keys()

    def sets_twice(self) -> Iterator[Warned]:
        """Rules of lines that have a set twice on one side; in a rule that is written by hand that is meant."""
        for number, rule in enumerate(self.rules):
            if self.printed[number] in self.by_hand:
                continue
            sides: list[tuple[str, list[Table], list[int]]] = [
                ("left", self.source, [atom.table for atom in rule.premise]),
                ("right", self.target, [atom.table for atom in rule.conclusion])]
            for side, tables, numbers in sides:
                twice = [tables[one].name for one in dict.fromkeys(numbers) if numbers.count(one) > 1]
                if twice:
                    yield Warned("twice", twice[0], [
                        f"rule {number} has {listed(twice)} twice on its {side}, since two ways lead there: is it"
                        f" meant? If not, leave out a ref, or write rules: {visible(self.printed[number])[:300]}"],
                        rules=(number,))

    def unused_columns(self) -> Iterator[Warned]:
        """Columns of the source that go nowhere and join nothing; sets of one file are looked at as one."""
        files = files_of(self.source)
        used = {(files[atom.table], column) for rule in self.rules for atom, column in used_cells(rule)}
        read = {files[atom.table] for rule in self.rules for atom in rule.premise}
        for number, (file, table) in enumerate(zip(files, self.source)):
            unused = [name for column, name in enumerate(table.columns)
                      if name in table.tree.columns and (file, column) not in used]
            if files.index(file) < number:
                continue
            if file not in read:
                yield Warned("unused", table.name, [f"no rule uses {table.name} of the source"])
            elif unused:
                yield Warned("unused", table.name, [
                    f"no rule uses {amount(len(unused), 'column')} of {table.name}: {listed(unused, 64)}"])

    def unfilled_columns(self) -> Iterator[Warned]:
        """Columns of the target that have nulls alone, to which nothing refers."""
        made = {atom.table for rule in self.rules for atom in rule.conclusion}
        filled = {(atom.table, column) for rule in self.rules for atom, column in filled_cells(rule)}
        for number, table in enumerate(self.target):
            unfilled = [name for column, name in enumerate(table.columns)
                        if name in table.tree.columns and (number, column) not in filled]
            if number not in made:
                yield Warned("unfilled", table.name,
                             [f"no rule makes rows of {table.name}" + self.literals_alone(number)])
            elif unfilled:
                yield Warned("unfilled", table.name, [
                    f"nothing fills {amount(len(unfilled), 'column')} of {table.name}, and nothing refers there:"
                    f" {listed(unfilled, 64)}"])

    def literals_alone(self, number: int) -> str:
        """Why a table that lines lead to has no rows."""
        reached = [line for line in self.lines if line.target.table == number]
        are_literals = bool(reached) and all(line.literal is not None for line in reached)
        return ": lines from texts alone make no rows" if are_literals else ""

    def ungrouped(self) -> Iterator[Warned]:
        """Tables without a key of their own to which rows refer by a value that rules leave open."""
        for number, table in enumerate(self.target):
            for place, rule in enumerate(self.rules):
                if any(link.table == number and not has_other_key(table, link.referred) and is_open(rule, atom, link)
                       and not self.is_joined(rule, [atom.cells[column] for column in link.own], link)
                       for atom in rule.conclusion for link in self.target[atom.table].links):
                    yield Warned("ungrouped", table.name, [
                        f"each match of rule {place} makes a row of its own in {table.name}: the rule leaves open the"
                        f" value by which other rows refer to it, and {table.name} has no other key"],
                        cures.Key(table.name), rules=(place,))
                    break

    def is_joined(self, rule: Rule, value: list[Cell], link: Link) -> bool:
        """Whether the value that a rule leaves open refers on to a row that another key makes one with others."""
        onward = [one for one in self.target[link.table].links if one.own == link.referred]
        return any(atom.table == one.table and [atom.cells[column] for column in one.referred] == value
                   and any(all(atom.cells[column].kind != EXISTENTIAL for column in key)
                           for key in self.target[one.table].keys)
                   for one in onward for atom in rule.conclusion)

    def hidden_literals(self) -> Iterator[Warned]:
        """Lines from texts that no rule has: other lines fill the column wherever a rule makes a row."""
        for line in self.lines:
            table = self.target[line.target.table]
            cells = [atom.cells[line.target.column] for rule in self.rules for atom in rule.conclusion
                     if atom.table == line.target.table]
            if line.literal is not None and cells and not any(cell == (LITERAL, line.literal) for cell in cells):
                yield Warned("literal", table.name, [
                    f"no rule has the text of line {shown(line.literal)} -> {table.name}."
                    f"{table.columns[line.target.column]}: in each, another line fills the column"], sets=(table.name,))

    def refs_to_no_key(self) -> Iterator[Warned]:
        """Refs of the target that lead to columns which are no key there."""
        for number, table in enumerate(self.target):
            for link in table.every_link()[table.parent is not None:]:
                other = self.target[link.table]
                if not any(set(key) <= set(link.referred) for key in other.keys):
                    referred = tuple(other.columns[column] for column in link.referred)
                    own = listed(table.columns[column] for column in link.own)
                    yield Warned("no-key", table.name, [
                        f"ref ({own}) -> {other.name} ({listed(referred)}) of {table.name} leads to columns that are no"
                        f" key of {other.name}: rows that refer to one value may get several rows there, each with"
                        " nulls of its own"], cures.Key(other.name, referred),
                        sets=(table.name, other.name))

    def open_keys(self) -> Iterator[Warned]:
        """Rows without the key that other rules fill."""
        yield from open_keys(self.mapping, self.printed, self.by_hand)

    def of_data(self, in_core_mode: bool) -> Iterator[Warned]:
        """What happened to the rows of the source."""
        yield from self.quotes()
        source = Source(self.mapping)
        for number, table in enumerate(self.source):
            rows = source.rows[number]
            if rows.repeats:
                repeat = "repeats" if rows.repeats == 1 else "repeat"
                yield Warned("repeats", table.name, [
                    f"{table.name}: of {amount(rows.records, 'row')}, {rows.repeats:,} {repeat} an earlier one, which"
                    " counts once"])
        yield from self.dropped(source)
        yield from self.rows_of_nulls(in_core_mode)
        yield from self.of_matches(source)

    def quotes(self) -> Iterator[Warned]:
        """Quotes that are read otherwise than the writer of a file meant."""
        for table in self.source:
            if table.parent is not None or table.inner:
                continue
            file, content = file_of(table), pathlib.Path(file_of(table)).read_bytes()
            if b'"' in content and ends_open(content):
                yield Warned("quote", table.name, [
                    f"a quote of {file} is never closed: its last field runs to the end of the file"])
            odd = list(odd_fields(content))
            for one in odd[:3]:
                column = table.columns[one.column] if one.column < len(table.columns) else f"field {one.column + 1}"
                yield Warned("quote", table.name, [
                    f"{file}, record {one.record}: column {column} has text behind its closing quote:"
                    f" {ESCAPED if one.is_escaped else BEHIND}"])
            if len(odd) > 3:
                yield Warned("quote", table.name, [f"{file} has {amount(len(odd) - 3, 'such field')} more"])

    def of_matches(self, source: Source) -> Iterator[Warned]:
        """Matches that say the same, and keys with nothing in them."""
        empty: dict[tuple[int, int], int] = {}
        for number, rule in enumerate(self.rules):
            try:
                matches = Matches(rule, source)
            except TooMany:
                yield Warned("matches", "", [f"rule {number} has too many matches to look at its rows here"])
                continue
            yield from self.became_one(number, rule, matches)
            self.count_empty(rule, matches, empty)
        for (table, key), count in sorted(empty.items()):
            if count > 1:
                there = self.target[table]
                names = listed(there.columns[column] for column in there.keys[key])
                yield Warned("empty-key", there.name, [
                    f"{count:,} matches ask for a row of {there.name} with nothing in its key ({names}), so it is one"
                    " row"], sets=(there.name,))

    def rows_of_nulls(self, in_core_mode: bool) -> Iterator[Warned]:
        """Rows in which nothing is known, as a ref of the target asks for, beside others of their table."""
        for number, table in enumerate(self.target):
            unknown = [place for place, rule in enumerate(self.rules)
                       if any(atom.table == number and is_unknown(atom) for atom in rule.conclusion)]
            if not unknown:
                continue
            rows = [fields for _, fields in records(pathlib.Path("out", f"{table.name}.csv").read_bytes())][1:]
            count = sum(1 for fields in rows if all(field[:1] == "?" and field[1:2] != "?" for field in fields))
            if 0 < count < len(rows):
                fill = f"rule {unknown[0]} fills" if len(unknown) == 1 else f"rules {listed(map(str, unknown))} fill"
                core = "" if in_core_mode else "use core mode, "
                yield Warned("nulls", table.name, [
                    f"{count:,} of {len(rows):,} rows of {table.name} {'holds' if count == 1 else 'hold'} nothing but"
                    f" nulls, since {fill} no column there: if that isn't meant, {core}make refs to {table.name}"
                    " optional (mapping 2), or say in a drawing what its rows come from (man clio-rules)"],
                    cures.Optional("target", "", (), table.name), rules=(unknown[0],))

    def dropped(self, source: Source) -> Iterator[Warned]:
        """Refs of the source that drop rows, and refs that no line uses."""
        for number, table in enumerate(self.source):
            for link in table.links[table.parent is not None:]:
                if not self.is_taken_along(number, link):
                    continue
                there = {tuple([row[column] for column in link.referred]) for row in source.rows[link.table].rows}
                lost = [place for place, row in enumerate(source.rows[number].rows)
                        if tuple([row[column] for column in link.own]) not in there]
                if lost:
                    pieces: list[Piece] = [
                        f"{self.of_ref(table, link)}: rows of {table.name} without a match there are dropped,"
                        f" {len(lost):,} of {len(source.rows[number].rows):,}; {self.what_to_do(link)}"]
                    for place in lost[:3]:
                        pieces += self.of_lost(source, number, link, place)
                    yield Warned("dropped", table.name, pieces, self.cure(table, link))

    def of_lost(self, source: Source, number: int, link: Link, place: int) -> Iterator[Piece]:
        """A row that a ref drops, and a value there that only seems to be the same."""
        yield RowLine("   ", source.row(number, place))
        for own, referred in zip(link.own, link.referred):
            text = source.rows[number].rows[place][own]
            there = {row[referred] for row in source.rows[link.table].rows}
            other = differs_by_space(text, there) if text not in there else None
            if other is not None:
                yield (f"   {shown(text)} differs from {shown(other)} of {self.source[link.table].name} by a space, or"
                       " another sign that isn't seen: a line or rule by trim doesn't help the ref, so mend the file")

    def unused_refs(self) -> Iterator[Warned]:
        """Refs along which no line goes, by which rows without a match are dropped."""
        for number, table in enumerate(self.source):
            for link in table.links[table.parent is not None:]:
                if self.is_taken_along(number, link) and not self.is_used(link):
                    yield Warned("dropped", table.name, [
                        f"{self.of_ref(table, link)}: no line uses it, and rows without a match there are dropped"],
                        self.cure(table, link))

    def of_ref(self, table: Table, link: Link) -> str:
        """A ref, with its set."""
        other = self.source[link.table]
        return (f"ref ({listed(table.columns[column] for column in link.own)}) -> {other.name} "
                f"({listed(other.columns[column] for column in link.referred)}) of {table.name}")

    def is_taken_along(self, number: int, link: Link) -> bool:
        """Whether some rule takes rows of the table, and each takes them only with their match."""
        rules = [rule for rule in self.rules if any(atom.table == number for atom in rule.premise)]
        return bool(rules) and all(any(atom.table == link.table for atom in rule.premise) for rule in rules)

    def is_used(self, link: Link) -> bool:
        """Whether a line goes from a table that the ref leads to."""
        reached: set[int] = set()
        left = [link.table]
        while left:
            one = left.pop()
            if one not in reached:
                reached.add(one)
                left += [further.table for further in self.source[one].links]
        return any(column.table in reached for line in self.lines for column in line.columns)

    def cure(self, table: Table, link: Link) -> cures.Cure:
        """The edit by which a ref drops no rows."""
        own, other = tuple(table.columns[column] for column in link.own), self.source[link.table].name
        if self.is_used(link):
            return cures.Optional("source", table.name, own, other)
        return cures.NoRef("source", table.name, own, other)

    def what_to_do(self, link: Link) -> str:
        """The same in words."""
        if self.is_used(link):
            return "make the ref optional (mapping 2), and they are taken too"
        return "no line uses the ref: leave it out"

    def became_one(self, number: int, rule: Rule, matches: Matches) -> Iterator[Warned]:
        """Matches of a rule that say the same."""
        less = matches.number - len(matches.found)
        if less:
            exported = set(rule.exported())
            names = list(dict.fromkeys(f"{self.source[atom.table].name}.{self.source[atom.table].columns[column]}"
                                       for atom in rule.premise for column, cell in enumerate(atom.cells)
                                       if cell in exported
                                       or any(cell in derived.arguments for derived in rule.derived)))
            yield Warned("one", self.source[rule.premise[0].table].name, [
                f"rule {number}: {amount(matches.number, 'match', 'matches')} are {len(matches.found):,} different"
                f" ones, since only {listed(names) or 'texts of the mapping'} go on:"
                f" {visible(self.printed[number])[:200]}"])

    def count_empty(self, rule: Rule, matches: Matches, empty: dict[tuple[int, int], int]) -> None:
        """Counts for each declared key the tuples that put nothing in all of its columns."""
        for atom in rule.conclusion:
            for key, columns in enumerate(self.target[atom.table].keys):
                cells = [atom.cells[column] for column in columns]
                if all(cell.kind == VARIABLE or cell == (LITERAL, "") for cell in cells):
                    places = [matches.exported.index(int(cell.content)) for cell in cells if cell.kind == VARIABLE]
                    count = sum(1 for texts in matches.found if not any(texts[place] for place in places))
                    empty[atom.table, key] = empty.get((atom.table, key), 0) + count


def used_cells(rule: Rule) -> list[tuple[Premise, int]]:
    """The cells of a rule's left side whose texts go on or join."""
    cells = [cell for atom in rule.premise for cell in atom.cells]
    going = set(rule.exported()).union(*(derived.arguments for derived in rule.derived))
    return [(atom, column) for atom in rule.premise for column, cell in enumerate(atom.cells)
            if cell in going or cells.count(cell) > 1]


def filled_cells(rule: Rule) -> list[tuple[Conclusion, int]]:
    """The cells of a rule's right side that are no null that stands there alone."""
    cells = rule.conclusion_cells()
    return [(atom, column) for atom in rule.conclusion for column, cell in enumerate(atom.cells)
            if cell.kind != EXISTENTIAL or cells.count(cell) > 1]


def has_other_key(table: Table, referred: Columns) -> bool:
    """Whether a table has a key besides the columns that are referred to."""
    return any(not set(key) <= set(referred) for key in table.keys)


def is_open(rule: Rule, atom: Conclusion, link: Link) -> bool:
    """Whether the cells that refer along a link are left open by a rule."""
    return all(atom.cells[column].kind == EXISTENTIAL for column in link.own)


def all_warnings(words: list[str], content: bytes) -> Iterator[Warned]:
    """The warnings after `show` or `exchange`."""
    mapping, printed = mapping_of(content)
    if mapping is None:
        return
    traps = Traps(mapping, printed, content)
    yield from traps.of_mapping()
    if words[0] == "exchange":
        yield from traps.of_data("--core" in words)
    else:
        yield from traps.unused_refs()


def explain(words: list[str], content: bytes) -> Iterator[Warned]:
    """The warnings that no comment switches off."""
    return wanted(all_warnings(words, content), content)
