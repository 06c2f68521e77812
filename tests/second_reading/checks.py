"""What the program writes for a case, held against this reading of it."""
import re

from chase import Chase
from covers import CoveredPlaces, Covers
from files import csv_records, fold_text, moved, nested_text, nulls_text, rows_of, table_text
from homomorphisms import core_of, homomorphism, is_core, largest_block
from refusals import Limit
from matches import canonical, facts_of, places_of
from rules import printed
from script import script_text
from values import Fact, image, nulls_of, read_value, row_order


class Difference(Exception):
    """The program and this reading disagree."""


def same(given, wanted, what):
    """Both readings give the same."""
    if given != wanted:
        raise Difference("%s\n--- the program gives\n%s\n--- this reading gives\n%s" % (what, given, wanted))


def holds(condition, what):
    """What must be so is so."""
    if not condition:
        raise Difference(what)


def check_clash_message(message, tables):
    """The message of a clash names the left columns of a key or dependency of the target, a column that they decide, and two texts."""
    string = r'("(?:[^"\\]|\\.)*")'
    form = r"clash: table (\w+), key \(([#\w, ]+)\): %s and %s in column ([#\w]+)\n" % (string, string)
    told = re.fullmatch(form, message, re.DOTALL)
    holds(told, "message of a clash: " + message)
    table = next((table for table in tables if table.name == told[1]), None)
    holds(table, "no such table: " + message)
    names = lambda columns: [table.columns[column] for column in columns]
    rights = [names(right) for left, right in table.determinations() if names(left) == told[2].split(", ")]
    holds(rights, "no such key: " + message)
    holds(any(told[5] in right for right in rights) and told[5] not in told[2].split(", "), "no such column: " + message)
    holds(told[3] != told[4], "a clash of one text: " + message)


class CaseCheck:
    """Runs all commands on one case."""

    def __init__(self, case, folder, program, random, tally):
        self.case, self.folder, self.program, self.random, self.tally = case, folder, program, random, tally
        self.source, self.target = case.mapping.source, case.mapping.target

    def run(self, *words):
        return self.folder.run(self.program, list(words))

    def check(self):
        """The rules and the scripts, then the exchange in both modes."""
        try:
            self.rules, number = self.case.mapping.rule_list()
        except Limit as limit:
            return self.check_limit(str(limit))
        self.covers = Covers(self.rules)
        self.rules_text = "".join(printed(rule, self.source, self.target) for rule in self.rules)
        self.scripts = {core: script_text(self.source, self.target, self.covers, core) for core in (False, True)}
        self.check_show()
        self.places = places_of(self.rules, self.case.instance)
        self.canonical = canonical(self.places)
        self.covered = CoveredPlaces(self.covers, self.places)
        uncovered = facts_of(self.covered.uncovered())
        same(image(self.canonical, self.covered.fold), uncovered, "this reading alone: the cover fold")
        self.check_exchange(False, self.canonical)
        self.check_exchange(True, uncovered)
        self.count("pruned", len(self.rules) < number)
        self.count("covered", len(uncovered) < len(self.canonical))
        self.count("no rules", not self.rules)
        self.count("rules", len(self.rules))

    def count(self, what, number=1):
        self.tally[what] = self.tally.get(what, 0) + number

    def check_limit(self, message):
        """A limit is told, and nothing is written."""
        for words in (["show"], ["exchange"]):
            run = self.run(*words)
            same((run.status, run.said, run.told, run.files), (6, "", message + "\n", {}), "a limit")
        self.count(message)

    def check_show(self):
        """Now and then what `show` says, since the exchange writes the same texts."""
        if self.random.random() < .4:
            core = self.random.random() < .5
            shown = self.run("show", *["--core"] * core)
            same((shown.status, shown.told, shown.files), (0, "", {}), "status of show")
            same(shown.said, self.rules_text + self.scripts[core][0], "what show says")

    def check_exchange(self, core, facts):
        """One exchange: a clash, or all files."""
        nested = self.random.random() < .5
        flags = ["--core"] * core + ["--nested"] * nested
        run = self.run("exchange", *self.random.sample(flags, len(flags)))
        chase = Chase(facts, self.target)
        if chase.clash:
            self.count("clash")
            same((run.status, run.said, run.files), (3, "", {}), "status of a clash")
            return check_clash_message(run.told, self.target)
        same((run.status, run.told), (0, ""), "status of exchange")
        target = self.read_target(run)
        fold = self.read_fold(run)
        whole_fold = lambda value: fold.get(value, value)
        same(image(self.canonical, whole_fold), target, "the fold's image of the canonical instance")
        same(set(fold) & nulls_of(target), set(), "nulls that the fold lists and that stand in the target")
        if core:
            self.check_core(chase, target, whole_fold)
        else:
            same(target, chase.instance(), "the target in plain mode")
            same(fold, moved((null, chase.value(null)) for null in nulls_of(self.canonical)), "the fold in plain mode")
        self.count("core" if core else "plain")
        self.check_texts(run, core, nested, target, fold)

    def read_target(self, run):
        """The facts of the target's files."""
        facts = set()
        for number, table in enumerate(self.target):
            text = run.files.get(table.name + ".csv")
            holds(text is not None, "no file of table " + table.name)
            rows = [tuple(read_value(field) for field in record) for record in csv_records(text)[1:]]
            same(text, table_text(table, rows), "how table %s is written" % table.name)
            same(rows, sorted(set(rows), key=row_order), "rows of table %s ascend" % table.name)
            facts |= {Fact(number, row) for row in rows}
        return facts

    def read_fold(self, run):
        """The pairs of the fold's file, which lists nulls of the canonical instance alone, none of which stays."""
        pairs = {read_value(null): read_value(value) for null, value in csv_records(run.files["fold.csv"])[1:]}
        holds(set(pairs) <= nulls_of(self.canonical), "the fold lists a null that isn't there")
        same(pairs, moved(pairs.items()), "the fold lists a null that it doesn't move")
        return pairs

    def check_core(self, chase, target, whole_fold):
        """In core mode the target is a core inside the chased uncovered part, and the fold passes through both."""
        chased = chase.instance()
        holds(target <= chased, "the core is no part of the chased uncovered part")
        holds(is_core(target), "the target in core mode is no core")
        for null in nulls_of(self.canonical):
            through = whole_fold(chase.value(self.covered.fold(null)))
            same(whole_fold(null), through, "the fold in core mode at %s" % (null,))
        own = core_of(chased)
        for number, table in enumerate(self.target):
            same(len(rows_of(target, number)), len(rows_of(own, number)), "how many rows of table %s a core has" % table.name)
        holds(homomorphism(own, target) is not None and homomorphism(target, own) is not None, "the cores aren't alike")
        self.count("reduced", len(target) < len(chased))
        self.count("blocks of 20 facts", largest_block(chased) >= 20)

    def check_texts(self, run, core, nested, target, fold):
        """All files byte by byte, their names and the summary."""
        script, steps = self.scripts[core]
        nulls, lines = nulls_text(target, self.rules, self.places)
        wanted = [("rules.txt", self.rules_text, len(self.rules)), ("script.sql", script, steps)]
        for number, table in enumerate(self.target):
            rows = rows_of(target, number)
            wanted.append((table.name + ".csv", table_text(table, rows), len(rows)))
        wanted += [("nulls.csv", nulls, lines), ("fold.csv", fold_text(fold), len(fold))]
        for number, table in enumerate(self.target):
            if nested and table.parent is None:
                text = nested_text(self.target, target, number)
                wanted.append((table.name + ".json", text, len(rows_of(target, number))))
        self.count("nested", nested)
        for name, text, _ in wanted:
            same(run.files.get(name), text, name)
        same(sorted(run.files), sorted(name for name, _, _ in wanted), "names of files")
        same(run.said, "".join("%s %d\n" % (name, number) for name, _, number in wanted), "the summary")
