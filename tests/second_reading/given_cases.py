"""Random given targets: what the program makes itself, and what is left after changes to it."""
from homomorphisms import core_of
from random_cases import TEXTS, random_csv
from values import Constant, Fact, Null, ascending, image, nulls_of, value_order, value_text

ODD_VALUES = ["?", "??", "?a", "?0", "?0.0", "?0.0.0", "?0.0.00", "?1.2.3.4", "?4294967295.0.1", "?0.0.4294967296", "? 0.0.0",
              "?+1.0.0", "?0.0.0 ", "?-1.0.0", "?0.0.0\n", "???"]
CHANGES = ["cell", "cell", "fold", "fold", "less", "less", "more", "more", "double", "double", "copy", "names", "apart"]


class GivenMaker:
    """Makes a given target from the facts of a universal one, or from any facts if there is none."""

    def __init__(self, random, tables, facts):
        self.random, self.tables, self.facts = random, tables, set(facts)
        self.values = sorted({value for fact in facts for value in fact.row}, key=value_order) + [Constant(self.random.choice(TEXTS))]
        self.fresh, self.manner = 0, []

    def new_null(self):
        """A null that may be one of the facts' own, but mostly isn't."""
        self.fresh += 1
        if self.random.random() < .1:
            return Null(0, 0, self.fresh - 1)
        return Null(self.random.choice([7, 0, 4294967295]), 100 + self.fresh, self.random.choice([0, 0, 12]))

    def value(self):
        return self.new_null() if self.random.random() < .3 else self.random.choice(self.values)

    def chosen(self):
        """Some fact, in an order that the seed decides."""
        return self.random.choice(ascending(self.facts))

    def change(self, what):
        """One change of the facts."""
        if what == "more":
            table = self.random.randrange(len(self.tables))
            self.facts.add(Fact(table, tuple(self.value() for _ in self.tables[table].columns)))
        elif what == "nothing" or not self.facts:
            self.facts = set()
        elif what == "less":
            self.facts.remove(self.chosen())
        elif what in ("cell", "double"):
            self.change_row(what == "double")
        elif what == "fold":
            self.send(lambda null: self.value() if self.random.random() < .4 else null)
        elif what == "names":
            self.send(lambda null: self.new_null())
        elif what == "copy":
            before = set(self.facts)
            self.send(lambda null: self.new_null())
            self.facts |= before
        elif what == "apart":
            self.facts = {Fact(fact.table, tuple(self.new_null() if isinstance(value, Null) else value for value in fact.row))
                          for fact in ascending(self.facts)}

    def change_row(self, keeps):
        """Changes a cell of a row, or of a copy of it, then mostly to a fresh null."""
        fact = self.chosen()
        cell = self.random.randrange(len(fact.row))
        value = self.new_null() if keeps and self.random.random() < .8 else self.value()
        if not keeps:
            self.facts.remove(fact)
        self.facts.add(Fact(fact.table, fact.row[:cell] + (value,) + fact.row[cell + 1:]))

    def send(self, choose):
        """Replaces each null by what is chosen for it."""
        sent = {null: choose(null) for null in sorted(nulls_of(self.facts))}
        self.facts = image(self.facts, lambda value: sent.get(value, value))

    def make(self):
        """Changes the facts in some way."""
        if self.random.random() < .3:
            self.facts = set(core_of(self.facts))
        self.manner = self.random.choices(CHANGES, k=self.random.choice([0, 1, 1, 1, 1, 2, 3]))
        if self.random.random() < .02:
            self.manner.insert(0, "nothing")
        for what in self.manner:
            self.change(what)

    def files(self):
        """The files of the facts, in any order and with some rows twice; now and then with a field that is no value."""
        files = {}
        for number, table in enumerate(self.tables):
            rows = [list(map(value_text, fact.row)) for fact in ascending(self.facts) if fact.table == number]
            rows += [row for row in rows if self.random.random() < .05]
            self.random.shuffle(rows)
            if self.random.random() < .04 and rows:
                row = self.random.choice(rows)
                row[self.random.randrange(len(row))] = self.random.choice(ODD_VALUES)
                self.manner.append("field")
            files["given/%s.csv" % table.name] = random_csv(self.random, [table.columns] + rows)
        return files
