"""Random cases whose target tables refer to each other by surrogate keys: nulls with keys of their own, and hubs to which many rows refer."""
from files import csv_text
from mapping import Mapping
from rules import EXISTENTIAL, LITERAL, VARIABLE, Atom, Cell, Rule
from schema import Dependency, Reference, SetTree
from spelling import mapping_tokens, spelled

NAMES = ["h", "k", "libc", *"abcdefghijklmno", "", "?0.0.0", "a,b"]
ATOMS = 10  # no conclusion gets more of them, before it is closed


def keyed_trees(random):
    """Two to six sets with a surrogate key `id`, most of them with a name that is a key; each refers to some before it, now and then twice."""
    trees = []
    for number in range(random.randint(2, 5)):
        tree = SetTree("t%d" % number, ["id", "name"] + ["more"] * (random.random() < .3), [["id"]])
        if random.random() < .8:
            tree.keys.append(["name"])
        for place in range(random.choice([1, 1, 2, 2, 3]) if trees else 0):
            other = random.choice([one for one in trees if "id" in one.columns])
            tree.columns.append("r%d" % place)
            tree.references.append(Reference(tree.columns[-1:], other.name, ["id"]))
        if len(tree.references) > 1 and random.random() < .5:
            tree.columns.remove("name")  # a table of links
            tree.keys = [["id"]]
            if random.random() < .3:
                tree.columns.remove("id")
                tree.keys = [[reference.own[0] for reference in tree.references]] if random.random() < .5 else []
        trees.append(tree)
    if random.random() < .75:
        hub = random.choice([one for one in trees if "name" in one.columns])
        hub.keys = [["id"], ["name"]]
        trees.append(SetTree("t%d" % len(trees), ["id", "r0", "r1"], [["id"]],
                             [Reference(["r0"], hub.name, ["id"]), Reference(["r1"], hub.name, ["id"])]))
    return trees


class Conclusion:
    """Builds the conclusion of a rule along refs. `decided` has, for a variable, those whose texts its text decides."""

    def __init__(self, random, trees, variables, decided):
        self.random, self.trees, self.variables, self.decided = random, trees, variables, decided
        self.atoms, self.existential, self.identities = [], 0, {}

    def new(self):
        self.existential += 1
        return Cell(EXISTENTIAL, self.existential - 1)

    def add(self, number, name):
        """An atom of a set, named by a variable or by None, with what it refers to; answers the cell of its surrogate key."""
        tree, cells = self.trees[number], {}
        if "id" in tree.columns:
            cells["id"] = self.new()
            self.identities.setdefault(number, []).append(cells["id"])
        if name is not None:
            cells["name"] = Cell(VARIABLE, name)
        elif self.random.random() < .1:
            cells["name"] = Cell(LITERAL, self.random.choice(NAMES[:3]))
        place = len(self.atoms)
        self.atoms.append(None)
        for reference in tree.references:
            cells[reference.own[0]] = self.referred(int(reference.name[1:]), name if ["name"] in tree.keys else None)
        if self.random.random() < .1:
            cells["more"] = Cell(VARIABLE, self.random.randrange(self.variables))
        self.atoms[place] = Atom(number, tuple(cells.get(column) or self.new() for column in tree.columns))
        return cells.get("id")

    def link(self, first, second):
        """A row of the last set, which links a row named by one variable to a row named by another."""
        number = int(self.trees[-1].references[0].name[1:])
        place = len(self.atoms)
        self.atoms.append(None)
        ends = [self.add(number, first), self.add(number, second)]
        self.atoms[place] = Atom(len(self.trees) - 1, tuple([self.new()] + ends))

    def referred(self, number, by):
        """The surrogate key of a new atom of a set, of one that is there, or of none yet; `by` names the row that refers to it."""
        chance = self.random.random()
        if chance < .15 and number in self.identities:
            return self.random.choice(self.identities[number])
        if chance < .85 and len(self.atoms) < ATOMS:
            names = range(self.variables) if by is None else self.decided.get(by, [])
            named = names and self.random.random() < (.7 if by is None else .5)
            return self.add(number, names[number % len(names)] if named and by is not None else self.random.choice(names) if named else None)
        return self.new()


def keyed_rule(random, source, trees):
    """A rule over one or two rows that joins along a variable, and a conclusion along refs."""
    premise, variables, decided = [], 0, {}
    for place in range(random.choice([1, 1, 1, 2])):
        table, cells = random.randrange(len(source)), []
        for column in range(len(source[table].columns)):
            joins = place > 0 and (column == 0 or random.random() < .2)
            cells.append(random.randrange(variables) if joins else variables)
            variables = max(variables, cells[-1] + 1)
        premise.append(Atom(table, tuple(cells)))
        if is_decided(source[table]):
            decided[cells[0]] = cells[1:]
    conclusion = Conclusion(random, trees, variables, decided)
    if variables > 1 and trees[-1].columns == ["id", "r0", "r1"] and random.random() < .6:
        conclusion.link(*random.sample(range(variables), 2))
        return Rule(premise, conclusion.atoms, [])
    for _ in range(random.choice([1, 1, 2])):
        conclusion.add(random.choice([len(trees) - 1, random.randrange(len(trees))]), random.choice([None, *range(variables)]))
    return Rule(premise, conclusion.atoms, [])


def is_decided(table):
    """Whether the first column decides the others: in each second table, or else most keys would clash."""
    return table.name in ("s0", "s2")


def weaken_keys(random, trees):
    """Puts dependencies in the place of most keys: the key decides some of the columns, or all of them by two dependencies."""
    for tree in trees:
        for key in [key for key in tree.keys if random.random() < .7]:
            tree.keys.remove(key)
            others = [column for column in tree.columns if column not in key] or key
            first = random.sample(others, random.randint(1, len(others)))
            tree.dependencies.append(Dependency(key, first))
            if random.random() < .5:
                tree.dependencies.append(Dependency(random.choice([key, first[:1]]), random.sample(others, 1)))


def keyed_case(random, make, has_dependencies=False):
    """A mapping of one to four such rules, and rows of which many name the same few hubs; `make` makes the case."""
    source_trees = [SetTree("s%d" % number, ["c0", "c1", "c2"][:random.choice([1, 2, 2, 3])]) for number in range(random.randint(1, 3))]
    target_trees = keyed_trees(random)
    mapping = Mapping(source_trees, target_trees, version=3 if has_dependencies else 1)
    mapping.rules = [keyed_rule(random, mapping.source, target_trees) for _ in range(random.choice([1, 2, 2, 3, 3, 4]))]
    if has_dependencies:
        weaken_keys(random, target_trees)
        mapping.make_tables()
    names = NAMES[:random.randint(3, len(NAMES))]
    name = lambda: random.choice(names[:2] if random.random() < .45 else names)
    decided = {one: [name(), name()] for one in names}
    instance, files = {}, {}
    for tree in source_trees:
        rows = [[name() for _ in tree.columns] for _ in range(random.randint(5, 30))]
        if is_decided(tree):
            rows = [[row[0], *decided[row[0]]][:len(row)] for row in rows]
        instance[len(instance)] = {tuple(row) for row in rows}
        files[tree.name + ".csv"] = csv_text([tree.columns] + rows)
    files["mapping.clio"] = spelled(mapping_tokens(mapping, random), random)
    return make(mapping, instance, files)
