"""Random mappings and source folders."""
import json
from dataclasses import dataclass

from files import csv_text
from keyed_cases import keyed_case
from lines import Column, Line
from mapping import Condition, Mapping
from matches import CONVERSIONS, TESTS
from rules import EXISTENTIAL, LITERAL, VARIABLE, Atom, Cell, Derived, Rule
from schema import Dependency, Reference, SetTree, is_acyclic, preorder, tables_of
from spelling import mapping_tokens, spelled

TEXTS = ["a", "b", "c", "", " a", "1", "?0.0.0", "a,b", 'say "b"', "two\nlines", "\u00fc", "a ", "?", "\x010", "d' 7\r"]
LITERALS = ["a", "b", "", "?0.0.0", "it's", 'say "b"', "back\\slash", "\u00e9\U0001f600", "1"]
SET_NAMES = ["set", "key", "ref", "line", "rule", "source", "where", "mapping", "_", "Rules", "rules", "script"]


@dataclass
class Case:
    """A mapping, the source instance (for each table the set of its rows of texts) and the files of the folder."""
    mapping: Mapping
    instance: dict
    files: dict


def random_trees(random, prefix, most, optional=0):
    """Set trees of one to `most` sets, with nesting, keys and refs whose links make no circle; of the refs this part is optional."""
    odd = random.sample(SET_NAMES, len(SET_NAMES)) if random.random() < .1 else []
    number, names = random.randint(1, most), odd + ["%s%d" % (prefix, place) for place in range(most)]
    trees, sets = [], []
    for name in names[:number]:
        tree = SetTree(name, ["c%d" % place for place in range(random.choice([1, 1, 2, 2, 2, 3, 3, 4]))])
        parent = random.choice(sets) if sets and random.random() < .35 else None
        (trees if parent is None else parent.inner).append(tree)
        sets.append(tree)
        while random.random() < .25 and len(tree.keys) < 2:
            tree.keys.append(random.sample(tree.columns, random.randint(1, len(tree.columns))))
    for tree in preorder(trees):
        for _ in range(random.choice([0, 0, 0, 1, 1, 2])):
            add_reference(random, trees, tree)
        for reference in tree.references:
            reference.optional = optional > 0 and random.random() < optional
    return trees


def chain_of_sets(random, prefix):
    """Six or seven sets, each with two refs to the next one: 63 occurrences, or more than are allowed."""
    number = random.randint(6, 7)
    trees = [SetTree("%s%d" % (prefix, place), ["a", "b"]) for place in range(number)]
    for tree, following in zip(trees, trees[1:]):
        tree.references = [Reference(["a"], following.name, ["a"]), Reference(["b"], following.name, ["b"])]
    return trees


def add_reference(random, trees, tree):
    """Gives a set a ref to some set, unless links would make a circle."""
    other = random.choice(list(preorder(trees)))
    width = random.choice([1] * 3 + [min(len(tree.columns), len(other.columns))])
    reference = Reference(random.sample(tree.columns, width), other.name, random.sample(other.columns, width))
    tree.references.append(reference)
    if not is_acyclic(tables_of(trees)):
        tree.references.remove(reference)


def random_rule(random, source, target):
    """A hand-written rule with joins, conversions, existential variables and literals."""
    premise, variables = [], 0
    for _ in range(random.choice([1, 1, 1, 2, 2, 3])):
        table, cells = random.randrange(len(source)), []
        for _ in source[table].columns:
            known = variables > 0 and random.random() < .4
            cells.append(random.randrange(variables) if known else variables)
            variables = max(variables, cells[-1] + 1)
        premise.append(Atom(table, tuple(cells)))
    derived = []
    while random.random() < .15:
        conversion = random.choice(CONVERSIONS)
        derived.append(Derived(conversion.name, tuple(random.randrange(variables) for _ in range(conversion.arity))))
    conclusion, existential = [], 0
    for _ in range(random.choice([1, 1, 2, 2, 3])):
        table, cells = random.randrange(len(target)), []
        for _ in target[table].columns:
            cells.append(random_cell(random, variables + len(derived), existential))
            if cells[-1].kind == EXISTENTIAL:
                existential = max(existential, cells[-1].content + 1)
        conclusion.append(Atom(table, tuple(cells)))
    return Rule(premise, conclusion, derived)


def random_cell(random, variables, existential):
    """A cell of a conclusion."""
    chance = random.random()
    if chance < .5:
        return Cell(VARIABLE, random.randrange(variables))
    if chance < .6:
        return Cell(LITERAL, random.choice(LITERALS))
    if existential and chance < .84:
        return Cell(EXISTENTIAL, random.randrange(existential))
    return Cell(EXISTENTIAL, existential)


def random_line(random, source, target):
    """A line from a literal, a column or a conversion; no line names `#id` or `#up`."""
    goal = random_column(random, target)
    chance = random.random()
    if chance < .15:
        return Line(goal, literal=random.choice(LITERALS))
    if chance < .4:
        conversion = random.choice(CONVERSIONS)
        columns = tuple(random_column(random, source) for _ in range(conversion.arity))
        return Line(goal, columns, conversion.name)
    return Line(goal, (random_column(random, source),))


def random_column(random, tables):
    table = random.randrange(len(tables))
    name = random.choice(tables[table].tree.columns)
    return Column(table, tables[table].columns.index(name))


def add_dependencies(random, tree):
    """Gives a set up to three dependencies."""
    columns = lambda: random.sample(tree.columns, random.randint(1, len(tree.columns)))
    while random.random() < .6 and len(tree.dependencies) < 3:
        tree.dependencies.append(Dependency(columns(), columns()))


def random_condition(random, source):
    """A condition on any column that is declared."""
    return Condition(random_column(random, source), random.choice(list(TESTS)))


def random_csv(random, records):
    """A CSV file, now and then with a byte order mark, other ends of lines, needless quotes or no last line end."""
    text = csv_text(records)
    if random.random() < .1:
        quote = lambda field: '"%s"' % field.replace('"', '""')
        text = random.choice(["\n", "\r\n", "\r"]).join(",".join(map(quote, record)) for record in records)
    return ("\ufeff" if random.random() < .05 else "") + text


class Source:
    """Random source files and the facts that they stand for."""

    def __init__(self, random, trees):
        self.random, self.files, self.instance = random, {}, {}
        self.numbers = {table.name: number for number, table in enumerate(tables_of(trees))}
        odd, number = random.random() < .5, random.randint(1, 6)
        self.texts = random.sample(TEXTS, number) if odd else TEXTS[:number]
        for tree in trees:
            if tree.inner:
                self.files[tree.name + ".json"] = self.document(tree)
            else:
                self.files[tree.name + ".csv"] = self.table(tree)

    def text(self):
        return self.random.choice(self.texts)

    def fact(self, tree, row):
        self.instance.setdefault(self.numbers[tree.name], set()).add(tuple(row))

    def table(self, tree):
        """A CSV file."""
        rows = [[self.text() for _ in tree.columns] for _ in range(self.random.choice([0, 1, 2, 2, 3, 4]))]
        for row in rows:
            self.fact(tree, row)
        return random_csv(self.random, [tree.columns] + rows)

    def document(self, tree):
        """A JSON document."""
        objects = self.objects(tree, [], None, self.random.choice([0, 1, 2, 2, 3]))
        text = json.dumps(objects, ensure_ascii=self.random.random() < .5, indent=self.random.choice([None, None, 1]))
        return ("\ufeff" if self.random.random() < .05 else "") + text

    def objects(self, tree, path, up, number):
        """Objects of a set; the `#id` of each is `#` and the positions that lead to it."""
        objects = []
        for position in range(number):
            here = path + [str(position)]
            identity = "#" + ".".join(here)
            members, row = {}, []
            for column in tree.columns:
                value, text = self.member()
                row.append(text)
                if value is not None or self.random.random() < .5:
                    members[column] = value
            self.fact(tree, [identity] * bool(tree.inner) + [up] * (up is not None) + row)
            for inner in tree.inner:
                members[inner.name] = self.objects(inner, here, identity, self.random.choice([0, 1, 1, 2]))
                if not members[inner.name]:
                    self.leave_out(members, inner.name)
            order = self.random.sample(list(members), len(members))
            objects.append({name: members[name] for name in order})
        return objects

    def leave_out(self, members, name):
        """An empty list of objects may be left out, or `null`."""
        choice = self.random.choice(["keep", "drop", "null"])
        if choice == "drop":
            del members[name]
        elif choice == "null":
            members[name] = None

    def member(self):
        """A column's value in JSON and the text that it stands for; `None` is `null` or a member left out."""
        if self.random.random() < .8:
            text = self.text()
            return text, text
        odd = [(7, "7"), (-3, "-3"), (True, "true"), (False, "false"), (None, ""), (1, "1"),
               (18446744073709551615, "18446744073709551615"), (-9223372036854775808, "-9223372036854775808")]
        return self.random.choice(odd)


def random_case(random, kind):
    """A case of one of the kinds `rules`, `lines`, `mixed`, `keyed`, `optional` and `dependent`."""
    if kind == "keyed":
        return keyed_case(random, Case)
    if kind == "dependent" and random.random() < .3:
        return keyed_case(random, Case, True)
    most, optional = 5 if kind == "lines" else 4, .6 if kind == "optional" else 0
    if kind == "dependent" and random.random() < .2:
        optional = .4
    source_trees, target_trees = (random_trees(random, prefix, most, optional) for prefix in "st")
    if kind == "lines" and random.random() < .01:
        source_trees = chain_of_sets(random, "s")
    if kind == "lines" and random.random() < .01:
        target_trees = chain_of_sets(random, "t")
    mapping = Mapping(source_trees, target_trees)
    if kind == "dependent":
        mapping.version = 3
        for tree in preorder(source_trees + target_trees):
            add_dependencies(random, tree)
    if kind == "optional":
        mapping.version = 2
    if kind == "optional" or (kind == "dependent" and random.random() < .2):
        mapping.conditions = [random_condition(random, mapping.source) for _ in range(random.choice([0, 0, 1, 1, 2, 3]))]
    if kind not in ("lines", "optional") or (kind == "optional" and random.random() < .3):
        mapping.rules = [random_rule(random, mapping.source, mapping.target) for _ in range(random.randint(1, 4))]
        if random.random() < .3:
            mapping.rules.append(random.choice(mapping.rules))
    if kind != "rules":
        mapping.lines = [random_line(random, mapping.source, mapping.target) for _ in range(random.randint(1, 8))]
    source = Source(random, source_trees)
    source.files["mapping.clio"] = spelled(mapping_tokens(mapping, random), random)
    return Case(mapping, mapping.passing(source.instance), source.files)
