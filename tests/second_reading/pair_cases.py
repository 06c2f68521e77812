"""Random pairs of mappings: the same in another form, one a little weaker or stronger than the other, or of other schemas."""
import copy

from lines import Line
from mapping import Mapping
from random_cases import add_dependencies, add_reference, random_condition, random_line, random_rule
from rules import EXISTENTIAL, LITERAL, VARIABLE, Atom, Cell, Rule, numbered
from schema import preorder
from spelling import mapping_tokens, spelled

LITERALS = ["v", "vv", "vvv1", "v0", "V", "w", "", "?0.0.0"]
ALIKE = ["the same", "reordered", "printed", "doubled"]  # these imply each other
CHANGES = ["rule", "rule", "rule", "rule", "split", "split", "merged", "rule lost", "rule more", "line lost", "line lost",
           "line more", "other rules", "schema", "condition", "conversion"]


def without_conversions(random, mapping):
    """The mapping with columns in the place of conversions, and other rules for those that have some."""
    for place, line in enumerate(mapping.lines):
        if line.conversion is not None:
            mapping.lines[place] = Line(line.target, line.columns[:1])
    for place, rule in enumerate(mapping.rules):
        while mapping.rules[place].derived:
            mapping.rules[place] = random_rule(random, mapping.source, mapping.target)


def with_literals(random, mapping):
    """Puts literals of letters v in the place of some literals."""
    def changed(cell):
        return Cell(LITERAL, random.choice(LITERALS)) if cell.kind == LITERAL else cell

    for line in mapping.lines:
        if line.literal is not None:
            line.literal = random.choice(LITERALS)
    for rule in mapping.rules:
        rule.conclusion = [Atom(atom.table, tuple(map(changed, atom.cells))) for atom in rule.conclusion]


def sent(rule, send_premise, send_cell):
    """The rule with other variables in its premise and other cells in its conclusion."""
    premise = [Atom(atom.table, tuple(map(send_premise, atom.cells))) for atom in rule.premise]
    conclusion = [Atom(atom.table, tuple(map(send_cell, atom.cells))) for atom in rule.conclusion]
    return Rule(premise, numbered(conclusion))


def changed_rule(random, rule, source):
    """A rule that is a little weaker or stronger: by a cell, by an atom, or by two variables that become one."""
    variables, chance = rule.premise_variables(), random.randrange(5)
    if chance == 0:  # a cell of the conclusion
        place = random.randrange(len(rule.conclusion))
        atom = rule.conclusion[place]
        cell = random.randrange(len(atom.cells))
        kinds = [Cell(EXISTENTIAL, 1000), Cell(EXISTENTIAL, 1000), Cell(VARIABLE, random.randrange(variables)),
                 Cell(LITERAL, random.choice(LITERALS)), random.choice(rule.conclusion_cells())]
        cells = atom.cells[:cell] + (random.choice(kinds),) + atom.cells[cell + 1:]
        conclusion = rule.conclusion[:place] + [Atom(atom.table, cells)] + rule.conclusion[place + 1:]
        return Rule(rule.premise, numbered(conclusion))
    if chance == 1 and len(rule.conclusion) > 1:  # an atom of the conclusion less
        lost = random.choice(rule.conclusion)
        return Rule(rule.premise, numbered([atom for atom in rule.conclusion if atom != lost] or [lost]))
    if chance == 2:  # two variables of the premise become one
        one, other = random.randrange(variables), random.randrange(variables)
        return sent(rule, lambda variable: one if variable == other else variable,
                    lambda cell: Cell(VARIABLE, one) if cell == Cell(VARIABLE, other) else cell)
    if chance == 3:  # all that one existential variable, or one literal, stands for becomes another cell
        unknown = [cell for cell in rule.conclusion_cells() if cell.kind != VARIABLE]
        other = Cell(VARIABLE, random.randrange(variables))
        if unknown:
            old, new = random.choice(unknown), random.choice(unknown + [other])
            return sent(rule, lambda variable: variable, lambda cell: new if cell == old else cell)
    number = random.randrange(len(source))  # an atom of the premise more
    cells = [random.randrange(variables + 1) for _ in source[number].columns]
    return Rule(rule.premise + [Atom(number, tuple(cells))], rule.conclusion)


def copied(mapping):
    """A mapping that can be changed without the first one; their lines and rules are the same."""
    trees = copy.deepcopy((mapping.source_trees, mapping.target_trees))
    return Mapping(*trees, list(mapping.lines), list(mapping.rules), list(mapping.conditions), mapping.version)


class PairMaker:
    """Makes a second mapping from a first one and its rule list."""

    def __init__(self, random, mapping, rules):
        self.random, self.rules = random, rules
        self.first, self.second = mapping, copied(mapping)

    def chosen(self, items):
        """The place of one of the items."""
        return self.random.randrange(len(items))

    def change(self, what):
        """One change of the second mapping; where the rules themselves are changed, they stand in the place of the lines."""
        second, random = self.second, self.random
        if what in ("printed", "rule", "split", "merged", "rule lost") and second.lines:
            second.lines, second.rules = [], list(self.rules)
        if what in ("rule", "split", "merged") and any(rule.derived for rule in second.rules):
            return
        if what == "reordered":
            literals = [line for line in second.lines if line.literal is not None]
            others = [line for line in second.lines if line.literal is None]
            second.lines = random.sample(others, len(others)) + literals
            second.rules = random.sample(second.rules, len(second.rules))
        elif what == "doubled" and second.rules:
            second.rules.insert(random.randint(0, len(second.rules)), random.choice(second.rules))
        elif what == "rule" and second.rules:
            place = self.chosen(second.rules)
            second.rules[place] = changed_rule(random, second.rules[place], second.source)
        elif what == "split" and second.rules:
            rule = second.rules.pop(self.chosen(second.rules))
            second.rules += [Rule(rule.premise, numbered([atom])) for atom in rule.conclusion]
        elif what == "merged" and second.rules:
            self.merge()
        elif what in ("rule lost", "line lost"):
            items = second.rules if what == "rule lost" else second.lines
            if items:
                items.pop(self.chosen(items))
        elif what == "rule more":
            second.rules.append(random_rule(random, second.source, second.target))
        elif what == "line more":
            second.lines.append(random_line(random, second.source, second.target))
        elif what == "other rules":
            second.rules = [random_rule(random, second.source, second.target) for _ in range(random.randint(1, 3))]
            second.lines = []
        else:
            self.change_more(what)
        if what in ("rule more", "line more", "other rules") and random.random() < .9:
            without_conversions(random, second)

    def merge(self):
        """One rule that asks for what two rules ask, with both premises or, if they are the same, with one."""
        one, other = (self.random.choice(self.second.rules) for _ in range(2))
        apart = 0 if one.premise == other.premise else one.premise_variables()

        def moved(cell):
            return Cell(cell.kind, cell.content + {VARIABLE: apart, EXISTENTIAL: 1000}[cell.kind]) if cell.kind != LITERAL else cell

        moved_rule = sent(other, lambda variable: variable + apart, lambda cell: cell)
        conclusion = [Atom(atom.table, tuple(map(moved, atom.cells))) for atom in other.conclusion]
        premise = one.premise + (moved_rule.premise if apart else [])
        self.second.rules.append(Rule(premise, numbered(one.conclusion + conclusion)))

    def change_more(self, what):
        """What makes two mappings that can't be compared, mostly."""
        mapping, random = random_side(self.random, self.first, self.second), self.random
        if what == "condition":
            mapping.version = max(mapping.version, 2)
            mapping.conditions.append(random_condition(random, mapping.source))
        elif what == "conversion":
            rules = [random_rule(random, mapping.source, mapping.target) for _ in range(8)]
            mapping.rules += [rule for rule in rules if rule.derived][:1]
        elif what == "schema":
            tree = random.choice(list(preorder(mapping.source_trees + mapping.target_trees)))
            change_tree(random, mapping, tree)

    def make(self):
        """Changes the second mapping, and now and then the first one, in some way, and answers which."""
        if self.random.random() < .35:
            changes = [self.random.choice(ALIKE)]
        else:
            changes = self.random.choices(CHANGES, k=self.random.choice([1, 1, 1, 2]))
        for what in changes:
            self.change(what)
        if self.random.random() < .3:
            mapping = random_side(self.random, self.first, self.second)
            mapping.version = self.random.randint(mapping.version, 3)
        if self.random.random() < .5:
            self.first, self.second = self.second, self.first
        return changes

    def files(self):
        """The two texts."""
        return {name: spelled(mapping_tokens(mapping, self.random), self.random)
                for name, mapping in (("mapping.clio", self.first), ("other.clio", self.second))}


def random_side(random, first, second):
    return first if random.random() < .4 else second


def change_tree(random, mapping, tree):
    """Changes a set: a name, keys, refs or dependencies. The tables keep their numbers and columns, though not their names."""
    chance = random.randrange(7)
    is_source = any(tree is one for one in preorder(mapping.source_trees))
    side = mapping.source_trees if is_source else mapping.target_trees
    if chance == 0:
        old, tree.name = tree.name, tree.name + "x"
        for one in preorder(side):
            for reference in one.references:
                reference.name = tree.name if reference.name == old else reference.name
    elif chance == 1:
        tree.keys.append(tree.columns[:1])
    elif chance == 2:
        tree.keys.reverse()
    elif chance == 3 and tree.references:
        tree.references[0].optional = not tree.references[0].optional
        mapping.version = max(mapping.version, 2)
    elif chance == 4:
        tree.references.reverse()
    elif chance == 5:
        mapping.version = 3
        add_dependencies(random, tree)
    else:
        add_reference(random, side, tree)
    mapping.make_tables()
