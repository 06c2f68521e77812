"""Homomorphisms, and what is asked of them: cores, rules that follow from others or don't, pruning.

For each fact there is a list of the facts to which it can still go, and for each null the values that it can still take. These are cut
until each value of each null has a fact for it in the list of each fact that has the null; then a fact with several left is sent to one
after the other. Facts that share no null with several values left are looked at by themselves.
"""
from refusals import Steps
from matches import canonical, places_of
from rules import LITERAL, VARIABLE
from values import Constant, Fact, Null, ascending, nulls_of


class Lists:
    """Where facts can still go, and what their nulls can still become."""

    def __init__(self, goals, values, holders, budget):
        self.goals, self.values, self.holders, self.budget = goals, values, holders, budget

    @classmethod
    def of(cls, facts, into, steps):
        """All goals of each fact that agree with it."""
        rows, holders = {}, {}
        for fact in into:
            rows.setdefault(fact.table, []).append(fact)
        for fact in facts:
            for null in nulls_of([fact]):
                holders.setdefault(null, []).append(fact)
        goals = {fact: [goal for goal in rows.get(fact.table, ()) if agrees(fact.row, goal.row)] for fact in facts}
        return cls(goals, {}, holders, Steps(steps))

    def with_goals(self, goals):
        """The same with other goals of some facts; what no list has now is cut later."""
        return Lists({**self.goals, **goals}, dict(self.values), self.holders, self.budget)

    def without(self, goal):
        """The same where no fact can go to this one."""
        return self.with_goals({fact: [one for one in goals if one != goal]
                                for fact, goals in self.goals.items() if goal in goals})

    def cut(self, facts):
        """Cuts the lists, beginning with these facts; false where a fact can go nowhere."""
        left = dict.fromkeys(facts)
        while left:
            fact = next(iter(left))
            del left[fact]
            self.budget.take()
            goals = [goal for goal in self.goals[fact] if self.allows(fact, goal)]
            self.goals[fact] = goals
            if not goals:
                return False
            for column, value in enumerate(fact.row):
                if isinstance(value, Null):
                    taken = {goal.row[column] for goal in goals}
                    before = self.values.get(value)
                    after = taken if before is None else before & taken
                    if after != before:
                        self.values[value] = after
                        left.update(dict.fromkeys(self.holders[value]))
        return True

    def allows(self, fact, goal):
        """Whether each null of the fact can become what it would be there."""
        return all(value not in self.values or other in self.values[value]
                   for value, other in zip(fact.row, goal.row) if isinstance(value, Null))

    def parts(self):
        """The facts with several goals, in parts that share no null with several values."""
        left = dict.fromkeys(fact for fact, goals in self.goals.items() if len(goals) > 1)
        while left:
            part, reached = [], [next(iter(left))]
            del left[reached[0]]
            while reached:
                part.append(reached.pop())
                for null in nulls_of(part[-1:]):
                    if len(self.values[null]) > 1:
                        for other in self.holders[null]:
                            if other in left:
                                del left[other]
                                reached.append(other)
            yield part

    def solve(self):
        """Sends each fact to one goal after the lists were cut; false where there is no way."""
        return all(self.solve_part(part) for part in list(self.parts()))

    def solve_part(self, part):
        fact = min(part, key=lambda one: len(self.goals[one]))
        for goal in self.goals[fact]:
            tried = self.with_goals({fact: [goal]})
            if tried.cut([fact]) and tried.solve():
                self.goals.update(tried.goals)
                self.values.update(tried.values)
                return True
        return False

    def map(self):
        """What each null becomes, once each fact has one goal."""
        return {null: next(iter(values)) for null, values in self.values.items()}


def agrees(row, onto):
    """Whether a row's constants, and values that stand in it twice, are so in another."""
    known = {}
    return all(known.setdefault(value, other) == other if isinstance(value, Null) else value == other
               for value, other in zip(row, onto))


def homomorphism(facts, into, steps=60000):
    """Values for the nulls of `facts` that send each of them to a fact of `into`, or None."""
    lists = Lists.of(facts, into, steps)
    return lists.map() if lists.cut(facts) and lists.solve() else None


def smaller_image(facts, steps=60000):
    """What sends the facts into themselves without one of them, or None for a core."""
    facts = ascending(facts)
    lists = Lists.of(facts, facts, steps)
    lists.cut(facts)
    for fact in facts:
        if lists.goals[fact] != [fact]:  # what can go nowhere else is never left out
            tried = lists.without(fact)
            if tried.cut([one for one in facts if fact in lists.goals[one]]) and tried.solve():
                return tried.map()
    return None


def is_core(facts):
    """Whether no homomorphism sends the facts into themselves without some fact."""
    return smaller_image(facts) is None


def core_of(facts):
    """Some core of the facts: the image of an image and so on, as long as one is smaller."""
    while True:
        smaller = smaller_image(facts)
        if smaller is None:
            return facts
        facts = {Fact(fact.table, tuple(smaller.get(value, value) for value in fact.row)) for fact in facts}


def largest_block(facts):
    """How many facts the largest block has: of those that hang together by nulls."""
    holders, left, largest = {}, {fact for fact in facts if nulls_of([fact])}, 0
    for fact in left:
        for null in nulls_of([fact]):
            holders.setdefault(null, []).append(fact)
    while left:
        reached, size = [left.pop()], 0
        while reached:
            size += 1
            for null in nulls_of([reached.pop()]):
                fresh = left.intersection(holders[null])
                left -= fresh
                reached.extend(fresh)
        largest = max(largest, size)
    return largest


def frozen(rule, prefix):
    """The premise as a source instance: the text of a variable is the prefix and its number."""
    instance = {}
    for atom in rule.premise:
        instance.setdefault(atom.table, set()).add(tuple("%s%d" % (prefix, variable) for variable in atom.cells))
    return instance


def refuting(rule, others, prefix):
    """None if a rule follows from others, or else what these make of its frozen premise, into which its conclusion doesn't map."""
    def wanted(cell):
        if cell.kind == VARIABLE:
            return Constant("%s%d" % (prefix, cell.content))
        return Constant(cell.content) if cell.kind == LITERAL else Null(-1, cell.content, 0)

    goal = {Fact(atom.table, tuple(wanted(cell) for cell in atom.cells)) for atom in rule.conclusion}
    made = canonical(places_of(others, frozen(rule, prefix)))
    return None if homomorphism(ascending(goal), ascending(made)) is not None else made


def pruned(rules):
    """The rules that are left when, from the last to the first, each one that follows from the others is dropped."""
    left = list(rules)
    for number in reversed(range(len(left))):
        if left[number].derived:
            continue
        others = [rule for place, rule in enumerate(left) if place != number and not rule.derived]
        if refuting(left[number], others, "\x01") is None:
            del left[number]
    return left
