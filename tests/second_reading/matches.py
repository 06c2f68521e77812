"""Matches of rules in a source instance, and the canonical instance that they give."""
from refusals import Steps
from rules import LITERAL, VARIABLE
from values import Constant, Fact, Null


class Conversion:
    """A conversion makes one text of a fixed number of texts."""

    def __init__(self, name, arity, apply):
        self.name, self.arity, self.apply = name, arity, apply


CONVERSIONS = [  # in the order of their codes
    Conversion("trim", 1, lambda text: text.strip(" ")),
    Conversion("digits", 1, lambda text: "".join(c for c in text if c in "0123456789")),
    Conversion("pair", 2, lambda first, second: first + " " + second),
]
TESTS = {
    "filled": lambda text: text != "",
    "numeric": lambda text: text != "" and all(character in "0123456789" for character in text),
}
NAMED = {conversion.name: conversion for conversion in CONVERSIONS}


def exported_tuples(rule, instance):
    """The distinct tuples of exported values over all matches, ascending by their bytes."""
    found, exported, first = set(), rule.exported(), rule.premise_variables()
    budget = Steps(100000)

    def extend(place, known):
        if place == len(rule.premise):
            values = dict(known)
            for number, derived in enumerate(rule.derived):
                arguments = [values[variable] for variable in derived.arguments]
                values[first + number] = NAMED[derived.conversion].apply(*arguments)
            found.add(tuple(values[variable] for variable in exported))
            return
        atom = rule.premise[place]
        for row in instance.get(atom.table, ()):
            budget.take()
            values = dict(known)
            if all(values.setdefault(variable, text) == text for variable, text in zip(atom.cells, row)):
                extend(place + 1, values)

    extend(0, {})
    return sorted(found, key=lambda texts: [text.encode() for text in texts])


class Place:
    """A place of a rule: the number of the rule, and the position of one of its tuples."""

    def __init__(self, rules, rule, place, texts):
        self.rule, self.number, self.conclusion = rule, place, rules[rule].conclusion
        self.value_of = dict(zip(rules[rule].exported(), texts))

    def value(self, cell):
        """The value of a conclusion cell at this place."""
        if cell.kind == VARIABLE:
            return Constant(self.value_of[cell.content])
        if cell.kind == LITERAL:
            return Constant(cell.content)
        return Null(self.rule, cell.content, self.number)

    def facts(self):
        """The conclusion's facts at this place."""
        return {Fact(atom.table, tuple(self.value(cell) for cell in atom.cells)) for atom in self.conclusion}


def places_of(rules, instance):
    """For each rule its places."""
    return [[Place(rules, number, place, texts) for place, texts in enumerate(exported_tuples(rule, instance))]
            for number, rule in enumerate(rules)]


def facts_of(places):
    """The facts of all these places."""
    facts = set()
    for place in places:
        facts |= place.facts()
    return facts


def canonical(places):
    """The canonical instance has the facts of every place of every rule."""
    return facts_of(place for of_rule in places for place in of_rule)
