"""Cell maps between rules, which rule is before which, covered places and the cover fold."""
from refusals import Steps
from rules import EXISTENTIAL, LITERAL, VARIABLE, Cell
from values import Null

USED_MAPS = 16


def cell_maps(one, other):
    """The used cell maps from one rule to another: those that differ on the exported variables, at most 16."""
    found, seen, budget = [], set(), Steps(50000)
    exported = one.exported()

    def choose(place, met):
        budget.take()
        if len(found) == USED_MAPS:
            return
        if place == len(one.conclusion):
            key = tuple(met[Cell(VARIABLE, variable)] for variable in exported)
            if key not in seen:
                seen.add(key)
                found.append(met)
            return
        atom = one.conclusion[place]
        for chosen in other.conclusion:
            if chosen.table == atom.table:
                longer = meeting(met, atom.cells, chosen.cells)
                if longer is not None:
                    choose(place + 1, longer)

    choose(0, {})
    return found


def meeting(met, cells, chosen):
    """What each cell meets, the chosen atom's cells included, or None where this is no part of a cell map."""
    longer = dict(met)
    for cell, other in zip(cells, chosen):
        if longer.setdefault(cell, other) != other:
            return None
        if cell.kind == VARIABLE and other.kind == EXISTENTIAL:
            return None
        if cell.kind == LITERAL and cell != other:
            return None
    return longer


class Covers:
    """The cell maps of a list of rules, and the order that they give."""

    def __init__(self, rules):
        self.rules = rules
        self.maps = [[cell_maps(one, other) if number != place else [] for place, other in enumerate(rules)] for number, one in enumerate(rules)]

    def is_before(self, other, one):
        """Whether a cell map from `one` to `other` exists, and none back or `other` has the lower number."""
        if other == one or not self.maps[one][other]:
            return False
        return not self.maps[other][one] or other < one

    def before(self, one):
        """The rules before a rule, ascending."""
        return [other for other in range(len(self.rules)) if self.is_before(other, one)]


class CoveredPlaces:
    """Which places are covered, by what, and where the cover fold sends their nulls."""

    def __init__(self, covers, places):
        self.covers, self.places = covers, places
        self.cover = {(place.rule, place.number): self.first_cover(place) for of_rule in places for place in of_rule}

    def first_cover(self, place):
        """The first rule, cell map and place that cover this one, or None."""
        for other in self.covers.before(place.rule):
            for met in self.covers.maps[place.rule][other]:
                for by in self.places[other]:
                    if all(by.value(met[Cell(VARIABLE, variable)]).text == text
                           for variable, text in place.value_of.items()):
                        return met, by
        return None

    def uncovered(self):
        """The places that nothing covers."""
        return [place for of_rule in self.places for place in of_rule
                if self.cover[(place.rule, place.number)] is None]

    def fold(self, value):
        """The cover fold of a value."""
        while isinstance(value, Null):
            cover = self.cover[(value.rule, value.place)]
            if cover is None:
                return value
            met, by = cover
            value = by.value(met[Cell(EXISTENTIAL, value.variable)])
        return value
