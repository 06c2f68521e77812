"""The verdict on a given target: no solution and why, a solution, universal, or a core."""
from homomorphisms import homomorphism, is_core
from values import ascending


def unsatisfied(rule_places, given):
    """The first rule and its first place whose conclusion the given facts don't have, with some values for its nulls."""
    for of_rule in rule_places:
        for place in of_rule:
            if homomorphism(ascending(place.facts()), given) is None:
                return place
    return None


def broken_determination(tables, given):
    """The first table and the first of its keys and dependencies that doesn't hold, both by number."""
    for number, table in enumerate(tables):
        rows = [fact.row for fact in given if fact.table == number]
        for determination, (left, right) in enumerate(table.determinations()):
            decided = {}
            for row in rows:
                values = tuple(row[column] for column in right)
                if decided.setdefault(tuple(row[column] for column in left), values) != values:
                    return number, determination
    return None


def broken_link(tables, given):
    """The first table and the first of its links that doesn't hold, both by number."""
    for number, table in enumerate(tables):
        for place, link in enumerate(table.links):
            referred = {tuple(fact.row[column] for column in link.referred) for fact in given if fact.table == link.table}
            if any(fact.table == number and tuple(fact.row[column] for column in link.own) not in referred
                   for fact in given):
                return number, place
    return None


def reason(tables, rule_places, given):
    """Why the given facts are no solution, or None."""
    place = unsatisfied(rule_places, given)
    if place is not None:
        return "rule %d place %d" % (place.rule, place.number)
    for what, broken in (("key", broken_determination(tables, given)), ("link", broken_link(tables, given))):
        if broken is not None:
            return "%s %d of table %s" % (what, broken[1], tables[broken[0]].name)
    return None


def verdict(tables, rule_places, chased, given):
    """The verdict on given facts; `chased` are the facts of a universal target, if there is a solution."""
    given = ascending(given)
    why = reason(tables, rule_places, given)
    if why is not None:
        return "not a solution: " + why
    if homomorphism(given, chased) is None:
        return "solution"
    return "core" if is_core(given) else "universal"
