"""What the program must make of a folder with the words `answer`, `judge` and `compare`."""
from chase import Chase
from comparing import refutation
from files import rows_of, table_text
from folders import Rows, folder_mapping, folder_other, folder_query
from judging import verdict
from matches import canonical, places_of
from program import Run
from queries import answers_text, certain_rows
from refusals import OTHER, Clash, Refusal


def answered(folder):
    """The certain answers of the folder's query."""
    mapping, rules = folder_mapping(folder)
    query = folder_query(folder, mapping.target)
    instance = Rows(folder).source(mapping)
    chase = Chase(canonical(places_of(rules, instance)), mapping.target)
    if chase.clash:
        raise Clash()
    rows = certain_rows(query, chase.instance())
    return Run(0, "answers.csv %d\n" % len(rows), "", {"answers.csv": answers_text(query, rows)})


def judged(folder):
    """The verdict on the folder's given target. It is never asked whether there is a solution at all."""
    mapping, rules = folder_mapping(folder)
    files = Rows(folder)
    instance = files.source(mapping)
    given = files.given(mapping)
    places = places_of(rules, instance)
    chased = Chase(canonical(places), mapping.target).instance()
    return Run(0, "verdict %s\n" % verdict(mapping.target, places, chased, given), "", {})


def compared(folder):
    """Which of the folder's two mappings implies the other; what refutes this, as files."""
    mapping, first = folder_mapping(folder)
    other, second = folder_other(folder)
    check_comparable(mapping, first, other, second)
    said, files, counts = "", {}, ""
    for direction, found in (("forward", refutation(first, second)), ("backward", refutation(second, first))):
        said += "%s %s\n" % (direction, "yes" if found is None else "no %d" % found.rule)
        if found is None:
            continue
        for side, tables, facts in (("source", mapping.source, found.source), ("target", mapping.target, found.target)):
            for number, table in enumerate(tables):
                name, rows = "%s_%s_%s.csv" % (direction, side, table.name), rows_of(facts, number)
                files[name] = table_text(table, rows)
                counts += "%s %d\n" % (name, len(rows))
    return Run(0, said + counts, "", files)


def check_comparable(mapping, first, other, second):
    """The mappings have the same schemas, no conditions, and no conversions in their rules."""
    if mapping.source_trees != other.source_trees or mapping.target_trees != other.target_trees:
        raise Refusal(OTHER, "other: schemas differ")
    if mapping.conditions or other.conditions:
        raise Refusal(OTHER, "other: row conditions")
    for name, rules in (("mapping.clio", first), ("other.clio", second)):
        for number, rule in enumerate(rules):
            if rule.derived:
                raise Refusal(OTHER, "other: conversion in rule %d of %s" % (number, name))


QUESTIONS = {"answer": answered, "judge": judged, "compare": compared}


def wanted_run(folder, word):
    """What a run with this word must leave; its message is None if it tells one of several clashes."""
    try:
        return QUESTIONS[word](folder)
    except Clash:
        return Run(3, "", None, {})
    except Refusal as refusal:
        return Run(refusal.status, "", refusal.message + "\n", {})
