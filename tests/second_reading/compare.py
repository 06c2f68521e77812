#!/usr/bin/env python3
"""Compares the program with a second reading of its notions on random cases: compare.py PROGRAM SEED COUNT [KIND]."""
import os
import random
import subprocess
import sys

from checks import CaseCheck, Difference
from hostile import HostileCheck
from program import Folder
from question_cases import MAKERS
from question_checks import QuestionCheck
from random_cases import random_case
from refusals import TooLong

KINDS = ["rules", "lines", "mixed", "keyed", "optional", "dependent", "hostile", *MAKERS]


def case_of(kind, chance):
    """A case of a kind, and what checks it."""
    if kind in MAKERS:
        return MAKERS[kind](chance), QuestionCheck
    if kind == "hostile":
        return random_case(chance, chance.choice(["rules", "lines", "mixed", "optional", "dependent"])), HostileCheck
    return random_case(chance, kind), CaseCheck


def compare_one(program, kind, seed, number, tally):
    """One case; at a difference its folder is kept and told."""
    chance = random.Random("%s %s %d" % (kind, seed, number))
    tally["cases"] = tally.get("cases", 0) + 1
    try:
        case, check = case_of(kind, chance)
    except (TooLong, RecursionError):
        tally["given up"] = tally.get("given up", 0) + 1
        return True
    folder = Folder(case.files)
    try:
        check(case, folder, program, chance, tally).check()
    except (TooLong, RecursionError):
        tally["given up"] = tally.get("given up", 0) + 1
    except subprocess.TimeoutExpired as late:
        tally["late"] = tally.get("late", 0) + 1
        print("LATE in %s, kind %s, seed %s, case %d: %s" % (folder.path, kind, seed, number, late), flush=True)
        return True
    except Difference as difference:
        print("DIFFERENCE in %s, kind %s, seed %s, case %d: %s" % (folder.path, kind, seed, number, difference),
              flush=True)
        return False
    folder.remove()
    return True


def main(words):
    """All cases of all kinds that are asked for."""
    if len(words) not in (3, 4) or (len(words) == 4 and words[3] not in KINDS):
        print("usage: compare.py PROGRAM SEED COUNT [%s]" % " | ".join(KINDS), file=sys.stderr)
        return 2
    program, seed, count = os.path.abspath(words[0]), words[1], int(words[2])
    differences = 0
    for kind in words[3:] or KINDS:
        tally = {}
        for number in range(count):
            differences += not compare_one(program, kind, seed, number, tally)
        print("%s, seed %s: %s" % (kind, seed, ", ".join("%s %s" % pair for pair in sorted(tally.items()))), flush=True)
    print("differences %d" % differences)
    return 1 if differences else 0


if __name__ == "__main__":
    sys.exit(main(sys.argv[1:]))
