"""Random folders for the words `answer`, `judge` and `compare`."""
from dataclasses import dataclass

from chase import Chase
from given_cases import GivenMaker
from matches import canonical, places_of
from pair_cases import PairMaker, with_literals, without_conversions
from query_cases import QueryMaker
from random_cases import random_case
from refusals import Limit
from values import ascending

ROWS = 20  # source rows, so that a question takes little time


@dataclass
class Question:
    """A word, the files of a folder, and how what is asked about was made."""
    word: str
    files: dict
    manner: list
    case: object


def small_case(random):
    """A case with few source rows."""
    while True:
        case = random_case(random, random.choice(["rules", "lines", "mixed", "optional", "dependent"]))
        if sum(map(len, case.instance.values())) <= ROWS:
            return case


def target_of(case):
    """The facts that the program makes of a case, or after a clash some of them; and whether there is a clash."""
    try:
        rules, _ = case.mapping.rule_list()
    except Limit:
        return set(), False
    chase = Chase(canonical(places_of(rules, case.instance)), case.mapping.target)
    return chase.instance(), chase.clash


def answer_case(random):
    """A folder with a query."""
    for _ in range(3):
        case = small_case(random)
        facts = ascending(target_of(case)[0])
        if facts:
            break
    query = QueryMaker(random, case.mapping.target, facts).query()
    return Question("answer", {**case.files, "query.clio": query}, [], case)


def judge_case(random):
    """A folder with a given target."""
    case = small_case(random)
    facts, is_clash = target_of(case)
    maker = GivenMaker(random, case.mapping.target, facts)
    maker.make()
    files = {**case.files, **maker.files()}
    return Question("judge", files, ["clash"] * is_clash + maker.manner, case)


def compare_case(random):
    """A folder with two mappings; no data files are asked for."""
    mapping = random_case(random, random.choice(["rules", "rules", "lines", "mixed", "dependent"])).mapping
    if random.random() < .9:
        without_conversions(random, mapping)
    if random.random() < .9:
        mapping.conditions = []
    if random.random() < .5:
        with_literals(random, mapping)
    try:
        maker = PairMaker(random, mapping, mapping.rule_list()[0])
    except Limit:
        maker = PairMaker(random, mapping, [])
    manner = maker.make()
    return Question("compare", maker.files(), manner, None)


MAKERS = {"answer": answer_case, "judge": judge_case, "compare": compare_case}
