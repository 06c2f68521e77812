"""The order of the boxes on two sides that makes few crossings.

An edge goes from a port of a box on the left to a port of a box on the right; the ports of a box keep their order. Of
two boxes on one side it is known how many of their edges cross if the one is above the other, so to move a box is
cheap: each box goes where it makes fewest crossings, on both sides in turn, until no move helps.
"""
import itertools
import random
from collections.abc import Hashable, Iterable, Sequence
from typing import TypeVar

Name = TypeVar("Name", bound=Hashable)
Boxes = Sequence[tuple[Name, Sequence[Hashable]]]  # of a side: a name and the ports of each
Edges = Sequence[tuple[Hashable, Hashable]]
Partners = dict[Hashable, list[Hashable]]  # for each port those to which its edges lead
Fixed = dict[Hashable, int]  # the places of the ports of the other side
Costs = dict[tuple[Name, Name], int]  # of pairs of boxes
Found = tuple[int, Boxes[Name], Boxes[Name]]  # both sides in an order, behind the number of their crossings

ROUNDS = 30
MORE = 8  # orders by chance from which it begins as well
EXACT = 7  # up to so many boxes on a side all orders are tried


def positions(boxes: Boxes[Hashable]) -> Fixed:
    """For each port its place from the top."""
    return {port: place for place, port in enumerate(itertools.chain.from_iterable(ports for _, ports in boxes))}


def crossings(left: Boxes[Hashable], right: Boxes[Hashable], edges: Edges) -> int:
    """How many pairs of edges cross. A side is a list of boxes: a name and its ports."""
    from_left, from_right = positions(left), positions(right)
    ends = sorted((from_left[one], from_right[other]) for one, other in edges)
    return sum(1 for (a, b), (c, d) in itertools.combinations(ends, 2) if a < c and b > d)


def pair_costs(boxes: Boxes[Name], partners: Partners, fixed: Fixed) -> Costs[Name]:
    """For each pair of boxes how many of their edges cross if the first is above the second."""
    ends = {name: sorted(fixed[one] for port in ports for one in partners.get(port, ())) for name, ports in boxes}
    costs: Costs[Name] = {}
    for (one, _), (other, _) in itertools.permutations(boxes, 2):
        costs[one, other] = inversions(ends[one], ends[other])
    return costs


def inversions(above: list[int], below: list[int]) -> int:
    """How many pairs of an end of the box above and one of the box below are the wrong way round; both are
    ascending.
    """
    count = place = 0
    for end in above:
        while place < len(below) and below[place] < end:
            place += 1
        count += place
    return count


def cost_of(order: Iterable[Name], costs: Costs[Name]) -> int:
    """The crossings of boxes in an order."""
    return sum(costs[one, other] for one, other in itertools.combinations(order, 2))


def sifted(order: list[Name], costs: Costs[Name]) -> list[Name]:
    """The order in which each box in turn went where it makes fewest crossings."""
    for name in list(order):
        rest = [one for one in order if one != name]
        cost = sum(costs[name, one] for one in rest)
        best, least = 0, cost
        for place, one in enumerate(rest, 1):
            cost += costs[one, name] - costs[name, one]
            if cost < least:
                best, least = place, cost
        now = order.index(name)
        cost_now = sum(costs[one, name] for one in order[:now]) + sum(costs[name, one] for one in order[now + 1 :])
        if least < cost_now:
            order = rest[:best] + [name] + rest[best:]
    return order


def best_order(boxes: Boxes[Name], partners: Partners, fixed: Fixed) -> Boxes[Name]:
    """One side in a better order, the other side fixed."""
    costs = pair_costs(boxes, partners, fixed)
    named, order = dict(boxes), [name for name, _ in boxes]
    if len(boxes) <= EXACT:
        order = list(min(itertools.permutations(order), key=lambda one: cost_of(one, costs)))
    else:
        order = sifted(order, costs)
    return [(name, named[name]) for name in order]


def ordered(left: Boxes[Name], right: Boxes[Name], edges: Edges) -> tuple[Boxes[Name], Boxes[Name]]:
    """Both sides in an order with few crossings: as they are declared if nothing is better."""
    forth: Partners = {}
    back: Partners = {}
    for one, other in edges:
        forth.setdefault(one, []).append(other)
        back.setdefault(other, []).append(one)
    best: Found[Name] = (crossings(left, right, edges), left, right)
    choice = random.Random(len(edges))
    starts = [left, by_mean(left, forth, positions(right))] + [choice.sample(left, len(left)) for _ in range(MORE)]
    for start in starts:
        found = improved(start, right, (forth, back), edges)
        best = min(best, found, key=lambda one: one[0])
    return best[1], best[2]


def improved(left: Boxes[Name], right: Boxes[Name], ways: tuple[Partners, Partners], edges: Edges) -> Found[Name]:
    """Both sides after each was put in a better order in turn, until that helps no more; how many crossings are left
    comes first.
    """
    forth, back = ways
    best: Found[Name] = (crossings(left, right, edges), left, right)
    for _ in range(ROUNDS):
        right = best_order(right, back, positions(left))
        left = best_order(left, forth, positions(right))
        count = crossings(left, right, edges)
        if count >= best[0]:
            break
        best = (count, left, right)
    return best


def by_mean(boxes: Boxes[Name], partners: Partners, fixed: Fixed) -> Boxes[Name]:
    """The boxes in the order of the mean place of what their edges lead to; those without edges stay behind the one
    before them.
    """
    means: dict[Name, float] = {}
    last = -1.0
    for name, ports in boxes:
        ends = [fixed[one] for port in ports for one in partners.get(port, ())]
        last = sum(ends) / len(ends) if ends else last
        means[name] = last
    return sorted(boxes, key=lambda box: means[box[0]])
