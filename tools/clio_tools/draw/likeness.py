"""How alike two names are, from 0 to 1."""
import difflib
import re
from collections.abc import Sequence
from functools import cache

BEGINS = 0.8  # one word is the beginning of the other


@cache
def words_of(name: str) -> tuple[str, ...]:
    """The words of a name, in small letters."""
    found = re.findall(r"[A-Z]+(?![a-z])|[A-Z]?[a-z]+|[0-9]+", name)
    return tuple(part.lower() for part in found) or (name,)


@cache
def alike(one: str, other: str) -> float:
    """By words in common, by one being the other's beginning, by letters in common."""
    if one.lower() == other.lower():
        return 1.0
    first, second = words_of(one), words_of(other)
    if first == second:
        return 0.98
    by_letters = difflib.SequenceMatcher(None, "".join(first), "".join(second)).ratio()
    return max(by_words(first, second), by_letters * 0.9)


def by_words(first: Sequence[str], second: Sequence[str]) -> float:
    """How many words two names have in common."""
    common = sum(max(word_alike(a, b) for b in second) for a in first)
    common += sum(max(word_alike(a, b) for a in first) for b in second)
    return common / (len(first) + len(second))


def word_alike(one: str, other: str) -> float:
    """How alike two words are."""
    if one == other:
        return 1.0
    short, long = sorted((one, other), key=len)
    return BEGINS if len(short) >= 2 and long.startswith(short) else 0.0


@cache
def shares(set_name: str, other: str) -> bool:
    """Whether a name has a word that is like one of a set's name."""
    return any(word_alike(one, word) for one in words_of(set_name) for word in words_of(other))


def with_set(set_name: str, name: str, other: str) -> float:
    """How alike a name is to one with its set's name in front, as customer_name to customer.name."""
    if not shares(set_name, other):
        return 0.0
    return by_words([*words_of(set_name), *words_of(name)], words_of(other))
