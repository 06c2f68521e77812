"""How the program must refuse, and where this reading gives up."""
import re
from contextlib import contextmanager

TEXT_BYTES = 1048576
DATA_BYTES = 67108864
TABLES = 64
COLUMNS = 64
DEPTH = 16
LINES = 512
VARIANTS = 256
OCCURRENCES = 64
WAYS = 64
CANDIDATES = 1024
RULES = 256
QUERY_BYTES = 65536
QUERY_ATOMS = 64
ANSWER_CELLS = 4000000
GIVEN_CELLS = 1000000
FROZEN_CELLS = 4000000

CLASH, MAPPING, ROWS, LIMIT, READ_FAULT, WRITE_FAULT, QUERY, OTHER = 3, 4, 5, 6, 7, 8, 10, 11  # statuses


HARMFUL = re.compile("[\x00-\x1f\x7f-\x9f\u061c\u200e\u200f\u202a-\u202e\u2066-\u2069]")


def shown(message):
    """A message as it is printed: control characters, and marks that turn the direction of writing, are escaped."""
    return HARMFUL.sub(lambda found: "\\u{%x}" % ord(found[0]), message)


class Refusal(Exception):
    """The program must end with this status and print this message."""

    def __init__(self, status, message, name=None):
        super().__init__(message)
        self.status, self.message, self.name = status, shown(message), name


class Limit(Refusal):
    """A count passes its number."""

    def __init__(self, count, number):
        super().__init__(LIMIT, "limit: %s %d" % (count, number))


class Clash(Refusal):
    """No target satisfies all rules, keys and links; which of several clashes the message tells is free."""

    def __init__(self):
        super().__init__(CLASH, "clash")


@contextmanager
def told_of(status, subject):
    """Tells the faults of the mapping text as faults of another text, with that text's status."""
    try:
        yield
    except Refusal as refusal:
        if refusal.status != MAPPING:
            raise
        raise Refusal(status, subject + refusal.message[len("mapping"):], refusal.name) from None


class TooLong(Exception):
    """This reading gives a case up, since a search takes too many steps."""


class Unsure(Exception):
    """This reading doesn't say what the program makes of a file."""


class Steps:
    """A number of steps that a search may take."""

    def __init__(self, number):
        self.left = number

    def take(self):
        self.left -= 1
        if self.left < 0:
            raise TooLong()
