"""Names as words of a mapping text, and how a name that is none is shown."""
import re
import unicodedata
from collections.abc import Iterable

WORD = re.compile(r"[A-Za-z_][A-Za-z0-9_]*")
LETTERS = str.maketrans({"ß": "ss", "æ": "ae", "Æ": "Ae", "œ": "oe", "Œ": "Oe", "ø": "o", "Ø": "O", "ł": "l", "Ł": "L",
                         "đ": "d", "Đ": "D"})
RESERVED = {"nulls", "fold"}  # files that clio writes beside those of the target


def shown(name: str) -> str:
    """A name in quotes, with nothing in it that ends a line or reaches a terminal."""
    signs = []
    for sign in name:
        if sign in '"\\':
            signs.append("\\" + sign)
        elif sign.isprintable():
            signs.append(sign)
        else:
            signs.append(f"\\u{ord(sign):04x}")
    return '"' + "".join(signs) + '"'


def word(name: str) -> str:
    """A word that looks like the name."""
    if WORD.fullmatch(name):
        return name
    plain = "".join(sign for sign in unicodedata.normalize("NFKD", name.translate(LETTERS))
                    if not unicodedata.combining(sign))
    made = re.sub(r"[^A-Za-z0-9_]+", "_", plain).strip("_") or "x"
    return "_" + made if made[0].isdigit() else made


class Words:
    """Words for names, all different, also in capitals alone: databases and file systems may not tell those apart."""

    def __init__(self, taken: Iterable[str] = ()) -> None:
        self.taken = {one.lower() for one in taken}

    def give(self, name: str) -> str:
        """A word for a name, with a number at its end if the word is taken."""
        first = word(name)
        made, number = first, 1
        while made.lower() in self.taken:
            number += 1
            made = f"{first}_{number}"
        self.taken.add(made.lower())
        return made
