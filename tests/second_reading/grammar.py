"""The mapping text: its tokens, its grammar, and the first byte at which a text has left the grammar."""
import codecs
import re
from typing import NamedTuple, Optional

from refusals import DEPTH, MAPPING, Limit, Refusal
from schema import Dependency, Reference, SetTree

VERSIONS = 3  # the versions of the mapping text that the program reads
WORD, NUMBER = re.compile(rb"[A-Za-z_][A-Za-z0-9_]*"), re.compile(rb"[0-9]+")


class Token(NamedTuple):
    """A token is a word, a number, a string or a mark; a string or an arrow may have a fault or be cut."""
    kind: str
    start: int
    text: str
    fault: Optional[Refusal] = None


class PlaceText(NamedTuple):
    """A column as a line names it."""
    set: Token
    column: Token


class LineText(NamedTuple):
    """A line as it is written: from a literal, a column, or a conversion of columns."""
    literal: Optional[Token]
    conversion: Optional[Token]
    columns: list
    target: PlaceText


class OnlyText(NamedTuple):
    """A condition as it is written: a column and the name of a test."""
    place: PlaceText
    test: Token


class CallText(NamedTuple):
    """An atom or the call of a conversion as it is written."""
    name: Token
    cells: list


class DerivedText(NamedTuple):
    """A derived variable as it is written."""
    name: Token
    call: CallText


class RuleText(NamedTuple):
    """A hand-written rule as it is written."""
    premise: list
    derived: list
    conclusion: list


def fault(kind, place):
    """A fault of the mapping text at a byte."""
    return Refusal(MAPPING, "mapping: %s at byte %d" % (kind, place))


def blanks_end(text, place):
    """The first byte after blanks and comments."""
    while place < len(text):
        if text[place] in b" \t\r\n":
            place += 1
        elif text.startswith(b"//", place):
            end = text.find(b"\n", place)
            place = len(text) if end < 0 else end
        else:
            break
    return place


def token_at(text, start):
    """The token that begins at a byte, and the byte after it."""
    for kind, form in (("word", WORD), ("number", NUMBER)):
        found = form.match(text, start)
        if found:
            return Token(kind, start, found[0].decode()), found.end()
    byte = text[start:start + 1]
    if byte == b'"':
        return string_at(text, start)
    if text.startswith(b"->", start):
        return Token("->", start, "->"), start + 2
    if byte in (b"{", b"}", b"(", b")", b",", b";", b".", b"="):
        return Token(byte.decode(), start, byte.decode()), start + 1
    if byte in (b"/", b"-") and start + 1 == len(text):
        ended = fault("text ended", len(text))
        if byte == b"-":
            return Token("->", start, "-", ended), len(text)
        raise ended
    raise fault("bad character", start)


def string_at(text, start):
    """The string that begins at a byte, and the byte after it."""
    place, value = start + 1, b""
    while place < len(text):
        byte = text[place:place + 1]
        if byte == b'"':
            return Token("string", start, value.decode()), place + 1
        if byte == b"\\":
            place, byte = place + 1, text[place + 1:place + 2]
            if byte not in (b"", b'"', b"\\"):
                return Token("string", start, "", fault("bad character", place)), place
        else:
            byte = character_at(text, place)
            if byte is None:
                return Token("string", start, "", fault("bad character", place)), place
        value += byte
        place += max(len(byte), 1)
        if not byte:
            break
    return Token("string", start, "", fault("text ended", len(text))), len(text)


def character_at(text, place):
    """The UTF-8 character at a byte, nothing where the end of the text cuts it, None where none begins there."""
    if text[place] < 32:
        return None
    decoder = codecs.getincrementaldecoder("utf-8")()
    for end in range(place + 1, min(place + 4, len(text)) + 1):
        try:
            if decoder.decode(text[end - 1:end]):
                return text[place:end]
        except UnicodeDecodeError:
            return None
    return b""


class Reader:
    """Reads the grammar from left to right; each step names all tokens that can stand next."""

    def __init__(self, text):
        self.text, self.place, self.version = text, 0, 1

    def is_at_end(self):
        return blanks_end(self.text, self.place) == len(self.text)

    def take(self, *allowed):
        """The next token, which must be of one of these kinds or be one of these words in quotation marks."""
        start = blanks_end(self.text, self.place)
        if start == len(self.text):
            raise fault("text ended", start)
        token, self.place = token_at(self.text, start)
        is_named = token.kind in ("word", "number") and '"%s"' % token.text in allowed
        if token.kind not in allowed and not is_named:
            raise fault("unexpected token", start)
        if token.fault:
            raise token.fault
        return token

    def listed(self, read, *ends):
        """One or more parts with commas between them, and the token that ends the list."""
        parts = [read()]
        end = self.take(",", *ends)
        while end.kind == ",":
            parts.append(read())
            end = self.take(",", *ends)
        return parts, end

    def mapping(self):
        """A whole text: two lists of set trees, the lines, the conditions and the rules."""
        self.take('"mapping"')
        self.version = int(self.take(*['"%d"' % version for version in range(1, VERSIONS + 1)]).text)
        for one in (";", '"source"', "{"):
            self.take(one)
        source = self.sets()
        for one in ('"target"', "{"):
            self.take(one)
        target = self.sets()
        items = {"line": [], "only": [], "rule": []}
        words = ('"line"', '"rule"') if self.version == 1 else ('"line"', '"rule"', '"only"')
        while not self.is_at_end():
            word = self.take(*words).text
            items[word].append({"line": self.line, "only": self.only, "rule": self.rule}[word]())
        return source, target, items["line"], items["only"], items["rule"]

    def sets(self):
        trees = []
        while self.take('"set"', "}").kind == "word":
            trees.append(self.set(1))
        return trees

    def words(self):
        """Names in parentheses."""
        self.take("(")
        return [token.text for token in self.listed(lambda: self.take("word"), ")")[0]]

    def set(self, depth):
        """A set after the word `set`."""
        tree = SetTree(self.take("word").text, [])
        self.take("{")
        tree.columns = [token.text for token in self.listed(lambda: self.take("word"), ";")[0]]
        while True:
            clause = self.take('"key"', '"ref"', '"set"', "}", *['"dep"'] * (self.version > 2))
            if clause.kind == "}":
                return tree
            if clause.text == "set":
                if depth == DEPTH:
                    raise Limit("depth", DEPTH)
                tree.inner.append(self.set(depth + 1))
                continue
            columns = self.words()
            if clause.text == "key":
                tree.keys.append(columns)
            elif clause.text == "dep":
                self.take("->")
                tree.dependencies.append(Dependency(columns, self.words()))
            else:
                self.take("->")
                tree.references.append(Reference(columns, self.take("word").text, self.words()))
                if self.version > 1 and self.take(";", '"optional"').kind == "word":
                    tree.references[-1].optional = True
                elif self.version > 1:
                    continue
            self.take(";")

    def column(self, set_name=None):
        """A set and a column with a point between them."""
        set_name = set_name or self.take("word")
        self.take(".")
        return PlaceText(set_name, self.take("word"))

    def line(self):
        """A line after the word `line`."""
        first = self.take("word", "string")
        literal, conversion, columns = None, None, []
        if first.kind == "string":
            literal = first
        else:
            mark = self.take(".", "(")
            if mark.kind == "(":
                conversion, columns = first, self.listed(self.column, ")")[0]
            else:
                columns = [PlaceText(first, self.take("word"))]
        self.take("->")
        target = self.column()
        self.take(";")
        return LineText(literal, conversion, columns, target)

    def only(self):
        """A condition after the word `only`."""
        condition = OnlyText(self.column(), self.take("word"))
        self.take(";")
        return condition

    def call(self, *kinds):
        """A name with cells in parentheses."""
        name = self.take("word")
        self.take("(")
        return CallText(name, self.listed(lambda: self.take(*kinds), ")")[0])

    def derived(self):
        name = self.take("word")
        self.take("=")
        return DerivedText(name, self.call("word"))

    def rule(self):
        """A rule after the word `rule`."""
        premise, end = self.listed(lambda: self.call("word"), '"where"', "->")
        derived = self.listed(self.derived, "->")[0] if end.text == "where" else []
        return RuleText(premise, derived, self.listed(lambda: self.call("word", "string"), ";")[0])
