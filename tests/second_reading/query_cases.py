"""Random queries: parts that are taken from facts of the target, parts that aren't, and parts with a fault."""
from rules import quoted
from spelling import call_tokens, joined, spelled
from values import Constant

WORDS = ["n", "t", "x", "y0", "_", "answer", "from", "query", "set", "null", "v1", "z", "X", "u", "w", "k"]
FAULTS = ["set", "more cells", "fewer cells", "width", "unsafe", "version", "atoms"]


class Part:
    """A part as words: the cells of the answer, and for each atom the name of its set and its cells."""

    def __init__(self, answer, atoms):
        self.answer, self.atoms = answer, atoms

    def tokens(self):
        atoms = joined([call_tokens(name, cells) for name, cells in self.atoms])
        return call_tokens("answer", self.answer) + ["from"] + atoms + [";"]


class QueryMaker:
    """Makes the parts of a query over the tables of a target and some facts of it."""

    def __init__(self, random, tables, facts):
        self.random, self.tables, self.facts = random, tables, facts
        texts = {value.text for fact in facts for value in fact.row if isinstance(value, Constant)} | {"", "a", "?0.0.0"}
        self.texts = sorted(text for text in texts if text == "" or min(text) >= " ")

    def text(self):
        return quoted(self.random.choice(self.texts))

    def part(self, width):
        """A part with this number of answer cells."""
        self.words = iter(self.random.sample(WORDS, len(WORDS)) + ["a%d" % number for number in range(300)])
        named = {}
        atoms = self.found_atoms(named) if self.facts and self.random.random() < .88 else self.any_atoms()
        words = sorted({cell for _, cells in atoms for cell in cells if not cell.startswith('"')})
        known = [word for value, word in named.items() if isinstance(value, Constant)]
        return Part([self.answer_cell(known, words) for _ in range(width)], atoms)

    def answer_cell(self, known, words):
        """Mostly a variable for which a constant stands in the facts; else any variable, or a literal."""
        chance = self.random.random()
        if known and chance < .75:
            return self.random.choice(known)
        return self.random.choice(words) if words and chance < .93 else self.text()

    def found_atoms(self, named):
        """Atoms that are facts of the target with variables in the place of most values; `named` gets the variable of each."""
        chosen = []
        for _ in range(self.random.choice([1, 1, 2, 2, 3, 4])):
            near = [fact for fact in self.facts if any(value in named for value in fact.row)]
            fact = self.random.choice(near if near and self.random.random() < .7 else self.facts)
            chosen.append((self.tables[fact.table].name, [self.cell(value, named) for value in fact.row]))
        return chosen

    def cell(self, value, named):
        """A variable or a literal for a value of a fact; mostly the same variable where the value stands again."""
        chance = self.random.random()
        if isinstance(value, Constant) and chance < .25 and value.text in self.texts:
            return quoted(value.text)
        if chance > .97:
            return self.text()
        if chance > .9:
            return next(self.words)
        if value not in named:
            named[value] = next(self.words)
        return named[value]

    def any_atoms(self):
        """Atoms over any tables, with variables that stand in several cells."""
        words, atoms = [next(self.words) for _ in range(4)], []
        for _ in range(self.random.choice([1, 1, 2, 3])):
            table = self.random.choice(self.tables)
            atoms.append((table.name, [self.text() if self.random.random() < .1 else self.random.choice(words)
                                       for _ in table.columns]))
        return atoms

    def damage(self, parts):
        """Puts a fault into a part."""
        part, fault = self.random.choice(parts), self.random.choice(FAULTS)
        place = self.random.randrange(len(part.atoms))
        name, cells = part.atoms[place]
        if fault == "set":
            part.atoms[place] = (self.random.choice(["nothing", name.upper(), name + "s", "mapping"]), cells)
        elif fault == "more cells":
            cells.append(self.random.choice(cells))
        elif fault == "fewer cells" and len(cells) > 1:
            cells.pop(self.random.randrange(len(cells)))
        elif fault == "width":
            part.answer.append(self.random.choice(part.answer))
        elif fault == "unsafe":
            part.answer[self.random.randrange(len(part.answer))] = self.random.choice(["nowhere", *WORDS])
        elif fault == "atoms":
            part.atoms += [part.atoms[place]] * (self.random.choice([64, 65]) - len(part.atoms))

    def query(self):
        """A whole text."""
        width, number = self.random.choice([1, 1, 1, 2, 2, 3]), self.random.choice([1, 1, 1, 2, 2, 3])
        parts = [self.part(width) for _ in range(number)]
        while self.random.random() < .12:
            self.damage(parts)
        version = self.random.choice(["2", "3", "01"]) if self.random.random() < .01 else "1"
        return spelled(["query", version, ";"] + sum([part.tokens() for part in parts], []), self.random)
