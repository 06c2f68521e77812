"""How a mapping is spelled: its tokens, with any blanks and comments between them."""
from rules import EXISTENTIAL, LITERAL, VARIABLE, quoted


def listed(words):
    """Words with commas between them."""
    tokens = []
    for word in words:
        tokens += [",", word] if tokens else [word]
    return tokens


def joined(parts):
    """Lists of tokens with commas between them."""
    tokens = []
    for part in parts:
        tokens += ([","] if tokens else []) + part
    return tokens


def set_tokens(tree, random):
    """A set; its keys, refs and inner sets stand in any order, but each of these three lists in its own."""
    keys = [["key", "("] + listed(key) + [")", ";"] for key in tree.keys]
    dependencies = [["dep", "("] + listed(one.left) + [")", "->", "("] + listed(one.right) + [")", ";"]
                    for one in tree.dependencies]
    references = [["ref", "("] + listed(one.own) + [")", "->", one.name, "("] + listed(one.referred) + [")"]
                  + ["optional"] * one.optional + [";"] for one in tree.references]
    inner = [set_tokens(one, random) for one in tree.inner]
    clauses = shuffled([keys, dependencies, references, inner], random)
    return ["set", tree.name, "{"] + listed(tree.columns) + [";"] + sum(clauses, []) + ["}"]


def shuffled(lists, random):
    """The members of some lists in any order in which each list keeps its own."""
    turns = [number for number, one in enumerate(lists) for _ in one]
    random.shuffle(turns)
    rests = [iter(one) for one in lists]
    return [next(rests[turn]) for turn in turns]


def call_tokens(name, arguments):
    return [name, "("] + listed(arguments) + [")"]


def column_tokens(tables, column):
    return [tables[column.table].name, ".", tables[column.table].columns[column.column]]


def line_tokens(line, mapping):
    """A line."""
    columns = [column_tokens(mapping.source, column) for column in line.columns]
    if line.literal is not None:
        source = [quoted(line.literal)]
    elif line.conversion is not None:
        source = [line.conversion, "("] + joined(columns) + [")"]
    else:
        source = columns[0]
    return ["line"] + source + ["->"] + column_tokens(mapping.target, line.target) + [";"]


def condition_tokens(condition, mapping):
    """A condition."""
    return ["only"] + column_tokens(mapping.source, condition.column) + [condition.test, ";"]


def rule_tokens(rule, mapping, names):
    """A hand-written rule; `names` has a word for each variable of the rule."""
    first = rule.premise_variables()

    def word(cell):
        return quoted(cell.content) if cell.kind == LITERAL else names[(cell.kind, cell.content)]

    variables = lambda numbers: [names[(VARIABLE, number)] for number in numbers]
    tokens = ["rule"] + joined([call_tokens(mapping.source[atom.table].name, variables(atom.cells))
                                for atom in rule.premise])
    if rule.derived:
        tokens += ["where"] + joined([[names[(VARIABLE, first + place)], "="]
                                      + call_tokens(one.conversion, variables(one.arguments))
                                      for place, one in enumerate(rule.derived)])
    return tokens + ["->"] + joined([call_tokens(mapping.target[atom.table].name, map(word, atom.cells))
                                     for atom in rule.conclusion]) + [";"]


ODD_WORDS = ["set", "key", "ref", "line", "rule", "where", "mapping", "source", "target", "trim", "digits", "pair",
             "x0", "x1", "x2", "x3", "y0", "y1", "y2", "_", "X", "v1", "v01", "n", "null"]


def variable_names(rule, random):
    """A word of its own for each variable of a rule, keywords and conversions among them."""
    variables = [(VARIABLE, number) for number in range(rule.premise_variables() + len(rule.derived))]
    variables += sorted({(cell.kind, cell.content) for cell in rule.conclusion_cells() if cell.kind == EXISTENTIAL})
    odd = random.sample(ODD_WORDS, len(ODD_WORDS)) if random.random() < .5 else []
    words = odd + ["w%d" % number for number in range(len(variables))]
    return dict(zip(variables, words))


def mapping_tokens(mapping, random):
    """A whole mapping text."""
    tokens = ["mapping", str(mapping.version), ";"]
    for side, trees in (("source", mapping.source_trees), ("target", mapping.target_trees)):
        tokens += [side, "{"] + sum([set_tokens(tree, random) for tree in trees], []) + ["}"]
    lines = [line_tokens(line, mapping) for line in mapping.lines]
    rules = [rule_tokens(rule, mapping, variable_names(rule, random)) for rule in mapping.rules]
    conditions = [condition_tokens(condition, mapping) for condition in mapping.conditions]
    return tokens + sum(shuffled([lines, conditions, rules], random), [])


BLANKS = ["\n", "\t", "\r\n", "  ", " // a comment; \"\n", "//\n", " //-> \u00fc\n"]


def spelled(tokens, random):
    """The tokens in one text, with blanks where they must stand and some where they may."""
    text, wild = "", random.random() < .3
    for token in tokens:
        is_word = token[0].isalnum() or token[0] == "_"
        if text and is_word and (text[-1].isalnum() or text[-1] == "_"):
            text += random.choice(BLANKS) if wild else " "
        elif wild and random.random() < .2:
            text += random.choice(BLANKS)
        text += token
    return text + (random.choice(["", "\n", " ", "// the end"]) if wild else "\n")
