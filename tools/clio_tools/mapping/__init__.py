"""Mapping texts and drawings: their tokens, their tree, the schemas that they declare, and their parts as text again.

    parse(content, drawing=False)   the tree of a text and all its faults, each with its bytes
                                    (parser.py; tree.py, tokens.py, places.py)
    schema_of(side, name)           the tables of a side with their keys and links, and the faults of
                                    its names (schema.py)
    faults_of_names(tree, ..)       the faults of the names in lines, conditions and rules (names.py)
    printed_line(line) and so on    parts of a tree as text, sets as clio prints them (printing.py)

`text.py` is the reader of before, which tells of a text that clio refuses only that it is none; the tools leave it
bit by bit."""
