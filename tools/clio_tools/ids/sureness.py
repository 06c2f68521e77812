"""What a name of a thing is, the surest first.

    OWN      by a key of the thing's own row: it alone decides
    OTHER    by a key of a row in which it stands, of a thing without a name OWN
    LED      the same of a thing with a name OWN: it decides nothing, and only shows that the row has another thing now
    RULE     by the rule, the variable and the values that made its null
    FOLDED   by those of another null, which became this one
"""
OWN, OTHER, LED, RULE, FOLDED = range(1, 6)
