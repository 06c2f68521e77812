"""The script text: the steps by which the target is made, in plain mode and in core mode."""
from rules import LITERAL, VARIABLE, Cell


def sql_text(text):
    """A text in single quotes."""
    return "'%s'" % text.replace("'", "''")


def create_step(table):
    columns = ", ".join('"%s" TEXT' % column for column in table.columns)
    return 'CREATE TABLE target."%s" (%s);' % (table.name, columns)


def match_step(number, rule, source):
    """The join of a rule's premise: a table of its exported tuples."""
    first, equal = {}, []
    for alias, atom in enumerate(rule.premise):
        for column, variable in enumerate(atom.cells):
            here = 'a%d."%s"' % (alias, source[atom.table].columns[column])
            if variable in first:
                equal.append("%s = %s" % (first[variable], here))
            else:
                first[variable] = here
    for place, derived in enumerate(rule.derived):
        arguments = ", ".join(first[variable] for variable in derived.arguments)
        first[rule.premise_variables() + place] = '"%s"(%s)' % (derived.conversion, arguments)
    items = ["%s AS c%d" % (first[variable], place) for place, variable in enumerate(rule.exported())]
    tables = ['source."%s" AS a%d' % (source[atom.table].name, alias) for alias, atom in enumerate(rule.premise)]
    where = " WHERE " + " AND ".join(equal) if equal else ""
    select = ", ".join(items) or "1"
    return "CREATE TABLE m%d AS SELECT DISTINCT %s FROM %s%s;" % (number, select, ", ".join(tables), where)


def keep_step(number, covers):
    """The tuples of a rule that no place of a rule before it covers, or None where no rule is before it."""
    parts = []
    rules = covers.rules
    for other in covers.before(number):
        for met in covers.maps[number][other]:
            tests = []
            for own, variable in enumerate(rules[number].exported()):
                cell = met[Cell(VARIABLE, variable)]
                if cell.kind == LITERAL:
                    tests.append("m.c%d = %s" % (own, sql_text(cell.content)))
                else:
                    tests.append("n.c%d = m.c%d" % (rules[other].exported().index(cell.content), own))
            where = " WHERE " + " AND ".join(tests) if tests else ""
            parts.append("NOT EXISTS (SELECT * FROM m%d AS n%s)" % (other, where))
    if not parts:
        return None
    return "CREATE TABLE k%d AS SELECT * FROM m%d AS m WHERE %s;" % (number, number, " AND ".join(parts))


def insert_steps(number, rule, target, kept):
    """One step for each conclusion atom."""
    exported, steps = rule.exported(), []
    for atom in rule.conclusion:
        cells = []
        for cell in atom.cells:
            if cell.kind == VARIABLE:
                cells.append("m.c%d" % exported.index(cell.content))
            elif cell.kind == LITERAL:
                cells.append(sql_text(cell.content))
            else:
                cells.append("SKOLEM(%d, %d, m.place)" % (number, cell.content))
        steps.append('INSERT INTO target."%s" SELECT %s FROM %s%d AS m;'
                     % (target[atom.table].name, ", ".join(cells), "k" if kept else "m", number))
    return steps


def script_text(source, target, covers, core):
    """The whole script: tables, joins, in core mode what covers leave, inserts; each step is a line."""
    steps = [create_step(table) for table in target]
    steps += [match_step(number, rule, source) for number, rule in enumerate(covers.rules)]
    keeps = {}
    if core:
        for number in range(len(covers.rules)):
            step = keep_step(number, covers)
            if step is not None:
                keeps[number] = step
    steps += keeps.values()
    for number, rule in enumerate(covers.rules):
        steps += insert_steps(number, rule, target, number in keeps)
    return "".join(step + "\n" for step in steps), len(steps)
