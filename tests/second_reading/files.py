"""The files that the program writes: tables as CSV, nested documents as JSON, nulls and the fold."""
import csv
import io
import json

from values import Constant, Null, nulls_of, row_order, value_order, value_text


def csv_field(text, alone):
    """A field is quoted where it holds a comma, a quote or an end of line, or is empty and alone in its record."""
    if any(mark in text for mark in ',"\n\r') or (alone and not text):
        return '"%s"' % text.replace('"', '""')
    return text


def csv_text(records):
    """The records, each ended by a line feed."""
    return "".join(",".join(csv_field(text, len(record) == 1) for text in record) + "\n" for record in records)


def csv_records(text):
    """The records of a CSV text that the program wrote."""
    return list(csv.reader(io.StringIO(text, newline="")))


def rows_of(facts, number):
    """The rows of a table, ascending."""
    return sorted((fact.row for fact in facts if fact.table == number), key=row_order)


def table_text(table, rows):
    """A table's file: the column names, then the rows."""
    return csv_text([table.columns] + [[value_text(value) for value in row] for row in rows])


def nulls_text(facts, rules, places):
    """For each null that stands in the facts, ascending, the exported values of its place; and how many lines."""
    records = []
    for null in sorted(nulls_of(facts), key=value_order):
        place = places[null.rule][null.place]
        for variable in rules[null.rule].exported():
            exported = value_text(Constant(place.value_of[variable]))
            records.append([value_text(null), "x%d" % variable, exported])
    return csv_text([["null", "variable", "value"]] + records), len(records)


def fold_text(fold):
    """Each null that the fold moves, ascending, with what it becomes."""
    pairs = sorted(fold.items(), key=lambda pair: value_order(pair[0]))
    return csv_text([["null", "value"]] + [[value_text(null), value_text(value)] for null, value in pairs])


def nested_text(tables, facts, root):
    """A root's rows as objects, with the rows of inner sets inside the row whose `#id` is their `#up`."""
    def objects(number, up=None):
        table = tables[number]
        rows = rows_of(facts, number)
        if up is not None:
            rows = [row for row in rows if row[table.columns.index("#up")] == up]
        return [member(number, dict(zip(table.columns, row))) for row in rows]

    def member(number, values):
        members = {name: value_text(value) for name, value in values.items() if not name.startswith("#")}
        for inner in tables[number].inner:
            members[tables[inner].name] = objects(inner, values["#id"])
        return members

    return json.dumps(objects(root), sort_keys=True, separators=(",", ":"), ensure_ascii=False) + "\n"


def moved(pairs):
    """The null map without the values that stay."""
    return {null: value for null, value in pairs if isinstance(null, Null) and null != value}
