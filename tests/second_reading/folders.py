"""What stands in a folder: mappings, a query, source rows and given rows, each or its first fault."""
from names import read_mapping
from queries import read_query
from refusals import (DATA_BYTES, GIVEN_CELLS, MAPPING, OTHER, QUERY, QUERY_BYTES, READ_FAULT, ROWS, TEXT_BYTES, Limit,
                      Refusal, told_of)
from sources import document_facts, table_rows, value_rows
from values import Fact


def fetched(folder, name, limit, absent, long):
    """The bytes of a file of the folder, or why they can't be had."""
    try:
        with open(folder.inside(name), "rb") as file:
            content = file.read()
    except FileNotFoundError:
        raise absent from None
    except OSError:  # a folder, a circle of links, or a file in the place of the folder of the path
        raise Refusal(READ_FAULT, "read fault: " + name) from None
    if len(content) > limit:
        raise long
    return content


def text_of(folder, name, status, subject, count, limit):
    """The bytes of a text."""
    absent = Refusal(status, "%s: %s is absent" % (subject, name))
    return fetched(folder, name, limit, absent, Limit(count, limit))


def folder_mapping(folder):
    """The mapping of a folder and its rule list, or the first fault of its text."""
    return mapping_of(text_of(folder, "mapping.clio", MAPPING, "mapping", "text bytes", TEXT_BYTES))


def folder_other(folder):
    """The mapping to which that of a folder is compared, and its rule list, or the first fault of its text."""
    text = text_of(folder, "other.clio", OTHER, "other", "text bytes", TEXT_BYTES)
    with told_of(OTHER, "other"):
        return mapping_of(text)


def mapping_of(text):
    """The mapping of a text and its rule list, or the first fault."""
    mapping = read_mapping(text)
    return mapping, mapping.rule_list()[0]


def folder_query(folder, tables):
    """The query of a folder, or the first fault of its text."""
    text = text_of(folder, "query.clio", QUERY, "query", "query bytes", QUERY_BYTES)
    with told_of(QUERY, "query"):
        return read_query(text, tables)


class Rows:
    """Reads the data files of a folder, of which all together have a limited number of bytes."""

    def __init__(self, folder):
        self.folder, self.left = folder, DATA_BYTES

    def content(self, file):
        """The bytes of one file."""
        absent = Refusal(ROWS, "rows: %s is absent" % file)
        content = fetched(self.folder, file, self.left, absent, Limit("data bytes", DATA_BYTES))
        self.left -= len(content)
        return content

    def source(self, mapping):
        """The source instance, which is the rows that pass, or the first fault of the source files."""
        instance = {}
        for number, table in enumerate(mapping.source):
            if table.parent is not None:
                continue
            file = table.name + (".json" if table.inner else ".csv")
            content = self.content(file)
            if table.inner:
                facts = document_facts(content, mapping.source, number, file)
            else:
                facts = [(number, row) for row in table_rows(content, table.columns, file)]
            for place, row in facts:
                instance.setdefault(place, set()).add(row)
        return mapping.passing(instance)

    def given(self, mapping):
        """The facts of the given target, or the first fault of its files."""
        facts, cells = set(), 0
        for number, table in enumerate(mapping.target):
            file = "given/%s.csv" % table.name
            rows = value_rows(self.content(file), table.columns, file)
            cells += len(rows) * len(table.columns)
            if cells > GIVEN_CELLS:
                raise Limit("given cells", GIVEN_CELLS)
            facts.update(Fact(number, row) for row in rows)
        return facts
