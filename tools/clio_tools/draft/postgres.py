"""The tables of a schema of PostgreSQL, by its catalog, and their rows."""
from collections.abc import Iterator

from clio_tools.databases.postgres import Row, Session, identifier
from clio_tools.draft.model import Column, Ref, Table
from clio_tools.program import Refused

SETTINGS = {"datestyle": "ISO", "intervalstyle": "postgres", "timezone": "UTC", "bytea_output": "hex",
            "extra_float_digits": "1"}
ONE_STATE = "BEGIN ISOLATION LEVEL REPEATABLE READ READ ONLY"

TABLES = """SELECT c.oid, c.relname FROM pg_catalog.pg_class c JOIN pg_catalog.pg_namespace n ON n.oid = c.relnamespace
 WHERE n.nspname = %s AND c.relkind IN ('r', 'p', 'f'{views}) AND NOT c.relispartition
 ORDER BY c.relkind IN ('v', 'm'), c.relname"""
VIEWS = ", 'v', 'm'"
COLUMNS = """SELECT a.attrelid, a.attnum, a.attname, a.attnotnull, pg_catalog.format_type(a.atttypid, NULL),
 a.attidentity <> '' OR coalesce(pg_catalog.pg_get_expr(d.adbin, d.adrelid), '') LIKE 'nextval(%%',
 coalesce(pg_catalog.pg_get_expr(d.adbin, d.adrelid), 'nextval(') NOT LIKE 'nextval(%%'
 FROM pg_catalog.pg_attribute a
 LEFT JOIN pg_catalog.pg_attrdef d ON d.adrelid = a.attrelid AND d.adnum = a.attnum AND a.attgenerated = ''
 WHERE a.attnum > 0 AND NOT a.attisdropped AND a.attrelid = ANY (%s::oid[]) ORDER BY a.attrelid, a.attnum"""
KEYS = """SELECT i.indrelid, i.indkey, i.indnkeyatts FROM pg_catalog.pg_index i
 WHERE i.indisunique AND i.indisvalid AND i.indpred IS NULL AND i.indexprs IS NULL AND i.indrelid = ANY (%s::oid[])
 ORDER BY i.indrelid, NOT i.indisprimary, i.indexrelid"""
REFS = """SELECT r.conrelid, r.conkey, r.confrelid, r.confkey, r.confrelid::regclass::text
 FROM pg_catalog.pg_constraint r
 WHERE r.contype = 'f' AND r.conparentid = 0 AND r.conrelid = ANY (%s::oid[]) ORDER BY r.conrelid, r.conname"""


class Base:
    """A schema, read in one transaction for the catalog and one for the rows."""

    def __init__(self, place: str, schema: str, views: bool = False) -> None:
        """A schema; its views are tables too if that is asked for."""
        self.session = Session(place, **SETTINGS)
        self.session.run("SET search_path = ''")
        self.schema, self.query = schema, TABLES.replace("{views}", VIEWS if views else "")

    def tables(self) -> list[Table]:
        """The tables, in the order of their names."""
        with self.session.transaction(ONE_STATE):
            named = {oid: Table(name, [], is_of_catalog=True) for oid, name in self._all(self.query, self.schema)}
            if not named:
                raise Refused(f"there is no table in the schema {self.schema}, or no such schema")
            oids = "{" + ",".join(named) + "}"
            numbers: dict[tuple[str, str], str] = {}
            for oid, number, name, filled, kind, is_numbered, has_default in self._all(COLUMNS, oids):
                why_not = "it is of type bytea, which is no text" if kind == "bytea" else ""
                named[oid].columns.append(Column(name, filled == "f", why_not, "", kind, is_numbered == "t",
                                                 has_default == "t"))
                numbers[oid, number] = name
            for oid, key, count in self._all(KEYS, oids):
                named[oid].keys.append([numbers[oid, number] for number in key.split(" ")[: int(count)]])
            for oid, own, other, referred, name in self._all(REFS, oids):
                columns = [numbers[oid, number] for number in listed(own)]
                ref = Ref(columns, Table(name, []), [], "that table is not among those of the schema")
                if other in named:
                    ref = Ref(columns, named[other], [numbers[other, number] for number in listed(referred)])
                named[oid].refs.append(ref)
            return list(named.values())

    def _all(self, query: str, value: str) -> list[list[str]]:
        """The rows of a query of the catalog, which has no NULL."""
        return [[cell or "" for cell in row] for row in self.session.rows(query, value)]

    def all_rows(self, tables: list[Table]) -> Iterator[tuple[Table, Iterator[Row]]]:
        """For each table its rows as texts, with nothing for NULL, all of one moment; each has to be read before the
        next.
        """
        with self.session.transaction(ONE_STATE):
            for table in tables:
                cells = ", ".join(f"{identifier(column.name)}::text" for column in table.said)
                there = f"{identifier(self.schema)}.{identifier(table.name)}"
                yield table, self.session.copied_rows(f"SELECT {cells} FROM {there}")


def listed(array: str) -> list[str]:
    """The numbers of an array."""
    return array.strip("{}").split(",")
