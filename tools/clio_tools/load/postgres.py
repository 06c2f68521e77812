"""PostgreSQL: files go by COPY into temporary tables as they are, and one statement makes values of a table's texts."""
from __future__ import annotations

import contextlib
import json
import pathlib
import re
from collections.abc import Iterable, Iterator

from clio_tools.csv import read_table
from clio_tools.databases.postgres import DatabaseError, Session, identifier, pieces_of_file
from clio_tools.draft import model, postgres
from clio_tools.load.catalog import (BOOLEAN, DATE, INTEGER, NUMBER, OTHER, TEXT, TIME, Catalog, Column, ForeignKey,
                                     Table)
from clio_tools.load.database import Cells, Database, Misfit, Options, TakenBack, literal
from clio_tools.load.postgres_values import altered, plain_pieces, value_of, without_zero
from clio_tools.load.plan import Plan, TablePlan
from clio_tools.program import Refused

SETTINGS = {**postgres.SETTINGS, "work_mem": "64MB", "client_min_messages": "warning",
            "standard_conforming_strings": "on"}
SCHEMA = "clio_load"  # of the tool's own tables
KINDS = {"bool": BOOLEAN, "int2": INTEGER, "int4": INTEGER, "int8": INTEGER, "numeric": NUMBER, "float4": NUMBER,
         "float8": NUMBER,
         "date": DATE, "timestamp": TIME, "timestamptz": TIME}
COLUMNS = """SELECT c.relname, a.attname, pg_catalog.format_type(a.atttypid, a.atttypmod),
 CASE WHEN u.typnamespace = 'pg_catalog'::pg_catalog.regnamespace AND NOT e.is_many THEN u.typname END,
 t.typcategory, a.attnotnull OR t.typnotnull, a.atthasdef OR t.typdefault IS NOT NULL,
 a.attidentity <> '', a.attgenerated <> '',
 pg_catalog.pg_get_serial_sequence(pg_catalog.quote_ident(n.nspname) || '.' || pg_catalog.quote_ident(c.relname),
 a.attname),
 CASE WHEN a.attcollation <> t.typcollation THEN (SELECT pg_catalog.quote_ident(s.nspname) || '.' ||
 pg_catalog.quote_ident(o.collname)
  FROM pg_catalog.pg_collation o JOIN pg_catalog.pg_namespace s ON s.oid = o.collnamespace WHERE o.oid = a.attcollation)
  END, pg_catalog.format_type(e.type, e.size) || CASE WHEN e.is_many THEN '[]' ELSE '' END, u.typtype = 'c'
 FROM pg_catalog.pg_attribute a JOIN pg_catalog.pg_class c ON c.oid = a.attrelid JOIN pg_catalog.pg_namespace n ON n.oid
 = c.relnamespace
 JOIN pg_catalog.pg_type t ON t.oid = a.atttypid CROSS JOIN LATERAL
 (WITH RECURSIVE down (step, type, size, is_many) AS (SELECT 0, a.atttypid, a.atttypmod, false UNION ALL
   SELECT d.step + 1, CASE y.typtype WHEN 'd' THEN y.typbasetype ELSE y.typelem END,
    CASE y.typtype WHEN 'd' THEN y.typtypmod ELSE d.size END, d.is_many OR y.typtype <> 'd'
   FROM down AS d JOIN pg_catalog.pg_type y ON y.oid = d.type
   WHERE y.typtype = 'd' OR y.typcategory = 'A' AND y.typlen = -1 AND y.typelem <> 0)
  SELECT * FROM down ORDER BY step DESC LIMIT 1) AS e JOIN pg_catalog.pg_type u ON u.oid = e.type
 WHERE n.nspname = %s AND a.attnum > 0 AND NOT a.attisdropped AND c.relkind IN ('r', 'p', 'f') ORDER BY c.relname,
 a.attnum"""  # with the types that domains and arrays are made of
SHARED = """SELECT c.relname FROM pg_catalog.pg_class c JOIN pg_catalog.pg_namespace n ON n.oid = c.relnamespace
 WHERE n.nspname = %s AND c.relkind = 'r' AND EXISTS (SELECT 1 FROM pg_catalog.pg_inherits i WHERE i.inhparent = c.oid)
 """
PLAIN = """SELECT c.relname FROM pg_catalog.pg_class c JOIN pg_catalog.pg_namespace n ON n.oid = c.relnamespace
 WHERE n.nspname = %s AND c.relkind = 'r' AND NOT c.relhassubclass"""  # whose rows have places of their own
NAMES = """(SELECT pg_catalog.json_agg(a.attname ORDER BY k.place)::text
 FROM pg_catalog.unnest({0}) WITH ORDINALITY AS k (number, place)
 JOIN pg_catalog.pg_attribute a ON a.attrelid = {1} AND a.attnum = k.number)"""
FOREIGN_KEYS = f"""SELECT s.nspname, c.relname, {NAMES.format('r.conkey', 'r.conrelid')}, p.relname,
 {NAMES.format('r.confkey', 'r.confrelid')}, r.confdeltype IN ('c', 'n', 'd')
 FROM pg_catalog.pg_constraint r JOIN pg_catalog.pg_class c ON c.oid = r.conrelid JOIN pg_catalog.pg_namespace s ON
 s.oid = c.relnamespace
 JOIN pg_catalog.pg_class p ON p.oid = r.confrelid JOIN pg_catalog.pg_namespace n ON n.oid = p.relnamespace
 WHERE r.contype = 'f' AND r.conparentid = 0 AND n.nspname = %s ORDER BY 1, 2, r.conname"""
SEQUENCES = """SELECT s.oid::regclass, q.seqincrement FROM pg_class s JOIN pg_sequence q ON q.seqrelid = s.oid
 WHERE pg_has_role(s.relowner, 'USAGE') AND s.oid IN (SELECT d.objid FROM pg_depend d WHERE d.refobjid = {0}::regclass
  AND d.classid = 'pg_class'::regclass AND d.refclassid = d.classid UNION SELECT d.refobjid FROM pg_depend d
  JOIN pg_attrdef f ON f.oid = d.objid WHERE d.classid = 'pg_attrdef'::regclass AND d.refclassid = 'pg_class'::regclass
  AND f.adrelid = {0}::regclass)"""  # those that number the columns of a table
# the record: whether it is a plain table, which runs nothing of whoever made it; and its columns
RECORD = """SELECT c.relkind = 'r' AND NOT c.relhasrules AND NOT c.relhastriggers AND NOT c.relrowsecurity
 AND NOT c.relhassubclass
 AND NOT EXISTS (SELECT 1 FROM pg_catalog.pg_constraint r WHERE r.conrelid = c.oid AND r.contype = 'c')
 AND NOT EXISTS (SELECT 1 FROM pg_catalog.pg_index i WHERE i.indrelid = c.oid
  AND (i.indexprs IS NOT NULL OR i.indpred IS NOT NULL))
 AND NOT EXISTS (SELECT 1 FROM pg_catalog.pg_attribute a WHERE a.attrelid = c.oid AND a.attnum > 0
  AND NOT a.attisdropped AND (a.atttypid <> 'text'::pg_catalog.regtype OR a.attgenerated <> '')),
 (SELECT pg_catalog.string_agg(a.attname, ', ' ORDER BY a.attnum) FROM pg_catalog.pg_attribute a
  WHERE a.attrelid = c.oid AND a.attnum > 0 AND NOT a.attisdropped)
 FROM pg_catalog.pg_class c JOIN pg_catalog.pg_namespace n ON n.oid = c.relnamespace
 WHERE n.nspname = %s AND c.relname = %s"""
RECORD_COLUMNS = "load, table_name, key_columns, row_key"
TRIAL = "DECLARE made {0}; BEGIN made := cell; RETURN true; EXCEPTION WHEN others THEN RETURN false; END"
TRY = "CREATE OR REPLACE FUNCTION pg_temp.clio_fits(cell text) RETURNS boolean LANGUAGE plpgsql AS {0}"
EXACT = re.compile(r"text|character varying(\(\d+\))?")  # types of which texts that differ are other values
NO_RIGHT = "42501"
NO_VALUE = "22"  # the class of texts that are none of a form or type
LOCKED = "55P03", "40P01"


class Postgres(Database):
    """A schema of a database."""

    differs = "IS DISTINCT FROM"
    place = "ctid"
    now = "CURRENT_TIMESTAMP"
    overriding = " OVERRIDING SYSTEM VALUE"

    def __init__(self, connection: str, schema: str, wait: int) -> None:
        """Begins a session; `wait` are the seconds in which somebody else's lock may end."""
        self.connection, self.schema, self.wait = connection, schema, wait
        self.session = Session(connection, **SETTINGS)
        self.session.run("SET search_path = ''")
        self.marked_files: set[int] = set()  # the plans in whose files a text begins with ?, as far as that is known

    def catalog(self) -> Catalog:
        base = postgres.Base(self.connection, self.schema)
        side = model.Side("target", base.tables())
        base.session.close()
        found: dict[str, list[Column]] = {}
        words = {table.name: {column.name: column.word for column in table.columns} for table in side.tables}
        for table, *rest in self.session.rows(COLUMNS, self.schema):
            if table in words:
                found.setdefault(str(table), []).append(column_of(words[str(table)], rest))
        plain, shared = (set(self.session.column(query, self.schema)) for query in (PLAIN, SHARED))
        tables = [Table(table.name, table.word, self.sql(self.schema, table.name), found[table.name],
                        [list(key) for key in table.keys], table.name in plain, table.name in shared)
                  for table in side.tables if table.name in found]
        keys = [ForeignKey(self.sql(str(schema), str(child)), listed(columns), self.sql(self.schema, str(parent)),
                           listed(referred), acts == "t")
                for schema, child, columns, parent, referred, acts in self.session.rows(FOREIGN_KEYS, self.schema)]
        return Catalog(tables, keys)

    def sql(self, schema: str, name: str) -> str:
        """A table's name, as SQL has it."""
        return f"{identifier(schema)}.{identifier(name)}"

    def run(self, sql: str) -> int:
        return self.session.run(sql)

    def rows(self, sql: str) -> list[Cells]:
        return self.session.rows(sql)

    def stream(self, sql: str) -> Iterator[Cells]:
        return self.session.copied_rows(sql)

    @contextlib.contextmanager
    def transaction(self, plan: Plan, is_dry: bool) -> Iterator[None]:
        if is_dry:
            self.run("BEGIN ISOLATION LEVEL REPEATABLE READ")
            try:
                yield
            finally:
                with contextlib.suppress(DatabaseError):
                    self.run("ROLLBACK")
            return
        try:
            with self.session.transaction():
                self.run(f"SET LOCAL lock_timeout = '{self.wait}s'")
                tables = ", ".join(sorted(one.table.sql for one in plan.tables))
                if tables:
                    self.run(f"LOCK TABLE {tables} IN SHARE ROW EXCLUSIVE MODE; SET CONSTRAINTS ALL DEFERRED")
                yield
        except DatabaseError as error:
            if error.sqlstate in LOCKED:
                raise Refused(f"{error.cause}: somebody else uses these tables; nothing is changed, try again") \
                    from None
            raise

    @contextlib.contextmanager
    def trial(self, plan: Plan) -> Iterator[None]:
        with contextlib.suppress(TakenBack), self.transaction(plan, False):
            for one in plan.tables:  # a sequence that is altered in a transaction gives its numbers within it alone
                for name, step in self.rows(SEQUENCES.format(literal(one.table.sql))):
                    self.run(f"ALTER SEQUENCE {name} INCREMENT BY {step}")
            yield
            self.run("SET CONSTRAINTS ALL IMMEDIATE")
            raise TakenBack

    def fill(self, plan: TablePlan, path: pathlib.Path, options: Options) -> int:
        columns = plan.set.columns
        cells = ", ".join(f"c{place} text" for place in range(len(columns)))
        self.run(f"CREATE TEMP TABLE {plan.work('raw')} ({cells})")
        if len(columns) == 1:  # a line \. would end COPY
            self.marked_files.add(plan.number)
            return self.session.copy_rows_in(plan.work("raw"), read_table(path, columns))
        next(iter(read_table(path, columns)), None)  # the header is as it must be
        names = ", ".join(f"c{place}" for place in range(len(columns)))
        with path.open("rb") as file:
            pieces = self.watched(plan, without_zero(path, file))
            try:
                return self.session.copy_in(plan.work("raw"), pieces, f"FORMAT csv, HEADER, FORCE_NOT_NULL ({names})")
            except DatabaseError as error:
                if (error.sqlstate or "")[:2] != NO_VALUE:
                    raise
                raise Refused(f"out/{path.name} is not as clio writes it: {error.cause}") from None

    def watched(self, plan: TablePlan, pieces: Iterable[bytes]) -> Iterator[bytes]:
        """The pieces of a file; it is taken down whether there is a ?."""
        self.marked_files.discard(plan.number)
        for piece in pieces:
            if b"?" in piece:
                self.marked_files.add(plan.number)
            yield piece

    def can_fill_directly(self, plan: TablePlan, path: pathlib.Path, options: Options) -> bool:
        if options.null_text is not None or not 1 < len(plan.columns) == len(plan.set.columns):
            return False
        with path.open("rb") as file:
            return not any(b"?" in piece for piece in pieces_of_file(file))

    def fill_directly(self, plan: TablePlan, path: pathlib.Path, options: Options) -> int:
        texts = ", ".join(identifier(column.name) for column in plan.loaded if column.kind == TEXT)
        names = ", ".join(identifier(column.name) for column in plan.loaded)
        form = "FORMAT csv, HEADER" + (f", FORCE_NOT_NULL ({texts})" if texts else "")
        with path.open("rb") as file:
            count = self.session.copy_in(f"{plan.table.sql} ({names})", plain_pieces(plan, path, file), form)
        self.new_of_table(plan)
        return count

    def insert(self, table: str, rows: Iterable[Cells]) -> None:
        self.session.copy_rows_in(table, rows)

    def next_value(self, plan: TablePlan, column: Column, taken: str, is_dry: bool) -> str:
        if column.sequence is not None and not is_dry:
            self.set_sequence(plan, column, taken)  # it may be behind rows that were written with numbers
            return f"pg_catalog.nextval({literal(column.sequence)})"
        step = self.step(column)
        last = self.value(self.last_number(plan, column, step, taken))
        return f"{last or 0}::bigint + {step} * place"

    def step(self, column: Column) -> int:
        """From each number of a column to the next: below 0 if they descend."""
        if column.sequence is None:
            return 1
        return self.count("SELECT seqincrement FROM pg_catalog.pg_sequence WHERE seqrelid ="
                          f" {literal(column.sequence)}::pg_catalog.regclass")

    def last_number(self, plan: TablePlan, column: Column, step: int, taken: str | None) -> str:
        """The last number, as its sequence counts, that a column or a table of taken ones has, or that was given."""
        last, end = ("greatest", "max") if step > 0 else ("least", "min")
        parts = [f"(SELECT {end}({identifier(column.name)})::bigint FROM {plan.table.sql})"]
        if taken is not None:
            parts.append(f"(SELECT {end}(value) FROM {taken})")
        if column.sequence is not None:
            parts.append(f"(SELECT last_value - CASE WHEN is_called THEN 0 ELSE {step} END FROM {column.sequence})")
        return f"SELECT {last}({', '.join(parts)})"

    def cell(self, plan: TablePlan, number: int, options: Options) -> str:
        """The text of a loaded column in SQL, NULL if there is to be no value."""
        place, column = plan.columns[number]
        cell = f"c{place}"
        if plan.number in self.marked_files:
            cell = (f"CASE WHEN left({cell}, 1) <> '?' THEN {cell}"
                    f" WHEN left({cell}, 2) = '??' THEN substr({cell}, 2) END")
        if column.kind != TEXT:
            cell = f"nullif({cell}, '')"
        return cell if options.null_text is None else f"nullif({cell}, {literal(options.null_text)})"

    def convert(self, plan: TablePlan, options: Options, is_dry: bool) -> None:
        cells = [value_of(self.cell(plan, number, options), column) for number, column in enumerate(plan.loaded)]
        if plan.is_empty and not is_dry and not plan.is_translated:
            made = ", ".join(f"({cell}) AS c{number}" for number, cell in enumerate(cells))
            self.run(f"CREATE TEMP VIEW {plan.work('new')} AS SELECT {made} FROM {plan.work('raw')}")
            return
        columns = ", ".join(f"c{number} {column.type}{'' if column.may_be_null else ' NOT NULL'}" for number,
                            column in enumerate(plan.loaded))
        self.run(f"CREATE TEMP TABLE {plan.work('new')} ({columns})")
        self.run(f"INSERT INTO {plan.work('new')} SELECT {', '.join(f'({cell})' for cell in cells)} FROM "
                 f"{plan.work('raw')}")
        self.look_at(plan.work("new"))

    def may_misfit(self, plan: TablePlan, options: Options) -> bool:
        return False  # a value that doesn't fit stops the statement that makes it

    def misfits(self, plan: TablePlan, options: Options) -> list[Misfit]:
        found: list[Misfit] = []
        numbered = f"(SELECT r.*, row_number() OVER (ORDER BY r.ctid) AS record FROM {plan.work('raw')} AS r)"
        for number, column in enumerate(plan.loaded):
            place = plan.columns[number][0]
            cell = self.cell(plan, number, options)
            self.run(TRY.format(literal(TRIAL.format(column.type))))  # a type's name may be a text of any kind
            tests = [(f"NOT pg_temp.clio_fits({cell})", column.type)]
            if not column.may_be_null:
                tests.append((f"({cell}) IS NULL", "NOT NULL"))
            for test, why in tests:
                rows = self.rows(f"SELECT record, c{place} FROM {numbered} AS n WHERE {test}")
                found += [Misfit(int(record or 0), column, text, why) for record, text in rows]
            if loses := altered(cell, column):
                fits = f"CASE WHEN pg_temp.clio_fits({cell}) THEN {loses} ELSE false END"
                rows = self.rows(f"SELECT record, c{place} FROM {numbered} AS n WHERE {fits}")
                found += [Misfit(int(record or 0), column, text, column.type) for record, text in rows]
        return sorted(found, key=lambda one: one.record)

    def look_at(self, table: str) -> None:
        self.run(f"ANALYZE {table}")

    def key_text(self, cells: list[str]) -> str:
        texts = [f"({cell})::text" for cell in cells]
        if len(texts) == 1:  # the text itself, but NULL as it is in a list, and as a list what could be taken for that
            return f"CASE WHEN {texts[0]} IS NULL OR left({texts[0]}, 1) = '{{' THEN ARRAY[{texts[0]}]::text" \
                   f" ELSE {texts[0]} END"
        return f"ARRAY[{', '.join(texts)}]::text"

    def compared(self, cell: str, column: Column) -> str:
        if column.kind == TEXT and EXACT.fullmatch(column.type) is None:  # as one that takes capitals for small letters
            return f'{cell}::text COLLATE pg_catalog."C"'
        return f"{cell}::text" if column.kind == OTHER else cell

    def is_exact(self, plan: TablePlan, column: Column) -> bool:
        return EXACT.fullmatch(column.type) is not None

    def placeholder(self, column: Column, table: str) -> str | None:
        number = "(((t.ctid::text::point)[0])::bigint * 300 + ((t.ctid::text::point)[1])::bigint + 1)"
        least = f"(SELECT min(m.{identifier(column.name)}) FROM {table} AS m)"
        if column.kind == TEXT:
            size = re.search(r"\((\d+)\)", column.type)
            return f"substr(md5(random()::text || t.ctid::text), 1, {size[1] if size else 32})"
        if column.kind in (INTEGER, NUMBER):
            return f"(least({least}, 0) - {number})"
        if column.kind in (DATE, TIME):
            return f"({least} - {number}::integer)" if column.kind == DATE else f"({least} - {number} * interval '1 s')"
        return "gen_random_uuid()" if column.type == "uuid" else None

    def make_record(self, name: str, columns: str) -> str:
        try:
            self.run(f"CREATE SCHEMA IF NOT EXISTS {SCHEMA}; CREATE TABLE IF NOT EXISTS {SCHEMA}.{name} ({columns})")
        except DatabaseError as error:
            if error.sqlstate != NO_RIGHT:
                raise
            user = identifier(self.session.connection.info.user)
            raise Refused(f"{error.cause}: the record of rows that loads have written needs a schema: CREATE SCHEMA"
                          f" {SCHEMA} AUTHORIZATION {user}; nothing is changed") from None
        return f"{SCHEMA}.{name}"

    def make_log(self, name: str, columns: str) -> str:
        self.run(f"CREATE TABLE IF NOT EXISTS {self.sql(self.schema, name)} ({columns})")
        return self.sql(self.schema, name)

    def has_record(self, name: str) -> str | None:
        found = self.session.rows(RECORD, SCHEMA, name)
        if found and found[0] != ("t", RECORD_COLUMNS):
            raise Refused(f"{SCHEMA}.{name} is not the record of clio-load, which is kept under that name: rename it")
        return f"{SCHEMA}.{name}" if found else None

    def set_sequences(self, plan: TablePlan) -> None:
        for column in plan.loaded:
            self.set_sequence(plan, column)

    def set_sequence(self, plan: TablePlan, column: Column, taken: str | None = None) -> None:
        """Sets what numbers a column behind the last number in it, and behind those of a table of taken ones."""
        if column.sequence is None:
            return
        step = self.step(column)
        given = self.count(f"SELECT last_value - CASE WHEN is_called THEN 0 ELSE {step} END FROM {column.sequence}")
        last = self.count(self.last_number(plan, column, step, taken))
        if last != given:
            self.value(f"SELECT pg_catalog.setval({literal(column.sequence)}, {last})")

    def close(self) -> None:
        self.session.close()


def column_of(words: dict[str, str], cells: list[str | None]) -> Column:
    """A column by its row of the catalog."""
    (name, declared, plain, category, filled, has_default, is_identity, is_computed, sequence, collation, base,
     is_row) = cells
    kind = KINDS.get(str(plain), TEXT if category == "S" else OTHER)
    return Column(str(name), words[str(name)], str(declared) + (f" COLLATE {collation}" if collation else ""), kind,
                  filled == "f",
                  has_default == "t" or is_identity == "t", is_identity == "t" or sequence is not None,
                  is_computed == "t", sequence, str(base), is_row == "t")


def listed(names: str | None) -> tuple[str, ...]:
    """The names of a list."""
    return tuple(json.loads(names or "[]"))
