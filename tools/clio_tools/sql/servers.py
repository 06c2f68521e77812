"""Several PostgreSQL servers as one. Each makes its part of each table, of rows that were brought together there; what
is asked of all rows goes through the database that is asked, where each table is a partitioned one whose rows are on
the others, as tables that postgres_fdw reads there.

In a database of the servers the tables are in schemas that begin with the sign of the server, clio_ and a hash of how
it is reached, and work tables in a schema of the run. In the database that is asked, the names of these tables are in
schemas with `_link`.
"""
import functools
import itertools
import re
from collections.abc import Sequence

from clio_tools.databases.postgres import literal
from clio_tools.mapping.text import Set
from clio_tools.program import Refused
from clio_tools.sql.gathering import Gathering
from clio_tools.sql.moving import Goes, Member, Moving, by_hash, by_number
from clio_tools.sql.postgres import UNLOCK, WORK, Postgres
from clio_tools.sql.script import Null
from clio_tools.sql.server import READS, Server, reached
from clio_tools.sql.session import Log, Session, at_once, unlogged
from clio_tools.sql.tables import SHIFT
from clio_tools.sql.words import POSTGRES
from clio_tools.sql.work import By, Home, Made, Matched, Row, Source

KEYS = 32  # PostgreSQL takes no more columns in the key of a partition
NAME = re.compile(r"\b[a-z]+[0-9]+\b")
PARTS = """SELECT s.srvname::text, o.option_name, o.option_value
 FROM pg_inherits AS i JOIN pg_foreign_table AS f ON f.ftrelid = i.inhrelid
 JOIN pg_foreign_server AS s ON s.oid = f.ftserver CROSS JOIN pg_options_to_table(f.ftoptions) AS o
 WHERE i.inhparent = to_regclass({name}) ORDER BY i.inhrelid, o.option_name"""
# whether all rows of a table are in its parts, and how many these are
SPREAD = """SELECT relkind = 'p', (SELECT count(*) FROM pg_inherits WHERE inhparent = c.oid) FROM pg_class AS c
 WHERE c.oid = to_regclass({name})"""
PARTED = """SELECT relname::text FROM pg_class WHERE relnamespace = {schema}::regnamespace AND relkind = 'p'
 AND right({schema}, 4) = '_new'"""  # the tables of a target that isn't in its place
KNOWN = """SELECT o.option_name, o.option_value FROM pg_foreign_server, pg_options_to_table(srvoptions) AS o
 WHERE srvname = {sign}"""
SHAPE = """SELECT attname::text, format_type(atttypid, atttypmod) FROM pg_attribute
 WHERE attrelid = {name}::regclass AND attnum > 0 ORDER BY attnum"""
UNLOGGED = {"log_statement": "none", "log_min_duration_statement": "-1", "log_min_error_statement": "panic"}
Columns = Sequence[tuple[str, str]]  # names, and types with their collations


class Servers(Postgres):
    """The database that is asked, whose tables are spread over the servers of a list."""
    is_spread = True

    def __init__(self, connection: str | None, lines: Sequence[str], log: Log = unlogged) -> None:
        self.servers: list[Server] = []
        self.unpublished: list[str] = []
        self.is_in_doubt = False  # whether it isn't known if the target has changed
        self.unlinked: set[str] = set()  # work tables of the servers that have no name in the database that is asked
        self.heads: Sequence[Null] = ()
        self.offsets: dict[int, list[int]] = {}  # for each rule the place of the first match of each server
        places = reached(lines)
        super().__init__(connection, 1, log)
        try:
            self.servers = [Server(place, number, self.schema, log) for number, place in enumerate(places)]
            self.drop_left()
            self.set_up()
        except BaseException:
            self.close()
            raise

    def drop_left(self) -> None:
        """Drops what a run that was killed left, when the servers are reached: first its parts of a target there."""
        for name in self.left() if self.servers else ():
            for table, in self.one.values(PARTED.format(schema=literal(name))):
                self.drop(self.parts_of(f'{name}."{table}"'))
            self.one.made(f'DROP SCHEMA "{name}" CASCADE')

    def drop(self, parts: Sequence[tuple[str, str, str]]) -> None:
        """Drops parts of a target on the servers that are there."""
        for server in self.servers:
            for sign, schema, part in parts:
                if sign == server.sign:
                    server.session.attempt(f'DROP TABLE IF EXISTS {schema}."{part}"')

    def begin(self) -> None:
        """Makes the schemas of the run; no transaction is begun, as others have to see the tables."""
        self.is_one_snapshot = False
        super().begin()
        self.one.made("SET enable_partitionwise_join = on; SET enable_partitionwise_aggregate = on")

    def set_up(self) -> None:
        """Makes the servers known; the server that is asked logs no password, if this user can ask for that."""
        for server in self.servers:  # first: one that refuses this is to be read as before
            server.make_schemas()
        # in a schema that stays, as a server falls with its extension, and an extension with its schema
        self.one.made("CREATE SCHEMA IF NOT EXISTS clio_servers")
        self.one.made("CREATE EXTENSION IF NOT EXISTS postgres_fdw SCHEMA clio_servers")
        for setting, value in UNLOGGED.items():
            self.one.attempt(f"SET {setting} = {literal(value)}")
        for server in self.servers:
            known, user = server.made_known()
            self.one.run(known)
            if not server.is_known_as(self.one.values(KNOWN.format(sign=literal(server.sign)))):
                raise Refused(f"the foreign server {server.sign} in the database that is asked leads elsewhere than the"
                              " list says: drop it")
            self.one.run(user)
            for kind in "source", "target", "work":
                self.one.made(f"CREATE SCHEMA IF NOT EXISTS {server.link(kind)}")
            self.one.made(f"COMMENT ON SCHEMA {server.link('work')} IS {literal(WORK)}")
        for setting in UNLOGGED:
            self.one.attempt(f"RESET {setting}")

    def spread(self, name: str, kind: str, part: str, columns: Columns, by: Sequence[str]) -> None:
        """Makes an empty table whose rows are on the servers, told apart by a hash of some columns."""
        listed = ", ".join(f'"{column}" {sort}' for column, sort in columns)
        for server in self.servers:
            table = POSTGRES.table if kind == "work" else "TABLE"
            here = f'{server.schema(kind)}."{part}"'
            server.session.made(f"DROP TABLE IF EXISTS {here}; CREATE {table} {here} ({listed})")
        self.link(name, kind, part, columns, by)

    def link(self, name: str, kind: str, part: str, columns: Columns, by: Sequence[str] = ()) -> None:
        """Makes a table of tables of the servers. If it isn't known by which columns their rows are told apart, an
        expression says so that no query has."""
        listed = ", ".join(f'"{column}" {sort}' for column, sort in columns)
        first, sort = columns[0]
        other = f"""("{first}" {"|| ''" if sort.startswith("text") else "+ 0"})"""
        self.one.made(f"CREATE TABLE {name} ({listed}) PARTITION BY HASH ({', '.join(by[:KEYS]) or other})")
        for place, server in enumerate(self.servers):
            self.one.made(f'CREATE FOREIGN TABLE {server.link(kind)}."{part}" PARTITION OF {name}'
                          f" FOR VALUES WITH (MODULUS {len(self.servers)}, REMAINDER {place})"
                          f" SERVER {server.sign} OPTIONS (schema_name {literal(server.schema(kind))},"
                          f" table_name {literal(part)})")

    def linked(self, sql: str) -> str:
        """SQL whose work tables have names in the database that is asked."""
        for name in sorted(self.unlinked & set(NAME.findall(sql))):
            columns = self.servers[0].session.values(SHAPE.format(name=literal(name)))
            self.link(name, "work", name, [(column, by_bytes(sort)) for column, sort in columns])
            self.unlinked.discard(name)
        return sql

    def on_each(self, sql: str) -> list[int]:
        """Runs SQL on all servers at once; answers how many rows it made on each."""
        return at_once([functools.partial(server.session.made, sql) for server in self.servers], self.all_sessions)

    @property
    def all_sessions(self) -> list[Session]:
        """Those of the servers, and the one of the database that is asked."""
        return [self.one, *(session for server in self.servers for session in server.sessions)]

    def run(self, sql: str) -> int:
        return super().run(self.linked(sql))

    def rows(self, sql: str, assumed: Sequence[Row]) -> Sequence[Row]:
        return super().rows(self.linked(sql), assumed)

    def each(self, sql: str, assumed: Sequence[Row]) -> Sequence[Row]:
        found = at_once([functools.partial(server.session.values, sql) for server in self.servers], self.all_sessions)
        return [row for rows in found for row in rows]

    def view(self, name: str, query: str) -> None:
        self.on_each(f"CREATE {POSTGRES.view} {name} AS {query}")
        self.unlinked.add(name)

    def move(self, name: str, query: str, by: By) -> None:
        Moving([server.member for server in self.servers], [query] * len(self.servers), self.goes(by)).run(name)
        self.unlinked.add(name)

    def goes(self, by: By) -> Goes:
        """Where a row goes."""
        count = len(self.servers)
        if not isinstance(by, Home):
            return by_hash([(column, column.startswith("c")) for column in by], count)
        starts = self.offsets[by.rule] if by.rule is not None else [
            head * SHIFT + start for head, null in enumerate(self.heads) for start in self.offsets[null.rule]]
        return by_number(f"(width_bucket({by.column}, CAST(ARRAY{starts} AS bigint[])) - 1) % {count}", count)

    def make(self, table: Made) -> int:
        if table.is_local:
            rows = self.on_each(f"CREATE {POSTGRES.table} {table.name} AS {table.query}; ANALYZE {table.name}")
            self.unlinked.add(table.name)
            return sum(rows)
        self.spread_work(table)
        made = self.one.made(f"INSERT INTO {table.name} {table.query}")
        self.analyze(table.name)
        return made

    def make_matches(self, matches: Sequence[Matched], source: Source, heads: Sequence[Null]) -> list[int]:
        self.one.made(READS)
        members = [server.reading() for server in self.servers]
        counts = Gathering(members, Member(self.one, self.one), self.source_parts, source).run(matches)
        self.heads = heads
        self.offsets = {one.rule: list(itertools.accumulate(count, initial=0))[:-1]
                        for one, count in zip(matches, counts)}
        self.unlinked |= {one.made.name for one in matches}
        return [sum(count) for count in counts]

    def source_parts(self, table: str) -> list[str]:
        """The parts of a source table, one on each server; none if its rows are in the database that is asked."""
        name = f'source."{table}"'
        found = {sign: f'{schema}."{part}"' for sign, schema, part in self.parts_of(name)}
        is_whole = self.one.values(SPREAD.format(name=literal(name))) == [(True, len(self.servers))]
        signs = [server.sign for server in self.servers]
        return [found[sign] for sign in signs] if is_whole and found.keys() == set(signs) else []

    def spread_work(self, table: Made) -> None:
        """Makes an empty work table."""
        self.one.made(f"CREATE TEMPORARY VIEW shape AS {self.linked(table.query)}")
        columns = [(name, by_bytes(sort)) for name, sort in self.one.values(SHAPE.format(name="'pg_temp.shape'"))]
        self.one.made("DROP VIEW pg_temp.shape")
        self.spread(table.name, "work", table.name, columns, list(table.by) or [name for name, _ in columns])

    def analyze(self, name: str) -> None:
        """Tells the servers that a work table has its rows."""
        for server in self.servers:
            server.session.made(f"ANALYZE {server.schema('work')}.{name}")

    def make_all(self, tables: Sequence[Made]) -> list[int]:
        for table in tables:
            self.spread_work(table)
        with self.one.transaction("BEGIN ISOLATION LEVEL REPEATABLE READ"):
            rows = [self.one.made(f"INSERT INTO {table.name} {table.query}") for table in tables]
        for table in tables:
            self.analyze(table.name)
        return rows

    def load(self, name: str, columns: Sequence[str], rows: Sequence[Row]) -> None:
        parted = [column.split(" ", 1) for column in columns]
        self.spread(name, "work", name, [(column, sort) for column, sort in parted], [parted[0][0]])
        self.one.copy_rows_in(name, ([None if cell is None else str(cell) for cell in row] for row in rows))
        self.analyze(name)

    def write(self, name: str, columns: Sequence[str], parts: Sequence[str]) -> None:
        self.prepared.append((name, columns, parts))
        part = f"{self.schema.removeprefix('clio_run_')}_{len(self.prepared)}"
        self.unpublished.append(part)
        # here first, so that what is on the servers is known here, whatever becomes of the run
        self.link(f'{self.made_in}."{name}"', "target", part, [(column, "text") for column in columns])
        query = " UNION ALL ".join(parts)  # which CREATE TABLE AS writes in less time than INSERT
        self.counts[name] = sum(at_once([
            functools.partial(server.session.made, f'CREATE TABLE {server.schema("target")}."{part}" AS {query}')
            for server in self.servers], self.all_sessions))

    def publish(self) -> dict[str, int]:
        old = [found for name, _, _ in self.prepared for found in self.parts_of(f'target."{name}"')]
        self.one.made("BEGIN; SET LOCAL lock_timeout = '60s'; CREATE SCHEMA IF NOT EXISTS target")
        self.refilled.clear()  # a table on which something hangs can't be dropped: then the run fails
        for name, columns, _ in self.prepared:
            self.put(name, columns)
        self.on_each("SELECT 1")  # a server that is lost has no part of the new target
        self.is_in_doubt = True
        self.one.commit()
        self.is_in_doubt = False
        self.unpublished.clear()
        self.drop(old)
        return self.counts

    def parts_of(self, name: str) -> list[tuple[str, str, str]]:
        """The tables of servers that have the rows of a table: the sign of the server, its schema and its name."""
        found = self.one.values(PARTS.format(name=literal(name)))
        pairs = zip(found[::2], found[1::2])  # schema_name and table_name of each part
        return [(one[0], one[2], other[2]) for one, other in pairs]

    def make_source(self, tables: Sequence[Set]) -> None:
        """Makes the tables of the source, empty, for whoever loads them."""
        self.one.made("CREATE SCHEMA IF NOT EXISTS source")
        for table in tables:
            columns = [(column, "text") for column in table.columns]
            by = [f'"{column}"' for column in table.columns]
            self.spread(f'source."{table.name}"', "source", table.name, columns, by)

    def close(self) -> None:
        """Drops what was worked on, here and on the servers. What isn't dropped there stays known here, so the next run
        drops it."""
        for server in self.servers:
            server.sending.close()  # first, as it may be reading what is to be dropped
        for session in self.sessions:
            session.attempt("ROLLBACK")
        dropped = [server.close([] if self.is_in_doubt else self.unpublished) for server in self.servers]
        schemas = [self.schema, *(server.link("work") for server in self.servers)]
        if all(dropped) and not self.is_in_doubt:
            schemas.append(self.made_in)
        for session in self.sessions:
            for schema in schemas:
                session.attempt(f"DROP SCHEMA IF EXISTS {schema} CASCADE")
            session.attempt(UNLOCK)
            session.close()


def by_bytes(sort: str) -> str:
    """The type of a column of a work table."""
    return sort + POSTGRES.by_bytes if sort == "text" else sort
