"""Tries the tools on the examples: dev/check, or on some: dev/check FOLDER..

With SQLite (the program sqlite3) and with PostgreSQL (initdb and psql; a server of its own in a temporary folder) it loads
what clio wrote by the SQL of tools/clio-tables, with and without types, reads the tables back, and tries that keys and foreign keys hold there
and refuse a row that breaks them. So it does with texts that databases read otherwise than clio. With PostgreSQL it also runs the scripts, in both modes, as tools/clio-script-to-postgres turns them,
puts in the place of each null what out/fold.csv says, and compares the rows with clio's. With both it makes the target by tools/clio-sql, and compares
rows, nulls and fold. In both it loads the shop by tools/clio-load, again and again. Then it runs dev/check-docs with the server, for the commands of the manual that need one. What is missing is left out, and said.
"""
import collections
import json
import os
import pathlib
import re
import shutil
import signal
import subprocess
import sys
import tempfile

TOP = pathlib.Path(__file__).resolve().parent.parent.parent
EXAMPLES = TOP / "examples"
PROGRAM = subprocess.run([TOP / "dev/program"], stdout=subprocess.PIPE, text=True, check=False).stdout.strip()

from clio_tools import csv as clio_csv
from clio_tools import sql_types
from loads import try_postgres, try_sqlite
from servers import Differs, LeftOut, Postgres, Sqlite, Written, output, parsed, rows_of, tool
from clio_tools.draft.names import shown
from forked import ended
from clio_tools.mapping.text import in_order_of_links, read_sets

MANY = [["x%d" % number, "\\." if number % 7 else "a,\"b\"\r\n"] for number in range(20_000)]
HOSTILE = {
    "one column": ["x", ["\\."], ["\\N"], ["5\"-6\" disk"], ["5\" disk"], ["a\n\\.\nb"], [""], ["\t\\t"], ["a\r\nb\rc"], ["'; DROP TABLE b0; --"],
                   ["?"], ["??1"], ["é\u2028"]],
    "two columns": ["x,y", ["\\.", "\\."], ["", ""], [" ", "\\N"], ["\"", "\"\""], ["NULL", "null"], ["a\n\\.\n", "\n"], ["\\", "\\\\"]],
    "long texts": ["x,y", ["a" * 5_000_000, "b"], ["\"" * 100_000, "\n" * 100_000]],
    "many rows": ["x,y", *MANY],
}


def exchange(folder, words):
    """What clio prints, or nothing if it refuses."""
    shutil.rmtree(folder / "out", ignore_errors=True)
    done = subprocess.run([PROGRAM, "exchange", *words], cwd=folder, capture_output=True, check=False)
    return done.stdout.decode() if done.returncode == 0 else ""


def try_types(kind, base, folder, tables):
    """What clio wrote, loaded with the types that fit it: the same texts, and NULL for nulls and empty texts under a type."""
    (folder / "types.txt").write_text(tool("clio-tables", "types", folder=folder), encoding="utf-8")
    try:
        base.load(folder, tool("clio-tables", kind, "--types", "types.txt", folder=folder))
    except Differs as why:
        if "SQLite would keep it as" in str(why):
            return
        raise
    nullable = sql_types.nullable(sql_types.read_types(folder / "types.txt", tables), tables)
    for table, loaded in zip(tables, base.rows(folder, tables)):
        typed = [(table.name, column) in nullable for column in table.columns]
        rows = rows_of(folder / "out" / f"{table.name}.csv")
        wanted = [tuple("" if one and sql_types.is_open(cell) else cell for one, cell in zip(typed, row)) for row in rows]
        if sorted(loaded) != sorted(wanted):
            raise Differs(f"{table.name} is not loaded with types as it was written")


def try_tables(kind, base, folder, tables, summary):
    """What clio wrote, loaded and read back; a second row under a key is refused, and taken where there is none."""
    base.load(folder, tool("clio-tables", kind, "--summary", "-", folder=folder, text=summary))
    written = {table.name: rows_of(folder / "out" / f"{table.name}.csv") for table in tables}
    for table, loaded in zip(tables, base.rows(folder, tables)):
        if sorted(loaded) != sorted(written[table.name]):
            raise Differs(f"{table.name} is not loaded as it was written")
    script = ""
    for table in tables:
        name, view = base.name(table.name), base.name(table.name + "_plain")
        script += f"INSERT INTO {name} SELECT * FROM {name} LIMIT 1;\nSELECT '{table.name}', count(*) FROM {view};\n"
    counts = dict(line.split("|") for line in base.attempt(folder, script).splitlines())
    for table in tables:
        rows = written[table.name]
        if counts.get(table.name) != str(len(rows) + (not table.keys and bool(rows))):
            raise Differs(f"{table.name}: a second row under its key is taken, or one without a key is refused, or its view has other rows")


def try_script(base, folder, tables, words):
    """The script as PostgreSQL runs it, against the tables of clio."""
    base.load(folder, tool("clio-tables", "source", folder=folder))
    script = (folder / "out" / "script.sql").read_text(encoding="utf-8")
    base.run(folder, "SET client_min_messages = 'error';\n" + tool("clio-script-to-postgres", folder=folder, text=script))
    fold = dict(rows_of(folder / "out" / "fold.csv"))
    for table, rows in zip(tables, base.rows(folder, tables)):
        if len(rows) != len(set(rows)):
            raise Differs(f"{table.name} of the script{' '.join(['', *words])} has a row twice")
        made = {tuple(fold.get(value, value) for value in row) for row in rows}
        if made != set(rows_of(folder / "out" / f"{table.name}.csv")):
            raise Differs(f"{table.name} of the script{' '.join(['', *words])} has other rows than clio's")


def try_sql(kind, base, folder, tables, words):
    """The target that clio-sql makes, with its nulls and fold: clio's, but for a core of which some rows were reduced."""
    base.load_source(folder)
    status, _, said = ended("clio-sql", [kind, *words, *base.place], folder)
    if kind == "sqlite" and status == 2 and ("duplicate column" in said or "already exists" in said):
        return False  # names that differ in case alone
    if status:
        raise Differs(f"clio-sql {kind}{' '.join(['', *words])} ended with {status}: {said[:300]}")
    all_tables = [*tables, Written("nulls", "null", "variable", "value"), Written("fold", "null", "value")]
    for table, rows in zip(all_tables, base.rows(folder, all_tables)):
        wanted = rows_of(folder / "out" / f"{table.name}.csv")
        if (not words or said.endswith("clio-sql: a core\n")) and sorted(rows) != sorted(wanted):
            raise Differs(f"clio-sql {kind}{' '.join(['', *words])}: {table.name} is another than clio's")
    return True


def try_example(folder, sqlite, postgres, counts):
    for words in [], ["--core"]:
        summary = exchange(folder, words)
        if not summary:
            return
        tables = in_order_of_links(read_sets((folder / "mapping.clio").read_text(encoding="utf-8"))["target"])
        for kind, base in ("sqlite", sqlite), ("postgres", postgres):
            if base:
                if kind == "postgres":
                    base.clear(folder)
                try_tables(kind, base, folder, tables, summary)
                try_types(kind, base, folder, tables)
                counts[f"loads into {kind}, with and without types"] += 1
                counts[f"targets made in {kind}"] += try_sql(kind, base, folder, tables, words)
        if postgres:
            try_script(postgres, folder, tables, words)
            counts["scripts run by PostgreSQL"] += 1


def hostile_folders(top):
    """Folders whose mapping copies a table of hostile texts."""
    for name, (columns, *rows) in HOSTILE.items():
        folder = top / name.replace(" ", "-")
        folder.mkdir()
        columns = columns.split(",")
        listed = ", ".join(columns)
        lines = "".join(f"line a0.{column} -> b0.{column};\n" for column in columns)
        (folder / "mapping.clio").write_text(f"mapping 1;\nsource {{ set a0 {{ {listed}; }} }}\ntarget {{ set b0 {{ {listed}; }} }}\n{lines}")
        clio_csv.write_table(folder / "a0.csv", columns, rows)
        yield folder / "mapping.clio"


def try_draft(postgres, top):
    """A schema of hostile names, texts and links: clio takes what is drafted of it, and the files have the texts of the tables."""
    folder = top / "draft"
    folder.mkdir()
    postgres.run(folder, "DROP SCHEMA IF EXISTS shop, elsewhere CASCADE;\n" + (TOP / "tests/tools/hostile.sql").read_text(encoding="utf-8"))
    place = postgres.place[0]
    text = tool("clio-draft", "postgres", place, "shop", "--data", ".", folder=folder)
    target = tool("clio-draft", "postgres", place, "shop", "--side", "target", folder=folder)
    (folder / "mapping.clio").write_text(f"mapping 1;\n{text}{target}", encoding="utf-8")
    if not exchange(folder, []):
        raise Differs("clio refuses what is drafted")
    for table in read_sets(text.replace("source", "mapping 1; source", 1) + "target { }")["source"]:
        named = re.search(rf'// ("(?:[^"\\\\]|\\\\.)*") is {table.name}$', text, re.M)
        name = json.loads(named[1]) if named else table.name
        cells = parsed(postgres.run(folder, "COPY (SELECT string_agg('coalesce(' || quote_ident(attname) || '::text, $$$$)', ', ' ORDER BY attnum)"
                                    f" FROM pg_attribute WHERE attrelid = $x$shop.\"{name}\"$x$::regclass AND attnum > 0"
                                    " AND atttypid <> 'bytea'::regtype) TO STDOUT WITH (FORMAT csv);"))[0][0]
        there = parsed(postgres.run(folder, f'SET timezone = \'UTC\'; COPY (SELECT {cells} FROM shop."{name}") TO STDOUT WITH (FORMAT csv, FORCE_QUOTE *);'))
        if sorted(there) != sorted(rows_of(folder / f"{table.name}.csv")):
            raise Differs(f"{shown(name)} is not written as it is there")


def try_shop(postgres, top):
    """The migration of the manual's first chapter, into PostgreSQL with types."""
    folder = top / "shop"
    shutil.copytree(EXAMPLES / "shop", folder)
    output([folder / "make-shop"], folder)
    tool("clio-draft", "sqlite", "shop.db", "--data", ".", "--mapping", "mapping.clio", folder=folder)
    summary = exchange(folder, [])
    (folder / "types.txt").write_text(tool("clio-tables", "types", folder=folder), encoding="utf-8")
    postgres.load(folder, tool("clio-tables", "postgres", "--types", "types.txt", "--summary", "-", folder=folder, text=summary))
    said = postgres.run(folder, "COPY (SELECT full_name, sum(quantity * price) FROM target.bought JOIN target.purchase USING (number)"
                        " JOIN target.person USING (pid) JOIN target.article USING (aid) WHERE day < DATE '2026-04-01'"
                        " GROUP BY full_name ORDER BY 1) TO STDOUT WITH (FORMAT csv);")
    if said != "Ann Ore,63.5\nBob Orr,4.5\n":
        raise Differs(f"the shop in PostgreSQL says {said}")


def try_manual(postgres):
    """The commands of the README and of the manual, those that need a server too."""
    programs = postgres.base / "programs"
    programs.mkdir()
    (programs / "python3").symlink_to(sys.executable)  # the one that has psycopg
    place = {**os.environ, "PGHOST": str(postgres.base), "PGUSER": "clio", "SERVER": "yes", "PATH": f"{programs}:{os.environ['PATH']}"}
    done = subprocess.run([TOP / "dev/check-docs"], env=place, stdin=subprocess.DEVNULL, stdout=subprocess.PIPE, text=True, check=False)
    if done.returncode or "it needs a server" in done.stdout:
        raise Differs(f"dev/check-docs with a server says\n{done.stdout}")
    return int(re.search("manual: ([0-9]+) commands were run", done.stdout)[1])


def start(made, name):
    try:
        return made()
    except LeftOut as why:
        print(f"tools: {name} is left out, since {why}")
        return None


def main():
    if not PROGRAM:
        sys.exit(1)
    signal.signal(signal.SIGTERM, lambda *_: sys.exit(143))  # so that the server is stopped in any case
    counts = collections.Counter()
    examples = [pathlib.Path(word) / "mapping.clio" for word in sys.argv[1:]]
    examples = examples or [*sorted(EXAMPLES.glob("*/mapping.clio")), *sorted(EXAMPLES.glob("rows/*/mapping.clio"))]
    failed = 0
    with tempfile.TemporaryDirectory() as name:
        top = pathlib.Path(name)
        top.chmod(0o755)
        (top / "clio").symlink_to(PROGRAM)
        os.environ["PATH"] = f"{top}{os.pathsep}{os.environ['PATH']}"  # so that the tools take this program
        sqlite, postgres = start(Sqlite, "SQLite"), start(lambda: Postgres(top), "PostgreSQL")
        try:
            hostile = top / "hostile"
            hostile.mkdir()
            for example in [*hostile_folders(hostile), *examples]:
                folder = top / "example"
                shutil.rmtree(folder, ignore_errors=True)
                shutil.copytree(example.parent, folder)
                try:
                    try_example(folder, sqlite, postgres, counts)
                except Differs as why:
                    print(f"tools: {example.parent.parent.name}/{example.parent.name}: {why}", flush=True)
                    failed = 1
            if sqlite:
                try_sqlite(top / "loads-sqlite")
                counts["lives of a loaded shop"] += 1
            if postgres:
                try_postgres(top / "loads-postgres", postgres)
                counts["lives of a loaded shop"] += 1
                try_draft(postgres, top)
                counts["schemas drafted from PostgreSQL"] += 1
                try_shop(postgres, top)
                counts["migrations of the shop"] += 1
                counts["commands of the manual"] += try_manual(postgres)
        except Differs as why:
            print(f"tools: {why}")
            failed = 1
        finally:
            if postgres:
                postgres.stop()
    print("tools: " + ", ".join(f"{count} {what}" for what, count in counts.items()))
    sys.exit(failed)


if __name__ == "__main__":
    main()
