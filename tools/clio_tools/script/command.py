"""Turns the script that clio writes, script.sql, into SQL that PostgreSQL runs as it is.

    clio-script-to-postgres < out/script.sql > run.sql
    clio show | grep -v '^rule ' | clio-script-to-postgres > run.sql

run.sql reads the tables of the schema `source` and makes those of the schema `target`; match tables and functions are
in the schema `clio`, which it makes anew, and which can be dropped afterwards. A source table's columns are texts and
never NULL:

    CREATE VIEW source."emp" AS SELECT coalesce(name::text, '') AS "name" FROM hr.employee;

puts a table of yours there; clio-tables source loads files. What is turned into what:

    CREATE TABLE m0 AS SELECT ..   the same, with a column `place`: the row's number, by the bytes of its texts, from 0
    SKOLEM(0, 1, m.place)          a function, which gives the text ?0.1.place
    "trim", "digits", "pair"       functions; another conversion is refused
    m.c0, 'text' in an INSERT      the text as clio writes it: one that begins with ? gets one ? more
    INSERT INTO ..                 of rows that are not there yet

There is one step on each line, as clio writes them. The target then has what clio's target has before keys make rows
one, and in core mode before rows are folded into others. This tool is not proved; dev/check compares what it makes with
what clio makes, on the examples.
"""
import re
import sys

from clio_tools.mapping.meanings import CONVERSIONS
from clio_tools.program import Refused, run

MATCH = re.compile(r"CREATE TABLE (m[0-9]+) AS (SELECT DISTINCT (.*?) FROM source\..*);")
KEEP = re.compile(r"CREATE TABLE (k[0-9]+) AS SELECT \* FROM m[0-9]+ AS m WHERE .*;")
CREATE = re.compile(r"CREATE TABLE target\.\"[^\"]+\" \(.*\);")
INSERT = re.compile(r"INSERT INTO (target\.\"[^\"]+\") SELECT (.*) FROM ([mk][0-9]+) AS m;")
QUOTED = re.compile(r"'(?:[^']|'')*'|\"[^\"]+\"")
CALL = re.compile(r'("[^"]+"|[A-Za-z0-9_]+) *\(')
CALLED = {"SKOLEM", "EXISTS", *(f'"{name}"' for name in CONVERSIONS)}  # what can have a parenthesis behind it
TARGET = re.compile(r'CREATE TABLE target\."[^"]+" ')  # so can this
UNQUOTED = re.compile(r"[A-Za-z0-9_.,=<>()* ]*;")  # what is in no quotes of a step: one statement, and no comment

HEAD = r"""\set ON_ERROR_STOP on
SET client_encoding = 'UTF8';
SET standard_conforming_strings = on;
DROP SCHEMA IF EXISTS clio CASCADE;
CREATE SCHEMA clio;
CREATE SCHEMA IF NOT EXISTS target;
SET search_path = clio;
CREATE FUNCTION clio.skolem(rule bigint, variable bigint, place bigint) RETURNS text LANGUAGE sql IMMUTABLE
  AS $$ SELECT '?' || rule::text || '.' || variable::text || '.' || place::text $$;
CREATE FUNCTION clio.written(value text) RETURNS text LANGUAGE sql IMMUTABLE
  AS $$ SELECT CASE WHEN value LIKE '?%' THEN '?' || value ELSE value END $$;
"""


def functions() -> str:
    """The statements that make a function of each conversion."""
    made = ""
    for name, conversion in CONVERSIONS.items():
        values = [f"value{place}" for place in range(conversion.arity)]
        made += (f'CREATE FUNCTION clio."{name}"({", ".join(f"{value} text" for value in values)}) RETURNS text'
                 f" LANGUAGE sql IMMUTABLE\n  AS $$ SELECT {conversion.sql.postgres.format(*values)} $$;\n")
    return made


def split(text: str) -> list[str]:
    """The parts of a list at the commas that are in no parentheses and no quotes."""
    parts, depth = [""], 0
    for piece in re.findall(r"'(?:[^']|'')*'|\"[^\"]+\"|.", text, re.DOTALL):
        depth += (piece == "(") - (piece == ")")
        if piece == "," and depth == 0:
            parts.append("")
        else:
            parts[-1] += piece
    return [part.strip() for part in parts]


def match_rows(table: str, query: str, select: str) -> str:
    """The statement that makes a match table, with the places of its rows."""
    columns = re.findall(r" AS (c[0-9]+)", select)
    if not columns:
        return f"CREATE TABLE {table} AS SELECT 0::bigint AS place FROM ({query}) AS d;"
    order = ", ".join(f'{column} COLLATE "C"' for column in columns)
    return f"CREATE TABLE {table} AS SELECT *, row_number() OVER (ORDER BY {order}) - 1 AS place FROM ({query}) AS d;"


def insert_rows(target: str, outs: str, table: str, filled: set[str]) -> str:
    """The statement that puts the rows of a match table into a table of the target."""
    cells = ", ".join(out if out.startswith("SKOLEM") else f"written({out})" for out in split(outs))
    if target not in filled:
        filled.add(target)
        return f"INSERT INTO {target} SELECT DISTINCT {cells} FROM {table} AS m;"
    return f"INSERT INTO {target} (SELECT {cells} FROM {table} AS m EXCEPT SELECT * FROM {target});"


def turned(step: str, filled: set[str]) -> str:
    """What PostgreSQL runs for a step, when rows were already put into the tables `filled`."""
    if not UNQUOTED.fullmatch(QUOTED.sub("", step)):
        raise Refused(f"this is no step of a script that clio writes: {step[:200]}")
    for name in CALL.findall(TARGET.sub("", re.sub(r"'(?:[^']|'')*'", "", step))):
        if name not in CALLED:
            raise Refused(f"clio-script-to-postgres knows no conversion {name}")
    if found := MATCH.fullmatch(step):
        return f"{match_rows(found[1], found[2], found[3])}\nANALYZE {found.group(1)};"
    if found := INSERT.fullmatch(step):
        return insert_rows(found[1], found[2], found[3], filled)
    if KEEP.fullmatch(step) or CREATE.fullmatch(step):
        return step
    raise Refused(f"this is no step of a script that clio writes: {step[:200]}")


def work(words: list[str]) -> None:
    if words:
        raise Refused("usage: clio-script-to-postgres < script.sql > run.sql;"
                      " the manual is man clio-script-to-postgres")
    try:
        steps = sys.stdin.buffer.read().decode("utf-8").split("\n")
    except UnicodeDecodeError as error:
        raise Refused(f"the script is not UTF-8: {error}") from None
    for name in re.findall(r"\"([^\"]+)\"", "".join(re.sub(r"'(?:[^']|'')*'", "", step) for step in steps)):
        if len(name) > 63:
            raise Refused(f"PostgreSQL cuts the name {name} after 63 letters")
    filled: set[str] = set()
    turned_steps = [turned(step, filled) for step in steps if step]
    print(HEAD + functions() + "\n".join(turned_steps))


def main() -> None:
    run("clio-script-to-postgres", work)
