"""What is wrong with a crosswalk that something else than clio-ids has changed."""
import sqlite3

from clio_tools.ids.sureness import FOLDED, LED, OTHER, OWN, RULE

GIVEN = ("CREATE TABLE given (set_name TEXT NOT NULL, column_name TEXT NOT NULL, number INTEGER NOT NULL,"
         " value INTEGER NOT NULL, PRIMARY KEY (set_name, column_name, number), UNIQUE (set_name, column_name, value))")
GREATEST = 2**63 - 1  # no greater number is ever given
NUMBER = "typeof(number) <> 'integer' OR number < 1 OR number >= (SELECT number FROM next)"
CHECKS = [
    ("SELECT 'the table next has ' || count(*) || ' rows, and must have one' FROM next HAVING count(*) <> 1"),
    ("SELECT 'the next number is ' || quote(number) FROM next"
     f" WHERE typeof(number) <> 'integer' OR number < 1 OR number >= {GREATEST}"),
    ("SELECT 'the kind ' || quote(kind) || ' is not as clio-ids writes it' FROM kind WHERE typeof(set_name) <> 'text'"
     " OR typeof(column_name) <> 'text' OR NOT json_valid(key_columns) OR is_key NOT IN (0, 1)"),
    (f"SELECT 'the name ' || quote(text) || ' has the number ' || quote(number) FROM name WHERE {NUMBER}"),
    ("SELECT 'the name ' || quote(text) || ' is not as clio-ids writes it' FROM name"
     f" WHERE typeof(text) <> 'text' OR typeof(sureness) <> 'integer'"
     f" OR sureness NOT IN ({OWN}, {OTHER}, {LED}) OR kind NOT IN (SELECT kind FROM kind)"),
    ("SELECT 'the number ' || number || ' has the names ' || quote(min(text)) || ' and ' || quote(max(text))"
     f" || ', which are of two things' FROM name WHERE sureness = {OWN}"
     " AND kind IN (SELECT kind FROM kind WHERE is_key) GROUP BY kind, number HAVING count(*) > 1"),
    (f"SELECT 'a term has the number ' || quote(number) FROM term WHERE {NUMBER}"),
    ("SELECT 'a term is not as clio-ids writes it' FROM term WHERE typeof(digest) <> 'blob' OR length(digest) <> 32"
     f" OR sureness NOT IN ({RULE}, {FOLDED})"),
    ("SELECT 'the column ' || quote(set_name) || '.' || quote(column_name) || ' is marked ' || quote(is_numbered)"
     " FROM numbered WHERE typeof(set_name) <> 'text' OR typeof(column_name) <> 'text' OR is_numbered NOT IN (0, 1)"),
    ("SELECT 'the digest of ' || quote(name) || ' is none' FROM written"
     " WHERE typeof(name) <> 'text' OR typeof(digest) <> 'blob' OR length(digest) <> 32"),
]


def check_contents(base: sqlite3.Connection, statements: list[str]) -> str:
    """What is wrong, or nothing."""
    for said, in base.execute("PRAGMA main.quick_check(1)"):
        if said != "ok":
            return str(said)
    made = base.execute("SELECT sql FROM main.sqlite_master WHERE sql IS NOT NULL")
    there = {" ".join(text.split()) for text, in made} - {GIVEN}
    if there != set(statements):
        other = sorted(there.symmetric_difference(statements))[0]
        return f"it has other tables than clio-ids makes: {other[:200]}"
    for query in CHECKS:
        found = base.execute(query + " LIMIT 1").fetchone()
        if found:
            return str(found[0])[:300]
    return ""
