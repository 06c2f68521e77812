"""The jobs on which clio-sql is measured: a mapping, the queries that make its source, and SQL by hand for the same.

The SQL by hand orders by bytes, as the names of nulls ask. It makes all that clio-sql makes, with nulls and fold, in
the schema hand.
"""
from collections.abc import Callable
from dataclasses import dataclass

NUMBERS = "(SELECT place * 7919 % {0} AS i FROM generate_series(0::bigint, {0} - 1) AS place) AS s"
C = ' COLLATE "C"'


@dataclass
class Job:
    """A mapping, the queries that make its source tables of so many rows, SQL by hand, and whether a core is made."""
    name: str
    text: str
    make: Callable[[int], dict[str, str]]
    by_hand: str
    core: bool = False


COPY = Job("copy: one table into one with a column more", """mapping 1;
source { set src { a, b, c; } }
target { set tgt { a, b, c, d; } }
line src.a -> tgt.a;
line src.b -> tgt.b;
line src.c -> tgt.c;
""", lambda rows: {"src": "SELECT 'a' || i AS a, 'v' || i * 31 % 100003 AS b, 'text ' || i % 1000 AS c"
                          f" FROM {NUMBERS.format(rows)}"}, f"""
CREATE UNLOGGED TABLE hand.m AS SELECT a, b, c, row_number() OVER (ORDER BY a{C}, b{C}, c{C}) - 1 AS k
 FROM (SELECT DISTINCT a, b, c FROM source.src) AS q;
CREATE TABLE hand.tgt AS SELECT a, b, c, '?0.0.' || k AS d FROM hand.m;
CREATE TABLE hand.nulls AS SELECT '?0.0.' || k AS "null", unnest(ARRAY['x0','x1','x2']) AS variable,
 unnest(ARRAY[a, b, c]) AS value FROM hand.m;
CREATE TABLE hand.fold ("null" text, value text);
""")

FUSION = Job("fusion: two tables into one under a key", """mapping 1;
source { set a { id, x; } set b { id, y; } }
target { set t { id, x, y; key (id); } }
line a.id -> t.id;
line a.x -> t.x;
line b.id -> t.id;
line b.y -> t.y;
""", lambda rows: {"a": f"SELECT 'k' || i AS id, 'x' || i % 9973 AS x FROM {NUMBERS.format(rows // 2)}",
                   "b": f"SELECT 'k' || i + {rows // 4} AS id, 'y' || i % 7919 AS y"
                        f" FROM {NUMBERS.format(rows // 2)}"}, f"""
CREATE UNLOGGED TABLE hand.r AS SELECT *, row_number() OVER (ORDER BY id{C}, x{C}) - 1 AS k
 FROM (SELECT DISTINCT id, x FROM source.a) AS q;
CREATE UNLOGGED TABLE hand.s AS SELECT *, row_number() OVER (ORDER BY id{C}, y{C}) - 1 AS l
 FROM (SELECT DISTINCT id, y FROM source.b) AS q;
ANALYZE hand.r; ANALYZE hand.s;
CREATE UNLOGGED TABLE hand.j AS SELECT r.id AS i, r.x, k, s.id AS j, s.y, l FROM hand.r FULL JOIN hand.s ON r.id = s.id;
CREATE TABLE hand.t AS SELECT coalesce(i, j) AS id, coalesce(x, '?1.0.' || l) AS x, coalesce(y, '?0.0.' || k) AS y
 FROM hand.j;
CREATE TABLE hand.fold AS SELECT '?0.0.' || k AS "null", y AS value FROM hand.j WHERE i IS NOT NULL AND j IS NOT NULL
 UNION ALL SELECT '?1.0.' || l, x FROM hand.j WHERE i IS NOT NULL AND j IS NOT NULL;
CREATE TABLE hand.nulls AS SELECT '?0.0.' || k AS "null", unnest(ARRAY['x0','x1']) AS variable,
 unnest(ARRAY[i, x]) AS value FROM hand.j WHERE j IS NULL
 UNION ALL SELECT '?1.0.' || l, unnest(ARRAY['x0','x1']), unnest(ARRAY[j, y]) FROM hand.j WHERE i IS NULL;
""")

DEMO_TEXT = """mapping 1;
source {
  set dept { dname, city; key (dname); }
  set emp { eid, name, dname; key (eid); ref (dname) -> dept (dname); }
  set phone { eid, num; ref (eid) -> emp (eid); }
}
target {
  set unit { uname, place; key (uname); set staff { sid, sname, phone; key (sid); } }
  set number { num, who; }
}
line dept.dname -> unit.uname;
line dept.city -> unit.place;
line emp.eid -> staff.sid;
line emp.name -> staff.sname;
line phone.num -> staff.phone;
line phone.num -> number.num;
line emp.name -> number.who;
"""


def demo_source(rows: int) -> dict[str, str]:
    """The source of the demo."""
    return {"dept": "SELECT 'd' || i AS dname, 'Town ' || i AS city FROM generate_series(0, 9) AS i",
            "emp": f"SELECT 'e' || i AS eid, 'Name, ' || i % 50 AS name, 'd' || i % 10 AS dname"
                   f" FROM {NUMBERS.format(rows * 4 // 5)}",
            "phone": f"SELECT 'e' || 4 * i AS eid, '555-' || 4 * i AS num FROM {NUMBERS.format(rows // 5)}"}


MATCHES_BY_HAND = f"""
CREATE UNLOGGED TABLE hand.u AS SELECT row_number() OVER (ORDER BY dname{C}, city{C}) - 1 AS k, dname, city
 FROM (SELECT DISTINCT dname, city FROM source.dept) AS q;
CREATE UNLOGGED TABLE hand.e AS SELECT eid, name, dname, city,
 row_number() OVER (ORDER BY eid{C}, name{C}, dname{C}, city{C}) - 1 AS k
 FROM (SELECT DISTINCT eid, name, dname, city FROM source.emp JOIN source.dept USING (dname)) AS q;
CREATE UNLOGGED TABLE hand.f AS SELECT eid, num, name, dname, city,
 row_number() OVER (ORDER BY eid{C}, num{C}, name{C}, dname{C}, city{C}) - 1 AS j
 FROM (SELECT DISTINCT eid, num, name, dname, city FROM source.phone JOIN hand.e USING (eid)) AS q;
ANALYZE hand.e; ANALYZE hand.f;
CREATE UNLOGGED TABLE hand.n AS SELECT name, row_number() OVER (ORDER BY name{C}) - 1 AS p
 FROM (SELECT DISTINCT name FROM hand.e) AS q;
CREATE UNLOGGED TABLE hand.j AS SELECT e.*, f.num FROM hand.e LEFT JOIN hand.f ON f.eid = e.eid;
"""


def demo_by_hand(unit: str, exported: str, first: str, covered: str) -> str:
    """The demo by hand: which table has the nulls of units, the columns from which they are, the head of their names,
    and which nulls of names are covered."""
    columns = exported.split(", ")
    variables = ", ".join(f"'x{number}'" for number in range(len(columns)))
    return f"""{MATCHES_BY_HAND}
CREATE UNLOGGED TABLE hand.h AS SELECT DISTINCT ON (dname) '{first}' || k AS id, k, {exported} FROM ({unit}) AS q
 ORDER BY dname, k;
CREATE TABLE hand.unit AS SELECT id AS "#id", dname AS uname, city AS place FROM hand.h;
CREATE TABLE hand.staff AS SELECT h.id AS "#up", eid AS sid, name AS sname, coalesce(num, '?1.1.' || j.k) AS phone
 FROM hand.j JOIN (SELECT id, dname FROM hand.h) AS h USING (dname);
CREATE UNLOGGED TABLE hand.c AS SELECT n.name, n.p, q.num FROM hand.n LEFT JOIN (SELECT name, min(num) AS num
 FROM hand.f WHERE {covered} GROUP BY name) AS q USING (name);
CREATE TABLE hand.number AS SELECT DISTINCT num, name AS who FROM hand.f
 UNION ALL SELECT '?2.0.' || p, name FROM hand.c WHERE num IS NULL;
CREATE TABLE hand.fold AS SELECT q.name AS "null", h.id AS value
 FROM (SELECT '?0.0.' || k AS name, dname FROM hand.u UNION ALL SELECT '?1.0.' || k, dname FROM hand.e
 UNION ALL SELECT '?3.0.' || j, dname FROM hand.f) AS q JOIN (SELECT id, dname FROM hand.h) AS h USING (dname)
 WHERE q.name <> h.id
 UNION ALL SELECT '?1.1.' || k, num FROM hand.j WHERE num IS NOT NULL
 UNION ALL SELECT '?2.0.' || p, num FROM hand.c WHERE num IS NOT NULL;
CREATE TABLE hand.nulls AS SELECT id AS "null", unnest(ARRAY[{variables}]) AS variable, unnest(ARRAY[{exported}]) AS value
 FROM hand.h
 UNION ALL SELECT '?1.1.' || k, unnest(ARRAY['x0','x1','x2','x3']), unnest(ARRAY[eid, name, dname, city]) FROM hand.j
 WHERE num IS NULL
 UNION ALL SELECT '?2.0.' || p, 'x1', name FROM hand.c WHERE num IS NULL;
"""


DEMO = Job("demo: three tables into nested sets with keys", DEMO_TEXT, demo_source,
           demo_by_hand("SELECT * FROM hand.u", "dname, city", "?0.0.", "false"))
DEMO_CORE = Job("core: the same in core mode", DEMO_TEXT, demo_source,
                demo_by_hand("SELECT * FROM hand.e", "eid, name, dname, city", "?1.0.", "true"), core=True)
IDS = Job("ids: made up for two tables under one key", """mapping 1;
source { set a { id, x; } set b { id, y; } }
target { set t { id, z; key (id); } }
line a.id -> t.id;
line b.id -> t.id;
""", FUSION.make, f"""
CREATE UNLOGGED TABLE hand.r AS SELECT id, row_number() OVER (ORDER BY id{C}) - 1 AS k
 FROM (SELECT DISTINCT id FROM source.a) AS q;
CREATE UNLOGGED TABLE hand.s AS SELECT id, row_number() OVER (ORDER BY id{C}) - 1 AS l
 FROM (SELECT DISTINCT id FROM source.b) AS q;
ANALYZE hand.r; ANALYZE hand.s;
CREATE UNLOGGED TABLE hand.j AS SELECT id, k, l FROM hand.r FULL JOIN hand.s USING (id);
CREATE TABLE hand.t AS SELECT id, coalesce('?0.0.' || k, '?1.0.' || l) AS z FROM hand.j;
CREATE TABLE hand.fold AS SELECT '?1.0.' || l AS "null", '?0.0.' || k AS value FROM hand.j
 WHERE k IS NOT NULL AND l IS NOT NULL;
CREATE TABLE hand.nulls AS SELECT '?0.0.' || k AS "null", 'x0' AS variable, id AS value FROM hand.r
 UNION ALL SELECT '?1.0.' || l, 'x0', id FROM hand.j WHERE k IS NULL;
""")
JOBS = [COPY, FUSION, DEMO, DEMO_CORE, IDS]
