"""clio-script-to-postgres: what it turns, and what it refuses. What PostgreSQL makes of it is tried by dev/check."""
import unittest

from trial import Trial

MAPPING = """mapping 1;
source { set a { x, y; } set b { x; } }
target { set t { x, k, z; } }
rule a(x, y) where d = digits(y) -> t(x, d, "it's");
rule b(x) -> t(x, k, "?");
"""


class Script(Trial):
    def test_steps(self) -> None:
        self.file("mapping.clio", MAPPING)
        script = "".join(line for line in self.clio("show")[1].splitlines(True) if not line.startswith("rule "))
        sql = self.printed("clio-script-to-postgres", text=script)
        self.assertIn('row_number() OVER (ORDER BY c0 COLLATE "C", c1 COLLATE "C") - 1 AS place', sql)
        self.assertIn("INSERT INTO target.\"t\" SELECT DISTINCT written(m.c0), written(m.c1), written('it''s') FROM m0 "
                      "AS m;", sql)
        self.assertIn("INSERT INTO target.\"t\" (SELECT written(m.c0), SKOLEM(1, 0, m.place), written('?') FROM m1 AS "
                      "m EXCEPT SELECT * FROM target.\"t\");", sql)

    def test_refusals(self) -> None:
        long = "n" * 64
        cut = f'CREATE TABLE target."{long}" ("x" TEXT);'
        match = 'CREATE TABLE m0 AS SELECT DISTINCT %s(a0."x") AS c0 FROM source."a" AS a0;'
        for script, why in [("DROP TABLE x;", "no step of a script"), (cut, "after 63 letters"),
                            (match % '"upper"', 'knows no conversion "upper"'), (match % "upper", "conversion upper"),
                            (match % "pg_read_file ", "conversion pg_read_file"),
                            ("rule a(x0) -> t(x0);", "no step"),
                            ('CREATE TABLE m0 AS SELECT DISTINCT a0."x" AS c0 FROM source."a" AS a0; '
                             "COPY x FROM PROGRAM 'id'; --;", "no step")]:
            self.refused("clio-script-to-postgres", text=script + "\n", why=why)
        self.refused("clio-script-to-postgres", "script.sql", why="usage")


if __name__ == "__main__":
    unittest.main()
