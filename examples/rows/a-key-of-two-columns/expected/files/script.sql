CREATE TABLE target."t" ("x" TEXT, "y" TEXT, "z" TEXT);
CREATE TABLE m0 AS SELECT DISTINCT a0."x" AS c0, a0."y" AS c1 FROM source."a" AS a0;
CREATE TABLE m1 AS SELECT DISTINCT a0."x" AS c0, a0."y" AS c1, a0."z" AS c2 FROM source."b" AS a0;
INSERT INTO target."t" SELECT m.c0, m.c1, SKOLEM(0, 0, m.place) FROM m0 AS m;
INSERT INTO target."t" SELECT m.c0, m.c1, m.c2 FROM m1 AS m;
