CREATE TABLE target."t" ("x" TEXT, "y" TEXT, "z" TEXT);
CREATE TABLE m0 AS SELECT DISTINCT a0."x" AS c0 FROM source."a" AS a0;
CREATE TABLE m1 AS SELECT DISTINCT a0."x" AS c0, a0."y" AS c1 FROM source."b" AS a0;
CREATE TABLE m2 AS SELECT DISTINCT a0."y" AS c0, a0."z" AS c1 FROM source."c" AS a0;
INSERT INTO target."t" SELECT m.c0, SKOLEM(0, 0, m.place), SKOLEM(0, 1, m.place) FROM m0 AS m;
INSERT INTO target."t" SELECT m.c0, m.c1, SKOLEM(1, 0, m.place) FROM m1 AS m;
INSERT INTO target."t" SELECT SKOLEM(2, 0, m.place), m.c0, m.c1 FROM m2 AS m;
