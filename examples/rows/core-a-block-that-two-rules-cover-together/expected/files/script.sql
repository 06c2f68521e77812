CREATE TABLE target."p" ("x" TEXT, "y" TEXT);
CREATE TABLE target."q" ("y" TEXT);
CREATE TABLE m0 AS SELECT DISTINCT a0."x" AS c0 FROM source."a" AS a0;
CREATE TABLE m1 AS SELECT DISTINCT a0."x" AS c0, a0."y" AS c1 FROM source."b" AS a0;
CREATE TABLE m2 AS SELECT DISTINCT a0."y" AS c0 FROM source."c" AS a0;
INSERT INTO target."p" SELECT m.c0, SKOLEM(0, 0, m.place) FROM m0 AS m;
INSERT INTO target."q" SELECT SKOLEM(0, 0, m.place) FROM m0 AS m;
INSERT INTO target."p" SELECT m.c0, m.c1 FROM m1 AS m;
INSERT INTO target."q" SELECT m.c0 FROM m2 AS m;
