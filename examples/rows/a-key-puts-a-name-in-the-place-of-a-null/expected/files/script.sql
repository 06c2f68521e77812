CREATE TABLE target."person" ("id" TEXT, "name" TEXT);
CREATE TABLE m0 AS SELECT DISTINCT a0."id" AS c0 FROM source."a" AS a0;
CREATE TABLE m1 AS SELECT DISTINCT a0."id" AS c0, a0."name" AS c1 FROM source."b" AS a0;
INSERT INTO target."person" SELECT m.c0, SKOLEM(0, 0, m.place) FROM m0 AS m;
INSERT INTO target."person" SELECT m.c0, m.c1 FROM m1 AS m;
