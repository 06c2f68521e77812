CREATE TABLE target."person" ("name" TEXT, "town" TEXT);
CREATE TABLE m0 AS SELECT DISTINCT a0."name" AS c0, a1."city" AS c1 FROM source."emp" AS a0, source."dept" AS a1 WHERE a0."dept" = a1."dname";
CREATE TABLE m1 AS SELECT DISTINCT a0."city" AS c0 FROM source."dept" AS a0;
INSERT INTO target."person" SELECT m.c0, m.c1 FROM m0 AS m;
INSERT INTO target."person" SELECT SKOLEM(1, 0, m.place), m.c0 FROM m1 AS m;
