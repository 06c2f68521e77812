CREATE TABLE target."person" ("name" TEXT, "num" TEXT);
CREATE TABLE m0 AS SELECT DISTINCT a0."name" AS c0 FROM source."emp" AS a0;
CREATE TABLE m1 AS SELECT DISTINCT a0."name" AS c0, a0."num" AS c1 FROM source."phone" AS a0;
INSERT INTO target."person" SELECT m.c0, SKOLEM(0, 0, m.place) FROM m0 AS m;
INSERT INTO target."person" SELECT m.c0, m.c1 FROM m1 AS m;
