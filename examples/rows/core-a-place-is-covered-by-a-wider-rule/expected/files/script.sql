CREATE TABLE target."person" ("name" TEXT, "num" TEXT);
CREATE TABLE m0 AS SELECT DISTINCT a0."name" AS c0 FROM source."emp" AS a0;
CREATE TABLE m1 AS SELECT DISTINCT a0."name" AS c0, a0."num" AS c1 FROM source."phone" AS a0;
CREATE TABLE k0 AS SELECT * FROM m0 AS m WHERE NOT EXISTS (SELECT * FROM m1 AS n WHERE n.c0 = m.c0);
INSERT INTO target."person" SELECT m.c0, SKOLEM(0, 0, m.place) FROM k0 AS m;
INSERT INTO target."person" SELECT m.c0, m.c1 FROM m1 AS m;
