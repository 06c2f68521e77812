CREATE TABLE target."person" ("name" TEXT, "phone" TEXT);
CREATE TABLE m0 AS SELECT DISTINCT a0."name" AS c0 FROM source."emp" AS a0;
INSERT INTO target."person" SELECT m.c0, SKOLEM(0, 0, m.place) FROM m0 AS m;
