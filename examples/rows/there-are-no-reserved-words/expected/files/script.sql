CREATE TABLE target."line" ("source" TEXT, "rule" TEXT);
CREATE TABLE m0 AS SELECT DISTINCT a0."ref" AS c0 FROM source."set" AS a0;
INSERT INTO target."line" SELECT SKOLEM(0, 0, m.place), m.c0 FROM m0 AS m;
