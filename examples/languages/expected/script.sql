CREATE TABLE target."tongue" ("family" TEXT, "label" TEXT, "code" TEXT);
CREATE TABLE m0 AS SELECT DISTINCT a0."code" AS c0, a0."name" AS c1 FROM source."language" AS a0;
INSERT INTO target."tongue" SELECT SKOLEM(0, 0, m.place), m.c1, m.c0 FROM m0 AS m;
