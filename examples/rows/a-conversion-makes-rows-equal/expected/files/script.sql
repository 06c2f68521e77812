CREATE TABLE target."person" ("name" TEXT);
CREATE TABLE m0 AS SELECT DISTINCT "trim"(a0."name") AS c0 FROM source."emp" AS a0;
INSERT INTO target."person" SELECT m.c0 FROM m0 AS m;
