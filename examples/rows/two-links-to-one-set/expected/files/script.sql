CREATE TABLE target."visit" ("a" TEXT, "b" TEXT);
CREATE TABLE m0 AS SELECT DISTINCT a1."label" AS c0, a2."label" AS c1 FROM source."trip" AS a0, source."city" AS a1, source."city" AS a2 WHERE a0."start" = a1."code" AND a0."goal" = a2."code";
CREATE TABLE m1 AS SELECT DISTINCT a1."label" AS c0, a2."label" AS c1 FROM source."trip" AS a0, source."city" AS a1, source."city" AS a2 WHERE a0."start" = a1."code" AND a0."goal" = a2."code";
CREATE TABLE m2 AS SELECT DISTINCT a0."label" AS c0 FROM source."city" AS a0;
INSERT INTO target."visit" SELECT m.c0, m.c1 FROM m0 AS m;
INSERT INTO target."visit" SELECT m.c1, m.c0 FROM m1 AS m;
INSERT INTO target."visit" SELECT m.c0, m.c0 FROM m2 AS m;
