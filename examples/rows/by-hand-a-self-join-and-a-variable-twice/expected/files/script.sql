CREATE TABLE target."p" ("u" TEXT, "v" TEXT);
CREATE TABLE target."q" ("u" TEXT);
CREATE TABLE m0 AS SELECT DISTINCT a0."x" AS c0, a1."y" AS c1 FROM source."e" AS a0, source."e" AS a1 WHERE a0."y" = a1."x";
CREATE TABLE m1 AS SELECT DISTINCT a0."x" AS c0 FROM source."e" AS a0 WHERE a0."x" = a0."y";
INSERT INTO target."p" SELECT m.c0, m.c1 FROM m0 AS m;
INSERT INTO target."q" SELECT m.c0 FROM m1 AS m;
