CREATE TABLE target."p" ("x" TEXT);
CREATE TABLE target."q" ("y" TEXT);
CREATE TABLE target."r" ("x" TEXT);
CREATE TABLE m0 AS SELECT DISTINCT a0."x" AS c0 FROM source."a" AS a0;
CREATE TABLE m1 AS SELECT DISTINCT a0."y" AS c0 FROM source."a" AS a0;
CREATE TABLE m2 AS SELECT DISTINCT a0."x" AS c0 FROM source."a" AS a0 WHERE a0."x" = a0."y";
INSERT INTO target."p" SELECT m.c0 FROM m0 AS m;
INSERT INTO target."q" SELECT m.c0 FROM m1 AS m;
INSERT INTO target."r" SELECT m.c0 FROM m2 AS m;
