CREATE TABLE target."b" ("y" TEXT);
CREATE TABLE m0 AS SELECT DISTINCT a0."x" AS c0 FROM source."a" AS a0;
INSERT INTO target."b" SELECT m.c0 FROM m0 AS m;
