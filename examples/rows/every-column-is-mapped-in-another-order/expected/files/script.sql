CREATE TABLE target."b" ("u" TEXT, "v" TEXT);
CREATE TABLE m0 AS SELECT DISTINCT a0."x" AS c0, a0."y" AS c1 FROM source."a" AS a0;
INSERT INTO target."b" SELECT m.c1, m.c0 FROM m0 AS m;
