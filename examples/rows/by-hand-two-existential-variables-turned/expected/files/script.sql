CREATE TABLE target."n" ("x" TEXT);
CREATE TABLE target."e" ("u" TEXT, "v" TEXT);
CREATE TABLE m0 AS SELECT DISTINCT a0."x" AS c0 FROM source."a" AS a0;
INSERT INTO target."n" SELECT m.c0 FROM m0 AS m;
INSERT INTO target."e" SELECT SKOLEM(0, 0, m.place), SKOLEM(0, 1, m.place) FROM m0 AS m;
INSERT INTO target."e" SELECT SKOLEM(0, 1, m.place), SKOLEM(0, 0, m.place) FROM m0 AS m;
