CREATE TABLE target."b" ("#id" TEXT, "y" TEXT);
CREATE TABLE target."c" ("#up" TEXT, "z" TEXT);
CREATE TABLE m0 AS SELECT DISTINCT a0."x" AS c0 FROM source."a" AS a0;
INSERT INTO target."b" SELECT SKOLEM(0, 0, m.place), m.c0 FROM m0 AS m;
