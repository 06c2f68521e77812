CREATE TABLE target."b" ("p" TEXT, "q" TEXT, "r" TEXT);
CREATE TABLE m0 AS SELECT DISTINCT a0."y" AS c0 FROM source."a" AS a0;
INSERT INTO target."b" SELECT SKOLEM(0, 0, m.place), m.c0, SKOLEM(0, 1, m.place) FROM m0 AS m;
