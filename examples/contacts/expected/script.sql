CREATE TABLE target."card" ("name" TEXT, "number" TEXT, "kind" TEXT);
CREATE TABLE m0 AS SELECT DISTINCT "pair"(a0."first", a0."last") AS c0, "digits"(a0."tel") AS c1 FROM source."contact" AS a0;
INSERT INTO target."card" SELECT m.c0, m.c1, 'private' FROM m0 AS m;
