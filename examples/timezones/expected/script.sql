CREATE TABLE target."country" ("#id" TEXT, "code" TEXT, "label" TEXT);
CREATE TABLE target."clock" ("#up" TEXT, "zone" TEXT, "note" TEXT);
CREATE TABLE m0 AS SELECT DISTINCT a0."code" AS c0, a0."cname" AS c1 FROM source."land" AS a0;
CREATE TABLE m1 AS SELECT DISTINCT a0."land" AS c0, a0."zname" AS c1, a0."note" AS c2, a1."cname" AS c3 FROM source."zone" AS a0, source."land" AS a1 WHERE a0."land" = a1."code";
INSERT INTO target."country" SELECT SKOLEM(0, 0, m.place), m.c0, m.c1 FROM m0 AS m;
INSERT INTO target."clock" SELECT SKOLEM(1, 0, m.place), m.c1, m.c2 FROM m1 AS m;
INSERT INTO target."country" SELECT SKOLEM(1, 0, m.place), m.c0, m.c3 FROM m1 AS m;
