CREATE TABLE target."state" ("code" TEXT, "label" TEXT);
CREATE TABLE target."region" ("code" TEXT, "label" TEXT, "kind" TEXT, "state" TEXT);
CREATE TABLE m0 AS SELECT DISTINCT a0."alpha2" AS c0, a0."cname" AS c1 FROM source."country" AS a0;
CREATE TABLE m1 AS SELECT DISTINCT a0."scode" AS c0, a0."sname" AS c1, a0."kind" AS c2, a1."alpha2" AS c3, a1."cname" AS c4 FROM source."subdivision" AS a0, source."country" AS a1 WHERE a0."#up" = a1."#id";
INSERT INTO target."state" SELECT m.c0, m.c1 FROM m0 AS m;
INSERT INTO target."region" SELECT m.c0, m.c1, m.c2, m.c3 FROM m1 AS m;
INSERT INTO target."state" SELECT m.c3, m.c4 FROM m1 AS m;
