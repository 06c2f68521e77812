CREATE TABLE target."seen" ("who" TEXT, "years" TEXT, "club" TEXT);
CREATE TABLE m0 AS SELECT DISTINCT a0."cname" AS c0 FROM source."club" AS a0;
CREATE TABLE m1 AS SELECT DISTINCT a0."mname" AS c0, a0."age" AS c1, a1."cname" AS c2 FROM source."member" AS a0, source."club" AS a1 WHERE a0."#up" = a1."#id";
INSERT INTO target."seen" SELECT SKOLEM(0, 0, m.place), SKOLEM(0, 1, m.place), m.c0 FROM m0 AS m;
INSERT INTO target."seen" SELECT m.c0, m.c1, m.c2 FROM m1 AS m;
