CREATE TABLE target."club" ("#id" TEXT, "cname" TEXT);
CREATE TABLE target."member" ("#up" TEXT, "mname" TEXT, "age" TEXT);
CREATE TABLE m0 AS SELECT DISTINCT a0."club" AS c0, a0."who" AS c1, a0."age" AS c2 FROM source."m" AS a0;
INSERT INTO target."member" SELECT SKOLEM(0, 0, m.place), m.c1, m.c2 FROM m0 AS m;
INSERT INTO target."club" SELECT SKOLEM(0, 0, m.place), m.c0 FROM m0 AS m;
