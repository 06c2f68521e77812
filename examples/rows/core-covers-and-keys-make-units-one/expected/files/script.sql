CREATE TABLE target."unit" ("#id" TEXT, "uname" TEXT);
CREATE TABLE target."staff" ("#up" TEXT, "sname" TEXT);
CREATE TABLE m0 AS SELECT DISTINCT a0."name" AS c0, a0."dept" AS c1 FROM source."emp" AS a0, source."dept" AS a1 WHERE a0."dept" = a1."dname";
CREATE TABLE m1 AS SELECT DISTINCT a0."dname" AS c0 FROM source."dept" AS a0;
CREATE TABLE k1 AS SELECT * FROM m1 AS m WHERE NOT EXISTS (SELECT * FROM m0 AS n WHERE n.c1 = m.c0);
INSERT INTO target."staff" SELECT SKOLEM(0, 0, m.place), m.c0 FROM m0 AS m;
INSERT INTO target."unit" SELECT SKOLEM(0, 0, m.place), m.c1 FROM m0 AS m;
INSERT INTO target."unit" SELECT SKOLEM(1, 0, m.place), m.c0 FROM k1 AS m;
