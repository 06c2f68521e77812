CREATE TABLE target."customer" ("cid" TEXT, "cname" TEXT);
CREATE TABLE target."orders" ("oid" TEXT, "cid" TEXT);
CREATE TABLE m0 AS SELECT DISTINCT a0."id" AS c0, a0."buyer" AS c1 FROM source."sale" AS a0;
INSERT INTO target."orders" SELECT m.c0, SKOLEM(0, 0, m.place) FROM m0 AS m;
INSERT INTO target."customer" SELECT SKOLEM(0, 0, m.place), m.c1 FROM m0 AS m;
