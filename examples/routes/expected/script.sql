CREATE TABLE target."stop" ("name" TEXT);
CREATE TABLE target."leg" ("start" TEXT, "goal" TEXT);
CREATE TABLE m0 AS SELECT DISTINCT a0."from" AS c0 FROM source."flight" AS a0;
INSERT INTO target."leg" SELECT m.c0, m.c0 FROM m0 AS m;
INSERT INTO target."stop" SELECT m.c0 FROM m0 AS m;
INSERT INTO target."stop" SELECT m.c0 FROM m0 AS m;
