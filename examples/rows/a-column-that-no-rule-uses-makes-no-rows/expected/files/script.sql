CREATE TABLE target."t" ("k" TEXT, "z" TEXT);
CREATE TABLE m0 AS SELECT DISTINCT a0."k" AS c0 FROM source."src" AS a0;
INSERT INTO target."t" SELECT m.c0, SKOLEM(0, 0, m.place) FROM m0 AS m;
