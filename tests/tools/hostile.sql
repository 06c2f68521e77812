-- Tables of PostgreSQL with hostile names, texts and links, for dev/check.
CREATE SCHEMA shop;
CREATE SCHEMA elsewhere;
SET search_path = shop;
CREATE TABLE "order items" (id int PRIMARY KEY, "unit price" numeric(8,2), "größe" text, "größe!" text, "a
b" text, "x""; // {" text, "tab	e" timestamptz, flag boolean, doc jsonb, pic bytea);
CREATE TABLE person (pid int GENERATED ALWAYS AS IDENTITY PRIMARY KEY, mail text UNIQUE, boss int REFERENCES person);
CREATE TABLE a (id int PRIMARY KEY, b int);
CREATE TABLE b (id int PRIMARY KEY, a int REFERENCES a);
ALTER TABLE a ADD FOREIGN KEY (b) REFERENCES b;
CREATE TABLE mail (sender int NOT NULL REFERENCES person, receiver int REFERENCES person, x text, y text, UNIQUE (y, x) INCLUDE (sender));
CREATE UNIQUE INDEX ON mail (x) WHERE y > '';
CREATE UNIQUE INDEX ON mail (lower(x));
CREATE TABLE far (x text, y text, z int, FOREIGN KEY (y, x) REFERENCES mail (y, x));
CREATE TABLE part (k int PRIMARY KEY, v text) PARTITION BY RANGE (k);
CREATE TABLE part1 PARTITION OF part FOR VALUES FROM (0) TO (10);
CREATE TABLE ofpart (k int REFERENCES part);
CREATE TABLE elsewhere.other (k int PRIMARY KEY);
CREATE TABLE away (k int REFERENCES elsewhere.other);
CREATE TABLE none ();
CREATE VIEW v AS SELECT 1;
INSERT INTO "order items" VALUES (1, 0.10, E'\\.', '', E'a\tb\nc\\N', E'\\', '2026-01-01 10:00+02', true, '{"a": [1, "x\n"]}', '\xff'), (2, NULL, NULL, E'x\r\ny', E'\\N', '"', NULL, NULL, NULL, NULL);
INSERT INTO person (mail, boss) VALUES ('x', NULL), (NULL, 1);
INSERT INTO part VALUES (1, 'p');
