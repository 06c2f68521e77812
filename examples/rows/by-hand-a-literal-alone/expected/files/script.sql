CREATE TABLE target."site" ("code" TEXT);
CREATE TABLE m0 AS SELECT DISTINCT 1 FROM source."emp" AS a0;
INSERT INTO target."site" SELECT 'main' FROM m0 AS m;
