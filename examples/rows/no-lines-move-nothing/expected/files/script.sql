CREATE TABLE target."b" ("y" TEXT);
