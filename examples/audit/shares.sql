-- One row for all clients who are not known. Their name is left open, but they are one client.
CREATE TABLE client AS SELECT id AS cid, name FROM customer UNION ALL SELECT '0', NULL;
CREATE TABLE sale AS SELECT number, placed AS day, coalesce(id, '0') AS client FROM orders LEFT JOIN customer ON buyer = id;
