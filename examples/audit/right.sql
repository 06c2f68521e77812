-- Each order, with its client, or with one who is not known: a client of its own.
CREATE TABLE client AS SELECT id AS cid, name FROM customer
  UNION ALL SELECT 'order ' || number, NULL FROM orders WHERE buyer NOT IN (SELECT id FROM customer);
CREATE TABLE sale AS SELECT number, placed AS day, coalesce(id, 'order ' || number) AS client FROM orders LEFT JOIN customer ON buyer = id;
