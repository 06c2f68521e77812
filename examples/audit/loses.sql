-- An inner join: an order without a client isn't there.
CREATE TABLE client AS SELECT id AS cid, name FROM customer;
CREATE TABLE sale AS SELECT number, placed AS day, id AS client FROM orders JOIN customer ON buyer = id;
