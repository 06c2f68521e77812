-- An outer join with a name for those who are not known: it says that they are all called so, and one person.
CREATE TABLE client AS SELECT id AS cid, name FROM customer UNION ALL SELECT '0', 'walk-in';
CREATE TABLE sale AS SELECT number, placed AS day, coalesce(id, '0') AS client FROM orders LEFT JOIN customer ON buyer = id;
