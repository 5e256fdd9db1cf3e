-- Sharp s is equal to two s, so the first four characters of equal names differ: none is lost.
SELECT id, name FROM customers WHERE name = 'Weiß';
-- The index that finds them, by two lists of weights for four characters; six of nine rows are read.
EXPLAIN SELECT id, name FROM customers WHERE name = 'Weiß';
-- The same rows without it.
SELECT id, name FROM customers WHERE CONCAT(name) = 'Weiß';
EXPLAIN SELECT id, name FROM customers WHERE CONCAT(name) = 'Weiß';
-- A name that begins so, character by character.
SELECT id, name FROM customers WHERE name LIKE 'Weiß%';
EXPLAIN SELECT id, name FROM customers WHERE name LIKE 'Weiß%';
-- Of two conditions the second one has an index.
EXPLAIN SELECT name FROM customers WHERE id < 5 AND name BETWEEN 'M' AND 'Wei';
