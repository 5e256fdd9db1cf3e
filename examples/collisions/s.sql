-- How many keys there are, and how many remain under the new collation.
SELECT COUNT(DISTINCT name) AS today, COUNT(DISTINCT name COLLATE utf8mb4_general_ci) AS remain FROM customers;
-- Which become one: the groups of more than one key come first.
SELECT COUNT(*) AS keys, MIN(id) AS first, MIN(name) AS one, MAX(name) AS other FROM customers
  GROUP BY name COLLATE utf8mb4_general_ci ORDER BY keys DESC, first;
-- The rows of one of them.
SELECT id, name FROM customers WHERE name = 'Muller' COLLATE utf8mb4_general_ci;
-- One row for each name, as the first of its rows writes it.
SELECT DISTINCT name COLLATE utf8mb4_general_ci AS name FROM customers ORDER BY name LIMIT 3;
