-- Who is called Müller, however it is written here?
SELECT id, name FROM people WHERE name = 'müller';
-- The last two of those that begin with mu.
SELECT id, name FROM people WHERE name LIKE 'mu%' ORDER BY name DESC, id LIMIT 2;
-- One name in two spellings.
SELECT id, name = 'ПЕТР' AS same FROM people WHERE id BETWEEN 11 AND 16;
SELECT HEX(name) AS bytes, CHAR_LENGTH(name) AS characters FROM people WHERE id IN (13, 14);
-- A final sigma is a sigma.
SELECT name FROM people WHERE name LIKE 'ΑΛΕΞΗΣ';
-- From alef on, in the order of the alphabet.
SELECT name FROM people WHERE name >= 'א' ORDER BY name LIMIT 4;
-- A missing name comes first.
SELECT CONCAT_WS('. ', id, name) AS line FROM people ORDER BY name, id LIMIT 3;
SELECT id, name FROM people WHERE name IS NULL;
-- What a list in latin1 would lose.
SELECT name, CONVERT(name USING latin1) AS in_latin1 FROM people WHERE id IN (1, 7, 26);
-- Every letter as it stands.
SELECT name FROM people WHERE name = 'Müller' COLLATE utf8mb4_bin;
