-- The connection's collation decides where none is named.
SELECT 'Müller' = 'MUELLER';
SELECT 'Strasse' = 'straße';
SELECT _latin1 X'E4' COLLATE latin1_german2_ci = _latin1'ae';
SELECT _latin1 X'E4' COLLATE latin1_swedish_ci = _latin1'ae';
SELECT _latin1 X'E4' = _latin1'ae' COLLATE latin1_german2_ci;
-- The bytes of the script's characters in latin1, the connection's set, and in others.
SELECT HEX('é€');
SELECT HEX(CONVERT('é€' USING utf16));
SELECT HEX(CONVERT(X'FF' USING utf8mb4));
-- Refused: a collation of another set, one that isn't there, and bytes that are no text.
SELECT N'a' COLLATE latin1_german2_ci = N'a';
SELECT 'a' COLLATE latin1_french_ci = 'a';
SELECT HEX(_utf8mb4 X'FF');
