-- The bytes of each kind of string.
SELECT HEX('a');
SELECT HEX(N'a');
SELECT HEX(X'4A');
SELECT HEX(0xABC);
SELECT HEX(_latin1'a');
SELECT HEX(_latin1 X'E4');
SELECT HEX(_utf8'a');
SELECT HEX(_ucs2 X'41');
SELECT HEX(CONVERT('é€' USING latin1));
SELECT HEX(CONVERT('😀' USING ucs2));
SELECT HEX(CONVERT('😀' USING utf16));
SELECT HEX(CONVERT(X'FF' USING utf8mb4));
-- Refused: no text of the set, and no set of the name.
SELECT HEX(_utf8mb4 X'FF');
SELECT HEX(CONVERT('a' USING foo));
