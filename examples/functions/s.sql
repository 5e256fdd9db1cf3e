-- Joining: NULL makes CONCAT NULL; CONCAT_WS leaves it out behind the separator.
SELECT CONCAT('a', 1, 'ñ') a, CONCAT('a', NULL) b, CONCAT_WS(', ', 'x', NULL, 'y') c, CONCAT_WS(NULL, 'x') d;
-- Counting: characters, bytes, and the digits of bytes and of numbers.
SELECT CHAR_LENGTH('añb') a, LENGTH('añb') b, HEX('ß') c, HEX(255) d, HEX(-1) e;
-- Parts: characters count from 1, or from the end.
SELECT SUBSTRING('añbc', 2) a, SUBSTRING('abcd', -3, 2) b, SUBSTRING('abcd' FROM 2 FOR 2) c, SUBSTRING('abcd', 0) d;
SELECT LEFT('añb', 2) a, RIGHT('añb', 2) b, LEFT('añb', -1) c;
-- Sides: spaces, or whole copies of a text, the leading ones first.
SELECT TRIM('  x ') a, TRIM(BOTH 'aba' FROM 'abababa') b, TRIM(LEADING 'xy' FROM 'xyxyx') c, TRIM(TRAILING 'x' FROM 'xaxx') d;
SELECT LPAD('abc', 6, 'xy') a, RPAD('7', 3, 'xy') b, LPAD('abc', 2, 'x') c, LPAD('abc', 4, '') d, RPAD('abc', -1, 'x') e;
-- Copies, backwards, replaced.
SELECT REPEAT('ab', 2) a, REPEAT('ab', 0) b, REVERSE('añ') c, REPLACE('aaaab', 'aa', 'x') d, REPLACE('aXbx', 'x', '-') e;
-- Compared, and the remainder.
SELECT STRCMP('a', 'b') a, STRCMP('b', 'a') b, STRCMP('a', 'a  ') c, MOD(-7, 3) d, MOD(7, 0) e;
-- No value is longer than 1,048,576 bytes.
SELECT LENGTH(REPEAT('a', 1048576)) a, LENGTH(REPEAT('a', 1048577)) b, LENGTH(HEX(REPEAT('a', 524289))) c;
-- The texts of a call come into one set, and characters are never cut.
SELECT HEX(CONCAT(_utf16 X'0061', _utf16 X'044F', 'a')) a, HEX(REVERSE(_utf16 X'0061D83DDE00')) b, HEX(REPLACE(_utf16 X'61006200', _utf16 X'0062', 'x')) c;
