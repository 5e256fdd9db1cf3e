-- One level: letters alone decide, and sharp s has two of them.
SELECT 'Straße' = 'STRASSE';
SELECT 'Café' = 'cafe';
-- Two levels see the accent too, three levels the case.
SELECT 'é' COLLATE utf8mb4_0900_as_ci = 'e';
SELECT 'Ä' COLLATE utf8mb4_0900_as_ci = 'ä';
SELECT 'Ä' COLLATE utf8mb4_0900_as_cs = 'ä';
-- A letter and its combining accent are the letter with the accent.
SELECT _utf8mb4 X'61CC88' COLLATE utf8mb4_0900_as_cs = 'ä';
-- ch is a letter of its own, and only where h follows c directly; between other letters a soft
-- hyphen is passed over.
SELECT 'CH' = 'ch';
SELECT 'Ch' = 'ch';
SELECT _utf8mb4 X'63C2AD68' COLLATE utf8mb4_0900_ai_ci = 'ch';
SELECT _utf8mb4 X'63C2AD7A' COLLATE utf8mb4_0900_ai_ci = 'cz';
-- Version 4.0.0 prolongs texts by spaces, version 9.0.0 doesn't.
SELECT 'a' COLLATE utf8mb4_unicode_ci = 'a  ';
SELECT 'a' = 'a  ';
-- Characters that the table doesn't list: a Hangul syllable is its letters from 9.0.0 on, and all
-- characters above U+FFFF are one until then.
SELECT _utf8mb4 X'EAB080' COLLATE utf8mb4_0900_ai_ci = _utf8mb4 X'E18480E185A1';
SELECT _utf8mb4 X'EAB080' COLLATE utf8mb4_unicode_ci = _utf8mb4 X'E18480E185A1';
SELECT _utf8mb4 X'F09F9880' COLLATE utf8mb4_0900_ai_ci = _utf8mb4 X'F09F9881';
SELECT _utf8mb4 X'F09F9880' COLLATE utf8mb4_unicode_ci = _utf8mb4 X'F09F9881';
