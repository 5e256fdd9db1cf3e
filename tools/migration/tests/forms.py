"""The forms of dumps: what both programs write, cut dumps, dumps in another order."""

import io
from unittest import mock

from migration import tokens
from migration.tests.room import InRoom, table
from migration.tokens import Cut, Tokens, unescaped

MYSQL = r"""-- MySQL dump 10.13  Distrib 8.0.36, for Linux (x86_64)
--
-- Host: localhost    Database: shop
-- ------------------------------------------------------
-- Server version	8.0.36

/*!40101 SET @OLD_CHARACTER_SET_CLIENT=@@CHARACTER_SET_CLIENT */;
/*!50503 SET NAMES utf8mb4 */;
/*!40111 SET @OLD_SQL_NOTES=@@SQL_NOTES, SQL_NOTES=0 */;

DROP TABLE IF EXISTS `it's ``odd```;
/*!40101 SET @saved_cs_client     = @@character_set_client */;
CREATE TABLE `it's ``odd``` (
  `id` int unsigned NOT NULL AUTO_INCREMENT COMMENT 'a, (b',
  `na'me` varchar(20) CHARACTER SET latin1 COLLATE latin1_bin NOT NULL DEFAULT 'x',
  `note` text COLLATE utf8mb4_unicode_ci,
  `hash` varbinary(8) DEFAULT NULL,
  `bits` bit(3) DEFAULT b'101',
  `place` vector(3) DEFAULT NULL,
  `both` varchar(9) GENERATED ALWAYS AS (concat(`na'me`,_utf8mb4',')) VIRTUAL,
  PRIMARY KEY (`id`),
  UNIQUE KEY `two` (`na'me`,`hash`) /*!80000 INVISIBLE */
) ENGINE=InnoDB AUTO_INCREMENT=4 DEFAULT CHARSET=utf8mb4 COLLATE=utf8mb4_bin COMMENT='a;\'b';
LOCK TABLES `it's ``odd``` WRITE;
/*!40000 ALTER TABLE `it's ``odd``` DISABLE KEYS */;
INSERT INTO `it's ``odd``` (`id`, `na'me`, `note`, `hash`, `bits`, `place`) VALUES
(1,'Ab','a,\0\b\n\r\t\Z\'\"\\\%\_\q''b',_binary 'a\0\'b',_binary '\0',NULL),
(2,'aB',NULL,0x61002762,0x01,0x00000000),(3,'aB','--',NULL,b'1',ST_F('a)',(1)));
/*!40000 ALTER TABLE `it's ``odd``` ENABLE KEYS */;
UNLOCK TABLES;
/*!50003 SET sql_mode              = 'NO_AUTO_VALUE_ON_ZERO' */ ;
DELIMITER ;;
/*!50003 CREATE*/ /*!50017 DEFINER=`root`@`localhost`*/ /*!50003 TRIGGER `tr` BEFORE INSERT ON `a`
FOR EACH ROW BEGIN SET @x = 1; INSERT INTO `it's ``odd``` VALUES (1); END */;;
DELIMITER ;
/*!50001 CREATE VIEW `v` AS SELECT 
 1 AS `id`*/;
/*!50001 DROP VIEW IF EXISTS `v`*/;
/*!50001 CREATE ALGORITHM=UNDEFINED */
/*!50013 DEFINER=`root`@`localhost` SQL SECURITY DEFINER */
/*!50001 VIEW `v` AS select `id` from `t` */;

-- Dump completed on 2024-02-29 12:00:00
"""

MYSQL_REPORT = r"""
table it's `odd`: 3 rows
  unique key two (na'me, hash): breaks, 2 rows become 1
    before, latin1_bin: asked of mycoll, no two rows are equal
    first key 1: ('Ab', 0x61002762), ('aB', 0x61002762)
  column na'me: 2 values merge into 1
    before, latin1_bin: asked of mycoll
    merge: 'Ab' = 'aB'
    lookups by =: of 2 texts 2 find more rows, 0 fewer
  column note: nothing changes, 2 values
    before, utf8mb4_unicode_ci: no weights given, so a value is what has the same bytes
  unique key two (na'me, hash): = 'Ab' reads 3 of 3 rows, 1 interval
  not checked: column place: vector is a type that is not known here
  not checked: column both: it is generated, and the dump has no values of it
  left out: bits (bit)

left out: trigger tr, view v

not all of before was asked of mycoll: give --weights utf8mb4_unicode_ci=FILE

summary: tables=1 keys=1 keys_broken=1 columns=2 columns_changed=1 not_checked=2 status=2
"""

MARIADB = r"""/*M!999999\- enable the sandbox mode */ 
-- MariaDB dump 10.19  Distrib 10.11.8-MariaDB, for debian-linux-gnu (x86_64)
--
-- Server version	10.11.8-MariaDB-0+deb12u1

/*!40101 SET NAMES utf8mb4 */;
/*!40101 SET @saved_cs_client     = @@character_set_client */;
/*!40101 SET character_set_client = utf8 */;
CREATE TABLE `people` (
  `name` char(5) NOT NULL,
  `town` varchar(20) CHARACTER SET utf8mb4 DEFAULT NULL,
  `code` varchar(4) CHARACTER SET latin1 COLLATE latin1_swedish_ci NOT NULL,
  `more` longtext CHARACTER SET utf8mb4 COLLATE utf8mb4_bin DEFAULT NULL CHECK (json_valid(`more`)),
  `photo` mediumblob DEFAULT NULL,
  `loud` varchar(9) GENERATED ALWAYS AS (concat(`name`,'!')) VIRTUAL,
  PRIMARY KEY (`name`),
  UNIQUE KEY `code` (`code`(2)),
  KEY `town` (`town`(3)) USING BTREE,
  FULLTEXT KEY `words` (`town`),
  CONSTRAINT `own` FOREIGN KEY (`code`) REFERENCES `codes` (`code`)
) ENGINE=InnoDB DEFAULT CHARSET=utf8mb4 COLLATE=utf8mb4_bin
 PARTITION BY KEY (`name`)
PARTITIONS 2;
INSERT INTO `people` VALUES
('Ann','Ulm','aaxx','{}','\0ÿ\'','Ann!'),
('Bob','ULM ','abxx',NULL,NULL,'Bob!'),
('ann','Uelm','abcd','{"a": "\\n"}','','ann!');
/*!40101 SET character_set_client = @saved_cs_client */;
-- Dump completed on 2024-02-29 12:00:00
"""

MARIADB_REPORT = r"""
table people: 3 rows
  primary key (name): breaks, 2 rows become 1
    before, utf8mb4_bin: asked of mycoll, no two rows are equal
    first key 'Ann': 'Ann', 'ann'
  unique key code (code(2)): breaks, 2 rows become 1
    before, latin1_swedish_ci: the key holds, since the dump was made with it
    first key 'Bob': 'abxx', 'abcd'
  column town: nothing changes, 2 values
    before, utf8mb4_general_ci: asked of mycoll
  column code: nothing changes, 3 values
    before, latin1_swedish_ci: no weights given, so a value is what has the same bytes
  column more: nothing changes, 2 values
    before, utf8mb4_bin: asked of mycoll
  column loud: 2 values merge into 1
    before, utf8mb4_bin: asked of mycoll
    merge: 'Ann!' = 'ann!'
    lookups by =: of 3 texts 2 find more rows, 0 fewer
  primary key (name): = 'Ann' reads 2 of 3 rows, 1 interval
  unique key code (code(2)): = 'aaxx' reads 1 of 3 rows, 1 interval
  index town (town(3)): = 'Ulm' reads 2 of 3 rows, 1 interval
  not checked: fulltext key words (town): mycoll has no full text search
  not checked: foreign key own (code): it stands on two tables
  left out: photo (mediumblob), check more

not all of before was asked of mycoll: give --weights latin1_swedish_ci=FILE

summary: tables=1 keys=2 keys_broken=2 columns=4 columns_changed=1 not_checked=2 status=2
"""


class Forms(InRoom):
    """What the dump programs write."""

    def test_what_mysqldump_writes(self) -> None:
        self.expect(self.check(MYSQL, "--keep", "kept"), MYSQL_REPORT, 2)
        kept = self.room / "kept"
        rows = (
            '1,"Ab",1,61002762,"a,\0\b\n\r\t\x1a\'""\\\\%\\_q\'b",\\N\n'
            '2,"aB",2,61002762,\\N,\\N\n3,"aB",3,\\N,"--",\\N\n'
        )
        self.assertEqual((kept / "t1.csv").read_bytes().decode(), rows)

    def test_what_mariadb_dump_writes(self) -> None:
        self.expect(self.check(MARIADB), MARIADB_REPORT, 2)

    def test_a_dump_in_another_order(self) -> None:
        dump = """
INSERT INTO `late` VALUES (1,'a');
CREATE TABLE `t` (`name` varchar(9) NOT NULL, `id` bigint NOT NULL) DEFAULT CHARSET=utf8mb4
  COLLATE utf8mb4_bin;
INSERT INTO `t` (`id`, `name`) VALUES (7, 'b'), (5, 'a'), (6, 'A');
ALTER TABLE `t` ADD PRIMARY KEY (`id`), ADD UNIQUE KEY `u` (`name`), ADD KEY `k` (`name`(4)),
  MODIFY `id` bigint NOT NULL AUTO_INCREMENT;
CREATE UNIQUE INDEX `two` ON `t` (`name`, `id`);
INSERT INTO `none` VALUES (1),(2);
CREATE TABLE `late` (`id` int, `name` text) DEFAULT CHARSET=utf8mb4;
"""
        report = """
table t: 3 rows
  unique key u (name): breaks, 2 rows become 1
    before, utf8mb4_bin: asked of mycoll, no two rows are equal
    first key 5: 'a', 'A'
  unique key two (name, id): holds
    before, utf8mb4_bin: asked of mycoll, no two rows are equal
  unique key u (name): = 'b' reads 1 of 3 rows, 1 interval
  index k (name(4)): = 'b' reads 1 of 3 rows, 1 interval by u
  unique key two (name, id): = 'b' reads 1 of 3 rows, 1 interval by u

table late: 0 rows
  not checked: table: rows of it stand before its CREATE TABLE

not checked: table none: 2 rows stand before its CREATE TABLE, or without one

summary: tables=2 keys=2 keys_broken=1 columns=0 columns_changed=0 not_checked=2 status=2
"""
        self.expect(self.check(dump), report, 2)

    def test_dumps_of_several_databases(self) -> None:
        one = "CREATE TABLE `T` (`a` text) DEFAULT CHARSET=utf8mb4 COLLATE=utf8mb4_bin;"
        dump = (
            f"USE `one`;{one}INSERT INTO T VALUES ('x');\nUSE `two`;{one}"
            "INSERT INTO `two`.`T` VALUES ('x'),('X'),('y');USE one;INSERT `T` VALUE ('y');"
        )
        report = """
table one.T: 2 rows
  column a: nothing changes, 2 values
    before, utf8mb4_bin: asked of mycoll

table two.T: 3 rows
  column a: 2 values merge into 1
    before, utf8mb4_bin: asked of mycoll
    merge: 'x' = 'X'
    lookups by =: of 3 texts 2 find more rows, 0 fewer

summary: tables=2 keys=0 keys_broken=0 columns=2 columns_changed=1 not_checked=0 status=1
"""
        self.expect(self.check(dump), report, 1)
        two = report.split("\n\n")[1] + "\n\n" + report.split("\n\n")[2]
        two = two.replace("tables=2", "tables=1").replace("columns=2", "columns=1")
        self.expect(self.check(dump, "--table", "TWO.t"), two, 1)
        missing = """
not checked: table nope: is not in the dump

summary: tables=0 keys=0 keys_broken=0 columns=0 columns_changed=0 not_checked=1 status=2
"""
        self.expect(self.check(dump, "--table", "nope"), missing, 2)

    def test_texts_in_other_sets(self) -> None:
        create = "CREATE TABLE t (a varchar(9) CHARACTER SET {}, b varchar(9)) CHARSET utf8mb4;"
        report = """
table t: 2 rows
  column a: nothing changes, 1 value
    before, {}: {}
  column b: nothing changes, 2 values
    before, utf8mb4_general_ci: asked of mycoll

not all of before was asked of mycoll: give --weights {}=FILE

summary: tables=1 keys=0 keys_broken=0 columns=2 columns_changed=0 not_checked=0 status=0
"""
        none = "no weights given, so a value is what has the same bytes"
        rows = [
            ("latin1", "latin1", b"'\xe9',_utf8mb4'\xc3\xa9'", b"_latin1'\xe9','\x80'"),
            ("binary", "ucs2", b"'\0\xe9','\xc3\xa9'", b"_utf8mb4'\xc3\xa9',_ucs2 0x20AC"),
            ("utf8", "utf16", b"0x00E9,'\xc3\xa9'", b"'\xc3\xa9',_utf32 X'000020ac'"),
        ]
        for names, charset, first, second in rows:
            with self.subTest(names):
                dump = f"SET NAMES {names};{create.format(charset)}".encode()
                dump += b"INSERT INTO t VALUES (%s),(%s);" % (first, second)
                old = {"latin1": "latin1_swedish_ci"}.get(charset, f"{charset}_general_ci")
                self.expect(self.check(dump, "--keep", names), report.format(old, none, old), 0)
                written = (self.room / names / "t.csv").read_bytes()
                self.assertEqual(written.decode(), '1,"\u00e9","\u00e9"\n2,"\u00e9","\u20ac"\n')
        run = self.check("SET NAMES sjis;")
        said = "the dump's texts are in sjis\n"
        self.assertIn(said, run.said)
        self.assertIn("dump again with --default-character-set=utf8mb4", run.said)
        self.assertEqual((run.printed, run.status), ("", 2))


class CutDumps(InRoom):
    """Dumps that end too early."""

    def test_a_dump_that_is_cut(self) -> None:
        whole = table("`a` varchar(9)", "('x'),('X')")
        cut = """
table t: {}
  not checked: table: the dump ends inside its rows

not checked: the dump: the dump ends inside a statement, at byte {}

summary: tables=1 keys=0 keys_broken=0 columns=0 columns_changed=0 not_checked=2 status=2
"""
        at = whole.index("'x'")
        rows = [(whole[: at + 2], "0 rows", at), (whole[:-2], "2 rows", len(whole) - 2)]
        for dump, count, place in rows:
            with self.subTest(dump[at:]):
                self.expect(self.check(dump), cut.format(count, place), 2)

    def test_a_dump_without_its_last_line(self) -> None:
        lines = MARIADB.splitlines(keepends=True)
        run = self.check("".join(lines[:-1]))
        missing = "the dump's last line, -- Dump completed, is missing: it was cut off"
        self.assertIn(f"\nnot checked: the dump: {missing}\n", run.printed)
        run = self.check("-- MySQL dump 10.13\n/* never closed")
        self.assertIn("the dump ends inside a statement, at byte 20", run.printed)
        self.assertEqual(run.status, 2)

    def test_nothing_is_a_dump_too(self) -> None:
        nothing = """
not checked: the dump: it has no table

summary: tables=0 keys=0 keys_broken=0 columns=0 columns_changed=0 not_checked=1 status=2
"""
        self.expect(self.check(""), nothing, 2)


class Spelling(InRoom):
    """Tokens, wherever a chunk ends."""

    def test_escapes(self) -> None:
        rows = [
            (rb"\0\b\n\r\t\Z", b"\x00\x08\x0a\x0d\x09\x1a"),
            (rb"\\\'\"\x", b"\x5c'\"x"),
            (rb"\%\_", rb"\%\_"),
            (b"a''b\\\\''", b"a'b\\'"),
            (b'""', b'""'),
        ]
        for inner, meant in rows:
            self.assertEqual(unescaped(inner, b"'"), meant, inner)
        self.assertEqual(unescaped(b"''\"\"", b'"'), b"''\"")

    def test_tokens_at_the_ends_of_chunks(self) -> None:
        wanted = all_tokens(MYSQL)
        self.assertGreater(len(wanted), 200)
        kept = tokens.CHUNK
        self.addCleanup(setattr, tokens, "CHUNK", kept)
        for chunk in range(1, 60):
            tokens.CHUNK = chunk
            self.assertEqual(all_tokens(MYSQL), wanted, chunk)

    def test_plain_rows_are_what_their_tokens_are(self) -> None:
        rows = (
            "(1,'a),(\\'','''',0x2741,-1),\n"
            r"(2,NULL,'\\',_binary '\0)\'',NULL),(3,'','ü;',NULL,2.50);"
            "INSERT INTO `t` VALUES (4,'x','-- y','/* z',7) , ( 5 , 'x' , 'y' , 'z' , 1e2 )"
        )
        columns = (
            "`id` int PRIMARY KEY, `a` text, `b` text, `h` varbinary(9), `n` int,"
            " UNIQUE KEY (`a`(3),`h`), KEY (`n`)"
        )
        self.check(table(columns, rows), "--keep", "plain")
        with mock.patch.object(Tokens, "plain_row", lambda tokens: None):
            self.check(table(columns, rows), "--keep", "tokens")
        for file in ("t.csv", "t.answers"):
            written = (self.room / "plain" / file).read_bytes()
            self.assertEqual(written, (self.room / "tokens" / file).read_bytes())
        self.assertEqual(
            (self.room / "plain" / "t.csv").read_text(),
            '1,"a),(\'",1,2741,-1,"\'"\n2,\\N,2,002927,\\N,"\\"\n3,"",3,\\N,\\N,"ü;"\n'
            '4,"x",4,2f2a207a,\\N,"-- y"\n5,"x",5,7a,\\N,"y"\n',
        )


def all_tokens(dump: str) -> list[tokens.Token]:
    """The tokens of a dump."""
    reader, found = Tokens(io.BytesIO(dump.encode())), []
    while True:
        try:
            token = reader.next()
        except Cut:
            return found
        found.append(token)
