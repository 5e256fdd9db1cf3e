"""Limits of the engine, and what the tool takes and leaves out."""

from unittest import mock

import check_migration
from migration import progress, rows
from migration.tests.room import PADS, InRoom, table

NOTHING = (
    "\n\nsummary: tables=1 keys=0 keys_broken=0 columns=0 columns_changed=0 not_checked=1 status=2"
)


class Limits(InRoom):
    """Limits are said by name."""

    def refused(self, dump: "str | bytes", *lines: str) -> None:
        """A run whose report says these parts were not checked, and has the status 2."""
        run = self.check(dump)
        for line in lines:
            self.assertIn(f"  not checked: {line}\n", run.printed)
        self.assertEqual((run.printed.count("not checked: "), run.status), (len(lines), 2))

    def test_rows(self) -> None:
        dump = table("`a` varchar(9) PRIMARY KEY", ",".join(f"('{n}')" for n in range(200_001)))
        limit = "  not checked: table: 200,001 rows, mycoll takes 200,000"
        report = f"table t: 200,001 rows\n{limit}{NOTHING}"
        self.expect(self.check(dump, "--keep", "kept"), report, 2)
        kept = sorted(path.name for path in (self.room / "kept").iterdir())
        self.assertEqual(kept, ["weights_utf8mb4_general_ci.txt"])

    def test_rows_of_a_table_without_texts(self) -> None:
        report = """
table t: 3 rows
  no texts: nothing changes

summary: tables=1 keys=0 keys_broken=0 columns=0 columns_changed=0 not_checked=0 status=0
"""
        with mock.patch.object(rows, "MOST_ROWS", 2):
            self.expect(self.check(table("`a` int PRIMARY KEY", "(1),(2),(3)")), report, 0)

    def test_bytes_of_a_file(self) -> None:
        dump = table("`a` varchar(9) PRIMARY KEY", "('abc'),('def')")
        with mock.patch.object(rows, "MOST_BYTES", 16):
            self.assertEqual(self.check(dump).status, 0)
        with mock.patch.object(rows, "MOST_BYTES", 15):
            self.refused(dump, "table: its texts are more than 15 bytes, the most of a mycoll file")

    def test_values(self) -> None:
        columns = (
            "`id` bigint unsigned, `a` text, `b` text, `c` text, `d` text, `e` char(0),"
            " UNIQUE KEY `k` (`id`, `e`)"
        )
        first = f"(18446744073709551615,'{'x' * 4096}','\\n','\\\\N',_binary '\\xff','')"
        dump = table(columns, f"{first},(1,'{'x' * 4097}',NULL,'y','y',NULL)")
        raw = dump.encode().replace(b"\\xff", b"\xff")
        self.refused(
            raw,
            "unique key k (id, e): its column id: row 1 has no whole number of 64 bits",
            "column a: row 2 has more than 4,096 characters",
            "column c: row 1 has the two characters \\N, NULL in a file of rows",
            "column d: row 1 is no text of utf8mb4",
        )

    def test_characters_that_the_new_set_lacks(self) -> None:
        (self.room / "latin1_german2_ci.txt").write_text("default =\n61..7A @ 41\nDF 53 53\n")
        dump = table("`a` varchar(9), `b` varchar(9)", "('ß','я'),('ss','€'),('€','\u0105')")
        (self.room / "d.sql").write_text(dump)
        words = ["--to", "latin1_german2_ci", "--weights", "latin1_german2_ci.txt"]
        run = self.run_check("d.sql", *words)
        self.assertIn("    merge: 'ß' = 'ss'\n", run.printed)
        lacks = "column b: latin1 lacks characters of 2 rows, the first is row 1\n"
        self.assertIn(lacks, run.printed)

    def test_characters_that_the_dump_may_have_lost(self) -> None:
        columns = "`a` varchar(9), `b` varchar(9) CHARACTER SET ucs2, `c` varchar(9)"
        rows = "('?','?','x'),(_utf8mb4'?','x',''),('a?b','','')"
        dump = "SET NAMES utf8;" + table(columns, rows)
        lost = "? may stand for characters that utf8mb3 lacks in 2 rows, the first is row 1"
        self.refused(dump, f"column a: {lost}: dump with --default-character-set=utf8mb4")
        self.assertIn("  column a: nothing changes, 2 values\n", self.check(dump).printed)
        self.assertEqual(self.check(dump.replace("utf8;", "utf8mb4;")).status, 0)

    def test_columns(self) -> None:
        columns = ",".join(f"`c{n}` text" for n in range(33))
        values = ",".join(f"'{n}'" for n in range(33))
        beyond = "more than 31 columns of the table are texts or in keys"
        self.refused(
            table(columns, f"({values})"), f"column c31: {beyond}", f"column c32: {beyond}"
        )

    def test_indexes(self) -> None:
        keys = ",".join(f"KEY `k{n}` (`a`({n}))" for n in range(1, 11))
        reason = "mycoll takes 8 indexes of a table: its plan was not asked"
        self.refused(
            table(f"`a` text,{keys}", "('x')"), f"index k9 (a(9)): {reason}",
            f"index k10 (a(10)): {reason}",
        )  # fmt: skip

    def test_what_is_not_taken(self) -> None:
        columns = (
            "`a` varchar(9), `d` date, `e` enum('x','y'), `s` set('x'),"
            " `k` text CHARACTER SET koi8r, `i` text COLLATE utf8mb4_bin CHECK (`i` <> ''),"
            " UNIQUE KEY `ad` (`a`,`d`),"
            " UNIQUE KEY `low` ((lower(`a`))), KEY `up` ((upper(`a`))),"
            " UNIQUE KEY `gone` (`nope`,`a`),"
            " FULLTEXT KEY `f` (`a`), SPATIAL KEY `sp` (`d`), CONSTRAINT `c1` CHECK (`a` > 'b')"
        )
        dump = table(columns, "('x','2020-01-01','x','x','x','x')")
        dump += "ALTER TABLE `t` MODIFY COLUMN `a` varchar(10) NOT NULL, ADD COLUMN `z` int;"
        self.refused(
            dump,
            "column e: enum: its members stand in the definition",
            "column s: set: its members stand in the definition",
            "column k: mycoll has no character set koi8r",
            "unique key ad (a, d): its column d (date) is not taken",
            "unique key low (expression): a part of it is an expression",
            "unique key gone (nope, a): its column nope is not in the table",
            "fulltext key f (a): mycoll has no full text search",
            "index up (expression): a part of it is an expression",
            "column a: ALTER TABLE changes it behind its CREATE TABLE",
        )
        run = self.check(dump)
        self.assertIn("  left out: d (date), check i, check c1\n", run.printed)
        dump = table("`a` varchar(9)", "('x')") + "ALTER TABLE t CONVERT TO CHARACTER SET latin1;"
        self.refused(dump, "column a: ALTER TABLE changes it behind its CREATE TABLE")

    def test_rows_of_another_form(self) -> None:
        create = table("`a` varchar(9), `b` text DEFAULT 'x'", "")
        rows = [
            ("INSERT INTO t VALUES ('x')", "table: row 1 has 1 values for 2 columns"),
            ("INSERT INTO t SELECT 1, 2", "table: an INSERT into it has no list of values"),
            ("INSERT INTO t (a) VALUES ('x')", "column b: row 1 doesn't list it"),
            ("INSERT INTO t VALUES ('x',now())", "column b: row 1 has no plain value"),
            ("INSERT INTO t VALUES ('x','y' 'z')", "column b: row 1 has no plain value"),
        ]
        for insert, reason in rows:
            with self.subTest(insert):
                self.refused(f"{create}{insert};", reason)
        run = self.check("CREATE TABLE t LIKE u;INSERT INTO t VALUES (1);")
        self.assertIn("  not checked: table: its CREATE TABLE lists no columns\n", run.printed)


class Names(InRoom):
    """Names that a catalog cannot hold."""

    def test_names_in_the_catalog(self) -> None:
        long = "n" * 65
        columns = (
            f"`row1` int PRIMARY KEY, `c1` text, `größe` text, `{long}` text, `a b` text,"
            " KEY `größe` (`größe`(2)), KEY `k1` (`c1`(3))"
        )
        dump = table(columns, "(5,'a','b','c','d')").replace("`t`", "`Straße`")
        run = self.check(dump, "--keep", "kept")
        self.assertIn("\ntable Straße: 1 row\n", run.printed)
        self.assertIn(f"  column {long}: nothing changes, 1 value\n", run.printed)
        self.assertIn("  index größe (größe(2)): = 'b' reads 1 of 1 row, 1 interval\n", run.printed)
        self.assertEqual(
            (self.room / "kept" / "t1.catalog").read_text(),
            "collation utf8mb4_general_ci utf8mb4 general weights_utf8mb4_general_ci.txt\n"
            "connection utf8mb4_general_ci\ntable t1 t1.csv\ncolumn row2 bigint\n"
            "column c1 varchar 3 utf8mb4_general_ci\ncolumn c2 varchar 2 utf8mb4_general_ci\n"
            "column row1 bigint\ncolumn c3 varchar 1 utf8mb4_general_ci\n"
            "column c4 varchar 1 utf8mb4_general_ci\nindex k2 c2 2\nindex k1 c1 3\n",
        )

    def test_tables_of_one_name(self) -> None:
        one = "CREATE TABLE `{}` (`a` text) DEFAULT CHARSET=utf8mb4 COLLATE=utf8mb4_bin;"
        names = [("t1", "x"), ("T1", "y"), ("`t-1`", "z")]
        inserts = "".join(f"INSERT INTO {name} VALUES ('{text}');" for name, text in names)
        self.check("".join(map(one.format, ["t-1", "T1", "t1"])) + inserts, "--keep", "kept")
        found = {path.name: path.read_text() for path in (self.room / "kept").glob("*.csv")}
        self.assertEqual(sorted(found.values()), ['1,"x"\n', '1,"y"\n', '1,"z"\n'])
        self.assertEqual(len({name.lower() for name in found}), 3)


class Words(InRoom):
    """The words of the command."""

    def test_what_is_refused(self) -> None:
        to, file = ["--to", "utf8mb4_general_ci"], "utf8mb4_general_ci.txt"
        (self.room / "full").mkdir()
        (self.room / "full" / "x").write_text("")
        rows = [
            (["--to", "koi8r_bin"], "koi8r_bin: no collation of mycoll's character sets",
             "give --to a name as utf8mb4_0900_ai_ci; the sets are latin1, ascii,"),
            (to, "no weights of utf8mb4_general_ci", "give --weights FILE with them, or"),
            (["--to", "utf8mb4_bin", "--weights", f"utf8mb4_x_ci={file}"],
             "utf8mb4_x_ci: its name doesn't tell which kind its weights are",
             f"say it: --weights utf8mb4_x_ci=KIND:{file}, KIND being one of table8, general,"),
            ([*to, "--weights", file, "--weights", file],
             "utf8mb4_general_ci: weights are given twice", "write COLLATION=FILE"),
            ([*to, "--weights", "nope"], "nope: no file", "see where the weights are"),
            (["--to", "utf8mb4_bin", "--weights", f"utf8_bin={file}"],
             "utf8mb3_bin: is built in, and takes no weights", "leave them out"),
            ([*to, "--weights", file, "--keep", "full"], "full: is there already",
             "give --keep a new or an empty folder"),
        ]  # fmt: skip
        (self.room / "d.sql").write_text(table("`a` text", "('x')"))
        for words, fact, advice in rows:
            with self.subTest(fact):
                run = self.run_check("d.sql", *words)
                self.assertIn(f"check_migration.py: {fact}\n", run.said)
                self.assertIn(f"check_migration.py: nothing was checked; {advice}", run.said)
                self.assertEqual((run.printed, run.status), ("", 2))
        run = self.run_check("absent.sql", *PADS)
        self.assertEqual(run.said, "check_migration.py: absent.sql: No such file or directory\n")

    def test_what_weights_are_of(self) -> None:
        for name in ("keys.txt", "ch.txt", "latin1_german2_ci.txt"):
            (self.room / name).write_text("")
        rows = [
            (["utf8mb4_0900_as_cs", "keys.txt"], "utf8mb4_0900_as_cs, uca900_as_cs by keys.txt"),
            (["utf8_unicode_ci", "keys.txt"], "utf8mb3_unicode_ci, uca400 by keys.txt"),
            (["ucs2_unicode_520_ci", "./keys.txt"], "ucs2_unicode_520_ci, uca520 by keys.txt"),
            (["latin1_german2_ci", "latin1_german2_ci.txt"],
             "latin1_german2_ci, table8 by latin1_german2_ci.txt"),
            (["latin1_bin"], "latin1_bin, built in"),
            (["utf8mb4_da_0900_ai_ci", "uca900_ai_ci:keys.txt", "--rules", "ch.txt"],
             "utf8mb4_da_0900_ai_ci, uca900_ai_ci by keys.txt with ch.txt"),
        ]  # fmt: skip
        (self.room / "d.sql").write_text("")
        for (to, *words), title in rows:
            with self.subTest(to):
                given = [word for each in words[:1] for word in ("--weights", each)] + words[1:]
                run = self.run_check("d.sql", "--to", to, *given)
                self.assertEqual(run.printed.splitlines()[0], f"d.sql to {title}")

    def test_rules_stand_in_the_catalog(self) -> None:
        for name in ("keys.txt", "ch.txt"):
            (self.room / name).write_text("")
        words = ["--weights", "utf8mb4_ch_ci=uca400:keys.txt", "--rules", "utf8mb4_ch_ci=ch.txt"]
        self.check(table("`a` text", "('x')", "COLLATE=utf8mb4_ch_ci"), *words, "--keep", "kept")
        lines = (self.room / "kept" / "t.catalog").read_text().splitlines()
        file = "weights_utf8mb4_ch_ci.txt rules weights_utf8mb4_ch_ci_rules.txt"
        self.assertEqual(lines[0], f"collation utf8mb4_ch_ci utf8mb4 uca400 {file}")

    def test_long_work_tells_how_far_it_is(self) -> None:
        dump = table("`a` int", ",".join(["(1)"] * 2500))
        with mock.patch.object(progress, "PAUSE", 0.0):
            said = self.check(dump).said
        lines = [f"check_migration.py: table t: {n} rows so far\n" for n in ("1,000", "2,000")]
        self.assertEqual(said, "".join(lines))

    def test_the_help_has_an_example(self) -> None:
        with self.assertRaises(SystemExit) as ended:
            self.run_words("--help")
        self.assertEqual(ended.exception.code, 0)
        text = check_migration.make_parser().format_help()
        example = "check_migration.py shop.sql --to utf8mb4_0900_ai_ci --weights allkeys.txt"
        self.assertIn(f"tools/{example}\n", text)
