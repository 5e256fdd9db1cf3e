"""What reports say of keys, columns and indexes."""

import os
import shlex
import subprocess
from pathlib import Path

from migration.tests.room import LETTERS, PADS, STAND_IN, InRoom, Run, table

EXAMPLE = Path(__file__).resolve().parents[3] / "examples" / "migration"


class Reports(InRoom):
    """Reports, byte for byte."""

    def test_the_example(self) -> None:
        words = shlex.split((EXAMPLE / "command").read_text())
        self.assertEqual(words[0], "../../tools/check_migration.py")
        os.chdir(EXAMPLE)
        run = self.run_check(*words[1:])
        self.assertEqual((run.printed, run.said), ((EXAMPLE / "expected").read_text(), ""))
        self.assertEqual(f"{run.status}\n", (EXAMPLE / "status").read_text())

    def test_a_key_over_several_columns(self) -> None:
        columns = (
            "`a` varchar(9), `n` int, `b` varchar(9) COLLATE utf8mb4_unicode_ci,"
            " UNIQUE KEY `k` (`a`,`n`,`b`)"
        )
        rows = "('x',1,'y'),('X',2,'Y'),('X',1,'Y'),('x',NULL,'y'),('X',NULL,'y'),(NULL,1,'y')"
        report = """
table t: 6 rows
  unique key k (a, n, b): breaks, 2 rows become 1
    before, utf8mb4_bin, utf8mb4_unicode_ci: the key holds, since the dump was made with it
    first row 1: ('x', 1, 'y'), ('X', 1, 'Y')
  column a: 2 values merge into 1
    before, utf8mb4_bin: asked of mycoll
    merge: 'x' = 'X'
    lookups by =: of 2 texts 2 find more rows, 0 fewer
  column b: 2 values merge into 1
    before, utf8mb4_unicode_ci: no weights given, so a value is what has the same bytes
    merge: 'y' = 'Y'
    lookups by =: of 2 texts 2 find more rows, 0 fewer
  unique key k (a, n, b): = 'x' reads 5 of 6 rows, 1 interval

not all of before was asked of mycoll: give --weights utf8mb4_unicode_ci=FILE

summary: tables=1 keys=1 keys_broken=1 columns=2 columns_changed=2 not_checked=0 status=1
"""
        self.expect(self.check(table(columns, rows)), report, 1)

    def test_nothing_changes(self) -> None:
        columns = "`id` int PRIMARY KEY, `a` varchar(9) UNIQUE, `n` decimal(5,2), KEY `n` (`n`)"
        other = "CREATE TABLE `plain` (`id` int, `d` date);\nINSERT INTO plain VALUES (1,'x');"
        report = """
table t: 2 rows
  unique key a (a): holds
    before, utf8mb4_bin: asked of mycoll, no two rows are equal
  unique key a (a): = 'x' reads 1 of 2 rows, 1 interval
  left out: n (decimal)

table plain: 1 row
  left out: d (date)
  no texts: nothing changes

summary: tables=2 keys=1 keys_broken=0 columns=0 columns_changed=0 not_checked=0 status=0
"""
        self.expect(self.check(table(columns, "(1,'x',1.5),(2,'y',NULL)") + other), report, 0)

    def test_a_table_that_tells_no_collation(self) -> None:
        report = """
table t: 2 rows
  column a: 2 values merge into 1
    before, a collation not told: no weights given, so a value is what has the same bytes
    merge: 'x' = 'X'
    lookups by =: of 2 texts 2 find more rows, 0 fewer

summary: tables=1 keys=0 keys_broken=0 columns=1 columns_changed=1 not_checked=0 status=1
"""
        self.expect(self.check(table("`a` text", "('x'),('X')", "")), report, 1)

    def test_values_that_part(self) -> None:
        (self.room / "utf8mb4_old_ci.txt").write_text(LETTERS + "00E9 0045\n")
        columns = "`id` int PRIMARY KEY, `a` varchar(9), UNIQUE KEY `k` (`a`)"
        rows = "(4,'é'),(5,'E'),(6,'ss'),(7,'ß'),(8,'S')"
        dump = table(columns, rows, "COLLATE=utf8mb4_old_ci")
        dump += table("`a` varchar(9)", "('é'),('E'),('e'),('ß'),('x')", "COLLATE=utf8mb4_old_ci")
        dump = dump.replace("`t`", "`u`", 2)
        report = """
table u: 5 rows
  unique key k (a): breaks, 2 rows become 1
    before, utf8mb4_old_ci: asked of mycoll, 2 groups of equal rows: the weights aren't the server's
    first key 7: 'ß', 'S'
  unique key k (a): = 'é' reads 1 of 5 rows, 1 interval

table t: 5 rows
  column a: 1 value parts into 2
    before, utf8mb4_old_ci: asked of mycoll
    part: 'é' | 'E'
    lookups by =: of 5 texts 0 find more rows, 3 fewer

summary: tables=2 keys=1 keys_broken=1 columns=1 columns_changed=1 not_checked=0 status=1
"""
        run = self.check(dump, "--weights", "utf8mb4_old_ci=general:utf8mb4_old_ci.txt")
        given = "weights given too: utf8mb4_old_ci, general by utf8mb4_old_ci.txt"
        self.assertIn(given, run.printed.partition("\n\n")[0])
        self.expect(run, report, 1)

    def test_more_examples_than_are_shown(self) -> None:
        pairs = [f"('{first}{letter}')" for letter in "abcdefghijkl" for first in "xX"]
        run = self.check(table("`a` varchar(9)", ",".join(pairs)))
        self.assertIn("  column a: 24 values merge into 12\n", run.printed)
        self.assertEqual(run.printed.count("    merge: "), 10)
        self.assertIn("    merge: 'xj' = 'Xj'\n    and 2 more that merge\n", run.printed)
        eleven = []
        for number in range(11):
            spelled = [c.upper() if number >> i & 1 else c for i, c in enumerate("abcd")]
            eleven.append(f"('{''.join(spelled)}')")
        run = self.check(table("`a` varchar(9) PRIMARY KEY", ",".join(eleven)))
        self.assertIn("    first key 'abcd': 'abcd', 'Abcd', 'aBcd', 'ABcd', 'abCd',", run.printed)
        self.assertIn("'ABCd', 'abcD', 'AbcD', and 1 more\n", run.printed)

    def test_values_that_are_hard_to_see(self) -> None:
        long = "z" * 70
        rows = rf"('a '),('A\0\t\\\''),('a\0\t\\\''),('{long}'),('{long.upper()}')"
        rows += ",('a\u00ad'),('A\u00ad')"
        run = self.check(table("`a` varchar(99)", rows))
        for line in [
            r"    merge: 'A\u{0}\u{9}\\''' = 'a\u{0}\u{9}\\'''",
            f"    merge: '{'z' * 60}' (70 characters) = '{'Z' * 60}' (70 characters)",
            r"    merge: 'a\u{AD}' = 'A\u{AD}'",
        ]:
            self.assertIn(line + "\n", run.printed)


class Answers(InRoom):
    """What is said where mycoll does not answer."""

    def played(self, dump: str, program: str) -> Run:
        """A run whose mycoll is that program."""
        (self.room / "d.sql").write_text(dump)
        return self.run_words("d.sql", *PADS, "--mycoll", program)

    def test_statements_that_are_refused(self) -> None:
        columns = "`a` varchar(9) PRIMARY KEY, `b` text, KEY `b` (`b`(5))"
        dump = table(columns, "('x','y'),('X',NULL)")
        report = """
table t: 2 rows
  not checked: primary key (a): mycoll: ERROR 9004: more than 2048 tokens
  not checked: column b: mycoll: ERROR 9004: more than 2048 tokens
  primary key (a): = 'x' reads 2 of 2 rows, 1 interval
  index b (b(5)): = 'y' reads 1 of 2 rows, 1 interval

summary: tables=1 keys=0 keys_broken=0 columns=0 columns_changed=0 not_checked=2 status=2
"""
        self.expect(self.check(dump, refuses="GROUP BY"), report, 2)
        run = self.check(dump, refuses="EXPLAIN")
        said = "  not checked: index b (b(5)) for =: mycoll: ERROR 9004: more than 2048 tokens\n"
        self.assertIn(said, run.printed)
        self.assertIn("keys=1 keys_broken=1 columns=1 columns_changed=0 not_checked=2", run.printed)

    def test_a_program_that_fails(self) -> None:
        dump = table("`a` varchar(9) PRIMARY KEY", "('x'),('X')")
        rows = [
            ("echo refused t.csv TooLong 3; exit 3", "mycoll: refused t.csv TooLong 3"),
            ("exit 6", "mycoll ended with status 6 before it"),
            ("echo other", "mycoll answers 'other' where old_groups_1 was asked"),
            ("printf 'old_groups_1\\tsize\\n1\\t2\\n'", "mycoll ended with status 0 before it"),
            ("printf 'old_groups_1\\tsize\\n1\\t2\\nold_rows_1\\n1\\n'; exit 5",
             "mycoll ended with status 5 within it"),
            ("printf 'old_groups_1\\tsize\\n1\\t2\\nold_rows_1\\n1\\n2\\n'"
             "'new_groups_1\\tsize\\n2\\t2\\nnew_rows_1\\ta\\n1\\tx\\n2\\tX\\n'",
             "mycoll's groups and its order of the rows don't fit together"),
            ("printf 'old_groups_1\\tsize\\n1\\t2\\nold_rows_1\\n1\\n2\\n'"
             "'new_groups_1\\tsize\\n1\\t1\\nnew_rows_1\\ta\\n1\\tx\\n2\\tX\\n'",
             "mycoll's groups have not as many rows as its list of them"),
        ]  # fmt: skip
        for script, reason in rows:
            with self.subTest(reason):
                program = self.room / "program"
                program.write_text(f"#!/bin/sh\n{script}\n")
                program.chmod(0o755)
                run = self.played(dump, "./program")
                self.assertIn(f"  not checked: primary key (a): {reason}\n", run.printed)
                self.assertEqual(run.status, 2)

    def test_a_plan_without_an_index(self) -> None:
        answers = [
            r"old_groups_1\tsize\n1\t1\n2\t1\nold_rows_1\n1\n2\n",
            r"new_groups_1\tsize\n2\t1\n1\t1\nnew_rows_1\ta\n2\tX\n1\tx\n",
            r"key\tconjunct\tintervals\tentries\nNULL\tNULL\tNULL\t2\n",
        ]
        program = self.room / "program"
        program.write_text(f"#!/bin/sh\nprintf '{''.join(answers)}'\n")
        program.chmod(0o755)
        report = """
table t: 2 rows
  primary key (a): holds
    before, utf8mb4_bin: asked of mycoll, no two rows are equal
  primary key (a): = reads all 2 rows

summary: tables=1 keys=1 keys_broken=0 columns=0 columns_changed=0 not_checked=0 status=0
"""
        dump = table("`a` varchar(9) PRIMARY KEY", "('x'),('X')")
        self.expect(self.played(dump, "./program"), report, 0)
        program.write_text(program.read_text().replace(r"NULL\tNULL\tNULL", r"a\t1\tNULL"))
        reason = "  not checked: primary key (a) for =: mycoll's plan has another form\n"
        self.assertIn(reason, self.played(dump, "./program").printed)

    def test_no_program(self) -> None:
        dump = table("`a` varchar(9) PRIMARY KEY", "('x'),('X')")
        run = self.played(dump, "./nowhere")
        self.assertIn("nowhere: No such file or directory", run.said)
        self.assertIn("nothing was checked; give --mycoll the path of the program", run.said)
        self.assertEqual(run.status, 2)

    def test_all_can_be_run_again(self) -> None:
        dump = table("`a` varchar(9) PRIMARY KEY, `b` text, KEY (`b`(3))", "('x','ß'),('X','s')")
        self.check(dump, "--keep", "kept")
        words = [str(STAND_IN), "t.catalog", "t.sql"]
        again = subprocess.run(words, cwd="kept", capture_output=True, check=True)
        self.assertEqual(again.stdout, (self.room / "kept" / "t.answers").read_bytes())
        self.assertIn(b"new_groups_1\tsize\n1\t2\n", again.stdout)
