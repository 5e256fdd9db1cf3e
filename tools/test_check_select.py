#!/usr/bin/env python3
"""Tests of check_select.py: its plain implementation at worked examples, and the whole over
programs that are made up."""

import contextlib
import io
import random
import shutil
import sys
import tempfile
import unittest
from pathlib import Path
from typing import NamedTuple

import check_select
from selects.making import Maker
from selects.scan import answer
from selects.tables import make_files, without_indexes
from selects.trees import statements_of
from selects.worlds import read_world

FILES = {
    "cat.txt": """# excerpts with few characters
collation utf8mb4_0900_ai_ci utf8mb4 uca900_ai_ci nine.txt
collation utf8mb4_0900_as_cs utf8mb4 uca900_as_cs nine.txt
collation utf8mb4_unicode_ci utf8mb4 uca400 four.txt
collation utf8mb4_kc_ci utf8mb4 uca400 ch.txt
collation ucs2_unicode_ci ucs2 uca400 four.txt
collation latin1_swedish_ci latin1 table8 swedish.txt
collation latin1_german1_ci latin1 table8 german1.txt
collation latin1_german2_ci latin1 table8 german2.txt
collation utf8mb4_general_ci utf8mb4 general general.txt
connection utf8mb4_0900_ai_ci
table p p.csv
column id bigint
column name varchar 20 utf8mb4_0900_ai_ci
index name10 name 10
table m m.csv
column a varchar 10 latin1_swedish_ci
column b varchar 10 latin1_german1_ci
column c varchar 10 ascii_bin
column e varchar 10 utf16_bin
column f varchar 10 utf8mb4_unicode_ci
table s s.csv
column name varchar 8 utf8mb4_unicode_ci
index s1 name 1
table c c.csv
column name varchar 8 utf8mb4_kc_ci
table n n.csv
column id bigint
column name varchar 8 utf8mb4_bin
table z z.csv
column name varchar 8 utf8mb4_bin
table y y.csv
column a char 3 utf8mb4_bin
column b varbinary 4
column c binary 2
""",
    "nine.txt": """@version 9.0.0
@implicitweights 17000..18AFF; FB00
0020 ; [*0209.0020.0002]
0041 ; [.1C47.0020.0008]
0061 ; [.1C47.0020.0002]
0042 ; [.1C60.0020.0008]
0062 ; [.1C60.0020.0002]
0065 ; [.1CAA.0020.0002]
0069 ; [.1D32.0020.0002]
006C ; [.1D77.0020.0002]
004D ; [.1DAA.0020.0008]
006D ; [.1DAA.0020.0002]
0072 ; [.1E33.0020.0002]
0075 ; [.1EB5.0020.0002]
00FC ; [.1EB5.0020.0002][.0000.002B.0002]
""",
    "four.txt": """@version 4.0.0
0009 ; [*0201.0020.0002.0009]
0020 ; [*0209.0020.0002.0020]
00AD ; [.0000.0000.0000.0000]
0061 ; [.0E33.0020.0002.0061]
0062 ; [.0E4A.0020.0002.0062]
0043 ; [.0E60.0020.0008.0043]
0063 ; [.0E60.0020.0002.0063]
0068 ; [.0EE1.0020.0002.0068]
0073 ; [.0FEA.0020.0002.0073]
00DF ; [.0FEA.0020.0004.00DF][.0FEA.0020.0004.00DF]
""",
    "swedish.txt": "default =\n61..7A @ 41\n",
    "german1.txt": "default =\n61..7A @ 41\nC4 41\nE4 41\nDF 53\n",
    "german2.txt": "default =\n61..7A @ 41\nC4 41 45\nE4 41 45\nDF 53 53\n",
    "general.txt": "0061..007A @ 0041\n00DF 0053\n",
    "p.csv": "1,Müller\n2,Mueller\n3,müller\n4,Meier\n5,\\N\n6,Muller\n",
    "m.csv": "a,a,a,a,a\n",
    "s.csv": "a\t\na\na  \t\nb\nß\nss\ns\n",
    "c.csv": "ch\ncz\nC\n",
    "n.csv": "1,y\n0,x\n",
    "z.csv": "",
    "y.csv": '"a  ",00FF,41\n" ",,\n',
}
FILES["ch.txt"] = FILES["four.txt"] + "0063 0068 ; [.0E61.0020.0002.0063]\n"


class Example(NamedTuple):
    """A script, and the lines that are written for it."""

    why: str
    script: str
    lines: list[str]


EXAMPLES = [
    Example("texts are padded", "SELECT 'a' = 'a  ' COLLATE utf8mb4_bin AS x", ["x", "1"]),
    Example("and are not", "SELECT 'a' = 'a  ' COLLATE utf8mb4_0900_bin x", ["x", "0"]),
    Example("a header is the script's", "SELECT ('a' =  'b' ) ", ["('a' =  'b' )", "0"]),
    Example(
        "weights of one level and of three",
        "SELECT WEIGHT_STRING('AB') w, WEIGHT_STRING('a' COLLATE utf8mb4_0900_as_cs) v",
        ["w\tv", "0x1C471C60\t0x1C470000002000000002"],
    ),
    Example(
        "weights of no line: an ideograph, another one, one of a range, a syllable",
        "SELECT WEIGHT_STRING('一') a, WEIGHT_STRING('𠀀') b, WEIGHT_STRING('𗀀') c,"
        " WEIGHT_STRING('가') d",
        ["a\tb\tc\td", "0xFB40CE00\t0xFB848000\t0xFB008000\t0xFBC09100FBC09161"],
    ),
    Example(
        "a letter of two weights, and LIKE by characters",
        "SELECT _latin1 X'E4' COLLATE latin1_german2_ci = _latin1'ae' e,"
        " _latin1 X'E4' COLLATE latin1_german2_ci LIKE _latin1'ae' l,"
        " 'ß' = 's' COLLATE utf8mb4_general_ci g, 'ß' = 'ss' COLLATE utf8mb4_unicode_ci u",
        ["e\tl\tg\tu", "1\t0\t1\t1"],
    ),
    Example(
        "a character without weights",
        "SELECT _utf8mb4 X'63C2AD68' COLLATE utf8mb4_unicode_ci = 'ch' x,"
        " _utf8mb4 X'63C2AD68' COLLATE utf8mb4_kc_ci = 'ch' y",
        ["x\ty", "1\t0"],
    ),
    Example(
        "columns of two collations",
        "SELECT a = b FROM m;SELECT CONCAT(a, b) = 'x' FROM m;SELECT CONCAT(a, e, f) FROM m;"
        "SELECT a IN (b, e, f) FROM m",
        [
            "ERROR 1267: Illegal mix of collations (latin1_swedish_ci,IMPLICIT) and"
            " (latin1_german1_ci,IMPLICIT) for operation '='",
            "ERROR 1267: Illegal mix of collations (latin1_bin,NONE) and"
            " (utf8mb4_0900_ai_ci,COERCIBLE) for operation '='",
            "ERROR 1270: Illegal mix of collations (latin1_swedish_ci,IMPLICIT),"
            " (utf16_bin,IMPLICIT), (utf8mb4_unicode_ci,IMPLICIT) for operation 'concat'",
            "ERROR 1271: Illegal mix of collations for operation 'in'",
        ],
    ),
    Example(
        "a set that takes another one's texts, and a literal that doesn't fit",
        "SELECT CONCAT(a, c) x, COLLATION(CONCAT(a, c)) y, a = 'é' z FROM m;"
        "SELECT a = 'я' FROM m;SELECT a = CONCAT(X'41', 'é') FROM m",
        [
            "x\ty\tz",
            "aa\tlatin1_swedish_ci\t0",
            "ERROR 1267: Illegal mix of collations (latin1_swedish_ci,IMPLICIT) and"
            " (utf8mb4_0900_ai_ci,COERCIBLE) for operation '='",
            "ERROR 1267: Illegal mix of collations (latin1_swedish_ci,IMPLICIT) and"
            " (binary,COERCIBLE) for operation '='",
        ],
    ),
    Example(
        "levels",
        "SELECT COERCIBILITY('a' COLLATE utf8mb4_bin) a, COERCIBILITY(VERSION()) b,"
        " COERCIBILITY('a') c, COERCIBILITY(1000) d, COERCIBILITY(NULL) e,"
        " COERCIBILITY(CONCAT(1, 2)) f",
        ["a\tb\tc\td\te\tf", "0\t3\t4\t5\t6\t4"],
    ),
    Example("a table without rows", "SELECT * FROM z;SELECT COUNT(*), MAX(name) FROM z",
        ["name", "COUNT(*)\tMAX(name)", "0\tNULL"]),
    Example("equal to a letter of two weights", "SELECT name FROM s WHERE name = 'ß'",
        ["name", "ß", "ss"]),
    Example("TAB is before the spaces of padding", "SELECT name FROM s WHERE name < 'a'",
        ["name", "a\\t", "a  \\t"]),
    Example("a contraction in LIKE", "SELECT name FROM c WHERE name LIKE 'c%'",
        ["name", "ch", "cz", "C"]),
    Example("and in an order", "SELECT name FROM c ORDER BY name", ["name", "C", "cz", "ch"]),
    Example(
        "a fault where another conjunct rejects, and where none does",
        "SELECT id FROM n WHERE id + 9223372036854775807 > 0 AND name = 'x';"
        "SELECT id FROM n WHERE id + 9223372036854775807 > 0",
        ["id", "0", "ERROR 1690: BIGINT value is out of range"],
    ),
    Example(
        "AND and OR beside a fault",
        "SELECT 0 AND 9223372036854775807 + 1 a, 1 OR 9223372036854775807 + 1 b;"
        "SELECT NULL AND 9223372036854775807 + 1",
        ["a\tb", "0\t1", "ERROR 1690: BIGINT value is out of range"],
    ),
    Example(
        "a fault in an aggregate, whatever stands round it",
        "SELECT 0 AND SUM(id + 9223372036854775807) FROM n",
        ["ERROR 1690: BIGINT value is out of range"],
    ),
    Example(
        "escapes of LIKE",
        r"SELECT 'a\\' LIKE 'a\\' a, 'a%' LIKE 'a\%' b, 'ab' LIKE 'a\%' c,"
        r" 'a%' LIKE 'a\%' ESCAPE '' d, 'ab' LIKE 'a_ ' e, 'abcabd' LIKE '%abd' f",
        ["a\tb\tc\td\te\tf", "1\t1\t0\t0\t0\t1"],
    ),
    Example(
        "groups by their first rows, and their order",
        "SELECT name, COUNT(*) FROM p WHERE name LIKE 'Mü%' GROUP BY name ORDER BY name DESC",
        ["name\tCOUNT(*)", "Müller\t3", "Mueller\t1"],
    ),
    Example(
        "rows of one class keep their order, NULL is last",
        "SELECT name FROM p ORDER BY name DESC",
        ["name", "Müller", "müller", "Muller", "Mueller", "Meier", "NULL"],
    ),
    Example("rows that differ", "SELECT DISTINCT name FROM p ORDER BY name LIMIT 3 OFFSET 1",
        ["name", "Meier", "Mueller", "Müller"]),
    Example(
        "aggregates",
        "SELECT COUNT(name) a, COUNT(*) b, COUNT(DISTINCT name) c, MIN(name) d, MAX(name) e,"
        " SUM(id) f FROM p;SELECT COUNT(*) a, SUM(id) b FROM p WHERE id > 9",
        ["a\tb\tc\td\te\tf", "5\t6\t3\tMeier\tMüller\t21", "a\tb", "0\tNULL"],
    ),
    Example(
        "what isn't grouped, and aggregates at wrong places",
        "SELECT id, COUNT(*) FROM p;SELECT p.name FROM p GROUP BY name;SELECT SUM(COUNT(*)) FROM p;"
        "SELECT id FROM p WHERE MAX(id) > 1;SELECT 1 FROM p GROUP BY (1);SELECT 1 a ORDER BY a",
        [
            "ERROR 1055: Column 'id' is not grouped",
            "ERROR 1055: Column 'name' is not grouped",
            "ERROR 9002: wrong argument for 'count'",
            "ERROR 9002: wrong argument for 'max'",
            "ERROR 9002: wrong argument for 'group by'",
            "a",
            "1",
        ],
    ),
    Example(
        "string functions",
        "SELECT CONCAT(1, 2) a, CONCAT_WS(',', 'x', NULL, 'y') b, SUBSTRING('abcd', -3, 2) c,"
        " TRIM('  x ') d, LPAD('7', 3, '0') e, REVERSE('añ') f, REPLACE('aXbx', 'x', '-') g,"
        " STRCMP('a', 'B') h, HEX(-1) i, LEFT('añb', 2) j, RIGHT('añb', 2) k",
        ["a\tb\tc\td\te\tf\tg\th\ti\tj\tk",
            "12\tx,y\tbc\tx\t007\tña\taXb-\t-1\tFFFFFFFFFFFFFFFF\tañ\tñb"],
    ),
    Example(
        "numbers, and what NULL does",
        "SELECT 7 DIV 2 a, -7 % 3 b, 1 DIV 0 c, NULL AND 0 d, NULL OR 1 e, 2 IN (1, NULL) f,"
        " NULL <=> NULL g, 5 BETWEEN NULL AND 4 h, (-9223372036854775807 - 1) % -1 i",
        ["a\tb\tc\td\te\tf\tg\th\ti", "3\t-1\tNULL\t0\t1\tNULL\t1\t0\t0"],
    ),
    Example(
        "sets",
        "SELECT HEX(CONVERT('é€' USING latin1)) a, HEX(CONVERT('😀' USING utf16)) b,"
        " HEX(CONVERT('😀' USING ucs2)) c, CONVERT(X'FF' USING utf8mb4) d",
        ["a\tb\tc\td", "E980\tD83DDE00\t003F\tNULL"],
    ),
    Example("columns of three types", "SELECT HEX(a) a, b, c FROM y",
        ["a\tb\tc", "61\t0x00FF\t0x4100", "\t0x\t0x0000"]),
    Example(
        "the first refusal, in a call's operands before the call",
        "SELECT nope(nope) FROM p;SELECT 'a' COLLATE nope = 1;SELECT 'a' = 1;SELECT LEFT('a');"
        "SELECT 1 FROM nope;SELECT _latin1'a' COLLATE utf8mb4_bin;SELECT 'a' LIKE 'b' ESCAPE 'cd'",
        [
            "ERROR 1054: Unknown column 'nope'",
            "ERROR 1273: Unknown collation: 'nope'",
            "ERROR 9002: wrong argument for '='",
            "ERROR 1582: Incorrect parameter count in the call to native function 'left'",
            "ERROR 1146: Table 'nope' doesn't exist",
            "ERROR 1253: COLLATION 'utf8mb4_bin' is not valid for CHARACTER SET 'latin1'",
            "ERROR 9002: wrong argument for 'escape'",
        ],
    ),
]  # fmt: skip

# A program that answers as the plain implementation does, but for what `twist` says.
PROGRAM = """#!{python}
import sys
sys.path.insert(0, {tools!r})
from pathlib import Path
from selects.scan import answer
from selects.trees import statements_of
from selects.worlds import read_world
catalog, script = sys.argv[1:]
files = {{it.name: it.read_bytes().decode() for it in Path(".").iterdir()}}
world = read_world(files, catalog)
answers = [answer(each, world) for each in statements_of(files[script])]
status = int(any(each.startswith("ERROR") for each in answers))
{twist}
sys.stdout.buffer.write("".join(answers).encode())
sys.exit(status)
"""


class PlainTest(unittest.TestCase):
    """The plain implementation."""

    def test_worked_examples(self) -> None:
        """Each example has its lines."""
        world = read_world(FILES)
        for example in EXAMPLES:
            told = "".join(answer(it, world) for it in statements_of(example.script))
            self.assertEqual(example.lines, told.split("\n")[:-1], example.why)

    def test_strings(self) -> None:
        """Escapes, doubled quotes and strings side by side."""
        [statement] = statements_of(r"""SELECT 'a\'b''c' "d""e\%\x\n" FROM t;""")
        self.assertEqual("a'b'cd\"e\\%x\n", statement.items[0].expr.data)

    def test_trees(self) -> None:
        """Parentheses make no other expression; a table's name does."""
        script = "SELECT (a) + ((1)), A + 1, t.a + 1, a AND b AND c, (a AND b) AND c"
        one, same, other, flat, deep = (item.expr for item in statements_of(script)[0].items)
        self.assertEqual(one, same)
        self.assertNotEqual(one, other)
        self.assertNotEqual(flat, deep)

    def test_what_is_not_read(self) -> None:
        """Comparisons that are chained, and a statement that goes on."""
        scripts = ["SELECT 1 = 2 = 3", "SELECT 1 1", "SELECT (1", "SELECT 'a", "SELECT 1 LIMIT a"]
        for script in scripts:
            with self.assertRaises((SyntaxError, ValueError), msg=script):
                statements_of(script)


class MakingTest(unittest.TestCase):
    """Random files and statements."""

    def test_all_are_answered(self) -> None:
        """Whatever is made is read, and answered or refused."""
        dice = random.Random(3)
        refusals = set()
        for _ in range(4):
            made = make_files(dice)
            world = read_world(made.files)
            plain = {**made.files, "cat.txt": without_indexes(made.files["cat.txt"])}
            self.assertFalse(any(table.indexed for table in read_world(plain).tables.values()))
            maker = Maker(world, made.pool, dice)
            for _ in range(25):
                [statement] = statements_of(maker.statement(0.1, 0.1))
                told = answer(statement, world)
                refusals.add(told[6:10] if told.startswith("ERROR") else "none")
        self.assertLess({"none", "1054", "1055", "9002"}, refusals)


class ProgramTest(unittest.TestCase):
    """The whole, over programs that are made up."""

    def setUp(self) -> None:
        """A folder for the program, and a list of folders that are kept."""
        holder = tempfile.TemporaryDirectory()
        self.addCleanup(holder.cleanup)
        self.program = Path(holder.name) / "program"

    def told(self, twist: str, *words: str) -> tuple[int, str]:
        """The status, and what is printed over a program with this twist."""
        tools = str(Path(__file__).resolve().parent)
        body = PROGRAM.format(python=sys.executable, tools=tools, twist=twist)
        self.program.write_text(body, encoding="utf-8")
        self.program.chmod(0o755)
        with contextlib.redirect_stdout(io.StringIO()) as out:
            with contextlib.redirect_stderr(io.StringIO()):
                status = check_select.main(["--program", str(self.program), *words, "20"])
        for line in out.getvalue().split("\n"):
            if line.startswith("The files are in "):
                folder = line.removeprefix("The files are in ").split(":")[0]
                self.assertTrue((Path(folder) / "s.sql").is_file())
                shutil.rmtree(folder)
        return status, out.getvalue()

    def test_a_program_that_is_right(self) -> None:
        """All answers are the same, also without indexes."""
        status, out = self.told("", "--indexes")
        self.assertEqual(0, status)
        self.assertEqual("20 passed, 0 failed", out.split("\n")[-2])
        self.assertNotIn("The files are in", out)

    def test_a_program_that_is_wrong_once(self) -> None:
        """The statement is told with both answers."""
        status, out = self.told("answers[8] = 'x\\n1\\n'; status = 1")
        self.assertEqual(1, status)
        self.assertEqual("19 passed, 1 failed", out.split("\n")[-2])
        lines = out.split("\n")
        self.assertTrue(lines[0].startswith("SELECT "))
        self.assertEqual("  wanted:", lines[1])
        self.assertIn("  the program says:\n    x\n    1\nThe files are in ", out)

    def test_a_program_whose_indexes_are_wrong(self) -> None:
        """An answer that changes without the index lines is told."""
        twist = "if catalog == 'plain.txt': answers[8] = 'x\\n'"
        status, out = self.told(twist, "--indexes")
        self.assertEqual(1, status)
        self.assertIn("  without:\n    x\nThe files are in ", out)
        self.assertEqual(0, self.told(twist)[0])

    def test_programs_that_end_otherwise(self) -> None:
        """Another status, and a program that refuses the files, fail the whole script."""
        for twist in ["status = 2", "answers = ['refused cat.txt BadLine 1\\n']; status = 3"]:
            status, out = self.told(twist)
            self.assertEqual(1, status)
            self.assertEqual("0 passed, 20 failed", out.split("\n")[-2])


def main() -> int:
    """Runs all tests, and counts them."""
    tests = unittest.defaultTestLoader.loadTestsFromModule(sys.modules[__name__])
    result = unittest.TextTestRunner().run(tests)
    broken = {str(test).partition(" ")[0] for test, _ in result.failures + result.errors}
    sys.stderr.flush()
    print(f"{result.testsRun - len(broken)} passed, {len(broken)} failed")
    return 0 if result.wasSuccessful() else 1


if __name__ == "__main__":
    sys.exit(main())
