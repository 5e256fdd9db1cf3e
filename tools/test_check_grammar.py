#!/usr/bin/env python3
"""Tests of check_grammar.py: its chart parser by hand, and the whole over a program that is made
up."""

import contextlib
import io
import random
import sys
import tempfile
import unittest
from pathlib import Path

import check_grammar
from statements.chart import Chart, verdict_of
from statements.grammar import GRAMMAR, Token, is_of
from statements.making import a_list, derived, spelled
from statements.texts import tokens_of

# Where a statement cannot go on, `|` stands; `^` where it is too deep. Others are read.
STATEMENTS = f"""
SELECT mod |1
SELECT mod(1)
SELECT 'a' = 'b' |= 'c'
SELECT * |LIMIT 1
SELECT *, a FROM t
SELECT 1 FROM t WHERE a LIKE b ESCAPE |5
SELECT a LIKE b ESCAPE
SELECT (a LIKE b ESCAPE|)
SELECT a BETWEEN 1 |OR 2
SELECT COUNT(DISTINCT|)
SELECT cast, CAST(a|)
SELECT _latin1 'a' 'b', _latin1
SELECT _nope |'a'
SELECT X'41' |'a'
SELECT `f`|(1)
SELECT {"(" * 64}1{")" * 64}
SELECT {"(" * 64}^(1
SELECT {"NOT " * 64}1 AND (1)
SELECT {"-(" * 32}^-1
SELECT {"(" * 64}|= (
SELECT {"(" * 63}COUNT(*|, 1)
SELECT {"1+" * 100}|
SELECT {"1+" * 1023}1
SELECT {"1+" * 1022}1 |1
""".strip().split("\n")


class ChartTest(unittest.TestCase):
    """The chart parser at statements whose place is marked."""

    def test_places(self) -> None:
        """Each statement is refused where it says, or read."""
        for marked in STATEMENTS:
            mark = next((mark for mark in "|^" if mark in marked), None)
            tokens, places = tokens_of(marked.replace("|", "").replace("^", ""))
            wanted = {None: "read", "|": "stuck", "^": "deep"}[mark]
            verdict = verdict_of(tokens)
            self.assertEqual(wanted, verdict.what, marked)
            if mark:
                self.assertEqual(marked.index(mark), places[verdict.place], marked)

    def test_too_many(self) -> None:
        """One token more than a statement may have, wherever it is stuck."""
        tokens, _ = tokens_of(f"{'1+' * 1024}1")
        self.assertEqual("many", verdict_of(tokens).what)
        self.assertEqual("stuck", verdict_of(tokens[:-1]).what)

    def test_rules(self) -> None:
        """A rule for each line of the grammar, and what may stand at the start."""
        self.assertIn("limited", GRAMMAR.rules)
        self.assertEqual({"explain", "select"}, Chart(None).terminals())

    def test_classes(self) -> None:
        """Words of two classes, and of none."""
        self.assertTrue(is_of("NAME", Token("name", "select")))
        self.assertFalse(is_of("NAME", Token("word", "mod")))
        self.assertTrue(is_of("CALLED", Token("word", "mod")))
        self.assertFalse(is_of("CALLED", Token("name", "f")))
        self.assertFalse(is_of("INTRO", Token("word", "_nope")))


class MakingTest(unittest.TestCase):
    """Random lists."""

    def test_derivations_are_read(self) -> None:
        """A derivation has a reading, however deep it is."""
        dice = random.Random(1)
        for _ in range(20):
            chart = Chart(None)
            self.assertTrue(all(chart.takes(token) for token in derived(dice)))
            self.assertTrue(chart.is_whole)

    def test_spellings(self) -> None:
        """What is written is read back as the same tokens."""
        dice = random.Random(2)
        for _ in range(20):
            tokens = a_list(dice)
            text = " ".join(spelled(token, dice) for token in tokens)
            self.assertEqual(tokens, tokens_of(text)[0])


class ProgramTest(unittest.TestCase):
    """The whole, over programs that are made up."""

    def passes_with(self, body: str) -> bool:
        """Whether all is well with a program of this body."""
        with tempfile.TemporaryDirectory() as folder:
            program = Path(folder) / "mycoll"
            program.write_text(f"#!{sys.executable}\nimport sys\n{body}\n")
            program.chmod(0o755)
            return check_grammar.main(["--program", str(program), "20"]) == 0

    def test_a_program_without_answers(self) -> None:
        """No answer is no pass."""
        self.assertFalse(self.passes_with("pass"))

    def test_a_program_that_reads_all(self) -> None:
        """A refusal is missed."""
        self.assertFalse(
            self.passes_with("print('h\\n1\\nend_of_answer\\n1\\n' * 20, end='')")
        )

    def test_the_grammar_itself(self) -> None:
        """A program that says what is wanted."""
        dice = random.Random(1)
        statements = [check_grammar.statement_of(a_list(dice), dice) for _ in range(20)]
        start, answers = 0, []
        for statement in statements:
            wanted = check_grammar.wanted_of(verdict_of(statement.tokens), statement, start)
            answers.append(dice.choice(["h\n1", "h"]) if wanted == "read" else wanted)
            answers.append("end_of_answer\n1")
            start += len(statement.text) + len(";\nSELECT 1 AS end_of_answer;\n")
        answer = "\n".join(answers)
        self.assertTrue(self.passes_with(f"print({answer!r})"))


def main() -> int:
    """Runs all tests, and counts them."""
    tests = unittest.defaultTestLoader.loadTestsFromModule(sys.modules[__name__])
    with contextlib.redirect_stdout(io.StringIO()):
        result = unittest.TextTestRunner().run(tests)
    broken = {str(test).partition(" ")[0] for test, _ in result.failures + result.errors}
    sys.stderr.flush()
    print(f"{result.testsRun - len(broken)} passed, {len(broken)} failed")
    return 0 if result.wasSuccessful() else 1


if __name__ == "__main__":
    sys.exit(main())
