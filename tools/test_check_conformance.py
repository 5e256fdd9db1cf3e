#!/usr/bin/env python3
"""Tests of check_conformance.py over a program that is made up: it compares by bytes."""

import contextlib
import io
import sys
import tempfile
import unittest
from pathlib import Path

import check_conformance

FILE = """# a comment, and a line without text

0041; # A
0061; # a
0061 0300;
00E0; # in NFC
D800; # no character
0062;
0042; # out of order by bytes
"""

PROGRAM = """#!/usr/bin/env python3
import re, sys
assert sys.argv[1:] == ["cat.txt", "s.sql"], sys.argv
assert open("cat.txt").read() == "collation three utf8mb4 uca900_as_cs elements.txt\\n"
assert open("elements.txt").read() == "weights"
for line in open("s.sql"):
    first, second = re.findall("X'([0-9a-f]*)'", line)
    print("a")
    print(int(first <= second))
"""


class ConformanceTest(unittest.TestCase):
    """The tool over four lines in order and two that are not."""

    def setUp(self) -> None:
        """A folder with a conformance file, weights and a program."""
        holder = tempfile.TemporaryDirectory()
        self.addCleanup(holder.cleanup)
        self.folder = Path(holder.name)
        (self.folder / "test.txt").write_text(FILE, encoding="utf-8")
        (self.folder / "weights.txt").write_text("weights", encoding="utf-8")
        program = self.folder / "program"
        program.write_text(PROGRAM, encoding="utf-8")
        program.chmod(0o755)

    def told(self, file: str, program: str = "program") -> tuple[int, str]:
        """The status, and what is printed."""
        words = ["--weights", str(self.folder / "weights.txt"), str(self.folder / file)]
        words = ["--program", str(self.folder / program), *words]
        with contextlib.redirect_stdout(io.StringIO()) as out:
            with contextlib.redirect_stderr(out):
                status = check_conformance.main(words)
        return status, out.getvalue()

    def test_shares(self) -> None:
        """Pairs in NFD and others are counted apart; those of a surrogate are left out."""
        status, out = self.told("test.txt")
        self.assertEqual(1, status)
        self.assertEqual(
            "both in NFD: 3 pairs, 1 out of order (33.333 %)\n"
            "  line 9: 0062 is greater than 0042\n"
            "otherwise: 1 pairs, 0 out of order (0.000 %)\n",
            out,
        )

    def test_another_file(self) -> None:
        """A file with other words than code points is refused."""
        status, out = self.told("weights.txt")
        self.assertEqual(2, status)
        self.assertIn("weights.txt: no conformance file: ", out)

    def test_a_program_that_refuses(self) -> None:
        """An answer that is neither 0 nor 1 ends the run."""
        program = self.folder / "refusing"
        program.write_text("#!/bin/sh\necho refused elements.txt BadLine 1; exit 3\n")
        program.chmod(0o755)
        with self.assertRaises(SystemExit) as stopped:
            self.told("test.txt", "refusing")
        self.assertIn("refused elements.txt BadLine 1", str(stopped.exception))


def main() -> int:
    """Runs all tests, and counts them."""
    tests = unittest.defaultTestLoader.loadTestsFromModule(sys.modules[__name__])
    result = unittest.TextTestRunner().run(tests)
    broken = len(result.failures) + len(result.errors)
    sys.stderr.flush()
    print(f"{result.testsRun - broken} passed, {broken} failed")
    return 0 if result.wasSuccessful() else 1


if __name__ == "__main__":
    sys.exit(main())
