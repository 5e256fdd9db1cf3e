"""A folder for each test, in which check_migration.py runs."""

import contextlib
import io
import os
import tempfile
import unittest
from pathlib import Path
from unittest import mock

import check_migration
from migration import progress

STAND_IN = Path(__file__).resolve().parent / "stand_in.py"

LETTERS = """# small letters as capital ones, a with acute as A, sharp s as S
0061..007A @ 0041
00DF 0053
00E1 0041
"""
"""The weights of the tests, in the form `general`."""

PADS = ["--to", "utf8mb4_general_ci", "--weights", "utf8mb4_general_ci.txt"]


class Run:
    """What a run printed, said beside it, and its status."""

    def __init__(self, printed: str, said: str, status: int) -> None:
        self.printed = printed
        self.said = said
        self.status = status


class InRoom(unittest.TestCase):
    """The folder of a test, with a weight file of the collation utf8mb4_general_ci."""

    maxDiff = None

    def setUp(self) -> None:
        keeper = tempfile.TemporaryDirectory()
        self.addCleanup(keeper.cleanup)
        self.room = Path(keeper.name)
        self.addCleanup(os.chdir, os.getcwd())
        os.chdir(self.room)
        patch = mock.patch.object(progress, "PAUSE", 1e9)
        patch.start()
        self.addCleanup(patch.stop)
        (self.room / "utf8mb4_general_ci.txt").write_text(LETTERS)

    def run_check(self, *words: str, refuses: str = "") -> Run:
        """One run of the tool by these words, mycoll played by the stand-in."""
        return self.run_words(*words, "--mycoll", str(STAND_IN), refuses=refuses)

    def run_words(self, *words: str, refuses: str = "") -> Run:
        """One run of the tool by these words alone."""
        printed, said = io.StringIO(), io.StringIO()
        with contextlib.redirect_stdout(printed), contextlib.redirect_stderr(said):
            with mock.patch.dict(os.environ, {"STAND_IN_REFUSES": refuses}):
                status = check_migration.main(list(words))
        return Run(printed.getvalue(), said.getvalue(), status)

    def check(self, dump: "str | bytes", *words: str, refuses: str = "") -> Run:
        """A run over a dump of this text, towards utf8mb4_general_ci."""
        raw = dump.encode("utf-8") if isinstance(dump, str) else dump
        (self.room / "d.sql").write_bytes(raw)
        return self.run_check("d.sql", *PADS, *words, refuses=refuses)

    def expect(self, run: Run, lines: str, status: int) -> None:
        """What a run printed behind its first lines, which say what is checked."""
        head, _, rest = run.printed.partition("\n\n")
        self.assertEqual((rest.rstrip("\n"), run.said), (lines.strip("\n"), ""))
        self.assertTrue(head.startswith("d.sql to utf8mb4_general_ci, general by "), head)
        self.assertEqual(run.status, status)


def table(columns: str, rows: str, options: str = "COLLATE=utf8mb4_bin") -> str:
    """A dump of one table t."""
    insert = f"INSERT INTO `t` VALUES {rows};\n" if rows else ""
    return f"CREATE TABLE `t` (\n{columns}\n) ENGINE=InnoDB {options};\n{insert}"
