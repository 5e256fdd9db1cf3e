#!/usr/bin/env python3
"""Tests of gate_time.py, on processes and folders that are made up."""

import os
import sys
import tempfile
import unittest
from pathlib import Path

from gate.processes import ticks_per_second
from gate.report import BEGIN, END, between_marks, printed_report, table_for_document
from gate.sizes import Sizes, functions_in, sizes_of
from gate.work import Job, Work, job_of

PROVER = ["/kit/bin/rattle", "check", "--crate-name"]


class InFolder(unittest.TestCase):
    """A folder for each test: proc/ plays /proc."""

    def setUp(self) -> None:
        keeper = tempfile.TemporaryDirectory()
        self.addCleanup(keeper.cleanup)
        self.top = Path(keeper.name)
        self.proc = self.top / "proc"
        self.proc.mkdir()
        (self.proc / "meminfo").write_text("")

    def process(self, pid: int, parent: int, words: list[str], own: float, waited: float) -> None:
        """A process with its seconds; its name has a blank and a bracket."""
        place = self.proc / str(pid)
        place.mkdir(exist_ok=True)
        ticks = [round(each * ticks_per_second()) for each in (own, waited)]
        head = [parent, *[0] * 9, ticks[0], 0, ticks[1], 0, 20, 0, 1, 0, 1000 + pid]
        (place / "stat").write_text(f"{pid} (a ) b) S {' '.join(map(str, head))} 0 0\n")
        (place / "cmdline").write_bytes(b"".join(word.encode() + b"\0" for word in words))

    def works_in(self, pid: int, name: str) -> Path:
        """The folder of a process."""
        folder = self.top / name
        folder.mkdir(exist_ok=True)
        (self.proc / str(pid) / "cwd").symlink_to(folder)
        return folder

    def end(self, pid: int) -> None:
        """A process is gone."""
        place = self.proc / str(pid)
        for path in place.iterdir():
            path.unlink()
        place.rmdir()


class Processes(InFolder):
    """Which processes count, and for what."""

    def test_a_job_with_children_beside_another_gate(self) -> None:
        self.process(10, 1, ["python3", "/kit/bin/rt", "ci"], 2, 5)
        self.process(11, 10, [*PROVER, "mc_a"], 30, 0)
        self.process(12, 11, [*PROVER, "mc_a"], 4, 0)
        self.process(20, 1, ["python3", "/kit/bin/rt", "ci"], 0, 0)
        self.process(21, 20, [*PROVER, "mc_b"], 99, 0)
        work = Work(10, self.proc)
        self.assertTrue(work.sample())
        # The child of the job ends, and then the job itself.
        self.end(12)
        self.process(11, 10, [*PROVER, "mc_a"], 31, 4)
        self.assertTrue(work.sample())
        self.end(11)
        self.process(10, 1, ["python3", "/kit/bin/rt", "ci"], 3, 40.5)
        self.assertTrue(work.sample())
        self.end(10)
        self.assertFalse(work.sample())
        self.assertEqual(work.seconds(), {("mc_a", "build"): 35})
        self.assertEqual(work.all_seconds(), 43.5)

    def test_a_number_that_comes_again_is_another_job(self) -> None:
        self.process(10, 1, ["rt"], 0, 0)
        self.process(11, 10, [*PROVER, "mc_a"], 7, 0)
        work = Work(10, self.proc)
        work.sample()
        self.process(11, 10, [*PROVER, "mc_b", "--test"], 1, 0)
        stat = self.proc / "11" / "stat"
        stat.write_text(stat.read_text().replace(" 1011 ", " 2000 "))
        work.sample()
        self.assertEqual(work.seconds(), {("mc_a", "build"): 7, ("mc_b", "tests"): 1})

    def test_what_processes_do(self) -> None:
        rows = [
            ("a library", ["/kit/bin/rattle", "build", "--crate-name", "c"], "/r/c",
             Job("c", "build", None)),
            ("a check", [*PROVER, "c", "--incremental", "out/kept"], "/r/c",
             Job("c", "build", Path("/r/c/out/kept"))),
            ("tests", [*PROVER, "c", "--test"], "/r/c", Job("c", "tests", None)),
            ("an edit", [*PROVER, "c", "--incremental", "/tmp/rt-edits-1-x/3"], "/tmp/rt-edit-1-y",
             Job("c", "edits", Path("/tmp/rt-edits-1-x/3"))),
            ("a formatter", ["/kit/bin/rattle", "fmt"], "/r/c", None),
            ("no prover", ["python3", "rattle", "check", "--crate-name", "c"], "/r/c", None),
            ("no words", [], "/r/c", None),
        ]
        for why, words, folder, job in rows:
            with self.subTest(why):
                self.assertEqual(job_of(words, Path(folder)), job)

    def test_the_dearest_edits_by_name(self) -> None:
        work = Work(10, self.proc)
        for number, (crate, kept, seconds) in enumerate([
            ("c", "seed", 90), ("c", "0", 9), ("c", "1", 20), ("d", "1", 30), ("c", "1", 1),
        ]):
            work.jobs[number, 0] = Job(crate, "edits", Path("/tmp/rt-edits-1-x") / kept)
            work.ticks[number, 0] = seconds * ticks_per_second()
        report = printed_report(work, {"c": ["drops_a_line", "tells_another"], "d": []})
        told = report.partition("The dearest edits:\n")[2].partition("\n\n")[0]
        self.assertEqual(told.splitlines(), [
            "  30.0 s   d  number 1", "  21.0 s   c  tells_another", "   9.0 s   c  drops_a_line",
        ])

    def test_modules_stay_known_when_their_folder_goes(self) -> None:
        self.process(10, 1, ["rt"], 0, 0)
        self.process(11, 10, [*PROVER, "c", "--incremental", "kept"], 1, 0)
        kept = self.works_in(11, "rt-edit-1-x") / "kept" / "antt-checked-81_0.0.0_src-0"
        kept.mkdir(parents=True)
        for name, size in [("Rattle-c-proofs.m.f.Lts.oantt", 7_000_000), ("judged", 9),
                           ("Rattle-c-proofs.m.g.Lts-h.oantt", 50_000)]:
            (kept / name).touch()
            os.truncate(kept / name, size)
        work = Work(10, self.proc)
        work.sample()
        work.look_at_modules()
        for path in kept.iterdir():
            path.unlink()
        kept.rmdir()
        work.look_at_modules()
        self.assertEqual(work.modules, {("c", "m.f.Lts"): 7_000_000, ("c", "m.g.Lts-h"): 50_000})
        report = printed_report(work, {})
        self.assertIn("crate     build  tests  edits  all\n", report)
        self.assertIn("c                           1    1\n", report)
        self.assertTrue(report.endswith("   7.0 MB  c  m.f.Lts\n   0.1 MB  c  m.g.Lts-h\n"))


class Tables(InFolder):
    """What stands in the document."""

    def test_the_lines_of_a_crate(self) -> None:
        files = {
            "src/lib.rt": "mod a;\n\nmod tests;\n", "src/a/b.rt": "fn f() {}\n",
            "src/tests.rt": "x\n", "src/a_tests.rt": "x\n",
            "specs/Lib.antt": "x\n", "specs/formers/A.antt": "x\ny\n",
            "proofs/f/Answers.antt": " \nx\n",
            "must-fail/one.edit": "file: src/lib.rt\n", "must-fail/read.md": "",
        }
        for name, text in files.items():
            path = self.top / name
            path.parent.mkdir(parents=True, exist_ok=True)
            path.write_text(text)
        self.assertEqual(sizes_of(self.top), Sizes(code=3, definitions=3, proofs=1, edits=1))

    def test_functions_of_a_crate_without_its_tests(self) -> None:
        printed = (
            "== mc_a: its tests\nlogic=proved functions=9 sum=0\n== mc_a\nfn mc_a::f: proved\n"
            "logic=proved functions=7 sum=0\nrt: mc_a proved\nlogic=proved functions=8\n"
            "== mc_b\nlogic=not-proved functions=3 sum=0\n"
        )
        self.assertEqual(functions_in(printed), {"mc_a": 7})

    def test_a_table_between_two_marks(self) -> None:
        work = Work(10, self.proc)
        work.jobs = {(1, 1): Job("mc_a", "build", None), (2, 1): Job("mc_a", "edits", None)}
        work.ticks = {(1, 1): 100 * ticks_per_second(), (2, 1): 50 * ticks_per_second()}
        sizes = {name: Sizes(1, 2, 3, 4) for name in ("mc_a", "mc_b", "mc_c")}
        old = (
            "| `mc_a` | 7 | 0 | 0 | 0 | 0 | 9 |  |  | 9 |\n"
            "| `mc_b` | 8 | 0 | 0 | 0 | 0 | 30 |  |  | 30 |"
        )
        document = f"One.\n{BEGIN}\n{old}\n{END}\nTwo.\n"
        table = table_for_document(sizes, {"mc_a": 8}, work, document)
        text = between_marks(document, table)
        self.assertEqual(text.splitlines(), [
            "One.", BEGIN,
            "| crate | functions | code | definitions | proofs | edits | build s | tests s"
            " | edits s | all s |",
            "|---|---|---|---|---|---|---|---|---|---|",
            "| `mc_a` | 8 | 1 | 2 | 3 | 4 | 100 |  | 50 | 150 |",
            "| `mc_b` | 8 | 1 | 2 | 3 | 4 | 30 |  |  | 30 |",
            "| `mc_c` |  | 1 | 2 | 3 | 4 |  |  |  |  |",
            "",
            "From nothing, all crates together: 3 processor minutes; not measured yet: 1 crates.",
            END, "Two.",
        ])
        self.assertEqual(text, between_marks(text, table_for_document(sizes, {}, Work(0), text)))
        for broken in ("no marks", f"{BEGIN}\n{BEGIN}\n{END}\n", BEGIN):
            with self.assertRaises(ValueError):
                between_marks(broken, table)


def main() -> int:
    """Runs all tests, and counts them."""
    tests = unittest.defaultTestLoader.loadTestsFromModule(sys.modules[__name__])
    result = unittest.TextTestRunner().run(tests)
    broken = {str(test).partition(" ")[0] for test, _ in result.failures + result.errors}
    sys.stderr.flush()
    print(f"{result.testsRun - len(broken)} passed, {len(broken)} failed")
    return 0 if result.wasSuccessful() else 1


if __name__ == "__main__":
    sys.exit(main())
