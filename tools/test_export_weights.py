#!/usr/bin/env python3
"""Tests of export_weights.py over small charset files and a client that a stub plays.

Run as it lies: tools/test_export_weights.py. The last line counts: N passed, M failed.
"""

import json
import os
import subprocess
import sys
import tempfile
import unittest
from collections.abc import Callable
from pathlib import Path
from unittest import mock

from weights.fault import Fault
from weights.output import Target
from weights.table import Table

EXPORT = Path(__file__).resolve().parent / "export_weights.py"

STUB = """#!%s
# Plays the server's client: every character is its own weight, but for what client.json says.
import json, pathlib, re, sys
told = json.loads(pathlib.Path(__file__).with_name("client.json").read_text())
pathlib.Path(__file__).with_name("words").write_text("\\n".join(sys.argv[1:]))
for line in sys.stdin:
    label = re.match("SELECT '([^']*)'", line).group(1)
    if label == told.get("die"):
        sys.stderr.write("ERROR 2013 (HY000) at line 5: Lost connection to server during query\\n")
        sys.exit(1)
    if label == told.get("end"):
        sys.exit(0)
    if label == told.get("short"):
        line = line.rpartition(",")[0]
    fields = re.findall("WEIGHT_STRING\\\\(_[a-z0-9]+ X'([0-9A-F]*)'", line)
    fields = [told.get("weights", {}).get(each, each) for each in fields]
    if label.startswith("pairs "):
        text = re.search("X'([0-9A-F]*)'", line).group(1)
        each = [text[at : at + 2] for at in range(0, len(text), 2)]
        fields = ["".join(told.get("weights", {}).get(byte, byte) for byte in each)]
        fields = [fields[0].replace(*told.get("together", ["-", "-"]))]
    if label == "server":
        fields = ["8.0.99", "Stub"]
    if label.startswith("set "):
        fields = [told.get("set") or label[4:].partition("_")[0]]
    if label.startswith("pads "):
        fields = [told.get("pads", "1")]
    print("\\t".join([label, *fields]))
"""

UPPER = {f"{byte:02X}": f"{byte - 0x20:02X}" for byte in range(0x61, 0x7B)}
UPPER_UCS2 = {f"00{byte}": f"00{weight}" for byte, weight in UPPER.items()}


def charset_file(numbers: list[str], charset: str = "latin1") -> str:
    """A charset file with one map of weights."""
    weights = " ".join(numbers)
    return f"""<?xml version='1.0' encoding="utf-8"?>
<charsets><charset name="{charset}">
<lower><map>00 01</map></lower>
<collation name="{charset}_x_ci"><map>{weights}</map></collation>
</charset></charsets>
"""


def upper_map() -> list[str]:
    """Each byte is its own weight, but small letters have that of the capital ones."""
    own = [f"{byte:02X}" for byte in range(0x100)]
    return [UPPER.get(byte, byte) for byte in own]


class InFolder(unittest.TestCase):
    """A folder for each test: bin/ is all of the PATH, out/ takes what is written."""

    def setUp(self) -> None:
        self.keeper = tempfile.TemporaryDirectory()
        self.addCleanup(self.keeper.cleanup)
        self.top = Path(self.keeper.name)
        (self.top / "bin").mkdir()
        (self.top / "out").mkdir()

    def run_export(self, *words: str) -> subprocess.CompletedProcess[str]:
        """One run of the tool in the folder."""
        return subprocess.run(
            [sys.executable, "-B", str(EXPORT), *words],
            cwd=self.top,
            env={"PATH": str(self.top / "bin")},
            capture_output=True,
            text=True,
            check=False,
        )

    def run_xml(self, text: str, *words: str) -> subprocess.CompletedProcess[str]:
        """The form `xml` over one file of this text."""
        (self.top / "x.xml").write_text(text)
        return self.run_export("xml", "--out", "out", "--origin", "MySQL 8.0.1", *words, "x.xml")

    def run_server(self, told: dict[str, object], *words: str) -> subprocess.CompletedProcess[str]:
        """The form `server`, its client played by the stub with what it is told."""
        stub = self.top / "bin" / "mariadb"
        stub.write_text(STUB % sys.executable)
        stub.chmod(0o755)
        (self.top / "bin" / "client.json").write_text(json.dumps(told))
        return self.run_export("server", "--out", "out", *words)

    def lines(self, name: str) -> list[str]:
        """The lines of a written file, its comments left out."""
        text = (self.top / "out" / name).read_text()
        return [line for line in text.splitlines() if not line.startswith("#")]

    def written(self) -> list[str]:
        """What the folder of the run holds, hidden files among it."""
        return sorted(os.listdir(self.top / "out"))

    def refused(self, run: subprocess.CompletedProcess[str], *said: str) -> None:
        """A run that ended with a fault, said so and wrote nothing."""
        self.assertEqual(run.returncode, 1, run.stderr)
        for words in (*said, "nothing was written; "):
            self.assertIn(words, run.stderr)
        self.assertEqual((run.stdout, self.written()), ("", []))


class FromCharsetFiles(InFolder):
    """The form `xml`."""

    def test_a_map_of_256_numbers(self) -> None:
        run = self.run_xml(charset_file(upper_map()))
        self.assertEqual(run.returncode, 0, run.stderr)
        self.assertEqual(self.written(), ["latin1_x_ci.txt"])
        self.assertEqual(self.lines("latin1_x_ci.txt"), ["default =", "61..7A @ 41"])
        first, second = (self.top / "out" / "latin1_x_ci.txt").read_text().splitlines()[:2]
        self.assertRegex(first, r"^# latin1_x_ci, the weights of latin1 as a table8 file, from ")
        self.assertRegex(first, r"from x\.xml \(sha256 [0-9a-f]{16}\.\.\) of MySQL 8\.0\.1, by: ")
        self.assertRegex(first, r"export_weights\.py xml --out out --origin 'MySQL 8\.0\.1' x\.xml")
        line = "collation latin1_x_ci latin1 table8 out/latin1_x_ci.txt"
        self.assertEqual(second, f"# In a catalog: {line}")
        self.assertEqual(run.stdout, f"{line}\n")

    def test_collations_without_a_file_are_listed(self) -> None:
        ask = "ask a server: tools/export_weights.py server"
        rows = [
            ("latin1", '<collation name="latin1_german2_ci"/>',
             f"latin1_german2_ci: is only named in x.xml; look in latin1.xml, or {ask}"
             " latin1_german2_ci"),
            ("utf8mb4", '<collation name="utf8mb4_general_ci" id="45"/>',
             f"utf8mb4_general_ci: is only named in x.xml; {ask} utf8mb4_general_ci"),
            ("utf8mb4", '<collation name="utf8mb4_x_ci"><rules/></collation>',
             "utf8mb4_x_ci: is not exported; mycoll's kinds uca400 to uca900 may suit"),
            ("latin1", '<collation name="latin1_x_ci"><map/><flag>nopad</flag></collation>',
             "latin1_x_ci: does not pad with spaces, as mycoll's kinds table8 and general do"),
            ("utf8", '<collation name="utf8_bin"><flag>binary</flag></collation>',
             "utf8_bin: is built into mycoll as utf8mb3_bin"),
            ("koi8r", '<collation name="koi8r_general_ci"><map/></collation>',
             "skipped, mycoll does not have these character sets: koi8r"),
        ]
        for charset, collation, remark in rows:
            with self.subTest(collation):
                run = self.run_xml(
                    f'<charsets><charset name="{charset}">{collation}</charset></charsets>'
                )
                self.assertEqual((run.returncode, run.stdout), (0, f"# {remark}\n"))
                self.assertEqual(self.written(), [])

    def test_files_that_are_refused(self) -> None:
        own = upper_map()
        rows = [
            ("a map of 255", charset_file(own[:255]), "latin1_x_ci: its map has 255 numbers"),
            ("a map of 257", charset_file([*own, "00"]), "latin1_x_ci: its map has 257 numbers"),
            ("no number", charset_file([*own[:255], "0G"]), "'0G' in its map is no hexadecimal"),
            ("a great weight", charset_file([*own[:255], "100"]), "byte FF LATIN SMALL LETTER Y W"),
            ("no XML", "<charsets>", "x.xml: no XML"),
            ("other XML", "<html/>", "x.xml: no charset file"),
            ("a name with a slash", charset_file(own, "latin1").replace("_x_", "/"), "'latin1/ci'"),
        ]
        for why, text, said in rows:
            with self.subTest(why):
                self.refused(self.run_xml(text), said)

    def test_nothing_is_overwritten_without_force(self) -> None:
        place = self.top / "out" / "latin1_x_ci.txt"
        place.write_text("mine\n")
        run = self.run_xml(charset_file(upper_map()))
        self.assertEqual((run.returncode, place.read_text()), (1, "mine\n"))
        self.assertIn("there already: out/latin1_x_ci.txt", run.stderr)
        self.assertIn("give --force to write over them", run.stderr)
        run = self.run_xml(charset_file(upper_map()), "--force")
        self.assertEqual((run.returncode, self.written()), (0, ["latin1_x_ci.txt"]))
        self.assertEqual(self.lines("latin1_x_ci.txt"), ["default =", "61..7A @ 41"])


class FromServer(InFolder):
    """The form `server`."""

    def test_a_character_of_two_weights_and_a_range(self) -> None:
        told = {"weights": {**UPPER, "FC": "5545", "DF": "5353", "A0": "00"}}
        run = self.run_server(told, "--user", "me", "latin1_y_ci")
        self.assertEqual(run.returncode, 0, run.stderr)
        self.assertEqual(
            self.lines("latin1_y_ci.txt"),
            ["default =", "61..7A @ 41", "A0 00", "DF 53 53", "FC 55 45"],
        )
        first = (self.top / "out" / "latin1_y_ci.txt").read_text().splitlines()[0]
        self.assertIn("from the server MySQL 8.0.99 (Stub), by: ", first)
        self.assertIn("export_weights.py server --out out --user me latin1_y_ci", first)
        self.assertEqual(run.stdout, "collation latin1_y_ci latin1 table8 out/latin1_y_ci.txt\n")

    def test_a_general_file(self) -> None:
        others = {"00DF": "0053", "D7FF": "0100", "E000": "0101", "FFFF": "0000"}
        run = self.run_server({"weights": {**UPPER_UCS2, **others}}, "ucs2_general_ci")
        self.assertEqual(run.returncode, 0, run.stderr)
        self.assertEqual(
            self.lines("ucs2_general_ci.txt"),
            ["0061..007A @ 0041", "00DF 0053", "D7FF 0100", "E000 0101", "FFFF 0000"],
        )
        line = "collation ucs2_general_ci ucs2 general out/ucs2_general_ci.txt\n"
        self.assertEqual(run.stdout, line)

    def test_what_is_refused(self) -> None:
        byte_20 = "byte 20 SPACE: 2 weights (20 20), the file holds exactly one"
        rows = [
            ("three weights", {"weights": {"FC": "555545"}}, "latin1_y_ci",
             "byte FC LATIN SMALL LETTER U WITH DIAERESIS: 3 weights (55 55 45)"),
            ("no weight", {"weights": {"8A": ""}}, "latin1_y_ci",
             "byte 8A LATIN CAPITAL LETTER S WITH CARON: 0 weights (none)"),
            ("two for the space", {"weights": {"20": "2020"}}, "latin1_y_ci", byte_20),
            ("two in general", {"weights": {"00DF": "00530053"}}, "ucs2_general_ci",
             "U+00DF LATIN SMALL LETTER SHARP S: 2 weights (53 53), the file holds exactly one"),
            ("half a weight", {"weights": {"00DF": "00530"}}, "ucs2_general_ci", "'00530'"),
            ("NULL", {"weights": {"61": "NULL"}}, "latin1_y_ci",
             "the server gives 'NULL' as the weights of byte 61 LATIN SMALL LETTER A"),
            ("no padding", {"pads": "0"}, "latin1_y_ci", "latin1_y_ci: does not pad with spaces"),
            ("a contraction", {"together": ["6368", "C0"]}, "latin1_y_ci",
             "latin1_y_ci: some two characters have other weights together than one by one"),
            ("another set", {"set": "latin2"}, "latin1_y_ci", "as a collation of latin2"),
            ("fails in the middle", {"die": "page ucs2_general_ci 2500"}, "ucs2_general_ci",
             "status 1: ERROR 2013 (HY000) at line 5: Lost connection"),
            ("ends in the middle", {"end": "page ucs2_general_ci 2500"}, "ucs2_general_ci",
             "answered nothing to 'page ucs2_general_ci 2500'"),
            ("an older name", {"end": "set utf8_general_ci"}, "utf8_general_ci",
             "a newer server calls it utf8mb3_general_ci"),
            ("a field is missing", {"short": "page latin1_y_ci 0"}, "latin1_y_ci",
             "answered 255 fields to 'page latin1_y_ci 0', wanted 256 fields"),
            ("not general", {}, "utf8mb4_unicode_ci", "no collation of one weight"),
            ("a set that mycoll lacks", {}, "koi8r_general_ci", "does not begin with a character"),
            ("built in", {}, "latin1_bin", "latin1_bin: is a binary collation"),
        ]
        for why, told, collation, said in rows:
            with self.subTest(why):
                self.refused(self.run_server(told, collation), said)

    def test_one_fault_keeps_all_files_away(self) -> None:
        told = {"die": "page ascii_general_ci 0"}
        self.refused(self.run_server(told, "latin1_y_ci", "ascii_general_ci"), "Lost connection")
        self.refused(self.run_server({}, "latin1_y_ci", "LATIN1_Y_CI"), "stands there twice")

    def test_no_password_is_a_word_of_the_client(self) -> None:
        run = self.run_server(
            {}, "--ask-password", "--socket", "/s", "--defaults-file", "f", "ascii_y_ci"
        )
        self.assertEqual(run.returncode, 0, run.stderr)
        words = (self.top / "bin" / "words").read_text().splitlines()
        self.assertEqual(
            words,
            ["--defaults-file=f", "--socket=/s", "--password", "--batch", "--skip-column-names"],
        )
        self.assertEqual(self.run_server({}, "--password=x", "ascii_y_ci").returncode, 2)

    def test_places_that_are_refused(self) -> None:
        rows = [
            ("nowhere", "nowhere: no folder"),
            ("out/a b", "a catalog cannot name the file 'out/a b/latin1_y_ci.txt'"),
            ("out/#", "a catalog cannot name the file 'out/#/latin1_y_ci.txt'"),
        ]
        for folder, said in rows:
            with self.subTest(folder):
                if folder != "nowhere":
                    (self.top / folder).mkdir()
                run = self.run_server({}, "--out", folder, "latin1_y_ci")
                self.assertEqual((run.returncode, run.stdout), (1, ""))
                self.assertIn(said, run.stderr)
                self.assertEqual([each for each in (self.top / "out").rglob("*.txt")], [])

    def test_no_client(self) -> None:
        self.refused(self.run_export("server", "--out", "out", "latin1_y_ci"), "neither mariadb")


class OnADisk(unittest.TestCase):
    """A device that fails in the middle leaves no half file."""

    def test_what_a_failed_move_leaves(self) -> None:
        weights = {byte: (byte,) for byte in range(0x100)}
        tables = [Table(name, "latin1", weights, "") for name in ("a_ci", "b_ci")]
        rows: list[tuple[str, bool, list[str], str]] = [
            ("link", False, [], "nothing was written"),
            ("replace", True, ["a_ci.txt"], "written before that: "),
        ]
        for call, force, left, outcome in rows:
            with self.subTest(call), tempfile.TemporaryDirectory() as folder:
                with mock.patch.object(os, call, fails_at_second(getattr(os, call))):
                    with self.assertRaises(Fault) as raised:
                        Target(folder, force).write(tables, "")
                self.assertEqual(os.listdir(folder), left)
                self.assertIn(outcome, raised.exception.outcome)


def fails_at_second(call: Callable[[Path, Path], None]) -> Callable[[Path, Path], None]:
    """The call, but the second time the device is full."""
    turns = iter([False, True])

    def played(old: Path, new: Path) -> None:
        if next(turns):
            raise OSError(28, "No space left on device", str(new))
        call(old, new)

    return played


class Formats(unittest.TestCase):
    """What no small file reaches."""

    def test_a_character_above_ffff(self) -> None:
        weights = {0x61: (0x41,), 0xFFFD: (0xFFFD,), 0x10400: (0xFFFD,)}
        self.assertEqual(Table("c", "utf8mb4", weights, "").lines(), ["0061 0041"])
        weights[0x10428] = (0x41,)
        with self.assertRaises(Fault) as raised:
            Table("c", "utf8mb4", weights, "").lines()
        said = "U+10428 DESERET SMALL LETTER LONG I: the weight 41, the file holds that of U+FFFD"
        self.assertIn(said, raised.exception.fact)

    def test_no_byte_is_its_own_weight(self) -> None:
        weights = {byte: ((byte + 1) % 0x100,) for byte in range(0x100)}
        lines = Table("c", "latin1", weights, "").lines()
        self.assertEqual(lines, ["00..FE @ 01", "FF 00"])

    def test_the_help_has_an_example_for_each_form(self) -> None:
        for words in (["--help"], ["xml", "--help"], ["server", "--help"]):
            run = subprocess.run(
                [sys.executable, "-B", str(EXPORT), *words],
                capture_output=True, text=True, check=True,
            )
            self.assertIn("example", run.stdout)
            for form in {"xml", "server"} & set(words) or {"xml", "server"}:
                self.assertIn(f"tools/export_weights.py {form} --", run.stdout)


def main() -> int:
    """Runs all tests, and counts them."""
    tests = unittest.defaultTestLoader.loadTestsFromModule(sys.modules[__name__])
    result = unittest.TextTestRunner().run(tests)
    broken = {str(test).partition(" ")[0] for test, _ in result.failures + result.errors}
    sys.stderr.flush()
    print(f"{result.testsRun - len(broken)} passed, {len(broken)} failed")
    return 0 if result.wasSuccessful() else 1


if __name__ == "__main__":
    sys.exit(main())
