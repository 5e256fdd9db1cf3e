#!/usr/bin/env python3
"""Compares the order of ./mycoll at three levels with a conformance file of the Unicode Collation
Algorithm: of neighbouring lines the first must not be greater."""

import argparse
import subprocess
import sys
import tempfile
import unicodedata
from collections.abc import Iterator, Sequence
from pathlib import Path
from typing import NamedTuple

TOP = Path(__file__).resolve().parent.parent
# How many comparisons one script has: below 16 MiB with the longest lines.
SCRIPT = 20_000
# The last code point before the surrogates, the first one behind them, and the last one of all.
BEFORE, BEHIND, LAST = 0xD7FF, 0xE000, 0x10FFFF

EXAMPLES = """examples:
  tools/check_conformance.py --weights allkeys.txt CollationTest_NON_IGNORABLE_SHORT.txt
  tools/check_conformance.py --weights allkeys.txt --show 20 CollationTest_NON_IGNORABLE_SHORT.txt

The conformance files stand beside the tables of https://www.unicode.org/Public/UCA/, in
CollationTest.zip; that of NON_IGNORABLE is the one that this engine's profile answers. ICU's source
carries CLDR's, which is of CLDR's own order, not of a table that is published with the algorithm.
Texts with surrogates are left out, and so are their pairs. The status is 0 where no pair of texts
in NFD is out of order."""


class Pair(NamedTuple):
    """Two neighbouring texts, and the number of the second one's line."""

    first: str
    second: str
    line: int


class Tally:
    """How many pairs were compared, and those that are out of order."""

    def __init__(self, name: str) -> None:
        self.name = name
        self.compared = 0
        self.wrong: list[Pair] = []

    def told(self) -> str:
        """One line: the counts and the share."""
        share = 100 * len(self.wrong) / self.compared if self.compared else 0
        count = f"{self.compared:,} pairs, {len(self.wrong):,} out of order"
        return f"{self.name}: {count} ({share:.3f} %)"


def main(words: list[str]) -> int:
    """0 where no pair in NFD is out of order, 1 where one is, 2 for other words."""
    options = make_parser().parse_args(words)
    try:
        texts = list(texts_of(options.file))
    except ValueError as fault:
        print(f"{options.file}: no conformance file: {fault}", file=sys.stderr)
        return 2
    normal, other = Tally("both in NFD"), Tally("otherwise")
    for pair, in_order in judged(pairs_of(texts), options.weights, options.program):
        tally = normal if in_nfd(pair.first) and in_nfd(pair.second) else other
        tally.compared += 1
        if not in_order:
            tally.wrong.append(pair)
    for tally in (normal, other):
        print(tally.told())
        for pair in tally.wrong[: options.show]:
            print(f"  line {pair.line}: {codes(pair.first)} is greater than {codes(pair.second)}")
    return 1 if normal.wrong else 0


def make_parser() -> argparse.ArgumentParser:
    """The words of the command, and its help."""
    parser = argparse.ArgumentParser(
        prog="check_conformance.py",
        description=__doc__,
        epilog=EXAMPLES,
        formatter_class=argparse.RawDescriptionHelpFormatter,
    )
    parser.add_argument(
        "--weights", required=True, metavar="ALLKEYS", help="the table of the file's own version"
    )
    parser.add_argument("--show", type=int, default=5, metavar="N", help="so many pairs are shown")
    parser.add_argument("--program", default=str(TOP / "mycoll"), help="in place of ./mycoll")
    parser.add_argument("file", metavar="FILE", help="the conformance file")
    return parser


def texts_of(path: str) -> Iterator[tuple[int, str | None]]:
    """The number of each line that has a text, and the text, or none where it has surrogates."""
    with open(path, encoding="utf-8") as file:
        for number, line in enumerate(file, 1):
            fields = line.split("#")[0].split(";")[0].split()
            if fields:
                numbers = [int(field, 16) for field in fields]
                yield number, text_of(numbers)


def text_of(numbers: Sequence[int]) -> str | None:
    """The text of these code points; none where one of them is no character."""
    if all(n <= BEFORE or BEHIND <= n <= LAST for n in numbers):
        return "".join(map(chr, numbers))
    return None


def pairs_of(texts: Sequence[tuple[int, str | None]]) -> Iterator[Pair]:
    """Neighbouring lines that both have a text."""
    for (_, first), (line, second) in zip(texts, texts[1:]):
        if first is not None and second is not None:
            yield Pair(first, second, line)


def in_nfd(text: str) -> bool:
    """Whether the text is in Normalization Form D, by the tables of this Python."""
    return unicodedata.is_normalized("NFD", text)


def codes(text: str) -> str:
    """The code points of a text, as the conformance file writes them."""
    return " ".join(f"{ord(it):04X}" for it in text)


def judged(pairs: Iterator[Pair], weights: str, program: str) -> Iterator[tuple[Pair, bool]]:
    """Each pair, and whether the program says that it is in order."""
    with tempfile.TemporaryDirectory() as folder:
        catalog = Path(folder, "cat.txt")
        table = Path(weights).resolve()
        Path(folder, "elements.txt").symlink_to(table)
        catalog.write_text("collation three utf8mb4 uca900_as_cs elements.txt\n", encoding="utf-8")
        part: list[Pair] = []
        for pair in pairs:
            part.append(pair)
            if len(part) == SCRIPT:
                yield from zip(part, answers(part, folder, program))
                part = []
        yield from zip(part, answers(part, folder, program))


def answers(pairs: Sequence[Pair], folder: str, program: str) -> list[bool]:
    """Whether the program says of each pair that it is in order."""
    script = Path(folder, "s.sql")
    script.write_text("".join(map(statement, pairs)), encoding="utf-8")
    run = subprocess.run(
        [program, "cat.txt", "s.sql"], cwd=folder, stdout=subprocess.PIPE, check=False
    )
    lines = run.stdout.decode().split("\n")[:-1]
    told = lines[1::2]
    if run.returncode or len(told) != len(pairs) or not set(told) <= {"0", "1"}:
        sys.exit(f"{program}: status {run.returncode}, {lines[0] if lines else 'nothing'}")
    return [it == "1" for it in told]


def statement(pair: Pair) -> str:
    """A statement that is 1 where the pair is in order, under a short header."""
    return f"SELECT {literal(pair.first)} COLLATE three <= {literal(pair.second)} a;\n"


def literal(text: str) -> str:
    """The text as a literal of utf8mb4."""
    return f"_utf8mb4 X'{text.encode().hex()}'"


if __name__ == "__main__":
    sys.exit(main(sys.argv[1:]))
