#!/usr/bin/env python3
"""Random pairs of strings as a script of comparisons, and its answers by two programs.

    check_pairs.py make COLLATION SET COUNT SEED > script.sql
    check_pairs.py compare COLLATION script.sql MYCOLL_ANSWERS SERVER_ANSWERS

It is a part of check_server.sh, which feeds the script to mycoll and to a server.
"""

import random
import sys
import unicodedata
from pathlib import Path

from weights.sets import BYTE_SETS, latin1_char, literal, spelling

LATIN1 = {latin1_char(byte): byte for byte in range(0x100)}
"""The bytes of the characters of latin1."""

BLOCKS = [
    (0x20, 0x7E),
    (0x41, 0x7A),
    (0xA0, 0x24F),
    (0x370, 0x52F),
    (0x1E00, 0x1FFF),
    (0x2100, 0x24FF),
    (0x4E00, 0x4FFF),
    (0xFF00, 0xFFFD),
    (0x10400, 0x1044F),
    (0x1F600, 0x1F64F),
    (0x0, 0xD7FF),
]
"""Where characters of the Unicode sets come from; letters with case or marks for the most part."""

TWO_LETTERS = {"ä": "ae", "ö": "oe", "ü": "ue", "ß": "ss", "Ä": "AE", "Ö": "OE", "Ü": "UE"}


def some_char(charset: str, draw: random.Random) -> str:
    """A character of the set, letters more often than others."""
    if charset == "ascii":
        return chr(draw.choice([draw.randrange(0x80), draw.randint(0x41, 0x7A)]))
    if charset == "latin1":
        letter = draw.choice("aeosuAEOSUäöüßÄÖÜáéñÿ")
        return draw.choice([letter, letter, latin1_char(draw.randrange(0x100))])
    return chr(draw.randint(*draw.choice(BLOCKS)))


def near(char: str, draw: random.Random) -> str:
    """The character, or one that some collation may take for it."""
    base = unicodedata.normalize("NFD", char)[0]
    others = [char, char.swapcase(), base, base.swapcase(), TWO_LETTERS.get(char, char)]
    return draw.choice([char, draw.choice(others)])


def encoded(charset: str, text: str) -> bytes:
    """The bytes of those characters that the set has."""
    if charset in BYTE_SETS:
        last = 0x7F if charset == "ascii" else 0xFF
        return bytes(b for b in (LATIN1.get(char, 0x100) for char in text) if b <= last)
    return b"".join(spelling(charset, ord(char)) for char in text)


def some_pair(charset: str, draw: random.Random) -> tuple[bytes, bytes]:
    """Two strings of up to seven characters; mostly the second is near the first."""
    left = "".join(some_char(charset, draw) for _ in range(draw.randrange(6)))
    right = "".join(near(char, draw) for char in left)
    chance = draw.random()
    if chance < 0.2 and right:
        place = draw.randrange(len(right))
        right = right[:place] + some_char(charset, draw) + right[place + 1 :]
    elif chance < 0.3:
        right = "".join(some_char(charset, draw) for _ in range(draw.randrange(3)))
    left += " " * draw.choice([0, 0, 1, 2])
    right += " " * draw.choice([0, 0, 1, 2])
    return encoded(charset, left), encoded(charset, right)


def make(collation: str, charset: str, count: int, seed: int) -> None:
    """Prints a script: a statement a line, exact to the byte on every connection."""
    draw = random.Random(f"{seed} {collation}")
    for _ in range(count):
        left, right = some_pair(charset, draw)
        print(f"SELECT {literal(charset, left)} COLLATE {collation} = {literal(charset, right)};")


def mycoll_answers(path: str) -> list[str]:
    """The answer to each statement: 0 or 1, which stands under a header, or an ERROR line."""
    answers: list[str] = []
    lines = iter(Path(path).read_text(encoding="utf-8", errors="replace").splitlines())
    for line in lines:
        answers.append(line if line.startswith(("ERROR", "refused")) else next(lines, "nothing"))
    return answers


def compare(collation: str, script: str, mycoll: str, server: str) -> int:
    """Prints the share that agrees and each pair that doesn't; 0 where all agree."""
    statements = Path(script).read_text().splitlines()
    ours, theirs = mycoll_answers(mycoll), Path(server).read_text().splitlines()
    if len(ours) != len(statements) or len(theirs) != len(statements):
        first = Path(mycoll).read_text(encoding="utf-8", errors="replace").partition("\n")[0]
        print(
            f"{collation}: of {len(statements)} pairs mycoll answered {len(ours)} and the server"
            f" {len(theirs)}; mycoll's first line: {first or 'none'}"
        )
        return 1
    rows = list(zip(statements, ours, theirs))
    apart = [row for row in rows if row[1] != row[2]]
    agreed = len(rows) - len(apart)
    equal = theirs.count("1")
    print(
        f"{collation}: {agreed} of {len(rows)} pairs agree ({100 * agreed / len(rows):.2f} %);"
        f" the server calls {equal} of them equal"
    )
    for statement, our, their in apart:
        print(f"    mycoll {our}, server {their}: {statement}")
    return 1 if apart else 0


def main(words: list[str]) -> int:
    """The status: 0, 1 where answers differ, 2 for other words."""
    match words:
        case ["make", collation, charset, count, seed]:
            make(collation, charset, int(count), int(seed))
            return 0
        case ["compare", collation, script, mycoll, server]:
            return compare(collation, script, mycoll, server)
    print(__doc__, file=sys.stderr)
    return 2


if __name__ == "__main__":
    sys.exit(main(sys.argv[1:]))
