"""Random small tables, weight files and indexes, as the files of a run."""

import csv
import io
import random
from dataclasses import dataclass, field

from .texts import LATIN1

LETTERS = ["a", "b", "c", "h", "s", "A", "B", "C", "S", "ß", "ä", " ", "\t", "\u00ad"]
"""The characters that the weight files know, U+00AD among them."""

PIECES = ["ch", "chc", "ch", "ss", "ß", "ab", " a", "s ", "Ch", "ae", "\t"]
"""Contractions that the element tables may have, and expansions."""

RARE = ["z", "é", "€", "\n", "%", "_", "\\", "'", '"', ",", "|"]
WIDE = ["я", "一", "가", "𠀀", "😀", "\ufffd"]
"""Characters of no weight file, those below in no latin1."""

KINDS = {
    "utf8mb4_bin": "", "utf8mb4_0900_bin": "", "latin1_bin": "",
    "utf8mb4_general_ci": "utf8mb4 general general.txt",
    "latin1_german2_ci": "latin1 table8 bytes.txt",
    "utf8mb4_unicode_ci": "utf8mb4 uca400 elements.txt",
    "utf8mb4_0900_ai_ci": "utf8mb4 uca900_ai_ci elements.txt",
    "utf8mb4_0900_as_cs": "utf8mb4 uca900_as_cs elements.txt",
}  # fmt: skip
"""The collations of columns, and what a catalog says of those that are not built in."""

WEIGHED = [name for name, told in KINDS.items() if told]
"""Those that are not built in."""

LONGEST = 8
"""How many characters a text column takes."""

NUMBERS = [0, 1, 1, 2, 3, 5, -1, -2]
GREAT = [2**63 - 1, -(2**63), 2**63 - 2, 2**62, -(2**62), 2**31, 3037000500]


@dataclass
class Files:
    """The files of a run, and the texts and tables that they were made from."""

    files: dict[str, str]
    pool: list[str]
    tables: list[str] = field(default_factory=list)


def make_files(dice: random.Random) -> Files:
    """A catalog with three tables, and its files without the script."""
    pool = [some_text(dice) for _ in range(dice.choice([4, 6, 8]))]
    made = Files(weight_files(dice), pool)
    lines = [f"collation {name} {rest}" for name, rest in KINDS.items() if rest]
    if dice.random() < 0.7:
        lines.append(f"connection {dice.choice(list(KINDS))}")
    for number in range(3):
        name = f"t{number}"
        made.tables.append(name)
        lines += table_lines(name, made, dice)
    made.files["cat.txt"] = "".join(f"{line}\n" for line in lines)
    return made


def without_indexes(catalog: str) -> str:
    """The catalog without its index lines."""
    lines = catalog.splitlines(keepends=True)
    return "".join(line for line in lines if not line.startswith("index "))


def some_text(dice: random.Random) -> str:
    """A text of a few characters."""
    letters = dice.choice([LETTERS[:5], LETTERS[:5] + PIECES, LETTERS + PIECES, LETTERS])
    chars = [dice.choice(letters) for _ in range(dice.choice([0, 1, 1, 2, 2, 3, 3, 4]))]
    if dice.random() < 0.15:
        chars.insert(dice.randint(0, len(chars)), dice.choice(RARE + WIDE))
    return "".join(chars)


def alike(text: str, dice: random.Random) -> str:
    """A text that some collation takes for this one."""
    place = dice.choice([0, dice.randint(0, len(text))])
    edits = [
        "".join(char if char == "ß" else char.swapcase() for char in text),
        text + " " * dice.randint(1, 2),
        text[:place] + "\u00ad" + text[place:],
    ]
    if "ss" in text or "ß" in text:
        edits += [text.replace("ss", "ß") if "ss" in text else text.replace("ß", "ss")] * 2
    if "ä" in text or "ae" in text:
        edits += [text.replace("ä", dice.choice(["a", "ae"])), text.replace("ae", "ä")]
    return dice.choice(edits)


def near(text: str, dice: random.Random) -> str:
    """The text, one that is alike, or another one of nearly the same characters."""
    way = dice.randrange(10)
    place = dice.randint(0, len(text))
    if way == 0:
        return text + dice.choice(LETTERS)
    if way == 1:
        return text[:place]
    if way == 2:
        return text[:place] + dice.choice(PIECES) + text[place:]
    for _ in range(dice.choice([0, 1, 1, 2])):
        text = alike(text, dice)
    return text


def column_text(pool: list[str], charset: str, dice: random.Random) -> str:
    """A text of the pool, or near one, that a column of the set takes."""
    text = near(dice.choice(pool), dice)
    if charset == "latin1":
        text = "".join(char for char in text if char in LATIN1)
    return text[:LONGEST] if text != "\\N" else "N"


def table_lines(name: str, made: Files, dice: random.Random) -> list[str]:
    """The lines of a table. Its rows become a file."""
    kinds = ["id", "bigint"]
    kinds += dice.sample([*KINDS, *WEIGHED], dice.choice([2, 3, 4]))
    if dice.random() < 0.3:
        kinds.append(dice.choice(kinds[2:]))
    if dice.random() < 0.2:
        kinds.append("binary")
    names = ["id", "n", *"abcdefg"][: len(kinds)]
    great = dice.random() < 0.3
    pools = [dice.sample(made.pool, dice.choice([2, 3, 4])) for _ in kinds]
    rows = [
        [cell(kind, row, great, pool, dice) for kind, pool in zip(kinds, pools)]
        for row in range(dice.choice([0, 1, 2, 3, 5, 7, 8, 10, 12]))
    ]
    file = io.StringIO(newline="")
    csv.writer(file, lineterminator="\n").writerows(rows)
    made.files[f"{name}.csv"] = file.getvalue()
    lines = [f"table {name} {name}.csv"]
    lines += [f"column {column} {typed(kind, dice)}" for column, kind in zip(names, kinds)]
    return lines + index_lines(names[2:], dice)


def typed(kind: str, dice: random.Random) -> str:
    """The type of a column."""
    if kind in ("id", "bigint"):
        return "bigint"
    if kind == "binary":
        return f"{dice.choice(['binary', 'varbinary'])} {LONGEST * 4}"
    return f"{dice.choice(['varchar', 'varchar', 'char'])} {LONGEST} {kind}"


def cell(kind: str, row: int, great: bool, pool: list[str], dice: random.Random) -> str:
    """A cell of a row."""
    if kind == "id":
        return str(row + 1)
    if dice.random() < 0.12:
        return "\\N"
    if kind == "bigint":
        return str(dice.choice(GREAT if great and dice.random() < 0.3 else [*NUMBERS, row]))
    if kind == "binary":
        return column_text(pool, kind, dice).encode().hex()
    return column_text(pool, kind.split("_")[0], dice)


def index_lines(names: list[str], dice: random.Random) -> list[str]:
    """Indexes of text columns, over the whole or over some first characters."""
    lines = []
    for number in range(dice.choice([1, 2, 3, 4, 6])):
        length = dice.choice(["", "", " 1", " 1", " 2", " 3", f" {LONGEST}"])
        lines.append(f"index i{number} {dice.choice(names)}{length}")
    return lines


def weight_files(dice: random.Random) -> dict[str, str]:
    """One file of each form."""
    return {"general.txt": general(dice), "bytes.txt": table8(dice), "elements.txt": elements(dice)}


def general(dice: random.Random) -> str:
    """Small letters as capitals, and some letters as others."""
    lines = ["0061..007A @ 0041", "00DF 0053"]
    lines += dice.sample(["00AD 0020", "00E4 0041", "044F 0020", "FFFD 0001", "0009 0000"], 2)
    return "".join(f"{line}\n" for line in lines)


def table8(dice: random.Random) -> str:
    """Small letters as capitals, some bytes of two weights."""
    lines = ["default =", "61..7A @ 41"]
    lines += dice.sample(["E4 41 45", "DF 53 53", "AD 20", "A0 20 20", "5C 41 20", "09 00 41"], 4)
    return "".join(f"{line}\n" for line in lines)


def elements(dice: random.Random) -> str:
    """An element table with an ignorable, an expansion, an accent and a contraction or two."""
    weights = dice.sample(range(0x0E00, 0x0F00), 5)
    entries = {
        "0009": "[*0201.0020.0002]", "0020": "[*0209.0020.0002]",
        "00AD": dice.choice(["[.0000.0000.0000]", "[.0000.0035.0002]"]),
    }  # fmt: skip
    for letter, weight in zip("abchs", weights):
        entries[f"{ord(letter):04X}"] = f"[.{weight:04X}.0020.0002]"
        if letter != "h":
            entries[f"{ord(letter.upper()):04X}"] = f"[.{weight:04X}.0020.0008]"
    first, last = (f"[.{weight:04X}.0020.0004]" for weight in (weights[0], weights[4]))
    entries["00DF"] = last + last
    entries["00E4"] = first + "[.0000.002B.0002]"
    texts = dice.sample(["0061 0062", "0020 0061", "0073 0020", "0063 0061", "0073 0073"], 2)
    texts = ["0063 0068", *dice.choice([[], ["0063 0068 0063"]]), *texts]
    for text in texts[: dice.choice([0, 1, 1, 2, 2, 3, 4])]:
        weight = dice.choice([*weights, 0x0F10, 0x0205])
        more = dice.choice(["", "", last, "[.0000.002B.0002]"])
        entries[text] = f"[.{weight:04X}.0020.0002]{more}"
    lines = ["@version 9.0.0", "@implicitweights 17000..18AFF; FB00"]
    lines += [f"{text} ; {told}" for text, told in entries.items()]
    return "".join(f"{line}\n" for line in lines)
