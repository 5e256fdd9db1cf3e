#!/usr/bin/env python3
"""Plays mycoll for the tests of check_migration.py: CATALOG SCRIPT.

It answers the forms of statements that the tool writes and no others, by a plain reading of weight
files: element tables at their first level alone. Indexes that a plan uses are over whole columns,
or over first characters that weigh one by one. The variable STAND_IN_REFUSES holds words; a
statement that has one of them is refused."""

import csv
import os
import re
import sys
from pathlib import Path
from typing import Callable, Optional, Union

Weigher = Callable[[str], tuple[int, ...]]
Cell = Union[str, int, None]

_SELECT = re.compile(
    r"SELECT (?P<items>.*?) FROM `(?P<table>[^`]*)` WHERE (?P<tests>.*?)"
    r"(?: GROUP BY (?P<groups>.*?))? ORDER BY (?P<orders>.*)"
)
_EXPLAIN = re.compile(
    r"EXPLAIN SELECT `[^`]*` FROM `(?P<table>[^`]*)` WHERE `(?P<column>[^`]*)` = '(?P<text>.*)'",
    re.DOTALL,
)
_KEY = re.compile(
    r"(?:LEFT\((?=.*, (?P<cut>\d+)\)))?(?:CONVERT\()?`(?P<column>[^`]*)`(?: USING \w+\))?"
    r"(?:, \d+\))?(?: COLLATE (?P<collation>\w+))?$"
)
_ESCAPES = {"\\": "\\\\", "\0": "\\0", "\t": "\\t", "\n": "\\n"}


class Refused(Exception):
    """A file that the program would refuse."""


class Catalog:
    """Collations as functions from texts to weights, and one table with its rows."""

    def __init__(self, path: str) -> None:
        self.weighers: dict[str, Weigher] = {}
        self.types: dict[str, list[str]] = {}
        self.indexes: list[tuple[str, str, int]] = []
        self.rows: list[dict[str, Cell]] = []
        file = ""
        for line in Path(path).read_text().splitlines():
            word, *fields = line.split()
            if word == "collation":
                self.weighers[fields[0]] = weigher(fields[2], Path(fields[3]).read_text())
            elif word == "table":
                file = fields[1]
            elif word == "column":
                self.types[fields[0]] = fields[1:]
            elif word == "index":
                length = int(fields[2]) if len(fields) > 2 else 1 << 20
                self.indexes.append((fields[0].lower(), fields[1], length))
        with open(file, encoding="utf-8", newline="") as lines:
            for number, record in enumerate(csv.reader(lines), 1):
                if len(record) != len(self.types):
                    raise Refused(f"refused {file} WrongCount {number}")
                values = zip(self.types, record)
                self.rows.append({name: self._value(name, cell) for name, cell in values})

    def _value(self, column: str, cell: str) -> Cell:
        """What a field of the file stands for."""
        if cell == "\\N":
            return None
        if self.types[column][0] == "bigint":
            return int(cell)
        if self.types[column][0] == "varbinary":
            return "0x" + cell.upper()
        return cell.rstrip(" ") if self.types[column][0] == "char" else cell

    def key(self, column: str, cut: Optional[int], collation: Optional[str]) -> Callable:
        """What rows are grouped by: the weights of a text, another value as it is."""
        collation = collation or self.types[column][-1]
        cut = cut if cut is None or self.types[column][0] != "varbinary" else 2 + 2 * cut
        weigh = self.weighers.get(collation) or binary(collation)

        def of(row: dict[str, Cell]) -> Union[tuple[int, ...], int, None]:
            value = row[column]
            return weigh(value[:cut]) if isinstance(value, str) else value

        return of


def binary(collation: str) -> Weigher:
    """The weights of a built-in collation."""
    pads = collation != "utf8mb4_0900_bin"
    return lambda text: tuple(ord(char) for char in (text.rstrip(" ") if pads else text))


def weigher(kind: str, text: str) -> Weigher:
    """The weights that a file gives."""
    lines = [line.partition("#")[0].split() for line in text.splitlines()]
    lines = [line for line in lines if line and not line[0].startswith("@")]
    return simple(kind, lines) if kind in ("table8", "general") else elements(kind, lines)


def simple(kind: str, lines: list[list[str]]) -> Weigher:
    """The weights of the forms table8 and general; spaces at the end don't count."""
    table: dict[int, list[int]] = {}
    for first, *rest in lines:
        start, _, end = first.partition("..")
        if start == "default" or rest[0] == "=":
            continue
        numbers = [int(each, 16) for each in rest if each != "@"]
        for code in range(int(start, 16), int(end or start, 16) + 1):
            moved = code - int(start, 16) if rest[0] == "@" else 0
            table[code] = [numbers[0] + moved, *numbers[1:]]

    def weigh(text: str) -> tuple[int, ...]:
        codes = [ord(char) if ord(char) <= 0xFFFF else 0xFFFD for char in text.rstrip(" ")]
        return tuple(weight for code in codes for weight in table.get(code, [code]))

    return weigh


def elements(kind: str, lines: list[list[str]]) -> Weigher:
    """The weights of an element table at the first level."""
    table: dict[str, list[int]] = {}
    for line in lines:
        codes, _, weights = " ".join(line).partition(";")
        text = "".join(chr(int(code, 16)) for code in codes.split())
        table[text] = [int(each, 16) for each in re.findall(r"\[[.*]([0-9A-Fa-f]+)\.", weights)]

    def weigh(text: str) -> tuple[int, ...]:
        found: list[int] = []
        text = text if kind.startswith("uca900") else text.rstrip(" ")
        while text:
            length = next((n for n in range(6, 0, -1) if text[:n] in table and n <= len(text)), 0)
            code = ord(text[0])
            other = [0xFBC0 + (code >> 15), (code & 0x7FFF) | 0x8000]
            found += table[text[:length]] if length else other
            text = text[max(length, 1) :]
        return tuple(weight for weight in found if weight)

    return weigh


def answer(statement: str, catalog: Catalog) -> list[list[str]]:
    """The lines of an answer, the headers first."""
    explain = _EXPLAIN.fullmatch(statement)
    if explain:
        return explained(explain, catalog)
    match = _SELECT.fullmatch(statement)
    if match is None:
        return [["ERROR 9001: no reading at byte 0"]]
    columns = re.findall("`([^`]*)` IS NOT NULL", match["tests"])
    rows = [row for row in catalog.rows if all(row[name] is not None for name in columns)]
    keys = [key_of(text, catalog) for text in split(match["orders"])]
    items = [item.partition(" AS ") for item in split(match["items"])]
    headers = [alias or expression.strip("`") for expression, _, alias in items]
    rows.sort(key=lambda row: [(of(row) is not None, of(row)) for of in keys])
    if match["groups"] is None:
        names = [expression.strip("`") for expression, _, _ in items]
        return [headers] + [[cell(row[name]) for name in names] for row in rows]
    number = items[0][0][len("MIN(`") : -len("`)")]
    groups: dict[tuple, list[int]] = {}
    for row in rows:
        groups.setdefault(tuple(of(row) for of in keys), []).append(row[number])
    return [headers] + [[str(min(group)), str(len(group))] for group in groups.values()]


def explained(match: re.Match[str], catalog: Catalog) -> list[list[str]]:
    """The plan of `=` by the first index of the column."""
    headers = ["key", "conjunct", "intervals", "entries"]
    text = match["text"].replace("''", "'")
    text = re.sub(r"\\(.)", lambda found: {"0": "\0", "n": "\n"}.get(found[1], found[1]), text)
    for name, column, length in catalog.indexes:
        if column == match["column"]:
            weigh = catalog.key(column, length, None)
            wanted = weigh({column: text})
            rows = [row for row in catalog.rows if row[column] is not None]
            found = [row for row in rows if weigh(row) == wanted]
            return [headers, [name, "1", "1", str(len(found))]]
    return [headers, ["NULL", "NULL", "NULL", str(len(catalog.rows))]]


def key_of(text: str, catalog: Catalog) -> Callable:
    """The function that an expression of GROUP BY or ORDER BY stands for."""
    match = _KEY.match(text)
    assert match is not None, text
    cut = match["cut"]
    return catalog.key(match["column"], int(cut) if cut else None, match["collation"])


def split(text: str) -> list[str]:
    """The parts between commas that stand in no parenthesis."""
    return [part.strip() for part in re.split(r",(?![^(]*\))", text)]


def cell(value: Cell) -> str:
    """A value as it is written."""
    if value is None:
        return "NULL"
    return "".join(_ESCAPES.get(char, char) for char in str(value))


def main(words: list[str]) -> int:
    """The status: 0, 1 where a statement is refused, 3 where a file is."""
    sys.stdout.reconfigure(encoding="utf-8", newline="\n")
    try:
        catalog = Catalog(words[0])
    except Refused as refused:
        print(refused)
        return 3
    refused = [word for word in os.environ.get("STAND_IN_REFUSES", "").split(",") if word]
    status = 0
    for statement in Path(words[1]).read_text(encoding="utf-8").split(";\n")[:-1]:
        lines = answer(statement, catalog)
        if any(word in statement for word in refused):
            lines = [["ERROR 9004: more than 2048 tokens"]]
        status |= lines[0][0].startswith("ERROR")
        print("\n".join("\t".join(line) for line in lines))
    return status


if __name__ == "__main__":
    sys.exit(main(sys.argv[1:]))
