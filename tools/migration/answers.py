"""Runs mycoll over a table's catalog and script, and reads its answers."""

import subprocess
from collections.abc import Iterator
from dataclasses import dataclass, field
from pathlib import Path
from typing import Optional

from migration.collations import NOTHING
from weights.fault import Fault

EXPLAINED = ["key", "conjunct", "intervals", "entries"]
"""The headers of a plan."""

_WHOLE = (0, 1, 6)
"""The statuses after which each answer that was written is whole."""

_UNESCAPED = {"0": "\0", "t": "\t", "n": "\n", "\\": "\\"}


@dataclass
class Answer:
    """The rows of one statement's answer, or why there are none."""

    fault: str = ""
    rows: list[list[str]] = field(default_factory=list)


def run(program: str, folder: Path, catalog: str, script: str, output: Path) -> int:
    """Runs the program in the folder, its answers into a file; gives its status."""
    try:
        with output.open("wb") as file:
            return subprocess.run(
                [program, catalog, script],
                cwd=folder,
                stdin=subprocess.DEVNULL,
                stdout=file,
                check=False,
            ).returncode
    except OSError as error:
        raise Fault(
            f"{program}: {error.strerror}", "give --mycoll the path of the program", NOTHING
        ) from error


def read_answers(output: Path, labels: list[str], status: int) -> Iterator[Answer]:
    """An answer for each label, the first header of its statement; one at a time is read."""
    with output.open(encoding="utf-8", errors="replace", newline="\n") as file:
        lines = _Lines(file)
        first = lines.peek() or ""
        for label in labels:
            is_refused = first.startswith("refused ")
            yield Answer(f"mycoll: {first}") if is_refused else _answer(lines, label, status)


class _Lines:
    """Lines, of which the next can be looked at."""

    def __init__(self, lines: Iterator[str]) -> None:
        self._lines = lines
        self._next = next(self._lines, None)

    def peek(self) -> Optional[str]:
        """The next line without its end, or None."""
        return None if self._next is None else self._next.rstrip("\n")

    def take(self) -> str:
        """The next line, which is there."""
        line = self.peek() or ""
        self._next = next(self._lines, None)
        return line


def _answer(lines: _Lines, label: str, status: int) -> Answer:
    """The answer that comes next, if it is that of the label."""
    line = lines.peek()
    if line is None:
        return Answer(f"mycoll ended with status {status} before it")
    if line.startswith("ERROR "):
        return Answer(f"mycoll: {lines.take()}")
    header = line.split("\t")
    if header[0] != label:
        return Answer(f"mycoll answers {line[:60]!r} where {label} was asked")
    lines.take()
    rows: list[list[str]] = []
    while label == EXPLAINED[0] and lines.peek() is not None and not rows:
        rows.append(lines.take().split("\t"))
    while label != EXPLAINED[0] and (lines.peek() or "")[:1].isdigit():
        rows.append(lines.take().split("\t"))
    if lines.peek() is None and status not in _WHOLE:
        return Answer(f"mycoll ended with status {status} within it")
    return Answer("", rows)


class Groups:
    """The rows of a unit under one collation: each row's group, and the rows of each group."""

    def __init__(self, sizes: Answer, listing: Answer) -> None:
        self.fault = sizes.fault or listing.fault
        self.groups: list[list[int]] = []
        self.cells: dict[int, list[str]] = {}
        if not self.fault:
            self._read(sizes, listing)

    def _read(self, sizes: Answer, listing: Answer) -> None:
        """Cuts the list of rows, which stand in the order of their groups."""
        try:
            numbers = [int(cells[0]) for cells in listing.rows]
            counts = [(int(cells[0]), int(cells[1])) for cells in sizes.rows]
        except (ValueError, IndexError):
            self.fault = "mycoll's answers have a row of another form"
            return
        at = 0
        for first, size in counts:
            self.groups.append(numbers[at : at + size])
            if self.groups[-1][:1] != [first]:
                self.fault = "mycoll's groups and its order of the rows don't fit together"
                return
            at += size
        if at != len(numbers):
            self.fault = "mycoll's groups have not as many rows as its list of them"
        self.cells = {number: cells[1:] for number, cells in zip(numbers, listing.rows)}

    def by_row(self) -> dict[int, int]:
        """The number of each row's group."""
        return {row: number for number, rows in enumerate(self.groups) for row in rows}


def unescaped(cell: str) -> str:
    """The text that a cell stands for."""
    if "\\" not in cell:
        return cell
    text, at = "", 0
    while at < len(cell):
        if cell[at] == "\\" and at + 1 < len(cell):
            text += _UNESCAPED.get(cell[at + 1], cell[at + 1])
            at += 2
        else:
            text += cell[at]
            at += 1
    return text
