"""The tables of a gate: one to look at, one for a document."""

import re
from collections.abc import Mapping
from typing import TypeVar

from gate.sizes import Sizes
from gate.work import KINDS, Work

BEGIN = "<!-- tools/gate_time.py writes from here -->"
END = "<!-- to here -->"
Key = TypeVar("Key")
HEADS = ("functions", "code", "definitions", "proofs", "edits")


def printed_report(work: Work, edits: dict[str, list[str]]) -> str:
    """Processor seconds by crate and kind of work, the dearest edits and the largest modules.

    The edits of each crate are given by name, in order.
    """
    seconds = work.seconds()
    rows = [["crate", *KINDS, "all"]]
    for crate in dict.fromkeys(crate for crate, _ in seconds):
        rows.append([crate, *cells(seconds, crate)])
    by_kind = [sum(time for (_, at), time in seconds.items() if at == kind) for kind in KINDS]
    rest = max(work.all_seconds() - sum(by_kind), 0)
    rows.append(["the rest", *[""] * len(KINDS), f"{rest:.0f}"])
    rows.append(["all", *[f"{time:.0f}" for time in by_kind], f"{rest + sum(by_kind):.0f}"])
    lines = ["Processor seconds:", *aligned(rows), "", "The dearest edits:"]
    for (crate, number), time in largest(work.seconds_of_edits(), 10):
        name = edits[crate][number] if number < len(edits.get(crate, ())) else f"number {number}"
        lines.append(f"{time:6.1f} s   {crate}  {name}")
    lines += ["", "The largest modules:"]
    for (crate, name), size in largest(work.modules, 10):
        lines.append(f"{size / 1_000_000:6.1f} MB  {crate}  {name}")
    return "\n".join(lines) + "\n"


def cells(seconds: dict[tuple[str, str], float], crate: str) -> list[str]:
    """A crate's processor seconds, for each kind of work and in all; empty where it had none."""
    own = [seconds.get((crate, kind), 0) for kind in KINDS]
    return [f"{time:.0f}" if time else "" for time in [*own, sum(own)]]


def largest(numbers: Mapping[Key, float], count: int) -> list[tuple[Key, float]]:
    """The keys of the largest numbers with these, the largest first."""
    return sorted(numbers.items(), key=lambda each: -each[1])[:count]


def aligned(rows: list[list[str]]) -> list[str]:
    """Rows of a table in columns, the first one to the left."""
    widths = [max(map(len, column)) for column in zip(*rows)]
    return [
        row[0].ljust(widths[0])
        + "".join(f"  {cell:>{width}}" for cell, width in zip(row[1:], widths[1:]))
        for row in rows
    ]


def table_for_document(
    sizes: dict[str, Sizes], functions: dict[str, int], work: Work, document: str
) -> str:
    """The table of a document: what each crate holds, and its processor seconds from nothing.

    A crate that the gate proved in an earlier run keeps its numbers of the table that stands there.
    """
    seconds, earlier = work.seconds(), measured_in(document)
    heads = ["crate", *HEADS, *[f"{kind} s" for kind in KINDS], "all s"]
    lines = [f"| {' | '.join(heads)} |", "|---" * len(heads) + "|"]
    minutes, missing = 0.0, 0
    for crate, held in sizes.items():
        times = earlier.get(crate, ["", *[""] * len(KINDS), ""])
        if crate in functions:
            times = [str(functions[crate]), *cells(seconds, crate)]
        counts = [held.code, held.definitions, held.proofs, held.edits]
        lines.append(f"| {' | '.join([f'`{crate}`', times[0], *map(str, counts), *times[1:]])} |")
        minutes += int(times[-1] or 0) / 60
        missing += not times[-1]
    told = f"From nothing, all crates together: {minutes:.0f} processor minutes"
    told += f"; not measured yet: {missing} crates." if missing else "."
    return "\n".join([*lines, "", told])


def measured_in(document: str) -> dict[str, list[str]]:
    """The functions and the processor seconds of each crate in a document's table."""
    table = document.partition(BEGIN)[2].partition(END)[0]
    found = {}
    for name, row in re.findall(r"^\| `(\w+)` \|(.*)\|$", table, re.M):
        numbers = [cell.strip() for cell in row.split("|")]
        found[name] = [numbers[0], *numbers[len(HEADS) :]]
    return found


def between_marks(document: str, text: str) -> str:
    """A document with this text between its two marks."""
    if document.count(BEGIN) != 1 or document.count(END) != 1:
        raise ValueError(f"it has to hold one line {BEGIN} and one line {END}")
    before, _, rest = document.partition(BEGIN)
    return f"{before}{BEGIN}\n{text}\n{END}{rest.partition(END)[2]}"
