"""What a crate holds, from its files and from what a gate prints."""

import re
from collections.abc import Iterable
from dataclasses import dataclass
from pathlib import Path


@dataclass(frozen=True)
class Sizes:
    """The lines of a crate that aren't blank, tests apart, and its edits that must fail."""

    code: int
    definitions: int
    proofs: int
    edits: int


def crates_of(top: Path) -> list[str]:
    """The crates of a repository, in the order of its list."""
    lines = (top / "crates.txt").read_text().splitlines()
    return [line.split()[0].rstrip(":") for line in lines if line.strip() and line[0] != "#"]


def sizes_of(folder: Path) -> Sizes:
    """The sizes of the crate in a folder."""
    code = [path for path in folder.glob("src/**/*.rt") if not path.stem.endswith("tests")]
    return Sizes(
        lines_in(code),
        lines_in(folder.glob("specs/**/*.antt")),
        lines_in(folder.glob("proofs/**/*.antt")),
        len(edits_of(folder)),
    )


def edits_of(folder: Path) -> list[str]:
    """The names of a crate's edits that must fail, in the order in which they are numbered."""
    return [path.stem for path in sorted(folder.glob("must-fail/*.edit"))]


def lines_in(paths: Iterable[Path]) -> int:
    """The lines of some files that aren't blank."""
    return sum(bool(line.strip()) for path in paths for line in path.read_text().splitlines())


def functions_in(printed: str) -> dict[str, int]:
    """The functions that each crate's proof counts, its tests apart, in what a gate printed."""
    found: dict[str, int] = {}
    crate = None
    for line in printed.splitlines():
        if header := re.fullmatch(r"== (\w+)(: its tests)?", line):
            crate = None if header[2] else header[1]
        elif crate and (count := re.match(r"logic=proved functions=(\d+) ", line)):
            found[crate] = int(count[1])
    return found
