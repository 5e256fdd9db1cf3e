"""Weight files as text: what they can't say is a fault, and runs of weights are folded."""

from collections.abc import Iterator, Mapping
from dataclasses import dataclass

from weights.fault import Fault
from weights.sets import BYTE_SETS, REPLACEMENT, character_name

Weights = Mapping[int, tuple[int, ...]]
"""The weights of each character, by its number."""

SHOWN = 10
"""How many characters that don't fit are told one by one."""


def file_name(collation: str) -> str:
    """The file that holds the table of a collation."""
    return f"{collation}.txt"


@dataclass(frozen=True)
class Table:
    """The weights of a collation, and where they come from."""

    collation: str
    charset: str
    weights: Weights
    source: str

    @property
    def kind(self) -> str:
        """The kind of the file in a catalog."""
        return "table8" if self.charset in BYTE_SETS else "general"

    def catalog_line(self, file: str) -> str:
        """The line by which a catalog declares the collation."""
        return f"collation {self.collation} {self.charset} {self.kind} {file}"

    def lines(self) -> list[str]:
        """The lines of the file after its comments; a Fault where it can't hold the weights."""
        misfits = list(_misfits_of(self))
        if misfits:
            raise _unfit(self, misfits)
        return table8_lines(self.weights) if self.kind == "table8" else general_lines(self.weights)


def table8_lines(weights: Weights) -> list[str]:
    """A byte that is its own weight needs no line, beside one `default =` for all of them."""
    own = [byte for byte in range(0x100) if weights[byte] == (byte,)]
    pairs = {byte: each for byte, each in weights.items() if len(each) == 2}
    singles = {byte: each[0] for byte, each in weights.items() if len(each) == 1}
    lines = ["default ="] if own else []
    lines += _folded(singles, 2)
    lines += [f"{byte:02X} {first:02X} {second:02X}" for byte, (first, second) in pairs.items()]
    return lines


def general_lines(weights: Weights) -> list[str]:
    """A code point that is its own weight needs no line, nor does one above FFFF."""
    return list(_folded({code: each[0] for code, each in weights.items() if code <= 0xFFFF}, 4))


def _folded(weights: Mapping[int, int], digits: int) -> Iterator[str]:
    """A line for each run of neighbours whose weights rise by one, without own weights."""
    others = {code: weight for code, weight in sorted(weights.items()) if code != weight}
    run: list[int] = []
    for code, weight in others.items():
        if run and (code, weight) != (run[-1] + 1, others[run[-1]] + 1):
            yield _run_line(run, others[run[0]], digits)
            run = []
        run.append(code)
    if run:
        yield _run_line(run, others[run[0]], digits)


def _run_line(run: list[int], weight: int, digits: int) -> str:
    """The line of a run whose first character has this weight."""
    if len(run) == 1:
        return f"{run[0]:0{digits}X} {weight:0{digits}X}"
    return f"{run[0]:0{digits}X}..{run[-1]:0{digits}X} @ {weight:0{digits}X}"


def _misfits_of(table: Table) -> Iterator[str]:
    """What the format can't say about each character, in the order of their numbers."""
    for code, weights in table.weights.items():
        misfit = _misfit(table, code, weights)
        if misfit:
            yield f"{character_name(table.charset, code)}: {misfit}"


def _misfit(table: Table, code: int, weights: tuple[int, ...]) -> str:
    """What the format can't say about a character; empty where it fits."""
    most = 2 if table.kind == "table8" and code != 0x20 else 1
    greatest = 0xFF if table.kind == "table8" else 0xFFFF
    if not 1 <= len(weights) <= most:
        wanted = "one or two" if most == 2 else "exactly one"
        return f"{len(weights)} weights ({_shown(weights)}), the file holds {wanted}"
    if max(weights) > greatest:
        return f"the weight {max(weights):X}, the file holds at most {greatest:X}"
    if code > 0xFFFF and weights != table.weights[REPLACEMENT]:
        wanted = _shown(table.weights[REPLACEMENT])
        return f"the weight {_shown(weights)}, the file holds that of U+FFFD ({wanted})"
    return ""


def _shown(weights: tuple[int, ...]) -> str:
    """Weights as messages show them."""
    return " ".join(f"{weight:X}" for weight in weights) or "none"


def _unfit(table: Table, misfits: list[str]) -> Fault:
    """The first characters that don't fit, and how many there are."""
    shown = "".join(f"\n    {misfit}" for misfit in misfits[:SHOWN])
    more = len(misfits) - SHOWN
    rest = f"\n    and {more} more" if more > 0 else ""
    what = f"{len(misfits)} characters do not fit a {table.kind} file"
    return Fault(
        f"{table.collation}: {what}:{shown}{rest}",
        "leave this collation out, and the others are written",
    )
