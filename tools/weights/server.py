"""The weights of each character, as a server that runs tells them."""

import re
from collections.abc import Iterator
from dataclasses import dataclass

from weights.client import UNKNOWN, Answers, ask
from weights.fault import Fault
from weights.sets import (
    BYTE_SETS,
    UNICODE_SETS,
    character_name,
    is_collation_name,
    is_general,
    literal,
    pages,
    set_name,
    spelling,
)
from weights.table import Table, Weights

LEAVE_OUT = "leave this collation out, and the others are written"


@dataclass(frozen=True)
class Wish:
    """A collation that is asked for, and the set that its name begins with."""

    collation: str
    charset: str

    @property
    def digits(self) -> int:
        """How many hexadecimal digits the server writes for one weight."""
        return 2 if self.charset in BYTE_SETS else 4


def wishes_of(collations: list[str]) -> list[Wish]:
    """What is asked for; a Fault for a collation that no weight file can hold."""
    return [_wish(name.lower()) for name in collations]


def read_server(options: list[str], wishes: list[Wish]) -> list[Table]:
    """The tables of the collations, by one run of the client; a Fault where one can't be had."""
    answers = ask(options, statements(wishes))
    source = _source(*answers.take("server", 2))
    return [_table(wish, answers, source) for wish in wishes]


def _source(version: str, comment: str) -> str:
    """Which server it is; MariaDB's version has its name in it."""
    product = "MariaDB" if "mariadb" in f"{version} {comment}".lower() else "MySQL"
    return f"the server {product} {version} ({comment.strip('()')})"


def _wish(collation: str) -> Wish:
    """A collation by its name; a Fault where no weight file can hold it."""
    charset = set_name(collation.partition("_")[0])
    if collation == "binary" or collation.endswith("_bin"):
        raise Fault(f"{collation}: is a binary collation", "leave it out, mycoll has its own")
    if not is_collation_name(collation) or charset not in BYTE_SETS + UNICODE_SETS:
        raise Fault(
            f"{collation}: its name does not begin with a character set that has weight files",
            f"these are {', '.join(BYTE_SETS + UNICODE_SETS)}",
        )
    if charset in UNICODE_SETS and not is_general(collation):
        raise Fault(
            f"{collation}: is no collation of one weight for each character",
            "of a Unicode set name *_general_ci; the kinds uca400 to uca900 may suit the others",
        )
    return Wish(collation, charset)


def statements(wishes: list[Wish]) -> Iterator[str]:
    """What the client is given: each statement is one line, and so is each answer."""
    yield "SELECT 'server', VERSION(), @@version_comment;\n"
    for wish in wishes:
        yield _charset_statement(wish)
        yield _pad_statement(wish)
        for page in pages(wish.charset):
            yield _page_statement(wish, page)
        if wish.charset in BYTE_SETS:
            yield _pairs_statement(wish)


def _charset_statement(wish: Wish) -> str:
    """Which set the collation has; no line comes where the server has no such collation."""
    return (
        f"SELECT 'set {wish.collation}', CHARACTER_SET_NAME FROM information_schema.COLLATIONS "
        f"WHERE COLLATION_NAME = '{wish.collation}';\n"
    )


def _pad_statement(wish: Wish) -> str:
    """Whether an empty text equals a space."""
    empty = literal(wish.charset, b"")
    space = literal(wish.charset, spelling(wish.charset, 0x20))
    return f"SELECT 'pads {wish.collation}', {empty} COLLATE {wish.collation} = {space};\n"


def _page_statement(wish: Wish, page: range) -> str:
    """The weights of each character of a page, a field for each."""
    columns = ", ".join(
        f"HEX(WEIGHT_STRING({literal(wish.charset, spelling(wish.charset, code))}"
        f" COLLATE {wish.collation}))"
        for code in page
    )
    return f"SELECT '{_page_label(wish, page)}', {columns};\n"


def _page_label(wish: Wish, page: range) -> str:
    """What stands first in the answer about a page."""
    return f"page {wish.collation} {page.start:X}"


def _pairs_statement(wish: Wish) -> str:
    """The weights of one text that has every two characters side by side."""
    text = literal(wish.charset, bytes(_every_pair(wish.charset)))
    weights = f"HEX(WEIGHT_STRING({text} COLLATE {wish.collation}))"
    return f"SELECT 'pairs {wish.collation}', {weights};\n"


def _every_pair(charset: str) -> list[int]:
    """A text of a set of bytes in which each character stands before each other one."""
    characters = [code for page in pages(charset) for code in page]
    return [code for left in characters for right in characters for code in (left, right)]


def _table(wish: Wish, answers: Answers, source: str) -> Table:
    """The table of a collation; a Fault where it isn't what its name says, or doesn't pad."""
    if not answers.has(f"set {wish.collation}"):
        newer = wish.collation.replace("utf8_", "utf8mb3_", 1)
        advice = f"a newer server calls it {newer}" if newer != wish.collation else UNKNOWN
        raise Fault(f"{wish.collation}: the server does not list it", advice)
    [charset] = answers.take(f"set {wish.collation}", 1)
    if set_name(charset) != wish.charset:
        raise Fault(
            f"{wish.collation}: the server has it as a collation of {charset}",
            LEAVE_OUT,
        )
    if answers.take(f"pads {wish.collation}", 1) != ["1"]:
        raise Fault(
            f"{wish.collation}: does not pad with spaces, as the kind of its file would",
            LEAVE_OUT,
        )
    weights = _weights(wish, answers)
    if wish.charset in BYTE_SETS:
        _no_contraction(wish, answers, weights)
    return Table(wish.collation, wish.charset, weights, source)


def _weights(wish: Wish, answers: Answers) -> Weights:
    """The weights of all characters; bytes that are no characters of ascii are their own."""
    weights: dict[int, tuple[int, ...]] = {}
    known: dict[str, tuple[int, ...]] = {}
    for page in pages(wish.charset):
        fields = answers.take(_page_label(wish, page), len(page))
        for code, hexed in zip(page, fields):
            if hexed not in known:
                known[hexed] = _numbers(wish, code, hexed)
            weights[code] = known[hexed]
    if wish.charset in BYTE_SETS:
        for byte in range(len(weights), 0x100):
            weights[byte] = (byte,)
    return weights


def _no_contraction(wish: Wish, answers: Answers, weights: Weights) -> None:
    """A Fault where a text has other weights than its characters, one after the other."""
    [hexed] = answers.take(f"pairs {wish.collation}", 1)
    each = {code: "".join(f"{weight:02X}" for weight in weights[code]) for code in weights}
    if hexed != "".join(each[code] for code in _every_pair(wish.charset)):
        raise Fault(
            f"{wish.collation}: some two characters have other weights together than one by one",
            LEAVE_OUT,
        )


def _numbers(wish: Wish, code: int, hexed: str) -> tuple[int, ...]:
    """The weights in the server's hexadecimal digits; a Fault where there are others."""
    width = wish.digits
    if len(hexed) % width != 0 or not re.fullmatch("[0-9A-F]*", hexed):
        raise Fault(
            f"{wish.collation}: the server gives {hexed!r} as the weights of"
            f" {character_name(wish.charset, code)}",
            f"each weight must be {width} hexadecimal digits",
        )
    return tuple(int(hexed[at : at + width], 16) for at in range(0, len(hexed), width))
