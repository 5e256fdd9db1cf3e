"""The character sets that weight files stand on: their characters and spellings."""

import re
import unicodedata
from collections.abc import Iterator

BYTE_SETS = ("latin1", "ascii")
UNICODE_SETS = ("utf8mb3", "utf8mb4", "ucs2", "utf16", "utf32")

PAGE = 0x100
"""How many characters are asked for in one statement."""

REPLACEMENT = 0xFFFD
"""The character whose weight stands for every character above FFFF in a `general` file."""

_CODECS = {
    "utf8mb3": "utf-8",
    "utf8mb4": "utf-8",
    "ucs2": "utf-16-be",
    "utf16": "utf-16-be",
    "utf32": "utf-32-be",
}
_LAST = {"ascii": 0x7F, "latin1": 0xFF, "utf8mb3": 0xFFFF, "ucs2": 0xFFFF}
_HOLES = (0x81, 0x8D, 0x8F, 0x90, 0x9D)
_NAME = re.compile(r"[a-z_$][a-z0-9_$]{0,63}")


def set_name(told: str) -> str:
    """The name in a catalog of a set as a server tells it (utf8 is an older name of utf8mb3)."""
    lower = told.lower()
    return "utf8mb3" if lower == "utf8" else lower


def is_collation_name(name: str) -> bool:
    """Whether a catalog can hold the name: 1 to 64 letters, digits, `_`, `$`, no digit first."""
    return _NAME.fullmatch(name) is not None


def is_general(collation: str) -> bool:
    """Whether a collation of a Unicode set goes by one weight for each character."""
    return collation.endswith(("_general_ci", "_general_mysql500_ci"))


def pages(charset: str) -> Iterator[range]:
    """The numbers of the set's characters, at most 256 at a time, surrogates left out."""
    last = _LAST.get(charset, 0x10FFFF)
    for start in range(0, last + 1, PAGE):
        if not 0xD800 <= start <= 0xDFFF:
            yield range(start, min(start + PAGE, last + 1))


def spelling(charset: str, code: int) -> bytes:
    """The bytes of a character; in latin1 and ascii its number is its byte."""
    if charset in BYTE_SETS:
        return bytes([code])
    return chr(code).encode(_CODECS[charset])


def literal(charset: str, text: bytes) -> str:
    """The bytes as a string literal of the set, exact on every connection."""
    return f"_{charset} X'{text.hex().upper()}'"


def character_name(charset: str, code: int) -> str:
    """How messages name a character: its number, and its name in Unicode where it has one."""
    char = latin1_char(code) if charset in BYTE_SETS else chr(code)
    number = f"byte {code:02X}" if charset in BYTE_SETS else f"U+{code:04X}"
    name = unicodedata.name(char, "")
    return f"{number} {name}".rstrip()


def latin1_char(byte: int) -> str:
    """The character of a byte in the server's latin1: cp1252 with its five holes filled."""
    return bytes([byte]).decode("latin-1" if byte in _HOLES else "cp1252")
