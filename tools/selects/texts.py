"""Texts of the character sets, and conversions between them."""

from typing import NamedTuple, Optional

from weights.sets import latin1_char

CODECS = {
    "ascii": "ascii", "utf8mb3": "utf-8", "utf8mb4": "utf-8", "ucs2": "utf-16-be",
    "utf16": "utf-16-be", "utf32": "utf-32-be", "binary": "latin-1",
}  # fmt: skip
UNICODE = ("utf8mb3", "utf8mb4", "ucs2", "utf16", "utf32")
SETS = ("latin1", *CODECS)
UNITS = {"ucs2": 2, "utf16": 2, "utf32": 4}
"""How many bytes a unit has in the sets with more than one."""

LATIN1 = [latin1_char(byte) for byte in range(0x100)]
"""The characters of latin1 by their bytes."""

ASCII, IN_LATIN1, BMP, ALL, BYTES = range(5)
"""The repertoires, each one holding the characters of those before it."""

CAPS = {
    "ascii": ASCII, "latin1": IN_LATIN1, "utf8mb3": BMP, "ucs2": BMP, "utf8mb4": ALL,
    "utf16": ALL, "utf32": ALL, "binary": BYTES,
}  # fmt: skip
"""The repertoire of a set's whole character set."""

LIMIT = 1_048_576
"""How many bytes a value may have."""


class Text(NamedTuple):
    """A text of a set. Of binary each byte is the character of its number."""

    charset: str
    chars: str


def set_named(name: str) -> Optional[str]:
    """The set of a name."""
    lower = "utf8mb3" if name.lower() == "utf8" else name.lower()
    return lower if lower in SETS else None


def has_char(charset: str, char: str) -> bool:
    """Whether the set has the character."""
    if charset == "latin1":
        return char in LATIN1
    last = {"ascii": 0x7F, "utf8mb3": 0xFFFF, "ucs2": 0xFFFF, "binary": 0xFF}
    return ord(char) <= last.get(charset, 0x10FFFF)


def bytes_of(text: Text) -> bytes:
    """The bytes that spell a text."""
    if text.charset == "latin1":
        return bytes(map(LATIN1.index, text.chars))
    return text.chars.encode(CODECS[text.charset])


def taken_for(charset: str, given: bytes) -> Optional[Text]:
    """Bytes as a text of the set, behind zeros up to a whole unit; none where malformed."""
    given = bytes(-len(given) % UNITS.get(charset, 1)) + given
    if charset == "latin1":
        return Text(charset, "".join(LATIN1[byte] for byte in given))
    try:
        chars = given.decode(CODECS[charset])
    except UnicodeDecodeError:
        return None
    return Text(charset, chars) if all(has_char(charset, char) for char in chars) else None


def converted(text: Text, charset: str) -> Text:
    """The text in another set, `?` for each character that it lacks. To binary the bytes stay;
    from it bytes below 80 are characters and others are `?`."""
    if text.charset == charset:
        return text
    if charset == "binary":
        return Text(charset, bytes_of(text).decode("latin-1"))
    last = "\x7f" if text.charset == "binary" else "\U0010ffff"
    fitting = (char if char <= last and has_char(charset, char) else "?" for char in text.chars)
    return Text(charset, "".join(fitting))


def repertoire_of(text: Text) -> int:
    """The least class that has all characters of the text."""
    if all(char <= "\x7f" for char in text.chars):
        return ASCII
    if text.charset == "binary":
        return BYTES
    if all(char in LATIN1 for char in text.chars):
        return IN_LATIN1
    return BMP if all(char <= "\uffff" for char in text.chars) else ALL


def kept(text: Text) -> Optional[Text]:
    """The text as a value: none, which is NULL, where it has too many bytes."""
    return text if len(bytes_of(text)) <= LIMIT else None
