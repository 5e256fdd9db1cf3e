"""The tokens of a dump, read in chunks and never as a whole."""

import re
from typing import BinaryIO, NamedTuple, Optional

CHUNK = 1 << 20
"""The bytes that are read at once, at least."""

MARGIN = 32
"""A token counts only where this many bytes behind it are there, or the dump has ended."""

_STRING = rb"'[^'\\]*(?:(?:\\.|'')[^'\\]*)*'"

_PARTS = [
    ("space", rb"[ \t\r\n\f\v]+"),
    ("hex", rb"0x[0-9A-Fa-f]+|[xX]'[0-9A-Fa-f]*'"),
    ("bits", rb"[bB]'[01]*'"),
    ("string", _STRING),
    ("number", rb"[-+]?(?:[0-9]+(?:\.[0-9]*)?|\.[0-9]+)(?:[eE][-+]?[0-9]+)?"),
    ("mark", rb"[(),=.]"),
    ("name", rb"`(?:[^`]|``)*`"),
    ("quoted", rb'"[^"\\]*(?:(?:\\.|"")[^"\\]*)*"'),
    ("word", rb"[A-Za-z_$@\x80-\xff][A-Za-z0-9_$@\x80-\xff]*"),
    ("line", rb"(?:--(?=[ \t\r\n\f\v])|\#)[^\n]*"),
    ("comment", rb"/\*M!999999.*?\*/|/\*(?!M?!).*?\*/"),
    ("versioned", rb"/\*M?![0-9]*|\*/"),
    ("other", rb"."),
]
"""The spellings, by kind; a versioned comment counts as what stands in it."""

_PLAIN = rb"NULL|0x[0-9A-Fa-f]+|[-+]?[0-9]+(?:\.[0-9]+)?|(?:_binary )?" + _STRING
_ROW = re.compile(rb"[ \n,]*\(((?:(?:%s),)*(?:%s))\)" % (_PLAIN, _PLAIN), re.DOTALL)
_VALUES = re.compile(_PLAIN, re.DOTALL)

_ESCAPED = {b"0": b"\0", b"b": b"\b", b"n": b"\n", b"r": b"\r", b"t": b"\t", b"Z": b"\x1a"}
_ESCAPES = re.compile(rb"\\(.)|''|\"\"", re.DOTALL)


class Token(NamedTuple):
    """One token. `value` is the word, the bytes that a name or a string means, or the digits."""

    kind: str
    value: bytes

    @property
    def word(self) -> bytes:
        """A word in upper case; empty where this is none."""
        return self.value.upper() if self.kind == "word" else b""

    def is_mark(self, mark: bytes) -> bool:
        """Whether this is that mark."""
        return self.kind == "mark" and self.value == mark


class Cut(Exception):
    """The dump ends inside a statement; `place` is the byte at which its last part begins."""

    def __init__(self, place: int) -> None:
        super().__init__(place)
        self.place = place


class Tokens:
    """The tokens of a dump. `END` is the end of a statement, None that of the dump."""

    END = Token("end", b"")

    def __init__(self, file: BinaryIO) -> None:
        self._file = file
        self._buffer = b""
        self._at = 0
        self._before = 0
        self._is_whole = False
        self._is_fresh = True
        self._spellings = _compiled(b";")
        self.program = b""
        self.version = b""
        self.is_completed = False

    def place(self) -> int:
        """The bytes that were read as tokens."""
        return self._before + self._at

    def next(self) -> Token:
        """The next token of a statement that has begun; a Cut where the dump ends."""
        token = self.next_or_none()
        if token is None:
            raise Cut(self.place())
        return token

    def next_or_none(self) -> Optional[Token]:
        """The next token, or None at the dump's end."""
        while True:
            match = self._spellings.match(self._buffer, self._at)
            if not self._is_whole and (match is None or self._may_go_on(match)):
                self._read_more()
                continue
            if match is None:
                return None
            kind, spelled = match.lastgroup, match.group()
            start, self._at = self._at, match.end()
            if kind == "space" or kind == "versioned" or kind == "comment":
                continue
            if kind == "line":
                self._look_at(spelled)
                continue
            if kind == "other" and spelled in b"'\"`" or spelled == b"/" and self._opens(start):
                raise Cut(self._before + start)
            if kind == "end":
                self._is_fresh = True
                return self.END
            if self._is_fresh and kind == "word" and spelled.upper() == b"DELIMITER":
                self._take_delimiter()
                continue
            self._is_fresh = False
            return Token(kind, meant(kind, spelled))

    def plain_row(self) -> Optional[bytes]:
        """A row as the dump programs write it, without its parentheses, or None.

        This is for speed: what it doesn't find is found token by token."""
        match = _ROW.match(self._buffer, self._at)
        if match is None or match.end() + MARGIN > len(self._buffer):
            return None
        self._at = match.end()
        return match.group(1)

    def skip_statement(self) -> None:
        """Passes by what is left of a statement."""
        while self.next() is not self.END:
            pass

    def _may_go_on(self, match: re.Match[bytes]) -> bool:
        """Whether more bytes could make the token another one."""
        if match.end() + MARGIN > len(self._buffer):
            return True
        return match.lastgroup == "other" and match.group() in b"'\"`/"

    def _opens(self, start: int) -> bool:
        """Whether a comment begins here, which then is not closed."""
        return self._buffer[start : start + 2] == b"/*"

    def _read_more(self) -> None:
        """Lets go of what was read, and reads as much as is left again, or a chunk."""
        rest = self._buffer[self._at :]
        self._before += self._at
        more = self._file.read(max(CHUNK, len(rest)))
        self._is_whole = not more
        self._buffer = rest + more
        self._at = 0

    def _take_delimiter(self) -> None:
        """The client's own line that names what ends statements from here on."""
        end = self._buffer.find(b"\n", self._at)
        end = len(self._buffer) if end < 0 else end
        self._spellings = _compiled(self._buffer[self._at : end].strip() or b";")
        self._at = end

    def _look_at(self, comment: bytes) -> None:
        """What the dump programs tell of themselves in comments."""
        if comment.startswith((b"-- MySQL dump", b"-- MariaDB dump")):
            self.program = comment[3:].strip()
        elif comment.startswith(b"-- Server version"):
            self.version = comment[17:].strip()
        elif comment.startswith(b"-- Dump completed"):
            self.is_completed = True


def _compiled(delimiter: bytes) -> re.Pattern[bytes]:
    """All spellings, that of a statement's end before the others."""
    parts = [("end", re.escape(delimiter)), *_PARTS]
    named = [b"(?P<%s>%s)" % (name.encode(), part) for name, part in parts]
    return re.compile(b"|".join(named), re.DOTALL)


def meant(kind: str, spelled: bytes) -> bytes:
    """What a token stands for."""
    if kind == "name":
        return spelled[1:-1].replace(b"``", b"`")
    if kind == "string" or kind == "quoted":
        return unescaped(spelled[1:-1], spelled[:1])
    if kind == "hex":
        digits = spelled[2:] if spelled[:1] == b"0" else spelled[2:-1]
        return bytes.fromhex((b"0" * (len(digits) % 2) + digits).decode())
    return spelled


def plain_values(row: bytes) -> list[bytes]:
    """The values of a plain row, as they are spelled."""
    return _VALUES.findall(row)


def unescaped(inner: bytes, quote: bytes) -> bytes:
    """The bytes that a string's inner part stands for."""
    if b"\\" not in inner and quote not in inner:
        return inner

    def replaced(match: re.Match[bytes]) -> bytes:
        letter = match.group(1)
        if letter is None:
            return quote if match.group() == quote * 2 else match.group()
        return match.group() if letter in b"%_" else _ESCAPED.get(letter, letter)

    return _ESCAPES.sub(replaced, inner)
