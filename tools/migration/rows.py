"""The rows of a table, written to a file of comma-separated values as they come."""

from dataclasses import dataclass
from pathlib import Path
from typing import NamedTuple, Optional, TextIO

from migration.collations import SETS, Collations
from migration.schema import BINARY_TYPES, INTEGER_TYPES, Column, Table
from migration.tokens import meant, unescaped

MOST_ROWS = 200_000
MOST_BYTES = 16_777_216
MOST_COLUMNS = 32
LONGEST = 4_096
"""Limits of the engine: rows, bytes of a file, columns, characters of a text."""

_CODECS = {
    "utf8mb3": "utf-8",
    "utf8mb4": "utf-8",
    "ascii": "ascii",
    "ucs2": "utf-16-be",
    "utf16": "utf-16-be",
    "utf32": "utf-32-be",
}
_HOLES = (0x81, 0x8D, 0x8F, 0x90, 0x9D)
_LATIN1 = "".join(
    bytes([byte]).decode("latin-1" if byte in _HOLES else "cp1252") for byte in range(0x100)
)


class Value(NamedTuple):
    """A value in a dump. `charset` is the introducer's, or binary for hexadecimal digits."""

    kind: str
    raw: bytes = b""
    charset: str = ""


NULL = Value("null")
OTHER = Value("other")
"""A value that is an expression, or of a form that is not read."""


def plain_value(spelled: bytes) -> Value:
    """The value of a plain row."""
    first = spelled[:1]
    if first == b"'":
        return Value("plain", unescaped(spelled[1:-1], b"'"))
    if first == b"N":
        return NULL
    if first == b"_":
        return Value("plain", unescaped(spelled[9:-1], b"'"), "binary")
    if spelled[:2] == b"0x":
        return Value("plain", meant("hex", spelled), "binary")
    return Value("plain", spelled)


@dataclass
class Field:
    """A column of the file. `fault` says why it cannot be checked."""

    column: Column
    kind: str
    fault: str = ""
    longest: int = 0
    sample: Optional[str] = None
    unfit: int = 0
    first_unfit: int = 0
    lost: int = 0
    first_lost: int = 0
    lost_in: str = ""

    def reason(self, charset: str) -> str:
        """Why it cannot be checked; empty where it can."""
        if self.fault or not self.unfit:
            return self.fault
        return f"{charset} lacks characters of {_rows(self.unfit, self.first_unfit)}"

    def doubt(self) -> str:
        """What the dump program may have lost of it; empty for nothing."""
        if not self.lost:
            return ""
        return (
            f"? may stand for characters that {self.lost_in} lacks in"
            f" {_rows(self.lost, self.first_lost)}: dump with --default-character-set=utf8mb4"
        )


def _rows(count: int, first: int) -> str:
    """How many rows, and the first of them."""
    return f"row {first}" if count == 1 else f"{count:,} rows, the first is row {first}"


class Rows:
    """A table's file. The first column is the number of the row in the dump."""

    def __init__(self, table: Table, path: Path, collations: Collations) -> None:
        self.table = table
        self.path = path
        self.count = 0
        self.fault = ""
        self.notes: list[str] = []
        self.fields: list[Field] = []
        self.beyond: list[str] = []
        self._collations = collations
        self._size = 0
        self._file: Optional[TextIO] = None
        self._is_begun = False

    def field(self, name: str) -> Optional[Field]:
        """The field of a column, or None where the file has none."""
        folded = name.lower()
        return next((each for each in self.fields if each.column.name.lower() == folded), None)

    def begin(self) -> None:
        """Chooses the columns; what comes behind the first row changes them no more."""
        if self._is_begun:
            return
        self._is_begun = True
        self._all = [column.name for column in self.table.columns]
        self._own = [column.name for column in self.table.columns if not column.is_generated]
        in_keys = {part.column.lower() for key in self.table.keys for part in key.parts}
        chosen = [(_kind_of(column, in_keys, self.table), column) for column in self.table.columns]
        fields = [Field(column, kind) for kind, column in chosen if kind]
        if not any(field.kind == "text" for field in fields):
            return
        fields.sort(key=lambda each: (each.column.name.lower() not in in_keys, each.kind != "text"))
        self.fields = fields[: MOST_COLUMNS - 1]
        self.beyond = [field.column.name for field in fields[MOST_COLUMNS - 1 :]]
        self.path.write_bytes(b"")

    def takes(self) -> bool:
        """Whether the values of the next row are asked for; else it is only counted."""
        self.begin()
        return bool(self.fields) and not self.fault and self.count < MOST_ROWS

    def add(self, values: list[Value], columns: Optional[list[str]], text_set: str) -> None:
        """A row: its values, and the names of their columns where the dump lists them.

        A list of all columns may leave out those that are generated: mariadb-dump has them."""
        self.count += 1
        if columns is None:
            columns = self._all if len(values) == len(self._all) else self._own
        if len(values) != len(columns):
            self._refuse(f"row {self.count} has {len(values)} values for {len(columns)} columns")
            return
        cells, found = [str(self.count)], dict(zip(columns, values))
        for field in self.fields:
            cells.append(self._cell(field, found.get(field.column.name), text_set))
        self._write(",".join(cells) + "\n")

    def close(self) -> None:
        """Ends the file for now; another row opens it again."""
        if self._file is not None:
            self._file.close()
            self._file = None

    def finish(self) -> None:
        """Ends the file, which is taken away where the rows cannot be checked."""
        self.begin()
        self.close()
        if self.count > MOST_ROWS and self.fields:
            self.fault = f"{self.count:,} rows, mycoll takes {MOST_ROWS:,}"
        if self.fault and self.fields:
            self.path.unlink(missing_ok=True)

    def _refuse(self, fault: str) -> None:
        """Says why no row can be checked, once."""
        self.fault = self.fault or fault

    def _write(self, line: str) -> None:
        """Appends a record, within the engine's limit for a file."""
        self._size += len(line.encode("utf-8"))
        if self._size > MOST_BYTES:
            self._refuse(f"its texts are more than {MOST_BYTES:,} bytes, the most of a mycoll file")
            return
        if self._file is None:
            self._file = self.path.open("a", encoding="utf-8", newline="")
        self._file.write(line)

    def _cell(self, field: Field, value: Optional[Value], text_set: str) -> str:
        """A field of the record."""
        if value is None and field.column.is_generated:
            field.fault = field.fault or "it is generated, and the dump has no values of it"
        elif value is None:
            field.fault = field.fault or f"row {self.count} doesn't list it"
        elif value.kind == "null":
            return "\\N"
        elif value.kind == "other":
            field.fault = field.fault or f"row {self.count} has no plain value"
        if field.fault or value is None:
            return "\\N"
        if field.kind == "int":
            return self._integer(field, value)
        if field.kind == "binary":
            field.longest = max(field.longest, len(value.raw))
            if len(value.raw) > LONGEST:
                field.fault = f"row {self.count} has more than {LONGEST:,} bytes"
            return "\\N" if field.fault else value.raw.hex()
        return self._text(field, value, text_set)

    def _integer(self, field: Field, value: Value) -> str:
        """A whole number of 64 bits."""
        try:
            number = int(value.raw)
        except ValueError:
            number = 1 << 63
        if -(1 << 63) <= number < 1 << 63:
            return str(number)
        field.fault = f"row {self.count} has no whole number of 64 bits"
        return "\\N"

    def _text(self, field: Field, value: Value, text_set: str) -> str:
        """A text between quotes."""
        charset = value.charset or text_set
        if charset == "binary":
            charset = field.column.charset or "utf8mb4"
        text = decoded(value.raw, charset)
        if text is None:
            field.fault = f"row {self.count} is no text of {charset}"
        elif len(text) > LONGEST:
            field.fault = f"row {self.count} has more than {LONGEST:,} characters"
        elif text == "\\N":
            field.fault = f"row {self.count} has the two characters \\N, NULL in a file of rows"
        if field.fault or text is None:
            return "\\N"
        field.longest = max(field.longest, len(text))
        if field.sample is None:
            field.sample = text
        if not self._collations.is_fit(text):
            field.unfit += 1
            field.first_unfit = field.first_unfit or self.count
        if "?" in text and not value.charset and _is_narrower(text_set, field.column.charset):
            field.lost += 1
            field.first_lost = field.first_lost or self.count
            field.lost_in = text_set
        return '"' + text.replace('"', '""') + '"'


def decoded(raw: bytes, charset: str) -> Optional[str]:
    """The text of bytes in a set; None where they are malformed in it."""
    if charset == "latin1":
        return "".join(_LATIN1[byte] for byte in raw)
    try:
        return raw.decode(_CODECS.get(charset, "utf-8"))
    except UnicodeDecodeError:
        return None


def _is_narrower(charset: str, other: Optional[str]) -> bool:
    """Whether a set lacks characters that the other one has."""
    sizes = {"ascii": 1, "latin1": 2, "utf8mb3": 3, "ucs2": 3}
    return sizes.get(charset, 4) < sizes.get(other or "utf8mb4", 4)


def is_text(column: Column) -> bool:
    """Whether a column holds texts of mycoll's sets, as far as the dump tells."""
    in_sets = column.charset is None or column.charset in SETS[:-1]
    return column.is_text() and in_sets


def _kind_of(column: Column, in_keys: set[str], table: Table) -> str:
    """What the file holds of a column: text, int, binary, or empty for nothing."""
    if is_text(column):
        return "text"
    is_asked = column.name.lower() in in_keys
    if column.type in INTEGER_TYPES and (is_asked or table.primary() is None):
        return "int"
    is_binary = column.type in BINARY_TYPES or column.charset == "binary"
    return "binary" if is_binary and is_asked else ""
