"""Tables as a dump's CREATE TABLE and ALTER TABLE tell them."""

from dataclasses import dataclass, field
from typing import Optional

from migration.tokens import Token, Tokens

TEXT_TYPES = {
    "char", "varchar", "tinytext", "text", "mediumtext", "longtext",
}
INTEGER_TYPES = {"tinyint", "smallint", "mediumint", "int", "integer", "bigint"}
BINARY_TYPES = {"binary", "varbinary", "tinyblob", "blob", "mediumblob", "longblob"}
LISTED_TYPES = {"enum", "set"}
"""Types whose members are texts with a collation, in the table's definition."""

PLAIN_TYPES = {
    "bit", "bool", "boolean", "date", "datetime", "decimal", "double", "fixed", "float", "json",
    "numeric", "real", "time", "timestamp", "year", "geometry", "point", "linestring", "polygon",
    "multipoint", "multilinestring", "multipolygon", "geometrycollection", "geomcollection",
    "inet4", "inet6", "uuid",
}  # fmt: skip
"""Types over whose values no collation has a say that a table could change."""


@dataclass
class Column:
    """A column; `charset` and `collation` are None where the dump tells none."""

    name: str
    type: str
    length: Optional[int] = None
    charset: Optional[str] = None
    collation: Optional[str] = None
    is_generated: bool = False

    def is_text(self) -> bool:
        """Whether it holds texts, those of the set binary aside."""
        return self.type in TEXT_TYPES


@dataclass
class Part:
    """A part of a key: a column, and how many characters of it where not all."""

    column: str
    length: Optional[int] = None

    def shown(self) -> str:
        """As a dump has it, an expression aside."""
        name = self.column or "expression"
        return name if self.length is None else f"{name}({self.length})"


@dataclass
class Key:
    """A key. `kind` is primary, unique, index, fulltext or spatial."""

    kind: str
    name: str
    parts: list[Part]

    def is_unique(self) -> bool:
        """Whether no two rows may be equal in it."""
        return self.kind in ("primary", "unique")

    def title(self) -> str:
        """How a report calls it."""
        parts = ", ".join(part.shown() for part in self.parts)
        name = "primary key" if self.kind == "primary" else f"{self.kind} key {self.name}"
        return f"{name.replace('index key', 'index')} ({parts})"


@dataclass
class Table:
    """A table of a dump."""

    name: str
    columns: list[Column] = field(default_factory=list)
    keys: list[Key] = field(default_factory=list)
    foreign: list[tuple[str, list[str]]] = field(default_factory=list)
    checks: list[str] = field(default_factory=list)

    def column(self, name: str) -> Optional[Column]:
        """The column of that name, in upper or lower case."""
        folded = name.lower()
        return next((each for each in self.columns if each.name.lower() == folded), None)

    def primary(self) -> Optional[Key]:
        """The primary key."""
        return next((key for key in self.keys if key.kind == "primary"), None)


def text_of(value: bytes) -> str:
    """A name in the dump as text."""
    return value.decode("utf-8", errors="replace")


def set_of(collation: str) -> str:
    """The character set in a collation's name; `utf8` is an older name of utf8mb3."""
    return newer(collation).partition("_")[0]


def newer(name: str) -> str:
    """A set's or a collation's name in lower case, utf8mb3 for the older utf8."""
    lower = name.lower()
    return "utf8mb3" + lower[4:] if lower == "utf8" or lower.startswith("utf8_") else lower


class Reader:
    """The tokens of one definition, looked at from left to right."""

    def __init__(self, tokens: list[Token]) -> None:
        self.tokens = tokens
        self.at = 0

    def peek(self, ahead: int = 0) -> Token:
        """A token that comes, or the end."""
        place = self.at + ahead
        return self.tokens[place] if place < len(self.tokens) else Tokens.END

    def take(self) -> Token:
        """The next token."""
        token = self.peek()
        self.at += 1
        return token

    def takes(self, *words: bytes) -> bool:
        """Whether these words come, which are then taken."""
        if all(self.peek(i).word == word for i, word in enumerate(words)):
            self.at += len(words)
            return True
        return False

    def takes_mark(self, mark: bytes) -> bool:
        """Whether that mark comes, which is then taken."""
        if self.peek().is_mark(mark):
            self.at += 1
            return True
        return False

    def name(self) -> str:
        """A name, the part behind the last dot where there are dots."""
        name = text_of(self.take().value)
        while self.takes_mark(b"."):
            name = text_of(self.take().value)
        return name

    def is_at_end(self) -> bool:
        """Whether no token is left."""
        return self.at >= len(self.tokens)

    def inner(self) -> list[Token]:
        """The tokens between this parenthesis and the one that closes it."""
        depth, inner = 1, []
        self.take()
        while not self.is_at_end():
            token = self.take()
            depth += token.is_mark(b"(") - token.is_mark(b")")
            if depth == 0:
                break
            inner.append(token)
        return inner


def split(tokens: list[Token]) -> list[list[Token]]:
    """The parts between commas that stand in no parenthesis."""
    parts: list[list[Token]] = [[]]
    depth = 0
    for token in tokens:
        depth += token.is_mark(b"(") - token.is_mark(b")")
        if depth == 0 and token.is_mark(b","):
            parts.append([])
        else:
            parts[-1].append(token)
    return [part for part in parts if part]
