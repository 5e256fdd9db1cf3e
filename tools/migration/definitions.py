"""CREATE TABLE and ALTER TABLE as tables, columns and keys."""

from typing import Callable, Optional

from migration.schema import Column, Key, Part, Reader, Table, newer, set_of, split, text_of
from migration.tokens import Token

_KEY_WORDS = {
    b"PRIMARY", b"UNIQUE", b"KEY", b"INDEX", b"FULLTEXT", b"SPATIAL", b"CONSTRAINT", b"FOREIGN",
    b"CHECK", b"PERIOD",
}  # fmt: skip


def read_table(name: str, tokens: list[Token], default_of: Callable[[str], str]) -> Table:
    """A table by the tokens behind its name; `default_of` tells a set's default collation."""
    reader = Reader(tokens)
    table = Table(name)
    parts = split(reader.inner()) if reader.peek().is_mark(b"(") else []
    for part in parts:
        if part[0].word in _KEY_WORDS:
            _add_key(table, Reader(part))
        else:
            _add_column(table, Reader(part))
    _give_collations(table, *_options(reader), default_of)
    return table


def alter_table(table: Table, tokens: list[Token]) -> list[str]:
    """Adds the keys that ALTER TABLE adds; gives the text columns that it changes otherwise."""
    changed = []
    for part in split(tokens):
        reader = Reader(part)
        if reader.takes(b"ADD") and reader.peek().word in _KEY_WORDS:
            _add_key(table, reader)
        elif reader.takes(b"MODIFY") or reader.takes(b"CHANGE"):
            reader.takes(b"COLUMN")
            column = table.column(reader.name())
            if column is not None and column.is_text():
                changed.append(column.name)
        elif reader.takes(b"CONVERT"):
            changed += [column.name for column in table.columns if column.is_text()]
    return changed


def split_index(tokens: list[Token]) -> Optional[tuple[list[Token], list[Token]]]:
    """CREATE INDEX: the tokens from the table's name on, and those before ON; None for others."""
    words = [token.word for token in tokens]
    if b"INDEX" not in words[:2] or b"ON" not in words:
        return None
    return tokens[words.index(b"ON") + 1 :], tokens[: words.index(b"ON")]


def create_index(table: Table, head: list[Token], parts: list[Token]) -> None:
    """Adds the key of CREATE INDEX: its kind and name, and the list of its parts."""
    _add_key(table, Reader(head + parts))


def _add_column(table: Table, reader: Reader) -> None:
    """A column and the keys that its definition declares."""
    column = Column(reader.name(), text_of(reader.take().value).lower())
    if reader.peek().is_mark(b"("):
        inner = reader.inner()
        if inner and inner[0].kind == "number":
            column.length = int(inner[0].value)
    table.columns.append(column)
    while not reader.is_at_end():
        if reader.takes(b"CHARACTER", b"SET") or reader.takes(b"CHARSET"):
            column.charset = newer(text_of(reader.take().value))
        elif reader.takes(b"COLLATE"):
            column.collation = newer(text_of(reader.take().value))
        elif reader.takes(b"COMMENT") or reader.takes(b"DEFAULT"):
            reader.inner() if reader.peek().is_mark(b"(") else reader.take()
        elif reader.takes(b"AS"):
            column.is_generated = True
        elif reader.takes(b"UNIQUE"):
            table.keys.append(Key("unique", column.name, [Part(column.name)]))
        elif reader.takes(b"PRIMARY"):
            table.keys.append(Key("primary", "PRIMARY", [Part(column.name)]))
        elif reader.takes(b"CHECK"):
            table.checks.append(column.name)
        elif reader.peek().is_mark(b"("):
            reader.inner()
        else:
            reader.take()


def _add_key(table: Table, reader: Reader) -> None:
    """A key, a foreign key or a check."""
    name = ""
    if reader.takes(b"CONSTRAINT") and reader.peek().word not in _KEY_WORDS:
        name = reader.name()
    if reader.takes(b"FOREIGN", b"KEY"):
        name = name if reader.peek().is_mark(b"(") else reader.name()
        columns = [part.column for part in _parts(reader)]
        table.foreign.append((name, columns))
        return
    if reader.takes(b"CHECK"):
        table.checks.append(name)
        return
    if reader.takes(b"PERIOD"):
        return
    kind = "index"
    for word in (b"PRIMARY", b"UNIQUE", b"FULLTEXT", b"SPATIAL"):
        kind = word.decode().lower() if reader.takes(word) else kind
    if not reader.takes(b"KEY"):
        reader.takes(b"INDEX")
    if not reader.peek().is_mark(b"(") and not reader.peek().word == b"USING":
        name = reader.name()
    if reader.takes(b"USING"):
        reader.take()
    parts = _parts(reader)
    name = "PRIMARY" if kind == "primary" else name or (parts[0].column if parts else "")
    table.keys.append(Key(kind, name, parts))


def _parts(reader: Reader) -> list[Part]:
    """The parts of a key; one that is an expression has no column."""
    parts = []
    for tokens in split(reader.inner()) if reader.peek().is_mark(b"(") else []:
        part = Reader(tokens)
        if part.peek().is_mark(b"("):
            parts.append(Part(""))
            continue
        column, length = part.name(), None
        if part.peek().is_mark(b"("):
            inner = part.inner()
            length = int(inner[0].value) if inner and inner[0].kind == "number" else None
        parts.append(Part(column, length))
    return parts


def _options(reader: Reader) -> tuple[Optional[str], Optional[str]]:
    """The table's own set and collation."""
    charset = collation = None
    while not reader.is_at_end():
        if reader.takes(b"CHARACTER", b"SET") or reader.takes(b"CHARSET"):
            reader.takes_mark(b"=")
            charset = newer(text_of(reader.take().value))
        elif reader.takes(b"COLLATE"):
            reader.takes_mark(b"=")
            collation = newer(text_of(reader.take().value))
        elif reader.peek().is_mark(b"("):
            reader.inner()
        else:
            reader.take()
    return charset, collation


def _give_collations(
    table: Table,
    charset: Optional[str],
    collation: Optional[str],
    default_of: Callable[[str], str],
) -> None:
    """Each text column's set and collation: its own, else the table's."""
    for column in table.columns:
        if not column.is_text():
            continue
        if column.collation is None and column.charset is not None:
            column.collation = default_of(column.charset)
        elif column.collation is None:
            column.collation = collation or (default_of(charset) if charset else None)
        if column.collation is not None:
            column.charset = set_of(column.collation)
