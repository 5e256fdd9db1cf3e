"""What is to be asked of one table: keys, columns and indexes, and what cannot be."""

from dataclasses import dataclass, field
from typing import Optional

from migration.collations import Collations
from migration.rows import MOST_COLUMNS, Field, Rows, is_text
from migration.schema import (
    BINARY_TYPES, INTEGER_TYPES, LISTED_TYPES, PLAIN_TYPES, Column, Key, Part,
)  # fmt: skip

MOST_INDEXES = 8
"""The indexes of a table in a catalog."""

UNTOLD = "a collation not told"
"""How a report calls the collation of a column for which the dump tells none."""


@dataclass
class Unit:
    """A key or a column whose groups are compared. `old` are its texts' collations before.

    `unknown` are those of them by which mycoll cannot answer."""

    title: str
    key: Optional[Key]
    parts: list[Part]
    fields: list[Field]
    old: list[str]
    unknown: list[str]


@dataclass
class Lookup:
    """An index whose plan for `=` is asked."""

    key: Key
    field: Field


@dataclass
class Plan:
    """All that a report says of one table."""

    units: list[Unit] = field(default_factory=list)
    lookups: list[Lookup] = field(default_factory=list)
    unchecked: list[tuple[str, str]] = field(default_factory=list)
    left_out: list[str] = field(default_factory=list)


def plan_of(rows: Rows, collations: Collations) -> Plan:
    """The plan of a table whose rows were all read."""
    plan = Plan()
    if rows.fault:
        plan.unchecked.append(("table", rows.fault))
        return plan
    _sort_columns(rows, plan)
    for key in rows.table.keys:
        _add_key(rows, key, collations, plan)
    for column in rows.table.columns:
        if is_text(column) and not _is_key(rows, column):
            _add_column(rows, column, collations, plan)
    _add_lookups(rows, collations, plan)
    for name, columns in rows.table.foreign:
        texts = [name for name in columns if _is_moved(rows.table.column(name))]
        if texts:
            title = f"foreign key {name} ({', '.join(columns)})"
            plan.unchecked.append((title, "it stands on two tables"))
    for note in rows.notes:
        title, _, reason = note.partition(": ")
        plan.unchecked.append((title, reason))
    return plan


def _is_moved(column: Optional[Column]) -> bool:
    """Whether a column is a text that gets the new collation."""
    return column is not None and column.is_text() and column.charset != "binary"


def _sort_columns(rows: Rows, plan: Plan) -> None:
    """The columns that cannot be checked, and those over which no collation has a say."""
    for column in rows.table.columns:
        title, field = f"column {column.name}", rows.field(column.name)
        if field is not None and field.doubt():
            plan.unchecked.append((title, field.doubt()))
        if column.type in LISTED_TYPES:
            plan.unchecked.append((title, f"{column.type}: its members stand in the definition"))
        elif _is_moved(column) and not is_text(column):
            plan.unchecked.append((title, f"mycoll has no character set {column.charset}"))
        elif column.name in rows.beyond and _is_moved(column):
            limit = f"more than {MOST_COLUMNS - 1} columns of the table are texts or in keys"
            plan.unchecked.append((title, limit))
        elif column.type in PLAIN_TYPES or _is_bytes(rows, column):
            plan.left_out.append(f"{column.name} ({column.type})")
        elif field is None and _is_unknown(column):
            plan.unchecked.append((title, f"{column.type} is a type that is not known here"))
    plan.left_out += [f"check {name}".rstrip() for name in rows.table.checks]


def _is_unknown(column: Column) -> bool:
    """Whether no list of types has the column's."""
    return not column.is_text() and column.type not in INTEGER_TYPES | BINARY_TYPES


def _is_bytes(rows: Rows, column: Column) -> bool:
    """Whether it holds bytes and no key asks for them."""
    is_binary = column.type in BINARY_TYPES or column.charset == "binary"
    return is_binary and rows.field(column.name) is None


def _is_key(rows: Rows, column: Column) -> bool:
    """Whether the whole column is a unique key of its own."""
    for key in rows.table.keys:
        if key.is_unique() and len(key.parts) == 1 and key.parts[0].length is None:
            if key.parts[0].column.lower() == column.name.lower():
                return True
    return False


def _add_key(rows: Rows, key: Key, collations: Collations, plan: Plan) -> None:
    """A unique key with texts, or why it cannot be checked."""
    columns = [rows.table.column(part.column) for part in key.parts]
    if not any(_is_moved(column) for column in columns) and "" not in [p.column for p in key.parts]:
        return
    if key.kind == "fulltext":
        plan.unchecked.append((key.title(), "mycoll has no full text search"))
    elif key.is_unique():
        fields = [rows.field(part.column) for part in key.parts]
        reason = _reason(key, columns, fields, collations)
        if reason:
            plan.unchecked.append((key.title(), reason))
        else:
            found = [field for field in fields if field is not None]
            plan.units.append(_unit(key.title(), key, key.parts, found, collations))


def _reason(
    key: Key,
    columns: list[Optional[Column]],
    fields: list[Optional[Field]],
    collations: Collations,
) -> str:
    """Why a key cannot be checked; empty where it can."""
    for part, column, field in zip(key.parts, columns, fields):
        if part.column == "":
            return "a part of it is an expression"
        if column is None:
            return f"its column {part.column} is not in the table"
        if field is None:
            return f"its column {part.column} ({column.type}) is not taken"
        if field.reason(collations.charset):
            return f"its column {part.column}: {field.reason(collations.charset)}"
    return ""


def _add_column(rows: Rows, column: Column, collations: Collations, plan: Plan) -> None:
    """A text column, or why it cannot be checked."""
    field = rows.field(column.name)
    if field is None:
        return
    title, reason = f"column {column.name}", field.reason(collations.charset)
    if reason:
        plan.unchecked.append((title, reason))
    else:
        plan.units.append(_unit(title, None, [Part(column.name)], [field], collations))


def _unit(
    title: str,
    key: Optional[Key],
    parts: list[Part],
    fields: list[Field],
    collations: Collations,
) -> Unit:
    """A unit with the collations of its texts before."""
    texts = [field.column.collation for field in fields if field.kind == "text"]
    old = list(dict.fromkeys(name or UNTOLD for name in texts))
    unknown = [name for name in old if not collations.is_known(name)]
    return Unit(title, key, parts, fields, old, unknown)


def _add_lookups(rows: Rows, collations: Collations, plan: Plan) -> None:
    """The indexes whose first column is a text."""
    for key in rows.table.keys:
        if key.kind in ("fulltext", "spatial") or not key.parts:
            continue
        if key.kind == "index" and key.parts[0].column == "":
            plan.unchecked.append((key.title(), "a part of it is an expression"))
        field = rows.field(key.parts[0].column)
        if field is None or field.kind != "text" or field.reason(collations.charset):
            continue
        if len(plan.lookups) == MOST_INDEXES:
            reason = f"mycoll takes {MOST_INDEXES} indexes of a table: its plan was not asked"
            plan.unchecked.append((key.title(), reason))
        else:
            plan.lookups.append(Lookup(key, field))
