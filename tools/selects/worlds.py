"""What a run is given: the collations and tables of a catalog and its files."""

import csv
import io
from collections.abc import Mapping
from dataclasses import dataclass, field
from typing import Optional, Union

from . import collations
from .collations import Collation
from .texts import Text, converted, taken_for

Value = Union[None, int, Text]
Row = list[Value]

USUAL = {
    "latin1": "latin1_swedish_ci", "ascii": "ascii_general_ci", "utf8mb3": "utf8mb3_general_ci",
    "utf8mb4": "utf8mb4_0900_ai_ci", "ucs2": "ucs2_general_ci", "utf16": "utf16_general_ci",
    "utf32": "utf32_general_ci",
}  # fmt: skip


@dataclass
class Table:
    """A table: its columns with their collations, none for numbers; those with an index; rows."""

    name: str
    columns: list[tuple[str, Optional[str]]] = field(default_factory=list)
    indexed: set[str] = field(default_factory=set)
    rows: list[Row] = field(default_factory=list)


@dataclass
class World:
    """All tables and collations, and the connection's collation."""

    collations: dict[str, Collation]
    tables: dict[str, Table] = field(default_factory=dict)
    connection: str = "utf8mb4_bin"

    def usual(self, charset: str) -> str:
        """The default collation of a set: the one of that name where it is declared for it."""
        name = USUAL.get(charset, "")
        if name in self.collations and self.collations[name].charset == charset:
            return name
        return "binary" if charset == "binary" else f"{charset}_bin"


def read_world(files: Mapping[str, str], catalog: str = "cat.txt") -> World:
    """What the catalog among the files declares. Nothing is checked: the files are right."""
    world = World(dict(collations.BUILT_IN))
    loaders: list[tuple[Table, str, list[list[str]]]] = []
    for line in collations.lines_of(files[catalog]):
        word, name, *rest = line.split()
        if word == "collation":
            world.collations[name] = collations.made(name, rest[0], rest[1], files[rest[2]])
        elif word == "connection":
            world.connection = name
        elif word == "table":
            world.tables[name] = Table(name)
            loaders.append((world.tables[name], rest[0], []))
        elif word == "column":
            charred = rest[0] in ("char", "varchar")
            collation = rest[2] if charred else None if rest[0] == "bigint" else "binary"
            loaders[-1][0].columns.append((name, collation))
            loaders[-1][2].append(rest)
        elif word == "index":
            loaders[-1][0].indexed.add(rest[0])
    for table, file, types in loaders:
        for record in csv.reader(io.StringIO(files[file], newline="")):
            if record:
                table.rows.append([value_of(*pair, world) for pair in zip(record, types)])
    return world


def value_of(cell: str, declared: list[str], world: World) -> Value:
    """The value of a cell in a column that is declared so."""
    if cell == "\\N":
        return None
    if declared[0] == "bigint":
        return int(cell)
    if declared[0] in ("binary", "varbinary"):
        width = int(declared[1]) if declared[0] == "binary" else 0
        return taken_for("binary", bytes.fromhex(cell).ljust(width, b"\0"))
    chars = cell.rstrip(" ") if declared[0] == "char" else cell
    return converted(Text("utf8mb4", chars), world.collations[declared[2]].charset)
