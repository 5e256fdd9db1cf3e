"""The catalog and the statements for one table, as mycoll reads them."""

from migration.collations import Collations
from migration.names import Names
from migration.plan import Lookup, Plan, Unit
from migration.rows import LONGEST, Field, Rows
from migration.schema import Part

_ESCAPES = {"\\": "\\\\", "'": "''", "\0": "\\0", "\n": "\\n", "\r": "\\r", "\x1a": "\\Z"}


class Statements:
    """The statements of one table: for each a label, by which its answer is known."""

    def __init__(self, title: str, rows: Rows, plan: Plan, collations: Collations) -> None:
        self._rows = rows
        self._plan = plan
        self._collations = collations
        columns = [field.column.name for field in rows.fields]
        self._columns = Names("c", columns)
        self._table = Names("t", []).of(title.rpartition(".")[2])
        for name in columns:
            self._columns.of(name)
        self._number = self._columns.fresh("row")
        self._indexes = Names("k", [lookup.key.name for lookup in plan.lookups])

    def catalog(self, files: dict[str, str]) -> str:
        """The catalog; `files` are those of the weights, by collation, as it names them."""
        needed = {field.column.collation for field in self._rows.fields} | {self._collations.to}
        lines = []
        for name, weights in sorted(self._collations.files.items()):
            if name in needed:
                charset = name.partition("_")[0]
                rules = f" rules {files[f'{name} rules']}" if weights.rules else ""
                lines.append(f"collation {name} {charset} {weights.kind} {files[name]}{rules}")
        lines.append(f"connection {self._collations.to}")
        lines.append(f"table {self._table} {self._rows.path.name}")
        lines.append(f"column {self._number} bigint")
        lines += [self._column_line(field) for field in self._rows.fields]
        lines += [self._index_line(lookup) for lookup in self._plan.lookups]
        return "\n".join(lines) + "\n"

    def script(self) -> str:
        """All statements, a line each."""
        return "".join(f"{statement};\n" for _, statement in self.labelled())

    def labelled(self) -> list[tuple[str, str]]:
        """Each statement behind its label, the first header of its answer."""
        found = []
        for number, unit in enumerate(self._plan.units, 1):
            for side in ["new"] if unit.unknown else ["old", "new"]:
                found.append((f"{side}_groups_{number}", self._groups(unit, number, side)))
                found.append((f"{side}_rows_{number}", self._listing(unit, number, side)))
        for lookup in self._plan.lookups:
            found.append(("key", self._explain(lookup)))
        return found

    def first_key(self, unit: Unit) -> list[tuple[int, Field]]:
        """The cells of a unit's rows that are their primary key, by place; empty for none."""
        listed, primary = self._listed(unit), self._primary()
        return [(listed.index(field), field) for field in primary]

    def _listed(self, unit: Unit) -> list[Field]:
        """The columns that the rows of a unit are listed with: its own, then the primary key's."""
        return unit.fields + [field for field in self._primary() if field not in unit.fields]

    def _primary(self) -> list[Field]:
        """The columns of the primary key, where all of them can be shown."""
        primary = self._rows.table.primary()
        fields = [self._rows.field(part.column) for part in primary.parts] if primary else []
        shown = [field for field in fields if field is not None and not field.fault]
        return shown if len(shown) == len(fields) else []

    def _groups(self, unit: Unit, number: int, side: str) -> str:
        """The groups in order, each with its first row and its size."""
        keys = ", ".join(self._keys(unit, side))
        return (
            f"SELECT MIN({self._quoted_number()}) AS {side}_groups_{number}, COUNT(*) AS size"
            f" {self._source(unit)} GROUP BY {keys} ORDER BY {keys}"
        )

    def _listing(self, unit: Unit, number: int, side: str) -> str:
        """The rows in the order of their groups."""
        keys = ", ".join([*self._keys(unit, side), self._quoted_number()])
        items = [f"{self._quoted_number()} AS {side}_rows_{number}"]
        if side == "new":
            items += [self._quoted(field) for field in self._listed(unit)]
        return f"SELECT {', '.join(items)} {self._source(unit)} ORDER BY {keys}"

    def _source(self, unit: Unit) -> str:
        """The rows that have no NULL in the unit's columns, since no two NULLs are equal."""
        tests = [f"{self._quoted(field)} IS NOT NULL" for field in unit.fields]
        return f"FROM `{self._table}` WHERE {' AND '.join(tests)}"

    def _keys(self, unit: Unit, side: str) -> list[str]:
        """What rows are grouped by."""
        return [self._key(part, field, side) for part, field in zip(unit.parts, unit.fields)]

    def _key(self, part: Part, field: Field, side: str) -> str:
        """One column, or its first characters, under the old or the new collation."""
        key = self._quoted(field)
        if field.kind == "text" and side == "old":
            charset = field.column.charset
            if charset != self._collations.charset:
                key = f"CONVERT({key} USING {charset})"
        if part.length is not None:
            key = f"LEFT({key}, {part.length})"
        if field.kind == "text" and side == "old":
            key = f"{key} COLLATE {field.column.collation}"
        return key

    def _explain(self, lookup: Lookup) -> str:
        """The plan of `=` for a text of the column."""
        text = lookup.field.sample or ""
        literal = "".join(_ESCAPES.get(char, char) for char in text)
        return (
            f"EXPLAIN SELECT {self._quoted_number()} FROM `{self._table}`"
            f" WHERE {self._quoted(lookup.field)} = '{literal}'"
        )

    def _column_line(self, field: Field) -> str:
        """A column of the catalog; one that cannot be checked is there to be passed by."""
        name = self._columns.of(field.column.name)
        if field.kind == "int":
            return f"column {name} bigint"
        if field.kind == "binary":
            return f"column {name} varbinary {max(field.longest, 1)}"
        if field.reason(self._collations.charset):
            return f"column {name} varchar {LONGEST} utf8mb4_bin"
        length = field.column.length or 0
        if field.column.type == "char" and 1 <= length <= 255:
            return f"column {name} char {length} {self._collations.to}"
        length = length if length <= LONGEST else 0
        length = max(length, field.longest, self._longest_prefix(field), 1)
        return f"column {name} varchar {length} {self._collations.to}"

    def _longest_prefix(self, field: Field) -> int:
        """The most characters of a column that an index has."""
        parts = [lookup.key.parts[0] for lookup in self._plan.lookups if lookup.field is field]
        return max((min(part.length or 0, LONGEST) for part in parts), default=0)

    def index_names(self) -> dict[str, str]:
        """The dump's names of indexes, by the catalog's in lower case."""
        keys = [lookup.key.name for lookup in self._plan.lookups]
        return {self._indexes.of(name).lower(): name for name in keys}

    def _index_line(self, lookup: Lookup) -> str:
        """An index of the catalog, over the first column of the dump's."""
        length = lookup.key.parts[0].length
        prefix = "" if length is None else f" {min(length, LONGEST)}"
        column = self._columns.of(lookup.field.column.name)
        return f"index {self._indexes.of(lookup.key.name)} {column}{prefix}"

    def _quoted(self, field: Field) -> str:
        """A column's name in a statement."""
        return f"`{self._columns.of(field.column.name)}`"

    def _quoted_number(self) -> str:
        """The name of the column of row numbers."""
        return f"`{self._number}`"


