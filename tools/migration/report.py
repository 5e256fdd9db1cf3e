"""What is printed: for each table its keys, columns and indexes, and a line for scripts."""

from typing import Callable, Optional

from migration.answers import Answer, Groups, unescaped
from migration.changes import Changes
from migration.plan import UNTOLD, Lookup, Plan, Unit
from migration.rows import Field

MOST_EXAMPLES = 10
MOST_VALUES = 10
MOST_CHARACTERS = 60

Places = list[tuple[int, Field]]
"""Which cells of a row are its primary key."""


class Report:
    """The lines of the report, and what the summary counts."""

    def __init__(self, write: Callable[[str], None]) -> None:
        self._write = write
        self.tables = 0
        self.keys = 0
        self.broken = 0
        self.columns = 0
        self.changed = 0
        self.unchecked = 0
        self._not_given: set[str] = set()

    def head(self, dump: str, titles: list[str]) -> None:
        """What is checked, by which weights."""
        self._write(f"{dump} to {titles[0]}")
        for title in titles[1:]:
            self._write(f"weights given too: {title}")

    def table(self, title: str, rows: int) -> None:
        """The head of a table's part."""
        self.tables += 1
        self._write("")
        self._write(f"table {title}: {counted(rows, 'row')}")

    def not_checked(self, title: str, reason: str, indent: str = "  ") -> None:
        """What the report cannot answer for."""
        self.unchecked += 1
        self._write(f"{indent}not checked: {title}: {reason}")

    def left_out(self, plan: Plan) -> None:
        """What no change of collation is asked of."""
        if plan.left_out:
            self._write(f"  left out: {', '.join(plan.left_out)}")
        if not plan.units and not plan.unchecked:
            self._write("  no texts: nothing changes")

    def others(self, names: list[str]) -> None:
        """What of the dump is no table."""
        if names:
            self._write("")
            self._write(f"left out: {', '.join(names)}")

    def faults(self, faults: list[tuple[str, str]]) -> None:
        """What could not be read of the dump."""
        if faults:
            self._write("")
        for title, reason in faults:
            self.not_checked(title, reason, indent="")

    def unit(self, unit: Unit, places: Places, new: Groups, old: Optional[Groups]) -> None:
        """A key or a column."""
        if old is None:
            self._not_given.update(name for name in unit.unknown if name != UNTOLD)
        fault = (old.fault if old is not None else "") or new.fault
        if fault:
            self.not_checked(unit.title, fault)
        elif unit.key is not None:
            self._key(unit, places, new, old)
        else:
            self._column(unit, new, old)

    def lookup(self, lookup: Lookup, names: dict[str, str], answer: Answer, rows: int) -> None:
        """An index and the plan of `=`; `names` are those of indexes, by the catalog's."""
        title = lookup.key.title()
        key, _, intervals, entries = answer.rows[0] if is_plan(answer) else [""] * 4
        if not key:
            fault = answer.fault or "mycoll's plan has another form"
            self.not_checked(f"{title} for =", fault)
            return
        if key == "NULL":
            self._write(f"  {title}: = reads all {counted(rows, 'row')}")
            return
        used = names.get(key, key)
        by = "" if used == lookup.key.name else f" by {used}"
        text = shown(lookup.field.sample or "")
        read = f"{entries} of {counted(rows, 'row')}, {counted(int(intervals), 'interval')}"
        self._write(f"  {title}: = {text} reads {read}{by}")

    def summary(self, status: int) -> None:
        """The weights that would tell more, and the line for scripts."""
        self._write("")
        if self._not_given:
            words = " ".join(f"--weights {name}=FILE" for name in sorted(self._not_given))
            self._write(f"not all of before was asked of mycoll: give {words}")
            self._write("")
        self._write(
            f"summary: tables={self.tables} keys={self.keys} keys_broken={self.broken}"
            f" columns={self.columns} columns_changed={self.changed}"
            f" not_checked={self.unchecked} status={status}"
        )

    def status(self) -> int:
        """0 where nothing changes, 1 where something does, 2 where something was not checked."""
        return 2 if self.unchecked else int(bool(self.broken or self.changed))

    def _key(self, unit: Unit, places: Places, new: Groups, old: Optional[Groups]) -> None:
        """A unique key: the groups of rows that become one."""
        self.keys += 1
        broken = [rows for rows in new.groups if len(rows) > 1]
        broken.sort(key=lambda rows: rows[0])
        if broken:
            self.broken += 1
            lost = sum(len(rows) for rows in broken)
            become = f"{counted(lost, 'row')} become {len(broken):,}"
            self._write(f"  {unit.title}: breaks, {become}")
        else:
            self._write(f"  {unit.title}: holds")
        before = "the key holds, since the dump was made with it"
        if old is not None:
            equal = sum(len(rows) > 1 for rows in old.groups)
            before = "asked of mycoll, " + (
                f"{counted(equal, 'group')} of equal rows: the weights aren't the server's"
                if equal
                else "no two rows are equal"
            )
        self._write(f"    before, {', '.join(unit.old)}: {before}")
        for rows in broken:
            values = [_values(unit, new.cells[row]) for row in rows[:MOST_VALUES]]
            more = f", and {len(rows) - MOST_VALUES:,} more" if len(rows) > MOST_VALUES else ""
            key = [_value(field, new.cells[rows[0]][place]) for place, field in places]
            called = f"first key {', '.join(key)}" if key else f"first row {rows[0]}"
            self._write(f"    {called}: {', '.join(values)}{more}")

    def _column(self, unit: Unit, new: Groups, old: Optional[Groups]) -> None:
        """A text column: the values that merge and that part."""
        self.columns += 1
        texts = {row: unescaped(cells[0]) for row, cells in new.cells.items()}
        changes = Changes(texts, new, old)
        if changes.merged or changes.parted:
            self.changed += 1
            merge = f"{counted(changes.merging, 'value')} merge into {len(changes.merged):,}"
            verb = "parts" if len(changes.parted) == 1 else "part"
            part = f"{counted(len(changes.parted), 'value')} {verb} into {changes.parts:,}"
            said = [merge] * bool(changes.merged) + [part] * bool(changes.parted)
            self._write(f"  {unit.title}: {'; '.join(said)}")
        else:
            self._write(f"  {unit.title}: nothing changes, {counted(changes.before, 'value')}")
        before = "asked of mycoll"
        if old is None:
            before = "no weights given, so a value is what has the same bytes"
        self._write(f"    before, {', '.join(unit.old)}: {before}")
        for mark, glue, found in [
            ("merge", " = ", changes.merged),
            ("part", " | ", changes.parted),
        ]:
            for rows in found[:MOST_EXAMPLES]:
                listed = [shown(texts[row]) for row in rows[:MOST_VALUES]]
                more = f", and {len(rows) - MOST_VALUES:,} more" * (len(rows) > MOST_VALUES)
                self._write(f"    {mark}: {glue.join(listed)}{more}")
            if len(found) > MOST_EXAMPLES:
                self._write(f"    and {len(found) - MOST_EXAMPLES:,} more that {mark}")
        if changes.merged or changes.parted:
            self._write(
                f"    lookups by =: of {counted(changes.texts, 'text')}"
                f" {changes.more:,} find more rows, {changes.fewer:,} fewer"
            )


def is_plan(answer: Answer) -> bool:
    """Whether an answer is the one row of a plan."""
    if answer.fault or len(answer.rows) != 1 or len(answer.rows[0]) != 4:
        return False
    key, _, intervals, entries = answer.rows[0]
    return entries.isdigit() and (key == "NULL" or intervals.isdigit())


def counted(number: int, what: str) -> str:
    """A number and what it counts."""
    return f"{number:,} {what}" + ("" if number == 1 else "s")


def shown(text: str) -> str:
    """A text between quotes, on one line, its invisible characters by number."""
    cut = text if len(text) <= MOST_CHARACTERS else text[:MOST_CHARACTERS]
    shown_text = "".join(_shown_char(char) for char in cut)
    rest = f" ({len(text):,} characters)" if cut is not text else ""
    return f"'{shown_text}'{rest}"


def _shown_char(char: str) -> str:
    """A character, or its number where it would not be seen."""
    if char in "'\\":
        return char * 2
    return char if char.isprintable() else f"\\u{{{ord(char):X}}}"


def _values(unit: Unit, cells: list[str]) -> str:
    """The values of a key in one row."""
    values = [_value(field, cell) for field, cell in zip(unit.fields, cells)]
    return values[0] if len(values) == 1 else f"({', '.join(values)})"


def _value(field: Field, cell: str) -> str:
    """One value, texts between quotes."""
    return shown(unescaped(cell)) if field.kind == "text" else cell
