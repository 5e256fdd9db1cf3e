"""The answer of a statement: all rows in turn, one clause after the other."""

from collections.abc import Sequence
from functools import cmp_to_key
from typing import NamedTuple

from .kinds import Plan, Refused, Typed, plan_of
from .texts import Text, bytes_of
from .trees import Statement
from .values import Fault, Values
from .worlds import Row, Value, World

OUT_OF_RANGE = "ERROR 1690: BIGINT value is out of range\n"
SHOWN = str.maketrans({"\0": "\\0", "\t": "\\t", "\n": "\\n", "\\": "\\\\"})


class Line(NamedTuple):
    """A row of the answer, and what it is ordered by."""

    shown: Row
    keys: Row


def answer(statement: Statement, world: World) -> str:
    """What is written for a statement."""
    try:
        plan = plan_of(statement, world)
        rows = Scan(plan, world).rows()
    except Refused as refusal:
        return f"{str(refusal).translate(SHOWN)}\n"
    except Fault:
        return OUT_OF_RANGE
    lines = ["\t".join(name.translate(SHOWN) for name in plan.headers)]
    lines += ["\t".join(map(cell, row)) for row in rows]
    return "".join(f"{line}\n" for line in lines)


def cell(value: Value) -> str:
    """A value as it is written."""
    if not isinstance(value, Text):
        return "NULL" if value is None else str(value)
    if value.charset == "binary":
        return f"0x{bytes_of(value).hex().upper()}"
    return value.chars.translate(SHOWN)


class Scan:
    """A full scan of a statement's table."""

    def __init__(self, plan: Plan, world: World) -> None:
        self.plan = plan
        self.values = Values(world)
        self.orders = [expr for expr, _ in plan.orders]

    def rows(self) -> list[Row]:
        """The rows of the answer."""
        plan = self.plan
        kept = [row for row in (plan.table.rows if plan.table else [[]]) if self.accepts(row)]
        lines = self.groups(kept) if plan.grouped else [self.line(row, []) for row in kept]
        if plan.distinct:
            kinds = [item.kind for item in plan.items]
            firsts = self.values.firsts([line.shown for line in lines], kinds)
            lines = [lines[first] for first in firsts]
        lines.sort(key=cmp_to_key(self.order))
        shown = [line.shown for line in lines]
        if plan.limit:
            offset, count = plan.limit
            shown = shown[offset : offset + count]
        return shown

    def accepts(self, row: Row) -> bool:
        """Whether no conjunct is false or NULL; a fault counts where none is."""
        fault = None
        for conjunct in self.plan.conjuncts:
            try:
                if not self.values.value(conjunct, row):
                    return False
            except Fault as found:
                fault = found
        if fault:
            raise fault
        return True

    def line(self, row: Row, group: Sequence[Row]) -> Line:
        """The items and the keys of a row, aggregates over its group."""
        shown = [self.values.value(item, row, group) for item in self.plan.items]
        return Line(shown, [self.values.value(key, row, group) for key in self.orders])

    def groups(self, kept: Sequence[Row]) -> list[Line]:
        """A line for each group. Each aggregate and each row is evaluated, for its faults."""
        lines = []
        for group in self.grouped(kept):
            for expr in (*self.plan.items, *self.orders):
                self.evaluate_aggregates(expr, group)
            lines.append([self.line(row, group) for row in group or [[]]][0])
        return lines

    def grouped(self, kept: Sequence[Row]) -> list[list[Row]]:
        """The groups, in the order of their first rows."""
        if not self.plan.groups:
            return [list(kept)]
        kinds = [expr.kind for expr in self.plan.groups]
        found: list[tuple[Row, list[Row]]] = []
        for row in kept:
            key = [self.values.value(expr, row) for expr in self.plan.groups]
            same = (rows for first, rows in found if self.values.is_same_row(key, first, kinds))
            rows = next(same, None)
            if rows is None:
                found.append((key, [row]))
            else:
                rows.append(row)
        return [rows for _, rows in found]

    def evaluate_aggregates(self, expr: Typed, group: Sequence[Row]) -> None:
        """Evaluates each aggregate of an expression."""
        if expr.form == "aggregate":
            self.values.aggregate(expr, group)
        for part in expr.parts:
            self.evaluate_aggregates(part, group)

    def order(self, one: Line, other: Line) -> int:
        """-1, 0 or 1 by the keys; NULL comes first."""
        for (expr, down), left, right in zip(self.plan.orders, one.keys, other.keys):
            if left is None or right is None:
                order = (left is not None) - (right is not None)
            else:
                order = self.values.order(left, right, expr.kind)
            if order:
                return -order if down else order
        return 0
