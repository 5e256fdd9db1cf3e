"""The value of an expression in a row."""

from collections.abc import Sequence
from functools import cmp_to_key
from typing import Optional

from .kinds import NUMBER, Kind, Operand, Typed
from .texts import Text, bytes_of, converted, kept, taken_for
from .worlds import Row, Value, World

LEAST, GREATEST = -(2**63), 2**63 - 1


class Fault(Exception):
    """A number outside 64 bits."""


def within(number: int) -> int:
    """The number, where 64 bits have it."""
    if not LEAST <= number <= GREATEST:
        raise Fault
    return number


def not_of(truth: Optional[int]) -> Optional[int]:
    """NOT."""
    return None if truth is None else int(not truth)


class Values:
    """Evaluates in the rows of a world, and compares by its collations."""

    def __init__(self, world: World) -> None:
        self.world = world

    def order(self, one: Value, other: Value, kind: Kind) -> int:
        """-1, 0 or 1 of two values of a kind that aren't NULL."""
        if isinstance(kind, Operand):
            return self.world.collations[kind.collation].order(one.chars, other.chars)
        return (one > other) - (one < other)

    def is_same(self, one: Value, other: Value, kind: Kind) -> bool:
        """Whether two values are one class, NULL being one."""
        if one is None or other is None:
            return one is other
        return self.order(one, other, kind) == 0

    def value(self, expr: Typed, row: Row, group: Optional[Sequence[Row]] = None) -> Value:
        """The value of an expression in a row, its aggregates over the rows of a group."""
        if expr.form == "const":
            return expr.data
        if expr.form == "column":
            return row[expr.data] if row else None
        if expr.form == "aggregate":
            return self.aggregate(expr, group)
        if expr.form == "and":
            return self.all_of(lambda part: self.value(part, row, group), expr.parts)
        if expr.form == "or":
            opposites = self.all_of(lambda part: not_of(self.value(part, row, group)), expr.parts)
            return not_of(opposites)
        if expr.form == "between":
            return self.between(expr, row, group)
        given = [self.value(part, row, group) for part in expr.parts]
        if expr.form == "is":
            return int((given[0] is None) != expr.data)
        if expr.form == "in":
            found = self.among(expr, given[0], given[1:])
            return not_of(found) if expr.data else found
        if expr.form == "concat_ws":
            texts = self.texts(expr.uses, given)
            if texts[0] is None:
                return None
            return made(expr, texts[0].join(text for text in texts[1:] if text is not None))
        if expr.form == "compare" and expr.data == "<=>":
            if None in given:
                return int(given[0] is given[1])
            return self.compared("=", expr.uses, *given)
        if None in given:
            return None
        if expr.form == "compare":
            return self.compared(str(expr.data), expr.uses, *given)
        return getattr(self, f"of_{expr.form}")(expr, *given)

    @staticmethod
    def all_of(value, parts: Sequence[Typed]) -> Optional[int]:
        """AND: 0 where a member is false, else a fault where one is, else NULL where one is."""
        truths = []
        fault = None
        for part in parts:
            try:
                truths.append(value(part))
            except Fault as found:
                fault = found
        if any(truth == 0 and truth is not None for truth in truths):
            return 0
        if fault:
            raise fault
        return None if None in truths else 1

    def compared(self, op: str, uses: Optional[Operand], one: Value, other: Value) -> int:
        """A comparison of values that aren't NULL."""
        if uses:
            one, other = converted(one, uses.charset), converted(other, uses.charset)
        order = self.order(one, other, uses or NUMBER)
        return int(
            {
                "=": order == 0, "<>": order != 0, "<": order < 0, "<=": order <= 0,
                ">": order > 0, ">=": order >= 0,
            }[op]
        )  # fmt: skip

    def between(self, expr: Typed, row: Row, group: Optional[Sequence[Row]]) -> Optional[int]:
        """x >= a AND x <= b"""

        def side(pair: tuple[str, Typed]) -> Optional[int]:
            op, end = pair
            given = [self.value(part, row, group) for part in (expr.parts[0], end)]
            return None if None in given else self.compared(op, expr.uses, *given)

        found = self.all_of(side, [(">=", expr.parts[1]), ("<=", expr.parts[2])])
        return not_of(found) if expr.data else found

    def among(self, expr: Typed, one: Value, members: Sequence[Value]) -> Optional[int]:
        """IN."""
        if one is None:
            return None
        present = [member for member in members if member is not None]
        if any(self.compared("=", expr.uses, one, member) for member in present):
            return 1
        return None if len(present) < len(members) else 0

    def texts(self, uses: Operand, given: Sequence[Value]) -> list[Optional[str]]:
        """The characters of texts, in the set that they have together."""
        return [it and converted(it, uses.charset).chars for it in given]

    def aggregate(self, expr: Typed, rows: Sequence[Row]) -> Value:
        """The value of an aggregate over rows."""
        if expr.data == "all":
            return len(rows)
        [part] = expr.parts
        given = [value for row in rows if (value := self.value(part, row)) is not None]
        if expr.data == "count":
            return len(given)
        if expr.data == "distinct":
            return len(self.firsts([[value] for value in given], [part.kind]))
        if not given:
            return None
        if expr.data == "sum":
            return within(sum(given))
        sign = 1 if expr.data == "min" else -1
        return min(given, key=cmp_to_key(lambda a, b: sign * self.order(a, b, part.kind)))

    def firsts(self, rows: Sequence[Row], kinds: Sequence[Kind]) -> list[int]:
        """The places of the first row of each class."""
        found: list[int] = []
        for place, row in enumerate(rows):
            if not any(self.is_same_row(row, rows[first], kinds) for first in found):
                found.append(place)
        return found

    def is_same_row(self, one: Row, other: Row, kinds: Sequence[Kind]) -> bool:
        """Whether rows are one class, value by value."""
        return all(self.is_same(*values) for values in zip(one, other, kinds))

    # Each form and call with operands that aren't NULL.

    def of_xor(self, _: Typed, one: int, other: int) -> int:
        """XOR."""
        return int(bool(one) != bool(other))

    def of_not(self, _: Typed, one: int) -> int:
        """NOT."""
        return int(not one)

    def of_neg(self, _: Typed, one: int) -> int:
        """Unary minus."""
        return within(-one)

    def of_arith(self, expr: Typed, one: int, other: int) -> Optional[int]:
        """+, -, *, DIV and %"""
        if expr.data in ("+", "-", "*"):
            found = {"+": one + other, "-": one - other, "*": one * other}[expr.data]
            return within(found)
        if other == 0:
            return None
        quotient = abs(one) // abs(other) * (1 if (one < 0) == (other < 0) else -1)
        return within(quotient) if expr.data == "div" else one - quotient * other

    def of_mod(self, expr: Typed, one: int, other: int) -> Optional[int]:
        """MOD(a, b)"""
        return self.of_arith(expr._replace(data="%"), one, other)

    def of_like(self, expr: Typed, text: Text, pattern: Text) -> int:
        """LIKE, by every cut."""
        escape, negated = expr.data
        collation = self.world.collations[expr.uses.collation]
        chars, told = self.texts(expr.uses, [text, pattern])
        items: list[tuple[str, str]] = []
        place = 0
        while place < len(told):
            char = told[place]
            if char == escape and escape and place + 1 < len(told):
                place += 1
                items.append(("char", told[place]))
            elif char in "%_" and char != escape:
                items.append((char, char))
            else:
                items.append(("char", char))
            place += 1
        # The places of the text up to which the items so far match.
        reached = {0}
        for kind, char in items:
            if kind == "%":
                reached = set(range(min(reached, default=len(chars) + 1), len(chars) + 1))
            else:
                reached = {
                    at + 1
                    for at in reached
                    if at < len(chars) and (kind == "_" or collation.same_char(char, chars[at]))
                }
        found = int(len(chars) in reached)
        return int(not found) if negated else found

    def of_digits(self, expr: Typed, number: int) -> Text:
        """A number as a text."""
        return Text(expr.kind.charset, str(number))

    def of_collate(self, _: Typed, text: Text) -> Text:
        """COLLATE."""
        return text

    def of_convert(self, expr: Typed, text: Text) -> Optional[Text]:
        """CONVERT and CAST."""
        charset = expr.kind.charset
        if text.charset == "binary" != charset:
            taken = taken_for(charset, bytes_of(text))
            return taken and kept(taken)
        return kept(converted(text, charset))

    def of_weights(self, expr: Typed, text: Text) -> Optional[Text]:
        """WEIGHT_STRING."""
        unit, length = expr.data or ("", 0)
        if unit == "binary":
            found = bytes_of(text)[:length].ljust(length, b"\0")
        else:
            chars = text.chars[:length].ljust(length) if unit else text.chars
            found = self.world.collations[expr.parts[0].kind.collation].weight_string(chars)
        return kept(Text("binary", found.decode("latin-1")))

    def of_concat(self, expr: Typed, *given: Text) -> Optional[Text]:
        """CONCAT."""
        return made(expr, "".join(self.texts(expr.uses, given)))

    def of_char_length(self, _: Typed, text: Text) -> int:
        """CHAR_LENGTH."""
        return len(text.chars)

    def of_length(self, _: Typed, text: Text) -> int:
        """LENGTH."""
        return len(bytes_of(text))

    def of_hex(self, expr: Typed, given: Value) -> Optional[Text]:
        """HEX."""
        digits = f"{given % 2**64:X}" if isinstance(given, int) else bytes_of(given).hex().upper()
        return made(expr, digits)

    def of_substring(self, expr: Typed, text: Text, place: int, count: int = GREATEST) -> Text:
        """SUBSTRING."""
        chars = text.chars
        start = place - 1 if place > 0 else len(chars) + place
        if place == 0 or count < 1 or not 0 <= start < len(chars):
            return made(expr, "")
        return made(expr, chars[start : start + count])

    of_substr = of_substring

    def of_left(self, expr: Typed, text: Text, count: int) -> Text:
        """LEFT."""
        return made(expr, text.chars[: max(count, 0)])

    def of_right(self, expr: Typed, text: Text, count: int) -> Text:
        """RIGHT."""
        return made(expr, text.chars[max(len(text.chars) - max(count, 0), 0) :])

    def of_trim(self, expr: Typed, text: Text) -> Text:
        """TRIM of spaces."""
        return made(expr, text.chars.strip(" "))

    def of_lpad(self, expr: Typed, text: Text, count: int, more: Text) -> Optional[Text]:
        """LPAD."""
        return self.padded(expr, text, count, more, True)

    def of_rpad(self, expr: Typed, text: Text, count: int, more: Text) -> Optional[Text]:
        """RPAD."""
        return self.padded(expr, text, count, more, False)

    def padded(
        self, expr: Typed, text: Text, count: int, more: Text, in_front: bool
    ) -> Optional[Text]:
        """A text cut to so many characters, or with copies of another one at a side."""
        chars, filling = self.texts(expr.uses, [text, more])
        missing = count - len(chars)
        if count < 0 or missing > 0 and not filling or count > 2**20:
            return None
        if missing <= 0:
            return made(expr, chars[:count])
        filling = (filling * missing)[:missing]
        return made(expr, filling + chars if in_front else chars + filling)

    def of_repeat(self, expr: Typed, text: Text, count: int) -> Optional[Text]:
        """REPEAT."""
        if text.chars and count > 2**20:
            return None
        return made(expr, text.chars * max(count, 0) if text.chars else "")

    def of_reverse(self, expr: Typed, text: Text) -> Text:
        """REVERSE."""
        return made(expr, text.chars[::-1])

    def of_replace(self, expr: Typed, *given: Text) -> Optional[Text]:
        """REPLACE."""
        chars, old, new = self.texts(expr.uses, given)
        return made(expr, chars.replace(old, new) if old else chars)

    def of_strcmp(self, expr: Typed, one: Text, other: Text) -> int:
        """STRCMP."""
        one, other = converted(one, expr.uses.charset), converted(other, expr.uses.charset)
        return self.order(one, other, expr.uses)


def made(expr: Typed, chars: str) -> Optional[Text]:
    """The text that a call gives, NULL where it is too long."""
    return kept(Text(expr.kind.charset, chars))
