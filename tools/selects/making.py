"""Random SELECTs over random tables."""

import random
from collections.abc import Callable
from typing import NamedTuple, Optional

from .tables import KINDS, LETTERS, RARE, WIDE, near
from .texts import LATIN1
from .worlds import Table, World

OR, XOR, AND, NOT, CONDITION, SUM, PRODUCT, MINUS, COLLATED, PRIMARY = range(10)
"""How closely what is written holds together, by the rules of the grammar."""

COMPARISONS = ["=", "=", "<=>", "<>", "!=", "<", "<=", ">", ">="]
GREATEST = [
    "9223372036854775807", "9223372036854775806", "4611686018427387904", "3037000500", "2147483648",
    "(- 9223372036854775807 - 1)",
]  # fmt: skip
QUOTED = {"\0": "\\0", "\n": "\\n", "\t": "\\t", "\\": "\\\\"}


class Written(NamedTuple):
    """An expression as it is written, and how closely it holds together."""

    text: str
    level: int = PRIMARY


class Source:
    """What expressions are made of: numbers, and texts by their collations."""

    def __init__(self) -> None:
        self.numbers: list[Written] = []
        self.texts: list[tuple[Written, str]] = []


class Maker:
    """Makes statements over the tables of a world, some with a mistake in them."""

    def __init__(self, world: World, pool: list[str], dice: random.Random) -> None:
        self.world = world
        self.pool = pool
        self.dice = dice
        self.mistakes = 0.0
        self.great = 0.0
        self.table: Optional[Table] = None
        self.source = Source()
        self.aggregates: Optional[Source] = None

    def statement(self, mistakes: float, great: float) -> str:
        """A statement; mistakes and great numbers have these chances where they may stand."""
        dice = self.dice
        self.mistakes, self.great = mistakes, great
        tables = list(self.world.tables.values())
        self.table = dice.choice(tables) if dice.random() < 0.95 else None
        rows = self.columns()
        self.source, self.aggregates = rows, None
        where = self.where() if self.table and dice.random() < 0.55 else ""
        groups = self.groups() if self.table and dice.random() < 0.35 else []
        grouped = bool(groups) or dice.random() < 0.15
        if grouped:
            self.source, self.aggregates = self.grouped_source(groups, rows), rows
        items = self.items(bool(groups), grouped)
        text = f"SELECT {'DISTINCT ' if dice.random() < 0.25 else ''}{', '.join(items)}"
        if self.table:
            name = "nope" if self.errs() and self.dice.random() < 0.3 else self.table.name
            text += f" FROM {name}{where}"
        if groups:
            text += f" GROUP BY {', '.join(self.key(group) for group, _ in groups)}"
        return text + self.orders(items, grouped) + self.limit()

    def errs(self) -> bool:
        """Whether a mistake is made here."""
        return self.dice.random() < self.mistakes

    def columns(self) -> Source:
        """The columns of the table, as they may be written."""
        source = Source()
        for name, collation in self.table.columns if self.table else []:
            way = self.dice.random()
            text = f"{self.table.name}.{name}" if way < 0.05 else name
            text = f"`{text}`" if 0.05 < way < 0.08 else text.upper() if 0.08 < way < 0.1 else text
            if collation:
                source.texts.append((Written(text), collation))
            else:
                source.numbers.append(Written(text))
        return source

    def groups(self) -> list[tuple[Written, Optional[str]]]:
        """What is grouped by, with the collation of a text."""
        found: list[tuple[Written, Optional[str]]] = []
        for _ in range(self.dice.choice([1, 1, 1, 2, 2, 3])):
            way = self.dice.random()
            if way < 0.4 and self.source.texts:
                found.append(self.dice.choice(self.source.texts))
            elif way < 0.5:
                found.append((self.dice.choice(self.source.numbers), None))
            elif way < 0.8:
                found.append(self.text_of_some(1))
            else:
                found.append((self.no_literal(1), None))
        return found

    def no_literal(self, depth: int) -> Written:
        """A number that is more than a literal, except by mistake."""
        found = self.number(depth)
        while found.text.strip("()").isdigit() and not self.errs():
            found = self.number(depth)
        return found

    def key(self, group: Written) -> str:
        """A key as it is written, or a number alone."""
        return self.dice.choice(["1", "(2)"]) if self.errs() else self.spaced(group)

    def spaced(self, key: Written) -> str:
        """The expression, perhaps in parentheses, which make no other one of it."""
        return f"({key.text})" if self.dice.random() < 0.05 else key.text

    def grouped_source(self, groups: list[tuple[Written, Optional[str]]], rows: Source) -> Source:
        """What a grouped statement shows: its keys. With a mistake, columns too."""
        source = Source()
        for group, collation in groups:
            if collation:
                source.texts.append((group, collation))
            else:
                source.numbers.append(group)
        if self.dice.random() < self.mistakes * 3:
            source.numbers += rows.numbers[:1]
            source.texts += rows.texts[:1]
        return source

    def items(self, has_keys: bool, grouped: bool) -> list[str]:
        """The items, some with aliases."""
        dice = self.dice
        if grouped and self.great > 0.1 and dice.random() < 0.5:
            found = self.hidden_fault()
            self.great = 0
            return [found, *([self.aggregate().text] if not has_keys else [])]
        if self.table and (not grouped and dice.random() < 0.12 or self.errs()):
            return ["*", *(self.item() for _ in range(dice.choice([0, 0, 1])))]
        items = [self.item() for _ in range(dice.choice([1, 1, 2, 2, 3]))]
        if has_keys and dice.random() < 0.6:
            keys = [*self.source.numbers, *(text for text, _ in self.source.texts)]
            items.insert(0, self.spaced(dice.choice(keys)))
        if grouped and not has_keys:
            items.append(self.aggregate().text)
        return items

    def hidden_fault(self) -> str:
        """A number that may be outside 64 bits in a row that its group doesn't show, or in an
        aggregate beside which AND and OR have what decides them."""
        dice = self.dice
        columns = [text.text for text, _ in self.source.texts if self.cells(text.text)]
        if columns and dice.random() < 0.6:
            name = dice.choice(columns)
            longest = max(map(len, self.cells(name)))
            return f"CHAR_LENGTH({name}) + {2**63 - max(longest, 1)}"
        shown, self.source = self.source, self.aggregates or self.source
        name, number = dice.choice(["SUM", "SUM", "MAX", "COUNT", "MIN"]), self.edge().text
        self.source = shown
        decided = dice.choice(["0 AND", "COUNT(*) < 0 AND", "1 OR", "COUNT(*) OR", "NULL AND"])
        return f"{decided} {name}({number}) > 1"

    def item(self) -> str:
        """An item, perhaps with an alias."""
        written = self.anything(self.dice.choice([0, 1, 1, 2, 2, 3])).text
        if self.dice.random() < 0.25:
            alias = self.dice.choice(["x", "y", "x", "N", "`count`"])
            written += self.dice.choice([" AS ", " "]) + alias
        return written

    def orders(self, items: list[str], grouped: bool) -> str:
        """ORDER BY, or nothing."""
        dice = self.dice
        if dice.random() < 0.45:
            return ""
        keys = []
        for _ in range(dice.choice([1, 1, 2, 3])):
            way = dice.random()
            if self.errs():
                key = dice.choice(["1", "(2)", "nope"])
            elif way < 0.15 and any(item.endswith(" x") for item in items):
                key = "x"
            elif way < 0.7 and (self.source.texts or self.source.numbers) and not grouped:
                columns = [*self.source.numbers, *(text for text, _ in self.source.texts)]
                key = dice.choice(columns).text
            else:
                key = self.spaced(self.anything(dice.choice([0, 1, 1, 2])))
            keys.append(key + dice.choice(["", "", " DESC", " DESC", " ASC"]))
        return f" ORDER BY {', '.join(keys)}"

    def limit(self) -> str:
        """LIMIT, or nothing."""
        dice = self.dice
        if dice.random() < 0.75:
            return ""
        count, offset = dice.choice([0, 1, 2, 3, 5]), dice.choice([0, 1, 2, 4])
        return dice.choice(
            [f" LIMIT {count}", f" LIMIT {offset}, {count}", f" LIMIT {count} OFFSET {offset}"]
        )

    def where(self) -> str:
        """WHERE with a condition or some of them, most of them such as an index serves."""
        dice = self.dice
        if self.errs():
            return f" WHERE {self.mistaken_where()}"
        parts = []
        for _ in range(dice.choice([1, 1, 1, 2, 2, 3])):
            if dice.random() < 0.65 and self.source.texts:
                part = self.served()
            else:
                part = self.number(dice.choice([1, 2, 2]))
            parts.append(self.within(part, NOT))
        if self.great > 0.1 and dice.random() < 0.5:
            parts.insert(dice.randint(0, len(parts)), f"{self.edge().text} > 0")
        return f" WHERE {' AND '.join(parts)}"

    def mistaken_where(self) -> str:
        """A condition with an aggregate, or a text."""
        return self.dice.choice(
            ["COUNT(*) > 1", "MAX(id) = 2", "SUM(DISTINCT_)", "n AND COUNT(DISTINCT n)", "'a'"]
        )

    def served(self) -> Written:
        """A condition of a column and constants."""
        dice = self.dice
        columns = [
            pair for pair in self.source.texts
            if pair[0].text.split(".")[-1].strip("`").lower() in self.table.indexed
        ]  # fmt: skip
        column, collation = dice.choice(columns or self.source.texts)
        name = column.text
        pool = self.cells(name) or self.pool
        way = dice.randrange(10)
        if way < 3:
            return Written(f"{name} = {self.constant(collation, pool)}", CONDITION)
        if way < 5:
            op = dice.choice(COMPARISONS)
            sides = [name, self.constant(collation, pool)]
            dice.shuffle(sides)
            return Written(f"{sides[0]} {op} {sides[1]}", CONDITION)
        if way < 6:
            negated = dice.choice(["", "", "", "NOT "])
            low, high = self.constant(collation, pool), self.constant(collation, pool)
            return Written(f"{name} {negated}BETWEEN {low} AND {high}", CONDITION)
        if way < 7:
            members = [self.constant(collation, pool) for _ in range(dice.choice([1, 2, 2, 3, 4]))]
            members += ["NULL"] * (dice.random() < 0.15)
            negated = dice.choice(["", "", "", "NOT "])
            return Written(f"{name} {negated}IN ({', '.join(members)})", CONDITION)
        negated = dice.choice(["", "", "", "NOT "])
        return Written(f"{name} {negated}LIKE {self.pattern(collation, pool)}", CONDITION)

    def cells(self, name: str) -> list[str]:
        """The texts of a column, none of another expression."""
        columns = [column for column, _ in self.table.columns] if self.table else []
        column = name.split(".")[-1].strip("`").lower()
        if column not in columns:
            return []
        place = columns.index(column)
        return [row[place].chars for row in self.table.rows if row[place] is not None]

    def constant(self, collation: str, pool: Optional[list[str]] = None) -> str:
        """A constant to compare a column with."""
        dice = self.dice
        if dice.random() < 0.06:
            return "NULL"
        text = self.literal(collation, pool)
        if self.takes(collation) and dice.random() < 0.15:
            return f"{text} COLLATE {collation}"
        if dice.random() < 0.04:
            others = [name for name in KINDS if self.takes(name)]
            return f"{text} COLLATE {dice.choice(others)}"
        return text

    def takes(self, collation: str) -> bool:
        """Whether a literal may be written with the collation: whether it is of its set."""
        connection = self.world.collations[self.world.connection].charset
        return self.world.collations[collation].charset == connection

    def literal(self, collation: Optional[str] = None, pool: Optional[list[str]] = None) -> str:
        """A literal that a text of the collation can be compared with."""
        dice = self.dice
        text = near(dice.choice(pool or self.pool), dice)
        if dice.random() < 0.1:
            text = "".join(dice.choice(LETTERS) for _ in range(dice.randrange(5)))
        if dice.random() < 0.03:
            text += dice.choice([*RARE, *WIDE, "\0"])
        charset = self.world.collations[collation].charset if collation else "utf8mb4"
        if charset == "latin1" and not self.errs():
            text = "".join(char for char in text if char in LATIN1)
        if charset == "binary" and dice.random() < 0.7:
            return f"X'{text.encode('latin-1', 'replace').hex()}'"
        return quoted(text, dice)

    def pattern(self, collation: Optional[str], pool: Optional[list[str]] = None) -> str:
        """A pattern, perhaps with an escape."""
        dice = self.dice
        if dice.random() < 0.03:
            return "NULL"
        escape = dice.choice(["\\"] * 6 + ["|", "", "a"])
        text = near(dice.choice(pool or self.pool), dice)
        cut = dice.random() < 0.5
        text = text[: dice.choice([1, 1, 2, 3])] if cut else text
        charset = self.world.collations[collation].charset if collation else "utf8mb4"
        if charset == "latin1":
            text = "".join(char for char in text if char in LATIN1)
        chars = []
        for char in text:
            way = dice.random()
            if way < 0.1:
                char = dice.choice("%_%")
            elif way < 0.2 or char in "%_" and way < 0.8:
                char = escape + char
            chars.append(char)
        told = "".join(chars) + ("%" if cut else dice.choice(["", "%", "%", "_", " ", "\\"]))
        clause = "" if escape == "\\" else f" ESCAPE '{escape}'"
        return quoted(told, dice) + clause

    def within(self, part: Written, level: int) -> str:
        """An operand that has to hold together so closely, with parentheses where it doesn't."""
        close = part.level >= level and self.dice.random() > 0.06
        return part.text if close else f"({part.text})"

    def anything(self, depth: int) -> Written:
        """A number or a text."""
        way = self.dice.random()
        if way < 0.02:
            return Written("NULL")
        if way < (0.2 if self.great > 0.1 else 0.5):
            return self.text_of_some(depth)[0]
        return self.no_literal(depth)

    def aggregate(self) -> Written:
        """An aggregate that is a number."""
        dice = self.dice
        shown, self.source, self.aggregates = self.source, self.aggregates or self.source, None
        way = dice.randrange(8)
        if self.errs():
            text = dice.choice(["SUM(COUNT(*))", "MIN(id, n)", "SUM('a')", "MAX()", "MAX(SUM(n))"])
        elif way < 2:
            text = "COUNT(*)"
        elif way < 3:
            text = f"COUNT({self.anything(1).text})"
        elif way < 5:
            text = f"COUNT(DISTINCT {self.anything(1).text})"
        else:
            number = self.edge() if dice.random() < self.great else self.number(1)
            text = f"{dice.choice(['SUM', 'SUM', 'min', 'MAX'])}({number.text})"
        self.source, self.aggregates = shown, self.source
        return Written(text)

    def text_aggregate(self) -> tuple[Written, str]:
        """The least or the greatest text."""
        shown, self.source, self.aggregates = self.source, self.aggregates or self.source, None
        text, collation = self.text_of_some(self.dice.choice([0, 0, 1]))
        self.source, self.aggregates = shown, self.source
        return Written(f"{self.dice.choice(['MIN', 'MAX'])}({text.text})"), collation

    def number(self, depth: int) -> Written:
        """A number, or a truth value."""
        dice = self.dice
        if self.errs():
            return Written(self.mistaken_number())
        if self.aggregates and dice.random() < 0.35:
            return self.aggregate()
        if depth <= 0 or dice.random() < 0.15:
            return self.least_number()
        sums = 12 if self.great > 0.1 else 4
        ways: list[tuple[int, Callable[[int], Written]]] = [
            (sums, self.arithmetic), (3, self.compared), (3, self.joined), (2, self.matched),
            (2, self.among), (2, self.tested), (3, self.measured), (1, self.negative),
        ]  # fmt: skip
        weights, makers = zip(*ways)
        return dice.choices(makers, weights)[0](depth - 1)

    def least_number(self) -> Written:
        """A column or a literal."""
        dice = self.dice
        way = dice.random()
        if dice.random() < self.great:
            return self.edge() if dice.random() < 0.6 else Written(dice.choice(GREATEST))
        if way < 0.65 and self.source.numbers:
            return dice.choice(self.source.numbers)
        if way < 0.74:
            return Written(dice.choice(["NULL", "TRUE", "FALSE"]))
        return Written(str(dice.choice([0, 1, 1, 2, 3, 4, 10])))

    def edge(self) -> Written:
        """A number that 64 bits have in some rows, and in others not."""
        dice = self.dice
        numbers = self.source.numbers + [
            Written(f"CHAR_LENGTH({text.text})") for text, _ in self.source.texts
        ]
        number = dice.choice(numbers or [Written("1")])
        last = dice.choice([3, 4, 5, 5, 6, 6, 7])
        if dice.random() < 0.7:
            return Written(f"({self.within(number, SUM)} + 922337203685477580{last})")
        return Written(f"(- {self.within(number, COLLATED)} - 922337203685477580{last})")

    def mistaken_number(self) -> str:
        """What is refused, in the place of a number."""
        literal = self.literal()
        return self.dice.choice(
            [
                "nope", "nope.id", "COUNT(*)", "SUM(id)", "MAX(n, n)", literal, f"(id = {literal})",
                "NOPE(id)", "LENGTH()", "LEFT('a')", f"(1 + {literal})", "id", "n", "COUNT(nope)",
                f"({literal} LIKE 'a' ESCAPE 'ab')", "STRCMP('a')", f"-({literal})",
            ]
        )  # fmt: skip

    def arithmetic(self, depth: int) -> Written:
        """+, -, *, DIV, % and MOD"""
        dice = self.dice
        left, right = self.number(depth), self.number(depth)
        op = dice.choice(["+", "+", "-", "-", "*", "DIV", "%", "mod"])
        if op in "+-":
            return Written(f"{self.within(left, SUM)} {op} {self.within(right, PRODUCT)}", SUM)
        if op == "mod" and dice.random() < 0.5:
            return Written(f"MOD({left.text}, {right.text})")
        return Written(f"{self.within(left, PRODUCT)} {op} {self.within(right, MINUS)}", PRODUCT)

    def negative(self, depth: int) -> Written:
        """Unary minus, a blank behind it, since two together may open a comment."""
        return Written(f"- {self.within(self.number(depth), MINUS)}", MINUS)

    def operands(self, depth: int, count: int) -> list[str]:
        """Operands of one comparison, texts or numbers."""
        if self.dice.random() < 0.6:
            collation = self.some_collation()
            found = [self.text(depth, collation) for _ in range(count)]
        else:
            found = [self.number(depth) for _ in range(count)]
        if self.dice.random() < 0.06:
            found[self.dice.randrange(count)] = Written("NULL")
        return [self.within(it, SUM) for it in found]

    def compared(self, depth: int) -> Written:
        """A comparison."""
        left, right = self.operands(depth, 2)
        if self.dice.random() < 0.08:
            return Written(f"STRCMP({left}, {right})")
        return Written(f"{left} {self.dice.choice(COMPARISONS)} {right}", CONDITION)

    def joined(self, depth: int) -> Written:
        """AND, OR, XOR and NOT"""
        dice = self.dice
        way = dice.randrange(4)
        if way == 3:
            return Written(f"NOT {self.within(self.number(depth), NOT)}", NOT)
        word, level = [("AND", AND), ("OR", OR), ("XOR", XOR)][way]
        parts = [self.number(depth) for _ in range(dice.choice([2, 2, 3]))]
        texts = [self.within(part, level + 1) for part in parts]
        return Written(f" {word} ".join(texts), level)

    def matched(self, depth: int) -> Written:
        """LIKE."""
        collation = self.some_collation()
        text = self.within(self.text(depth, collation), SUM)
        negated = self.dice.choice(["", "", "NOT "])
        if self.dice.random() < 0.2:
            pattern = self.within(self.text(depth, collation), SUM)
        else:
            pattern = self.pattern(collation)
        return Written(f"{text} {negated}LIKE {pattern}", CONDITION)

    def among(self, depth: int) -> Written:
        """IN and BETWEEN."""
        negated = self.dice.choice(["", "", "NOT "])
        if self.dice.random() < 0.4:
            one, low, high = self.operands(depth, 3)
            return Written(f"{one} {negated}BETWEEN {low} AND {high}", CONDITION)
        one, *members = self.operands(depth, self.dice.choice([2, 3, 3, 4]))
        return Written(f"{one} {negated}IN ({', '.join(members)})", CONDITION)

    def tested(self, depth: int) -> Written:
        """IS NULL."""
        one = self.within(self.anything(depth), SUM)
        return Written(f"{one} IS {self.dice.choice(['', 'NOT '])}NULL", CONDITION)

    def measured(self, depth: int) -> Written:
        """A number that is told of an operand."""
        name = self.dice.choice(["LENGTH", "LENGTH", "CHAR_LENGTH", "char_length", "COERCIBILITY"])
        return Written(f"{name}({self.anything(depth).text})")

    def some_collation(self) -> str:
        """A collation of what is there, or the connection's."""
        if self.source.texts and self.dice.random() < 0.85:
            return self.dice.choice(self.source.texts)[1]
        return self.world.connection

    def text_of_some(self, depth: int) -> tuple[Written, str]:
        """A text and its collation."""
        collation = self.some_collation()
        if self.errs():
            return Written(self.mistaken_text()), collation
        return self.text(depth, collation), collation

    def mistaken_text(self) -> str:
        """What is refused, in the place of a text."""
        literal = self.literal()
        other = self.dice.choice(self.source.texts)[0].text if self.source.texts else "''"
        return self.dice.choice(
            [
                "nope", f"{literal} COLLATE nope", f"{literal} COLLATE ucs2_bin", "CONCAT()",
                f"CONCAT({other}, nope)", f"{other} COLLATE latin1_bin", f"({other} + 1)",
                f"CONVERT({other} USING nope)", f"REVERSE({other}, 1)", f"LEFT({other}, 'a')",
            ]
        )  # fmt: skip

    def text(self, depth: int, collation: str) -> Written:
        """A text that goes with the collation."""
        dice = self.dice
        if self.errs():
            collation = dice.choice(list(KINDS))
        if self.aggregates and dice.random() < 0.25:
            text, found = self.text_aggregate()
            return self.collated(text, found, collation)
        if depth <= 0 or dice.random() < 0.25:
            return self.least_text(collation)
        one = self.text(depth - 1, collation)
        way = dice.randrange(12)
        if way < 3:
            more = [self.text(depth - 1, collation) for _ in range(dice.choice([0, 1, 1, 2]))]
            if dice.random() < 0.25:
                more.append(self.number(0))
            name, parts = dice.choice(["CONCAT", "concat", "CONCAT_WS"]), [one, *more]
            if name == "CONCAT_WS" and not more:
                name = "CONCAT"
            return Written(f"{name}({', '.join(part.text for part in parts)})")
        if way < 5:
            name = dice.choice(["LEFT", "RIGHT", "SUBSTRING", "REPEAT"])
            return Written(f"{name}({one.text}, {self.small(depth)})")
        if way < 6:
            return Written(f"HEX({self.anything(depth - 1).text})")
        if way < 7:
            return Written(f"{dice.choice(['REVERSE', 'REVERSE', 'TRIM'])}({one.text})")
        if way < 8:
            old, new = self.text(0, collation).text, self.text(0, collation).text
            return Written(f"REPLACE({one.text}, {old}, {new})")
        if way < 9:
            name, more = dice.choice(["LPAD", "RPAD"]), self.text(0, collation).text
            return Written(f"{name}({one.text}, {self.small(depth)}, {more})")
        if way < 10:
            return self.shown(one)
        return Written(f"{self.within(one, COLLATED)} COLLATE {collation}", COLLATED)

    def shown(self, one: Written) -> Written:
        """What is told of a text."""
        name = self.dice.choice(["COLLATION", "CHARSET", "WEIGHT_STRING", "CONVERT"])
        if name == "CONVERT":
            charset = self.dice.choice(["utf8mb4", "latin1", "utf8mb3", "binary", "utf16", "ascii"])
            return Written(f"CONVERT({one.text} USING {charset})")
        return Written(f"{name}({one.text})")

    def small(self, depth: int) -> str:
        """A number of characters."""
        if self.dice.random() < 0.2:
            return self.number(depth - 1).text
        return self.dice.choice(["0", "1", "1", "2", "2", "3", "- 1", "NULL"])

    def least_text(self, collation: str) -> Written:
        """A column of the collation, another one with it, or a literal."""
        dice = self.dice
        same = [text for text, found in self.source.texts if found == collation]
        if same and dice.random() < 0.6:
            return dice.choice(same)
        if self.source.texts and dice.random() < 0.25:
            return self.collated(*dice.choice(self.source.texts), collation)
        return Written(self.constant(collation), COLLATED)

    def collated(self, text: Written, found: str, collation: str) -> Written:
        """A text of a collation under another one, where it has the same set."""
        charsets = [self.world.collations[name].charset for name in (found, collation)]
        if found == collation or charsets[0] != charsets[1]:
            return text
        return Written(f"{self.within(text, COLLATED)} COLLATE {collation}", COLLATED)


def quoted(text: str, dice: random.Random) -> str:
    """The text as a literal."""
    quote = dice.choice(["'", "'", "'", '"'])
    chars = (dice.choice([quote * 2, "\\" + quote]) if char == quote else char for char in text)
    return quote + "".join(QUOTED.get(it, it) if len(it) == 1 else it for it in chars) + quote
