"""Statements as trees. Comments are not read, and neither are EXPLAIN and the forms of TRIM and
SUBSTRING with FROM."""

import re
from typing import NamedTuple, Optional

from statements.grammar import RESERVED

from .texts import set_named

SPELLINGS = re.compile(
    r"(?P<name>`[\w$]+`)|(?P<national>[nN]'(?:[^'\\]|''|\\.)*')"
    r"|(?P<hex>[xX]'(?:[0-9A-Fa-f]{2})*'|0x[0-9A-Fa-f]+)"
    r"|(?P<str>'(?:[^'\\]|''|\\.)*'|\"(?:[^\"\\]|\"\"|\\.)*\")"
    r"|(?P<word>[A-Za-z_][A-Za-z0-9_$]*)|(?P<int>[0-9]+)"
    r"|(?P<mark><=>|<=|>=|<>|!=|[(),.*+\-%=<>;])",
    re.DOTALL,
)
ESCAPES = {"0": "\0", "b": "\b", "n": "\n", "r": "\r", "t": "\t", "Z": "\x1a"}
ESCAPES |= {"%": "\\%", "_": "\\_"}
COMPARISONS = {op: op for op in ("=", "<=>", "<>", "<", "<=", ">", ">=")} | {"!=": "<>"}


class Token(NamedTuple):
    """A token: its kind, what it says, and the places of its ends."""

    kind: str
    text: str
    start: int
    end: int


class Node(NamedTuple):
    """An expression: its form, what it says beside its operands, and these."""

    form: str
    data: object = None
    parts: tuple["Node", ...] = ()


class Item(NamedTuple):
    """An item: its expression, its alias, and its text."""

    expr: Node
    alias: Optional[str]
    text: str


class Statement(NamedTuple):
    """A SELECT."""

    distinct: bool
    star: bool
    items: list[Item]
    table: Optional[str]
    where: Optional[Node]
    groups: list[Node]
    orders: list[tuple[Node, bool]]
    limit: Optional[tuple[int, int]]


def statements_of(script: str) -> list[Statement]:
    """The statements of a script."""
    parts: list[list[Token]] = [[]]
    place = 0
    while place < len(script):
        found = SPELLINGS.match(script, place)
        if script[place] in " \t\n\v\f\r":
            place += 1
            continue
        if not found:
            raise SyntaxError(f"no token at {script[place:]!r}")
        place = found.end()
        token = Token(str(found.lastgroup), said_by(found), found.start(), found.end())
        if token.text == ";" and token.kind == "mark":
            parts.append([])
        else:
            parts[-1].append(token)
    return [Reader(script, tokens).statement() for tokens in parts if tokens]


def said_by(found: "re.Match[str]") -> str:
    """What a token says: a word or a name in lower case, the text of a string."""
    text, kind = found.group(), found.lastgroup
    if kind in ("name", "word"):
        return text.strip("`").lower()
    if kind == "national":
        text = text[1:]
    if kind in ("str", "national"):
        quote = text[0]
        whole = re.compile(rf"\\(.)|{quote}{quote}", re.DOTALL)
        return whole.sub(lambda one: ESCAPES.get(one[1], one[1]) if one[1] else quote, text[1:-1])
    if kind == "hex":
        digits = text[2:].rstrip("'")
        return "0" * (len(digits) % 2) + digits
    return text


class Reader:
    """Reads the tokens of one statement, by a function for each rule of the grammar."""

    def __init__(self, script: str, tokens: list[Token]) -> None:
        self.script = script
        self.tokens = [*tokens, Token("end", "", 0, 0)]
        self.place = 0

    def sees(self, *texts: str, at: int = 0) -> bool:
        """Whether one of these words or marks is next."""
        token = self.tokens[min(self.place + at, len(self.tokens) - 1)]
        return token.kind in ("word", "mark") and token.text in texts

    def take(self) -> Token:
        """The next token."""
        self.place += 1
        return self.tokens[self.place - 1]

    def takes(self, text: str) -> bool:
        """Whether this word or mark is next; it is then taken."""
        if not self.sees(text):
            return False
        self.place += 1
        return True

    def needs(self, *texts: str) -> None:
        """Takes these words or marks."""
        for text in texts:
            if not self.takes(text):
                raise SyntaxError(f"{self.tokens[self.place].text!r} in the place of {text!r}")

    def sees_name(self) -> bool:
        """Whether a name is next."""
        token = self.tokens[self.place]
        return token.kind == "name" or token.kind == "word" and token.text not in RESERVED

    def name(self) -> str:
        """A name, or the word BINARY."""
        if not self.sees_name() and not self.sees("binary"):
            raise SyntaxError(f"{self.tokens[self.place].text!r} in the place of a name")
        return self.take().text

    def listed(self) -> list[Node]:
        """Expressions with commas between them."""
        found = [self.any_of()]
        while self.takes(","):
            found.append(self.any_of())
        return found

    def statement(self) -> Statement:
        """A whole statement."""
        self.needs("select")
        distinct = self.takes("distinct")
        star = self.takes("*")
        items = [] if star else [self.item()]
        while self.takes(","):
            items.append(self.item())
        table, where, groups = None, None, []
        if self.takes("from"):
            table = self.name()
            where = self.any_of() if self.takes("where") else None
            if self.takes("group"):
                self.needs("by")
                groups = self.listed()
        orders = self.orders()
        limit = self.limit()
        if self.tokens[self.place].kind != "end":
            raise SyntaxError(f"{self.tokens[self.place].text!r} behind a statement")
        return Statement(distinct, star, items, table, where, groups, orders, limit)

    def item(self) -> Item:
        """An expression with or without an alias."""
        start = self.tokens[self.place].start
        expr = self.any_of()
        text = self.script[start : self.tokens[self.place - 1].end]
        alias = self.name() if self.takes("as") or self.sees_name() else None
        return Item(expr, alias, text)

    def orders(self) -> list[tuple[Node, bool]]:
        """ORDER BY, and whether each expression is descending."""
        found: list[tuple[Node, bool]] = []
        if self.takes("order"):
            self.needs("by")
            found.append((self.any_of(), self.descends()))
            while self.takes(","):
                found.append((self.any_of(), self.descends()))
        return found

    def descends(self) -> bool:
        """Whether DESC is next; ASC is taken too."""
        return self.takes("desc") or self.takes("asc") and False

    def limit(self) -> Optional[tuple[int, int]]:
        """LIMIT as offset and count."""
        if not self.takes("limit"):
            return None
        first = int(self.take().text)
        if self.takes(","):
            return first, int(self.take().text)
        return (int(self.take().text), first) if self.takes("offset") else (0, first)

    def any_of(self) -> Node:
        """or := xor {OR xor}"""
        parts = [self.one_of()]
        while self.takes("or"):
            parts.append(self.one_of())
        return parts[0] if len(parts) == 1 else Node("or", None, tuple(parts))

    def one_of(self) -> Node:
        """xor := and {XOR and}"""
        left = self.all_of()
        while self.takes("xor"):
            left = Node("xor", None, (left, self.all_of()))
        return left

    def all_of(self) -> Node:
        """and := not {AND not}"""
        parts = [self.opposite()]
        while self.takes("and"):
            parts.append(self.opposite())
        return parts[0] if len(parts) == 1 else Node("and", None, tuple(parts))

    def opposite(self) -> Node:
        """not := NOT not | pred"""
        if self.takes("not"):
            return Node("not", None, (self.opposite(),))
        return self.condition()

    def condition(self) -> Node:
        """pred := sum | sum cmp sum | sum IS [NOT] NULL | sum [NOT] LIKE, IN or BETWEEN .."""
        left = self.sum()
        if self.sees(*COMPARISONS):
            return Node("compare", COMPARISONS[self.take().text], (left, self.sum()))
        if self.takes("is"):
            negated = self.takes("not")
            self.needs("null")
            return Node("is", negated, (left,))
        negated = self.sees("like", "in", "between", at=1) and self.takes("not")
        if self.takes("like"):
            pattern = self.sum()
            escape = None
            if self.sees("escape") and self.tokens[self.place + 1].kind == "str":
                self.take()
                escape = self.take().text
            return Node("like", (escape, negated), (left, pattern))
        if self.takes("in"):
            self.needs("(")
            members = self.listed()
            self.needs(")")
            return Node("in", negated, (left, *members))
        if self.takes("between"):
            low = self.sum()
            self.needs("and")
            return Node("between", negated, (left, low, self.sum()))
        return left

    def sum(self) -> Node:
        """sum := prod {(+ | -) prod}"""
        left = self.product()
        while self.sees("+", "-"):
            left = Node("arith", self.take().text, (left, self.product()))
        return left

    def product(self) -> Node:
        """prod := neg {(* | DIV | % | MOD) neg}"""
        left = self.negative()
        while self.sees("*", "div", "%", "mod"):
            op = self.take().text
            left = Node("arith", "%" if op == "mod" else op, (left, self.negative()))
        return left

    def negative(self) -> Node:
        """neg := - neg | coll"""
        if self.takes("-"):
            return Node("neg", None, (self.negative(),))
        expr = self.primary()
        while self.takes("collate"):
            expr = Node("collate", self.name(), (expr,))
        return expr

    def primary(self) -> Node:
        """A literal, a name, a call, or an expression in parentheses."""
        if self.takes("("):
            expr = self.any_of()
            self.needs(")")
            return expr
        token = self.tokens[self.place]
        if token.kind in ("word", "name") and not self.sees(*RESERVED - {"mod", "convert"}):
            return self.named()
        self.take()
        if token.kind == "int":
            return Node("int", int(token.text))
        if token.kind in ("str", "national"):
            return Node(token.kind, token.text + (self.strings()))
        if token.kind == "hex":
            return Node("hex", token.text)
        if token.kind == "word" and token.text in ("true", "false", "null"):
            return Node(token.text)
        raise SyntaxError(f"{token.text!r} in the place of an operand")

    def strings(self) -> str:
        """The strings that stand behind one."""
        text = ""
        while self.tokens[self.place].kind == "str":
            text += self.take().text
        return text

    def named(self) -> Node:
        """A call, a string of a set, or a column."""
        token = self.take()
        behind = self.tokens[self.place]
        if token.kind == "word" and self.takes("("):
            return self.call(token.text)
        charset = set_named(token.text[1:]) if token.text[:1] == "_" else None
        if token.kind == "word" and charset and behind.kind in ("str", "hex"):
            self.take()
            more = self.strings() if behind.kind == "str" else ""
            return Node(f"intro {behind.kind}", (charset, behind.text + more))
        if self.takes("."):
            return Node("qualified", (token.text, self.name()))
        return Node("name", token.text)

    def call(self, name: str) -> Node:
        """What stands behind a call's name and its parenthesis."""
        if name == "count" and self.takes("*"):
            node = Node("count all")
        elif name == "count" and self.takes("distinct"):
            node = Node("count distinct", None, (self.any_of(),))
        elif name == "convert":
            expr = self.any_of()
            self.needs("using")
            node = Node("convert", self.name(), (expr,))
        elif name == "cast":
            node = self.cast()
        else:
            node = Node("call", name, () if self.sees(")") else tuple(self.listed()))
            if name == "weight_string" and len(node.parts) == 1:
                node = Node("weights", self.cut(), node.parts)
        self.needs(")")
        return node

    def cut(self) -> Optional[tuple[str, int]]:
        """AS CHAR or AS BINARY with a length."""
        if not self.takes("as"):
            return None
        unit = self.take().text
        self.needs("(")
        length = int(self.take().text)
        self.needs(")")
        return unit, length

    def cast(self) -> Node:
        """What stands behind CAST and its parenthesis."""
        expr = self.any_of()
        self.needs("as")
        if self.takes("binary"):
            return Node("cast to binary", None, (expr,))
        self.needs("char")
        if self.takes("character"):
            self.needs("set")
            return Node("convert", self.name(), (expr,))
        return Node("cast", None, (expr,))
