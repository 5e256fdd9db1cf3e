"""What each expression is: a number, a text of a collation, or NULL; and the first refusal."""

from collections.abc import Sequence
from typing import NamedTuple, Optional, Union

from .collations import Collation
from .texts import (
    ASCII, BYTES, CAPS, LIMIT, UNICODE, Text, converted, kept, repertoire_of, set_named, taken_for,
)  # fmt: skip
from .trees import Node, Statement
from .worlds import Table, World

EXPLICIT, NONE, IMPLICIT, SYSCONST, COERCIBLE, NUMERIC, IGNORABLE = range(7)
WORDS = ("EXPLICIT", "NONE", "IMPLICIT", "SYSCONST", "COERCIBLE", "NUMERIC")
WIDER = {("utf8mb4", "utf8mb3"), ("utf16", "ucs2"), ("latin1", "ascii")}
"""Sets, the first of which holds the second one's characters and more."""

TEXT_CALLS = {
    "concat": "t*", "concat_ws": "tt*", "substring": "tn[n]", "substr": "tn[n]", "left": "tn",
    "right": "tn", "trim": "t", "lpad": "tnt", "rpad": "tnt", "repeat": "tn", "reverse": "t",
    "replace": "ttt",
}  # fmt: skip
OTHER_CALLS = {
    "char_length": "t", "length": "t", "hex": "a", "strcmp": "tt", "mod": "nn", "charset": "a",
    "collation": "a", "coercibility": "a", "version": "", "weight_string": "a",
}  # fmt: skip
AGGREGATES = {"count": "a", "min": "a", "max": "a", "sum": "n"}
CALLS = TEXT_CALLS | OTHER_CALLS | AGGREGATES
"""The operands of each call: `t` a text or a number's digits, `n` a number, `a` any."""


class Refused(Exception):
    """A refusal: its number and its text."""

    def __init__(self, number: int, text: str) -> None:
        super().__init__(f"ERROR {number}: {text}")


class Operand(NamedTuple):
    """What the choice of a collation looks at."""

    charset: str
    collation: str
    level: int
    repertoire: int
    built_in: bool


Kind = Union[None, str, Operand]
NUMBER = "number"


class Typed(NamedTuple):
    """An expression with its kind. `uses` is what its texts have together, where it has texts."""

    form: str
    data: object
    parts: tuple["Typed", ...]
    kind: Kind
    uses: Optional[Operand] = None


class Plan(NamedTuple):
    """A statement whose names and kinds are found."""

    table: Optional[Table]
    distinct: bool
    headers: list[str]
    items: list[Typed]
    conjuncts: list[Typed]
    grouped: bool
    groups: list[Typed]
    orders: list[tuple[Typed, bool]]
    limit: Optional[tuple[int, int]]


def beats(a: Operand, b: Operand) -> bool:
    """Whether the first operand's collation may stand for both."""
    if a.collation == b.collation:
        return a.level <= b.level
    if a.level == b.level == EXPLICIT:
        return False
    if a.charset == b.charset:
        return a.level < b.level or a.level == b.level and a.built_in and not b.built_in
    if b.repertoire > CAPS[a.charset]:
        return False
    return a.level < b.level or a.level == b.level and set_wins(a, b)


def set_wins(a: Operand, b: Operand) -> bool:
    """Of equal levels and two sets: whether the first one's set is the one to convert to."""
    if a.charset == "binary" or (a.charset, b.charset) in WIDER:
        return True
    if a.charset not in UNICODE or b.charset == "binary" or (b.charset, a.charset) in WIDER:
        return False
    return b.charset not in UNICODE or b.repertoire == ASCII != a.repertoire


def together(given: Sequence[Operand], compares: bool) -> Optional[Operand]:
    """What operands have together; none where they are an illegal mix."""
    left = [operand for operand in given if operand.level != IGNORABLE]
    if not left:
        return Operand("binary", "binary", IGNORABLE, ASCII, True)
    repertoire = max(operand.repertoire for operand in left)
    found = next((a for a in left if all(beats(a, b) for b in left)), None)
    if not found and not compares:
        found = next((a for a in left if a.level > 0 and all(stands(a, b) for b in left)), None)
        if found:
            bin_name = "binary" if found.charset == "binary" else f"{found.charset}_bin"
            found = Operand(found.charset, bin_name, NONE, repertoire, True)
    if not found or compares and len(left) > 1 and found.level == NONE:
        return None
    if found.charset == "binary" and repertoire > ASCII:
        repertoire = BYTES
    return found._replace(repertoire=repertoire)


def stands(a: Operand, b: Operand) -> bool:
    """Whether the first operand beats the second, or has its set and level."""
    return beats(a, b) or (a.charset, a.level) == (b.charset, b.level)


def is_aggregate(node: Node) -> bool:
    """Whether the expression is an aggregate itself."""
    return node.form in ("count all", "count distinct") or (
        node.form == "call" and node.data in AGGREGATES
    )


def has_aggregate(node: Node) -> bool:
    """Whether an aggregate stands in the expression."""
    return is_aggregate(node) or any(map(has_aggregate, node.parts))


def aggregate_name(node: Node) -> str:
    """The name of an aggregate."""
    return str(node.data) if node.form == "call" else "count"


def plan_of(statement: Statement, world: World) -> Plan:
    """The statement with its names and kinds, or the first refusal."""
    return Typing(statement, world).plan()


class Typing:
    """Goes over a statement's expressions, operands before their operation."""

    def __init__(self, statement: Statement, world: World) -> None:
        self.statement = statement
        self.world = world
        self.table: Optional[Table] = None
        exprs = [item.expr for item in statement.items] + [expr for expr, _ in statement.orders]
        self.grouped = bool(statement.groups) or any(map(has_aggregate, exprs))
        self.collation = world.collations[world.connection]

    def plan(self) -> Plan:
        """The whole, in the order in which refusals come."""
        statement = self.statement
        if statement.table is not None:
            if statement.table not in self.world.tables:
                raise Refused(1146, f"Table '{statement.table}' doesn't exist")
            self.table = self.world.tables[statement.table]
        headers, items = self.columns() if statement.star else ([], [])
        for item in statement.items:
            items.append(self.typed(item.expr, True))
            headers.append(item.alias or item.text)
        conjuncts: list[Typed] = []
        if statement.where:
            where = self.typed(statement.where, False)
            self.need_number(where, "where")
            conjuncts = members_of(where)
        groups = [self.key(expr, False, "group by") for expr in statement.groups]
        orders = [(self.order(expr), down) for expr, down in statement.orders]
        return Plan(
            self.table, statement.distinct, headers, items, conjuncts, self.grouped, groups, orders,
            statement.limit,
        )  # fmt: skip

    def columns(self) -> tuple[list[str], list[Typed]]:
        """The columns that `*` stands for."""
        names = [name for name, _ in self.table.columns] if self.table else []
        return names, [self.typed(Node("name", name), True) for name in names]

    def key(self, expr: Node, shown: bool, clause: str) -> Typed:
        """An expression of GROUP BY or ORDER BY."""
        if expr.form == "int":
            raise wrong(clause)
        return self.typed(expr, shown)

    def order(self, expr: Node) -> Typed:
        """An expression of ORDER BY, where an alias alone stands for its item."""
        if expr.form == "name":
            for item in self.statement.items:
                if item.alias == expr.data:
                    return self.typed(item.expr, True)
        return self.key(expr, True, "order by")

    def typed(
        self, node: Node, shown: bool, inside: bool = False, covered: bool = False
    ) -> Typed:
        """An expression that is `shown` (of an item or ORDER BY) or not, stands inside an aggregate
        or not, and is covered by an expression of GROUP BY or not."""
        covered = covered or shown and node in self.statement.groups
        below = inside or is_aggregate(node)
        parts = tuple(self.typed(part, shown, below, covered) for part in node.parts)
        if node.form in ("name", "qualified"):
            return self.column(node, shown and self.grouped and not inside and not covered)
        if is_aggregate(node):
            return self.aggregate(node, parts, shown and not inside)
        if node.form == "call":
            return self.call(str(node.data), parts)
        if node.form in ("convert", "cast", "cast to binary", "collate"):
            return getattr(self, node.form.replace(" ", "_"))(node.data, self.text(parts[0]))
        if node.form == "weights":
            return self.weights(node, parts[0])
        if parts:
            return self.operator(node, parts)
        return self.literal(node)

    def literal(self, node: Node) -> Typed:
        """A literal."""
        if node.form == "null":
            return Typed("const", None, (), None)
        if node.form in ("int", "true", "false"):
            value = node.data if node.form == "int" else int(node.form == "true")
            return Typed("const", value, (), NUMBER)
        if node.form == "str":
            text = converted(Text("utf8mb4", str(node.data)), self.collation.charset)
            return self.string(text, self.collation)
        if node.form == "national":
            return self.string(converted(Text("utf8mb4", str(node.data)), "utf8mb3"))
        charset, given = node.data if node.form != "hex" else ("binary", node.data)
        told = str(given).encode() if node.form == "intro str" else bytes.fromhex(str(given))
        taken = taken_for(charset, told)
        if taken is None:
            raise Refused(1300, f"Invalid {charset} character string")
        return self.string(taken)

    def string(self, text: Text, collation: Optional[Collation] = None) -> Typed:
        """A text that stands in the statement."""
        collation = collation or self.world.collations[self.world.usual(text.charset)]
        kind = operand_of(collation, COERCIBLE, repertoire_of(text))
        return Typed("const", kept(text), (), kind)

    def column(self, node: Node, is_loose: bool) -> Typed:
        """A column; a loose one is refused."""
        table, name = node.data if node.form == "qualified" else (None, node.data)
        columns = self.table.columns if self.table else []
        names = [column for column, _ in columns]
        if name not in names or table and table != self.statement.table:
            raise Refused(1054, f"Unknown column '{name}'")
        if is_loose:
            raise Refused(1055, f"Column '{name}' is not grouped")
        place = names.index(name)
        told = columns[place][1]
        if told is None:
            return Typed("column", place, (), NUMBER)
        collation = self.world.collations[told]
        return Typed("column", place, (), operand_of(collation, IMPLICIT, CAPS[collation.charset]))

    def aggregate(self, node: Node, parts: tuple[Typed, ...], allowed: bool) -> Typed:
        """An aggregate."""
        name = aggregate_name(node)
        if node.form == "call" and len(parts) != 1:
            raise wrong_count(name)
        if not allowed:
            raise wrong(name)
        if name == "sum":
            self.need_number(parts[0], name)
        kind = parts[0].kind if name in ("min", "max") else NUMBER
        told = "all" if node.form == "count all" else "distinct" if node.form != "call" else name
        return Typed("aggregate", told, parts, kind)

    def call(self, name: str, parts: tuple[Typed, ...]) -> Typed:
        """A call of a function."""
        if name not in CALLS:
            raise Refused(1305, f"FUNCTION {name} does not exist")
        places = places_of(CALLS[name], len(parts))
        if places is None:
            raise wrong_count(name)
        for part, place in zip(parts, places):
            if place == "n":
                self.need_number(part, name)
        if name in ("charset", "collation", "coercibility", "version"):
            return self.told(name, *parts)
        parts = tuple(self.text(it) if at == "t" else it for it, at in zip(parts, places))
        texts = [part for part, place in zip(parts, places) if place == "t"]
        if name in TEXT_CALLS:
            uses = self.mixed(name, texts, False)
            level = COERCIBLE if uses.level == NUMERIC else uses.level
            return Typed(name, None, parts, uses._replace(level=level), uses)
        uses = self.mixed(name, texts, name == "strcmp") if texts else None
        kind = operand_of(self.collation, COERCIBLE, ASCII) if name == "hex" else NUMBER
        return Typed(name, None, parts, kind, uses)

    def weights(self, node: Node, part: Typed) -> Typed:
        """WEIGHT_STRING."""
        if part.kind == NUMBER or node.data and not 1 <= node.data[1] <= LIMIT:
            raise wrong("weight_string")
        kind = operand_of(self.world.collations["binary"], COERCIBLE, BYTES)
        return Typed("weights", node.data, (part,), kind)

    def told(self, name: str, part: Optional[Typed] = None) -> Typed:
        """A constant that tells an operand's set, collation or level, or the version."""
        kind = self.text(part).kind if part else None
        shown = kind if isinstance(kind, Operand) else Operand("binary", "binary", 6, ASCII, True)
        if name == "coercibility":
            return Typed("const", shown.level, (), NUMBER)
        chars = {"charset": shown.charset, "collation": shown.collation, "version": "8.0-profile"}
        collation = self.world.collations[self.world.usual("utf8mb3")]
        level = SYSCONST if name == "version" else COERCIBLE
        value = Text("utf8mb3", chars[name])
        return Typed("const", value, (), operand_of(collation, level, ASCII))

    def convert(self, name: object, part: Typed) -> Typed:
        """CONVERT and CAST to a set that is named."""
        charset = set_named(str(name))
        if charset is None:
            raise Refused(1115, f"Unknown character set: '{name}'")
        return self.in_set(part, self.world.collations[self.world.usual(charset)])

    def cast(self, _: object, part: Typed) -> Typed:
        """CAST AS CHAR."""
        return self.in_set(part, self.collation)

    def cast_to_binary(self, _: object, part: Typed) -> Typed:
        """CAST AS BINARY."""
        return self.in_set(part, self.world.collations["binary"])

    def in_set(self, part: Typed, collation: Collation) -> Typed:
        """A text in a collation's set."""
        repertoire = CAPS[collation.charset]
        given = part.kind
        if isinstance(given, Operand) and "binary" not in (given.charset, collation.charset):
            repertoire = min(repertoire, given.repertoire)
        return Typed("convert", None, (part,), operand_of(collation, IMPLICIT, repertoire))

    def collate(self, name: object, part: Typed) -> Typed:
        """COLLATE."""
        collation = self.world.collations.get(str(name))
        if collation is None:
            raise Refused(1273, f"Unknown collation: '{name}'")
        if not isinstance(part.kind, Operand):
            return Typed("collate", None, (part,), operand_of(collation, EXPLICIT, ASCII))
        if part.kind.charset != collation.charset:
            charset = part.kind.charset
            raise Refused(1253, f"COLLATION '{name}' is not valid for CHARACTER SET '{charset}'")
        kind = operand_of(collation, EXPLICIT, part.kind.repertoire)
        return Typed("collate", None, (part,), kind)

    def operator(self, node: Node, parts: tuple[Typed, ...]) -> Typed:
        """An operator."""
        form, data = node.form, node.data
        uses = None
        if form == "like":
            escape, negated = data
            if escape is not None and len(escape) > 1:
                raise wrong("escape")
            data = ("\\" if escape is None else escape, negated)
            parts = tuple(map(self.text, parts))
            uses = self.mixed("like", parts, True)
        elif form in ("compare", "in", "between"):
            op = str(data) if form == "compare" else form
            kinds = [part.kind for part in parts]
            if any(isinstance(kind, Operand) for kind in kinds):
                if NUMBER in kinds:
                    raise wrong(op)
                uses = self.mixed(op, parts, True)
        elif form != "is":
            op = {"neg": "-", "arith": str(data)}.get(form, form)
            for part in parts:
                self.need_number(part, op)
        return Typed(form, data, parts, NUMBER, uses)

    def text(self, part: Typed) -> Typed:
        """The expression, or the digits of a number."""
        if part.kind != NUMBER:
            return part
        return Typed("digits", None, (part,), operand_of(self.collation, NUMERIC, ASCII))

    def mixed(self, op: str, parts: Sequence[Typed], compares: bool) -> Operand:
        """What the texts have together, or the refusal of their mix."""
        given = [part.kind for part in parts if isinstance(part.kind, Operand)]
        uses = together(given, compares)
        if uses is None:
            raise mix(op, [operand for operand in given if operand.level != IGNORABLE])
        return uses

    def need_number(self, part: Typed, op: str) -> None:
        """Refuses a text."""
        if isinstance(part.kind, Operand):
            raise wrong(op)


def operand_of(collation: Collation, level: int, repertoire: int) -> Operand:
    """An operand of a collation."""
    return Operand(collation.charset, collation.name, level, repertoire, collation.built_in)


def wrong(op: str) -> Refused:
    """An operand of a kind that is not allowed at its place."""
    return Refused(9002, f"wrong argument for '{op}'")


def wrong_count(name: str) -> Refused:
    """Another number of operands."""
    return Refused(1582, f"Incorrect parameter count in the call to native function '{name}'")


def mix(op: str, given: list[Operand]) -> Refused:
    """Operands that have no collation together."""
    named = [f"({operand.collation},{WORDS[operand.level]})" for operand in given]
    head = "Illegal mix of collations"
    if len(given) == 2:
        return Refused(1267, f"{head} {named[0]} and {named[1]} for operation '{op}'")
    if len(given) == 3:
        return Refused(1270, f"{head} {', '.join(named)} for operation '{op}'")
    return Refused(1271, f"{head} for operation '{op}'")


def places_of(form: str, count: int) -> Optional[str]:
    """What each of so many operands is, or none where a call takes another number."""
    if form.endswith("*"):
        least = form[:-1]
        return least + least[-1] * (count - len(least)) if count >= len(least) else None
    least, _, more = form.partition("[")
    whole = least + more.rstrip("]")
    return whole[:count] if len(least) <= count <= len(whole) else None


def members_of(where: Typed) -> list[Typed]:
    """The members of an AND and of those within it."""
    if where.form != "and":
        return [where]
    return [member for part in where.parts for member in members_of(part)]
