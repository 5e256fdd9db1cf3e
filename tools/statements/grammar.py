"""The grammar of docs/SQL.md, written out once more, and its rules taken apart."""

import re
from dataclasses import dataclass
from typing import NamedTuple

# A terminal stands between quotes or in capitals. `^` before a symbol says that it stands one level
# deeper, as what `(` opens does: that is seen from the marks.
TEXT = """
statement = ['explain'] 'select' ['distinct'] '*' {',' item} source [ordered] [limited]
          | ['explain'] 'select' ['distinct'] item {',' item} [source] [ordered] [limited]
source = 'from' NAME ['where' or] ['group' 'by' or {',' or}]
ordered = 'order' 'by' order {',' order}
limited = 'limit' INT [(',' | 'offset') INT]
item = or [['as'] NAME]
order = or ['asc' | 'desc']
or = xor {'or' xor}
xor = and {'xor' and}
and = not {'and' not}
not = ^'not' ^not | pred
pred = sum | sum cmp sum | sum 'is' ['not'] 'null' | sum ['not'] 'like' sum ['escape' STR]
     | sum ['not'] 'in' '(' or {',' or} ')' | sum ['not'] 'between' sum 'and' sum
cmp = '=' | '<=>' | '<>' | '!=' | '<' | '<=' | '>' | '>='
sum = prod {('+' | '-') prod}
prod = neg {('*' | 'div' | '%' | 'mod') neg}
neg = ^'-' ^neg | coll
coll = prim {'collate' (NAME | 'binary')}
prim = INT | 'true' | 'false' | 'null' | string | NAME | NAME '.' NAME | call | '(' or ')'
string = STR {STR} | NATIONAL {STR} | HEX | INTRO STR {STR} | INTRO HEX
call = 'convert' '(' or 'using' (NAME | 'binary') ')'
     | 'cast' '(' or 'as' 'char' ['character' 'set' (NAME | 'binary')] ')'
     | 'cast' '(' or 'as' 'binary' ')'
     | 'count' '(' '*' ')' | 'count' '(' 'distinct' or ')'
     | 'trim' '(' ('both' | 'leading' | 'trailing') [or] 'from' or ')'
     | 'trim' '(' or 'from' or ')'
     | 'substring' '(' or 'from' or ['for' or] ')'
     | 'weight_string' '(' or ['as' ('char' | 'binary') '(' INT ')'] ')'
     | CALLED '(' [or {',' or}] ')'
"""

RESERVED = frozenset(
    "select distinct from where group by order asc desc limit as and or xor not is null like in"
    " between collate div mod explain convert using true false character set char binary both"
    " leading trailing for".split()
)

SETS = frozenset("latin1 ascii utf8 utf8mb3 utf8mb4 ucs2 utf16 utf32 binary".split())

START = "statement"


class Token(NamedTuple):
    """A token: its kind, which is a class of literals, `word`, `name` or `mark`, and its text. A
    word's text is in lower case."""

    kind: str
    text: str


class Step(NamedTuple):
    """A symbol of an alternative: a rule, or a terminal, and whether it stands deeper."""

    name: str
    is_rule: bool
    is_deeper: bool


@dataclass(frozen=True)
class Grammar:
    """The alternatives of each rule, and the rules that may read nothing."""

    rules: dict[str, list[tuple[Step, ...]]]
    empty: frozenset[str]


def is_of(terminal: str, token: Token) -> bool:
    """Whether the token is one of the terminal's."""
    kind, text = token
    if terminal == "NAME":
        return kind == "name" or kind == "word" and text not in RESERVED
    if terminal == "CALLED":
        return kind == "word" and (text == "mod" or text not in RESERVED and text != "cast")
    if terminal == "INTRO":
        return kind == "word" and text[:1] == "_" and text[1:] in SETS
    if terminal.isupper():
        return kind == terminal.lower()
    return kind in ("word", "mark") and text == terminal


class Reader:
    """Takes the text of the grammar apart: each `{..}` and `[..]` and group is a rule more."""

    def __init__(self, text: str) -> None:
        self.rules: dict[str, list[tuple[Step, ...]]] = {}
        heads = re.split(r"^(\w+) =", text, flags=re.MULTILINE)[1:]
        for name, body in zip(heads[::2], heads[1::2]):
            self.parts = re.findall(r"\^?'[^']+'|\^?\w+|[][{}()|]", body)
            self.rules[name] = self.alternatives("")
        self.spaced()

    def alternatives(self, end: str) -> list[tuple[Step, ...]]:
        """The alternatives up to this mark."""
        found: list[tuple[Step, ...]] = [()]
        depth = 0
        while self.parts:
            part = self.parts.pop(0)
            if part == end:
                break
            if part == "|":
                found.append(())
                continue
            depth += part == "'('"
            depth -= part == "')'"
            deeper = depth > 0 or part.startswith("^")
            found[-1] += (self.step(part.removeprefix("^"), deeper),)
        return found

    def step(self, part: str, deeper: bool) -> Step:
        """The symbol that a part of the text is."""
        if part in "{[(":
            return Step(self.group(part), True, deeper)
        if part.startswith("'"):
            return Step(part.strip("'"), False, deeper)
        return Step(part, not part.isupper(), deeper)

    def group(self, mark: str) -> str:
        """The name of a rule for `{..}`, `[..]` or a group, which its text is read for."""
        inner = self.alternatives({"{": "}", "[": "]", "(": ")"}[mark])
        name = f"{mark}{len(self.rules)}"
        self.rules[name] = []
        if mark == "{":
            inner = [(Step(name, True, False), *steps) for steps in inner]
        if mark in "{[":
            inner.append(())
        self.rules[name] = inner
        return name

    def spaced(self) -> None:
        """Says where a symbol is of no rule and no terminal."""
        for alternatives in self.rules.values():
            for step in (step for steps in alternatives for step in steps):
                if step.is_rule and step.name not in self.rules:
                    raise ValueError(f"no rule {step.name}")

    def grammar(self) -> Grammar:
        """The grammar, with the rules that may read nothing."""
        empty: set[str] = set()
        while True:
            more = {
                name
                for name, alternatives in self.rules.items()
                if any(all(step.name in empty for step in steps) for steps in alternatives)
            }
            if more == empty:
                return Grammar(self.rules, frozenset(empty))
            empty = more


GRAMMAR = Reader(TEXT).grammar()
