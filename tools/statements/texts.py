"""Tokens of plain statements, for tests and for looks at single ones. Comments are not read."""

import re

from .grammar import Token

SPELLINGS = re.compile(
    r"(?P<name>`[\w$]+`)|(?P<national>[nN]'[^']*')|(?P<hex>[xX]'[^']*'|0x\w+)"
    r"|(?P<str>'[^']*'|\"[^\"]*\")|(?P<word>[A-Za-z_][\w$]*)|(?P<int>\d+)"
    r"|(?P<mark><=>|<=|>=|<>|!=|[(),.*+\-%=<>])"
)


def tokens_of(text: str) -> tuple[list[Token], list[int]]:
    """The tokens of a statement, and the byte of each and of the statement's end."""
    tokens, places = [], []
    for found in SPELLINGS.finditer(text):
        kind = str(found.lastgroup)
        said = found.group()
        tokens.append(Token(kind, said.lower().strip("`") if kind in ("name", "word") else said))
        places.append(found.start())
    return tokens, [*places, len(text)]
