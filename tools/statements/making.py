"""Random lists of tokens: derivations, bent ones, and such as go where a parser may err."""

import random

from .chart import TOKEN_LIMIT, Chart
from .grammar import GRAMMAR, RESERVED, START, Step, Token

MARKS = "( ) , . * + - % = <> != < <= > >= <=>".split()
CALLS = "f cast count trim substring weight_string".split()
WORDS = [*sorted(RESERVED), *CALLS, "a", "b", "t", "escape", "offset"]
OTHERS = "hex concat _latin1 _utf8 _nope convert".split()


def any_of(terminal: str, dice: random.Random) -> Token:
    """A token of a terminal."""
    if terminal == "NAME":
        return dice.choice(
            [Token("word", dice.choice(["a", "b", "t", "escape", "offset", "count", "_latin1"])),
             Token("name", dice.choice(["a", "select", "like"]))]
        )
    if terminal == "CALLED":
        return Token("word", dice.choice(["f", "mod", "count", "trim", "hex", "weight_string"]))
    if terminal == "INTRO":
        return Token("word", dice.choice(["_latin1", "_utf8", "_binary"]))
    if terminal in ("INT", "STR", "NATIONAL", "HEX"):
        texts = {"INT": ["0", "1", "007"], "STR": ["'a'", '"b"', "''"], "NATIONAL": ["N'a'"]}
        return Token(terminal.lower(), dice.choice(texts.get(terminal, ["X'41'", "0x4"])))
    return Token("mark" if terminal in MARKS else "word", terminal)


def any_token(dice: random.Random) -> Token:
    """Any token."""
    kind = dice.randrange(4)
    if kind == 0:
        return any_of(dice.choice(MARKS), dice)
    if kind == 1:
        return Token("word", dice.choice(WORDS + OTHERS))
    return any_of(dice.choice(["NAME", "CALLED", "INTRO", "INT", "STR", "NATIONAL", "HEX"]), dice)


def derived(dice: random.Random, rule: str = START, room: int = 14) -> list[Token]:
    """A derivation of a rule. Where there is no more room the shortest alternatives are taken."""
    alternatives = GRAMMAR.rules[rule]
    if room <= 0:
        alternatives = sorted(alternatives, key=lambda steps: cost(rule, steps))[:1]
    tokens: list[Token] = []
    for step in dice.choice(alternatives):
        if step.is_rule:
            tokens += derived(dice, step.name, room - 1 - dice.randrange(2))
        else:
            tokens.append(any_of(step.name, dice))
    return tokens


def costs() -> dict[str, int]:
    """How many tokens each rule has at least."""
    found = {rule: 10**6 for rule in GRAMMAR.rules}
    while True:
        more = {
            rule: min(
                sum(found[step.name] if step.is_rule else 1 for step in steps)
                for steps in alternatives
            )
            for rule, alternatives in GRAMMAR.rules.items()
        }
        if more == found:
            return found
        found = more


LEAST = costs()


def cost(rule: str, steps: tuple[Step, ...]) -> int:
    """How many tokens an alternative has at least; of `{..}` and `[..]` none is taken."""
    return sum(LEAST[step.name] if step.is_rule else 1 for step in steps) + (
        10**6 if any(step.name == rule for step in steps) else 0
    )


def bent(tokens: list[Token], dice: random.Random) -> list[Token]:
    """The tokens with some left out, put in, changed or turned around."""
    tokens = list(tokens)
    for _ in range(dice.choice([1, 1, 1, 2, 3])):
        place = dice.randrange(len(tokens) + 1)
        kind = dice.randrange(5)
        if kind == 0 or not tokens[place:]:
            tokens.insert(place, any_token(dice))
        elif kind == 1:
            del tokens[place]
        elif kind == 2:
            tokens[place] = any_token(dice)
        elif kind == 3:
            del tokens[place:]
        else:
            other = dice.randrange(len(tokens))
            tokens[place], tokens[other] = tokens[other], tokens[place]
    return tokens


def escaping(dice: random.Random) -> list[Token]:
    """LIKE, and ESCAPE where it may be the clause or a name."""
    parts: list[Token] = [Token("word", "select")]
    if dice.randrange(3) == 0:
        parts += [any_of("INT", dice), Token("word", "from"), Token("word", "t")]
        parts.append(Token("word", dice.choice(["where", "where", "order"])))
        if parts[-1].text == "order":
            parts.append(Token("word", "by"))
    parts += [Token("word", "not")] * dice.choice([0, 0, 1, 2])
    closing = dice.choice([0, 0, 1])
    parts += [Token("mark", "(")] * closing
    parts += [Token("word", "a"), *[Token("word", "not")] * dice.choice([0, 1])]
    parts += [Token("word", "like"), any_of(dice.choice(["STR", "NAME", "INT"]), dice)]
    tail = [
        Token("word", "escape"), Token("word", "escape"), any_of("STR", dice), any_of("INT", dice),
        Token("word", "as"), Token("word", "and"), Token("mark", ","), Token("word", "b"),
        Token("mark", "."), Token("mark", "("), Token("mark", ")"), Token("word", "from"),
        Token("word", "or"), Token("word", "xor"), Token("mark", "="), Token("name", "escape"),
    ]
    parts += [Token("mark", ")")] * closing * dice.randrange(2)
    return parts + [dice.choice(tail) for _ in range(dice.randrange(6))]


def nesting(dice: random.Random) -> list[Token]:
    """NOT, unary minus and parentheses near the limit, round an operand."""
    openings = {
        "(": [Token("mark", "(")],
        "not": [Token("mark", "("), Token("word", "not")],
        "-": [Token("mark", "-")],
        "call": [Token("word", "f"), Token("mark", "(")],
        "in": [Token("int", "1"), Token("word", "in"), Token("mark", "(")],
    }
    kinds = dice.choice([["("], ["-"], ["(", "-"], ["(", "not", "-", "call"], list(openings)])
    tokens: list[Token] = [Token("word", "select")]
    if dice.randrange(4) == 0:
        tokens += [Token("word", "not")] * dice.choice([1, 2, 63, 64, 65])
    level = sum(token.text == "not" for token in tokens)
    wanted = dice.choice([60, 62, 63, 64, 65, 66, 70])
    open_marks = 0
    while level < wanted:
        more = openings[dice.choice(kinds)]
        tokens += more
        open_marks += sum(token.text == "(" for token in more)
        level += sum(token.text in ("(", "not", "-") for token in more)
    tokens += [Token("int", "1")] * dice.choice([0, 1, 1, 1])
    tokens += [Token("mark", ")")] * max(0, open_marks - dice.choice([0, 0, 0, 1, 3]))
    return tokens + [any_token(dice) for _ in range(dice.choice([0, 0, 1, 2]))]


def going_on(dice: random.Random) -> list[Token]:
    """Tokens of which each may stand where it does, and perhaps one more."""
    chart = Chart(None)
    tokens: list[Token] = []
    while len(tokens) < 30 and not (chart.is_whole and dice.randrange(6) == 0):
        terminals = sorted(chart.terminals())
        if not terminals:
            break
        token = any_of(dice.choice(terminals), dice)
        if not chart.takes(token):
            break
        tokens.append(token)
    return tokens + [any_token(dice) for _ in range(dice.randrange(3))]


def lengthy(dice: random.Random) -> list[Token]:
    """A sum of about as many tokens as a statement may have, or of many more."""
    wanted = TOKEN_LIMIT + dice.choice([-1, 0, 1, 1, 2, 2, 1000])
    one, plus = Token("int", "1"), Token("mark", "+")
    return [Token("word", "select"), *([one, plus] * wanted)[: wanted - 1]]


def a_list(dice: random.Random) -> list[Token]:
    """A list of tokens of one kind or another."""
    if dice.randrange(100) == 0:
        return lengthy(dice)
    kind = dice.randrange(10)
    if kind < 2:
        return derived(dice)
    if kind < 5:
        return bent(derived(dice), dice)
    if kind < 7:
        return escaping(dice)
    if kind < 8:
        return nesting(dice)
    return going_on(dice)


def spelled(token: Token, dice: random.Random) -> str:
    """The token as it stands in a script, a word in either case."""
    if token.kind == "name":
        return f"`{token.text}`"
    if token.kind == "word" and dice.randrange(2):
        return token.text.upper()
    return token.text

