"""A chart parser (Earley, 1970) that tells where tokens cannot be read on."""

from collections.abc import Sequence
from typing import NamedTuple

from .grammar import GRAMMAR, START, Grammar, Step, Token, is_of

NEST_LIMIT = 64
TOKEN_LIMIT = 2048


class Item(NamedTuple):
    """Within an alternative of a rule, begun at a token and at a level: so many of its symbols are
    read."""

    rule: str
    steps: tuple[Step, ...]
    done: int
    start: int
    level: int


class Chart:
    """The items at each token of a list, where no token stands deeper than a limit."""

    def __init__(self, limit: int | None, grammar: Grammar = GRAMMAR) -> None:
        self.limit, self.grammar = limit, grammar
        self.waiting: list[dict[tuple[str, int], list[Item]]] = []
        self.items: list[Item] = []
        self.begin([], [(START, 0)])

    def begin(self, items: list[Item], rules: list[tuple[str, int]]) -> None:
        """The items at the next place: these, and all that come of them."""
        here = len(self.waiting)
        waiting: dict[tuple[str, int], list[Item]] = {}
        self.waiting.append(waiting)
        seen: set[Item] = set()
        queue = list(items)
        for rule, level in rules:
            queue += self.begun(rule, level, here)
        while queue:
            item = queue.pop()
            if item in seen:
                continue
            seen.add(item)
            if item.done == len(item.steps):
                queue += self.ended(item)
                continue
            step = item.steps[item.done]
            if step.is_rule:
                wanted = step.name, self.level_of(item, step)
                waiters = waiting.setdefault(wanted, [])
                waiters.append(item)
                if len(waiters) == 1:
                    queue += self.begun(*wanted, here)
                if step.name in self.grammar.empty:
                    queue.append(item._replace(done=item.done + 1))
        self.items = [item for item in seen if item.done < len(item.steps)]
        self.is_whole = any(
            item.rule == START and item.start == 0 and item.done == len(item.steps)
            for item in seen
        )

    def level_of(self, item: Item, step: Step) -> int:
        """The level of a symbol. Without a limit all levels are one."""
        return item.level + step.is_deeper if self.limit is not None else 0

    def begun(self, rule: str, level: int, here: int) -> list[Item]:
        """The items at the start of a rule."""
        return [Item(rule, steps, 0, here, level) for steps in self.grammar.rules[rule]]

    def ended(self, item: Item) -> list[Item]:
        """The items that go on behind a rule that has ended."""
        waiters = self.waiting[item.start].get((item.rule, item.level), [])
        return [waiter._replace(done=waiter.done + 1) for waiter in waiters]

    def takes(self, token: Token) -> bool:
        """Whether the list goes on with the token. If so, it stands there."""
        items = []
        for item in self.items:
            step = item.steps[item.done]
            if step.is_rule or not is_of(step.name, token):
                continue
            if self.limit is None or self.level_of(item, step) <= self.limit:
                items.append(item._replace(done=item.done + 1))
        if items:
            self.begin(items, [])
        return bool(items)

    def terminals(self) -> set[str]:
        """What may stand next."""
        steps = (item.steps[item.done] for item in self.items)
        return {step.name for step in steps if not step.is_rule}


class Verdict(NamedTuple):
    """What comes of a list of tokens: `many` where they are too many, `read`, or `stuck` or `deep` at
    the token of a number, which is how many there are where the end is the place."""

    what: str
    place: int


def verdict_of(tokens: Sequence[Token]) -> Verdict:
    """What comes of the tokens."""
    if len(tokens) > TOKEN_LIMIT:
        return Verdict("many", len(tokens))
    endless, within = Chart(None), Chart(NEST_LIMIT)
    for place, token in enumerate(tokens):
        if not endless.takes(token):
            return Verdict("stuck", place)
        if not within.takes(token):
            return Verdict("deep", place)
    assert endless.is_whole == within.is_whole, "only its levels may keep a list from being whole"
    return Verdict("read" if endless.is_whole else "stuck", len(tokens))
