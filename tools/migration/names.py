"""Names that a catalog can hold, for those that a dump has."""

import re

_NAME = re.compile(r"[A-Za-z_$][A-Za-z0-9_$]{0,63}")


class Names:
    """Names of one kind: each is kept where a catalog can hold it, and is else a new one."""

    def __init__(self, letter: str, taken: list[str]) -> None:
        self._letter = letter
        self._taken = {name.lower() for name in taken}
        self._given: dict[str, str] = {}
        self._used: set[str] = set()

    def of(self, name: str) -> str:
        """The name in the catalog."""
        if name not in self._given:
            is_plain = _NAME.fullmatch(name) is not None and name.lower() not in self._used
            self._given[name] = name if is_plain else self.fresh(self._letter)
            self._used.add(self._given[name].lower())
        return self._given[name]

    def fresh(self, letter: str) -> str:
        """A name that stands for none of the dump's: the letter and a number."""
        number = 1
        while f"{letter}{number}" in self._taken | self._used:
            number += 1
        self._used.add(f"{letter}{number}")
        return f"{letter}{number}"
