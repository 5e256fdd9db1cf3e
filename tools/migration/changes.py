"""What becomes of the values of a column: which merge, and which part."""

from typing import Optional

from migration.answers import Groups


class Changes:
    """Two ways to group the same rows, compared. A value is a group of the old one.

    `merged` has for each new group of several values the first row of each; `parted` for each
    value that comes into several new groups the first row of it in each. `more` and `fewer` count
    the texts that then find rows that they did not find, or miss some that they found."""

    def __init__(self, texts: dict[int, str], new: Groups, old: Optional[Groups]) -> None:
        groups = old.groups if old is not None else _by_text(texts)
        old_of = {row: number for number, rows in enumerate(groups) for row in rows}
        new_of = new.by_row()
        self.before = len(groups)
        self.merged = _firsts(new.groups, old_of)
        self.parted = _firsts(groups, new_of)
        self.merging = sum(len(rows) for rows in self.merged)
        self.parts = sum(len(rows) for rows in self.parted)
        more = {number for number, rows in enumerate(new.groups) if _has_several(rows, old_of)}
        fewer = {number for number, rows in enumerate(groups) if _has_several(rows, new_of)}
        self.texts = len(set(texts.values()))
        self.more = len({text for row, text in texts.items() if new_of[row] in more})
        self.fewer = len({text for row, text in texts.items() if old_of[row] in fewer})


def _by_text(texts: dict[int, str]) -> list[list[int]]:
    """The rows of each text, by bytes."""
    groups: dict[str, list[int]] = {}
    for row in sorted(texts):
        groups.setdefault(texts[row], []).append(row)
    return list(groups.values())


def _has_several(rows: list[int], group_of: dict[int, int]) -> bool:
    """Whether the rows stand in more than one of the other groups."""
    return any(group_of[row] != group_of[rows[0]] for row in rows)


def _firsts(groups: list[list[int]], group_of: dict[int, int]) -> list[list[int]]:
    """For each group with rows of several others, the first row of each of these."""
    found = []
    for rows in groups:
        first: dict[int, int] = {}
        for row in rows:
            first.setdefault(group_of[row], row)
        if len(first) > 1:
            found.append(sorted(first.values()))
    return sorted(found)
