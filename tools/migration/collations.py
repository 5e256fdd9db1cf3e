"""Collations, and the weight files that are given for them."""

import re
import shutil
from dataclasses import dataclass
from pathlib import Path
from typing import Optional

from migration.schema import newer, set_of
from weights.fault import Fault

SETS = ("latin1", "ascii", "utf8mb3", "utf8mb4", "ucs2", "utf16", "utf32", "binary")
BUILT_IN = {f"{name}_bin" for name in SETS if name != "binary"} | {"binary", "utf8mb4_0900_bin"}
KINDS = (
    "table8", "general", "uca400", "uca520", "uca900_ai_ci", "uca900_as_ci", "uca900_as_cs",
)  # fmt: skip

_NAME = re.compile(r"[a-z_$][a-z0-9_$]{0,63}")
_LAST = {"ascii": 0x7F, "utf8mb3": 0xFFFF, "ucs2": 0xFFFF}
_KINDS_BY_NAME = [
    (r"(latin1|ascii)_.*", "table8"),
    (r"(utf8mb3|utf8mb4|ucs2|utf16|utf32)_general(_mysql500)?_ci", "general"),
    (r"(utf8mb3|utf8mb4|ucs2|utf16|utf32)_unicode_ci", "uca400"),
    (r"(utf8mb3|utf8mb4|ucs2|utf16|utf32)_unicode_520_ci", "uca520"),
    (r"utf8mb4_0900_(?P<levels>ai_ci|as_ci|as_cs)", "uca900_"),
]


@dataclass(frozen=True)
class Weights:
    """The files of one collation."""

    collation: str
    kind: str
    file: str
    rules: Optional[str] = None


class Collations:
    """The new collation, and all for which there are weights."""

    def __init__(self, to: str, weights: list[str], rules: list[str]) -> None:
        self.to = _checked(to)
        self.charset = set_of(self.to)
        self.files: dict[str, Weights] = {}
        for words in weights:
            self._add(words, _by_name(rules, self.to))
        if not self.is_known(self.to):
            raise Fault(
                f"no weights of {self.to}",
                f"give --weights FILE with them, or --weights {self.to}=FILE where the file is"
                " named for another collation",
                NOTHING,
            )

    def is_known(self, collation: Optional[str]) -> bool:
        """Whether mycoll can answer by this collation."""
        return collation in BUILT_IN or collation in self.files

    def is_fit(self, text: str) -> bool:
        """Whether the new collation's set has all characters of a text."""
        if self.charset == "latin1":
            return all(char <= "\x7f" or _is_latin1(char) for char in text)
        return max(text, default="") <= chr(_LAST.get(self.charset, 0x10FFFF))

    def titles(self) -> list[str]:
        """How a report names what was given: the new collation first."""
        names = [self.to] + sorted(name for name in self.files if name != self.to)
        return [self._title(name) for name in names]

    def copied(self, folder: Path) -> dict[str, str]:
        """Copies of the weight files in a folder, by names that a catalog can hold."""
        files = {}
        for name, weights in self.files.items():
            for key, path in [(name, weights.file), (f"{name} rules", weights.rules)]:
                if path is not None:
                    files[key] = f"weights_{key.replace(' ', '_')}.txt"
                    shutil.copyfile(path, folder / files[key])
        return files

    def _title(self, name: str) -> str:
        given = self.files.get(name)
        if given is None:
            return f"{name}, built in"
        rules = f" with {Path(given.rules).name}" if given.rules else ""
        return f"{name}, {given.kind} by {Path(given.file).name}{rules}"

    def _add(self, words: str, rules: dict[str, str]) -> None:
        """One word of --weights: [COLLATION=][KIND:]FILE."""
        name, kind, file = _parted(words)
        stem = newer(Path(file).name.partition(".")[0])
        name = name or (stem if _is_collation(stem) else self.to)
        kind = kind or _kind_of(name)
        if name in BUILT_IN:
            raise Fault(f"{name}: is built in, and takes no weights", "leave them out", NOTHING)
        if kind is None:
            raise Fault(
                f"{name}: its name doesn't tell which kind its weights are",
                f"say it: --weights {name}=KIND:{file}, KIND being one of {', '.join(KINDS)}",
                NOTHING,
            )
        if name in self.files:
            raise Fault(
                f"{name}: weights are given twice",
                "write COLLATION=FILE for those of another collation",
                NOTHING,
            )
        for path in [file, *([rules[name]] if name in rules else [])]:
            if not Path(path).is_file():
                raise Fault(f"{path}: no file", "see where the weights are", NOTHING)
        self.files[name] = Weights(name, kind, file, rules.get(name))


NOTHING = "nothing was checked"


def default_of(charset: str, is_mysql_8: bool) -> str:
    """The collation of a set where a dump names the set alone."""
    if charset == "utf8mb4" and is_mysql_8:
        return "utf8mb4_0900_ai_ci"
    return {"latin1": "latin1_swedish_ci", "binary": "binary"}.get(charset, f"{charset}_general_ci")


def _checked(name: str) -> str:
    """A collation's name that a catalog can hold, of a set that mycoll has."""
    name = newer(name)
    if _is_collation(name) and name != "binary":
        return name
    raise Fault(
        f"{name}: no collation of mycoll's character sets",
        f"give --to a name as utf8mb4_0900_ai_ci; the sets are {', '.join(SETS[:-1])}",
        NOTHING,
    )


def _is_collation(name: str) -> bool:
    """Whether a name begins with one of the sets."""
    return name == "binary" or (
        _NAME.fullmatch(name) is not None and "_" in name and set_of(name) in SETS[:-1]
    )


def _parted(words: str) -> tuple[str, Optional[str], str]:
    """The collation (empty where none is named), the kind, and the file."""
    name, equals, rest = words.partition("=")
    if not equals or not _is_collation(newer(name)):
        name, rest = "", words
    kind, colon, file = rest.partition(":")
    return (newer(name), kind, file) if colon and kind in KINDS else (newer(name), None, rest)


def _by_name(rules: list[str], to: str) -> dict[str, str]:
    """The words of --rules, [COLLATION=]FILE, by collation."""
    found = {}
    for words in rules:
        name, _, file = _parted(words)
        found[name or to] = file
    return found


def _kind_of(name: str) -> Optional[str]:
    """The kind that a collation's name tells."""
    for pattern, kind in _KINDS_BY_NAME:
        match = re.fullmatch(pattern, name)
        if match:
            return kind + (match.groupdict().get("levels") or "")
    return None


def _is_latin1(char: str) -> bool:
    """Whether the server's latin1 has a character above 7F: cp1252 with its holes filled."""
    if char in "\x81\x8d\x8f\x90\x9d":
        return True
    try:
        char.encode("cp1252")
    except UnicodeEncodeError:
        return False
    return True
