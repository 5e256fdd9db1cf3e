"""Collations by the weight lists of their files, with no look-up but that of a dictionary."""

import re

from .texts import LATIN1

Element = tuple[int, int, int]

COMPATIBLE = (
    0xFA0E, 0xFA0F, 0xFA11, 0xFA13, 0xFA14, 0xFA1F, 0xFA21, 0xFA23, 0xFA24, 0xFA27, 0xFA28, 0xFA29,
)  # fmt: skip
EXTENSIONS = (
    (0x3400, 0x4DB5), (0x20000, 0x2A6D6), (0x2A700, 0x2B734), (0x2B740, 0x2B81D),
    (0x2B820, 0x2CEA1),
)  # fmt: skip


class Collation:
    """A collation: its set, whether it pads, and the flat list of a text."""

    def __init__(self, name: str, charset: str, pads: bool, built_in: bool = False) -> None:
        self.name = name
        self.charset = charset
        self.pads = pads
        self.built_in = built_in
        self.added, self.width = 1, 2

    def flat(self, chars: str) -> list[int]:
        """The weights of a text; with several levels 0 stands between their lists."""
        raise NotImplementedError

    def order(self, one: str, other: str) -> int:
        """-1, 0 or 1: whether the first text is less than the second, equal to it, or greater."""
        left, right = self.flat(one), self.flat(other)
        if self.pads:
            [space] = self.flat(" ")
            longest = max(len(left), len(right))
            left += [space] * (longest - len(left))
            right += [space] * (longest - len(right))
        return (left > right) - (left < right)

    def weight_string(self, chars: str) -> bytes:
        """The weights of a text in the bytes of the collation's width, 0 between levels."""
        weights = (max(weight - self.added, 0) for weight in self.flat(chars))
        return b"".join(weight.to_bytes(self.width, "big") for weight in weights)

    def same_char(self, one: str, other: str) -> bool:
        """Whether two characters have the same list, without padding."""
        return self.flat(one) == self.flat(other)


class Bin(Collation):
    """A built-in collation: a weight is a byte or a code point, plus 1."""

    def __init__(self, name: str, charset: str, pads: bool) -> None:
        super().__init__(name, charset, pads, True)
        self.width = 1 if charset in ("latin1", "ascii", "binary") else 3

    def flat(self, chars: str) -> list[int]:
        if self.charset == "latin1":
            return [LATIN1.index(char) + 1 for char in chars]
        return [ord(char) + 1 for char in chars]


BUILT_IN = {
    name: Bin(name, charset, name not in ("binary", "utf8mb4_0900_bin"))
    for name, charset in [
        ("binary", "binary"), ("latin1_bin", "latin1"), ("ascii_bin", "ascii"),
        ("utf8mb3_bin", "utf8mb3"), ("utf8mb4_bin", "utf8mb4"), ("ucs2_bin", "ucs2"),
        ("utf16_bin", "utf16"), ("utf32_bin", "utf32"), ("utf8mb4_0900_bin", "utf8mb4"),
    ]
}  # fmt: skip


class Bytewise(Collation):
    """A collation of a `table8` file: one weight or two for each byte, plus 1."""

    def __init__(self, name: str, charset: str, file: str) -> None:
        super().__init__(name, charset, True)
        self.width = 1
        self.weights: dict[int, list[int]] = {}
        for line in lines_of(file):
            fields = line.split()
            if fields[0] == "default":
                continue
            first, last = ends_of(fields[0])
            for byte in range(first, last + 1):
                if fields[1] == "=":
                    self.weights[byte] = [byte]
                elif fields[1] == "@":
                    self.weights[byte] = [int(fields[2], 16) + byte - first]
                else:
                    self.weights[byte] = [int(field, 16) for field in fields[1:]]

    def flat(self, chars: str) -> list[int]:
        numbers = [LATIN1.index(char) for char in chars]
        return [weight + 1 for byte in numbers for weight in self.weights.get(byte, [byte])]


class General(Collation):
    """A collation of a `general` file: one weight for each code point, plus 1."""

    def __init__(self, name: str, charset: str, file: str) -> None:
        super().__init__(name, charset, True)
        self.weights: dict[int, int] = {}
        for line in lines_of(file):
            fields = line.split()
            first, last = ends_of(fields[0])
            for code in range(first, last + 1):
                self.weights[code] = int(fields[-1], 16) + code - first

    def flat(self, chars: str) -> list[int]:
        codes = [min(ord(char), 0x10000) for char in chars]
        codes = [0xFFFD if code > 0xFFFF else code for code in codes]
        return [self.weights.get(code, code) + 1 for code in codes]


class Elements(Collation):
    """A collation of an element table, whose weights are the numbers of the file."""

    def __init__(self, name: str, charset: str, kind: str, file: str) -> None:
        super().__init__(name, charset, not kind.startswith("uca900"))
        self.added = 0
        self.kind = kind
        self.levels = {"uca900_as_ci": 2, "uca900_as_cs": 3}.get(kind, 1)
        self.entries: dict[str, list[Element]] = {}
        self.ranges: list[tuple[int, int, int]] = []
        for line in lines_of(file):
            if line.startswith("@implicitweights"):
                first, last, base = re.findall(r"\b[0-9A-Fa-f]+\b", line)
                self.ranges.append((int(first, 16), int(last, 16), int(base, 16)))
            elif not line.startswith("@"):
                codes, elements = line.split(";")
                text = "".join(chr(int(code, 16)) for code in codes.split())
                self.entries[text] = [
                    (int(p, 16), int(s, 16), int(t, 16))
                    for p, s, t in re.findall(r"\[[.*](\w+)\.(\w+)\.(\w+)", elements)
                ]

    def flat(self, chars: str) -> list[int]:
        elements = self.elements(chars)
        flat: list[int] = []
        for level in range(self.levels):
            flat += [0] * (level > 0)
            flat += [element[level] for element in elements if element[level]]
        return flat

    def elements(self, chars: str) -> list[Element]:
        """The elements of a text: of the longest contraction at a place, else of its character."""
        found: list[Element] = []
        place = 0
        while place < len(chars):
            fronts = [chars[place : place + size] for size in range(6, 1, -1)]
            piece = next((front for front in fronts if self.has(front)), chars[place])
            found += self.entries[piece] if piece in self.entries else self.outside(ord(piece))
            place += len(piece)
        return found

    def has(self, front: str) -> bool:
        """Whether the text is a contraction."""
        return len(front) > 1 and front in self.entries

    def outside(self, code: int) -> list[Element]:
        """The elements of a character that the file doesn't list."""
        if not self.kind.startswith("uca900"):
            if self.kind == "uca400" and code > 0xFFFF:
                return [(0xFFFD, 0x20, 2)]
            return implicit(old_base(code), code)
        for first, last, base in self.ranges:
            if first <= code <= last:
                start = next(at for at, _, same in self.ranges if same == base)
                return [(base, 0x20, 2), ((code - start) | 0x8000, 0, 0)]
        if 0xAC00 <= code <= 0xD7A3:
            return [element for jamo in jamo_of(code) for element in self.jamo_elements(jamo)]
        return implicit(new_base(code), code)

    def jamo_elements(self, jamo: int) -> list[Element]:
        """The elements of a jamo of a syllable."""
        return self.entries.get(chr(jamo)) or implicit(0xFBC0, jamo)


def implicit(base: int, code: int) -> list[Element]:
    """The pair of elements by a base."""
    return [(base + (code >> 15), 0x20, 2), ((code & 0x7FFF) | 0x8000, 0, 0)]


def old_base(code: int) -> int:
    """The base of a character before version 9."""
    if 0x3400 <= code <= 0x4DB5:
        return 0xFB80
    return 0xFB40 if 0x4E00 <= code <= 0x9FA5 else 0xFBC0


def new_base(code: int) -> int:
    """The base of a character after version 9."""
    if 0x4E00 <= code <= 0x9FD5 or code in COMPATIBLE:
        return 0xFB40
    return 0xFB80 if any(first <= code <= last for first, last in EXTENSIONS) else 0xFBC0


def jamo_of(code: int) -> list[int]:
    """The two or three jamo of a Hangul syllable."""
    place = code - 0xAC00
    trailing = [0x11A7 + place % 28] if place % 28 else []
    return [0x1100 + place // 588, 0x1161 + place % 588 // 28, *trailing]


def lines_of(file: str) -> list[str]:
    """The lines of a file without comments, blanks at their ends and empty ones."""
    lines = (line.split("#")[0].strip(" \t\r") for line in file.split("\n"))
    return [line for line in lines if line]


def ends_of(field: str) -> tuple[int, int]:
    """The first and the last code of `XX` or `XX..YY`."""
    first, _, last = field.partition("..")
    return int(first, 16), int(last or first, 16)


def made(name: str, charset: str, kind: str, file: str) -> Collation:
    """The collation that a catalog's line declares."""
    if kind == "table8":
        return Bytewise(name, charset, file)
    if kind == "general":
        return General(name, charset, file)
    return Elements(name, charset, kind, file)
