#!/usr/bin/env python3
"""Prints the tables of mc_coerce_tests, worked out from the rules in docs/SQL.md.

    coercibility_table.py pairs > crates/mc_coerce_tests/src/pair_rows.rt
    coercibility_table.py lists > crates/mc_coerce_tests/src/list_rows.rt

They are laid out as `rt fmt` does. The answers come from the rules alone, by every pair of operands:
nothing here is shared with the crate, which goes over a list with one candidate. `.ci/run` compares
what is printed with the files.
"""

import sys
from itertools import combinations_with_replacement, permutations
from typing import NamedTuple

SETS = ["Binary", "Latin1", "Ascii", "Utf8mb3", "Utf8mb4", "Ucs2", "Utf16", "Utf32"]
"""The character sets, in the order of their binary collations, whose numbers begin at 0."""

CLASSES = ["Ascii", "Latin1", "Bmp", "Unicode", "Bytes"]
"""The repertoires, each one holding the characters of those before it."""

GREATEST = {
    "Binary": "Bytes", "Latin1": "Latin1", "Ascii": "Ascii", "Utf8mb3": "Bmp", "Utf8mb4": "Unicode",
    "Ucs2": "Bmp", "Utf16": "Unicode", "Utf32": "Unicode",
}
"""The repertoire of a set's whole character set."""

UNICODE = {"Utf8mb3", "Utf8mb4", "Ucs2", "Utf16", "Utf32"}
WIDER = {("Utf8mb4", "Utf8mb3"), ("Utf16", "Ucs2"), ("Latin1", "Ascii")}
"""Sets, the first of which holds the second one's characters and more."""

BUILT_IN = 9
"""How many collations are built in; 9 to 16 are declared ones of the eight sets, 17 to 24 too."""
UTF8MB4_0900_BIN = 8
"""The built-in collation beside the eight of the sets."""

EXPLICIT, NO_COLLATION, IMPLICIT, CONSTANT, COERCIBLE, NUMERIC, IGNORABLE = range(7)


class Operand(NamedTuple):
    """What the choice of a collation looks at."""

    charset: str
    collation: int
    level: int
    repertoire: str

    def is_bin(self) -> bool:
        """Whether the collation is a built-in one."""
        return self.collation < BUILT_IN

    def text(self) -> str:
        """The operand as the test reads it: set, kind of collation, level and repertoire."""
        kind = "bin" if self.is_bin() else "ci" if self.collation < BUILT_IN + 8 else "cs"
        if self.collation == UTF8MB4_0900_BIN:
            kind = "0900_bin"
        return f"{self.charset} {kind} {self.level} {self.repertoire}".lower()


def fits(repertoire: str, charset: str) -> bool:
    """Whether the set has every character of the class."""
    return CLASSES.index(repertoire) <= CLASSES.index(GREATEST[charset])


def set_wins(a: Operand, b: Operand) -> bool:
    """Of equal levels and two sets: whether the first one's set is the one to convert to."""
    if a.charset == "Binary" or (a.charset, b.charset) in WIDER:
        return True
    if a.charset not in UNICODE or b.charset == "Binary" or (b.charset, a.charset) in WIDER:
        return False
    if b.charset not in UNICODE:
        return True
    return b.repertoire == "Ascii" and a.repertoire != "Ascii"


def beats(a: Operand, b: Operand) -> bool:
    """Whether the first operand's collation may stand for both."""
    if a.collation == b.collation:
        return a.level <= b.level
    if a.level == b.level == EXPLICIT:
        return False
    if a.charset != b.charset and not fits(b.repertoire, a.charset):
        return False
    if a.level != b.level:
        return a.level < b.level
    if a.charset == b.charset:
        return a.is_bin() and not b.is_bin()
    return set_wins(a, b)


def shares(a: Operand, b: Operand) -> bool:
    """Whether a text may be made in the first operand's set, as far as the second one goes."""
    return beats(a, b) or (a.charset, a.level) == (b.charset, b.level)


def together(charset: str, collation: int, level: int, operands: list[Operand]) -> Operand:
    """The result of these operands, with their greatest repertoire."""
    greatest = max((each.repertoire for each in operands), key=CLASSES.index)
    if charset == "Binary" and greatest != "Ascii":
        greatest = "Bytes"
    return Operand(charset, collation, level, greatest)


def aggregate(operands: list[Operand], is_text: bool) -> Operand | None:
    """What the operands have together, or None for an illegal mix."""
    left = [each for each in operands if each.level != IGNORABLE]
    if not left:
        return Operand("Binary", 0, IGNORABLE, "Ascii")
    result = None
    winners = [a for a in left if all(beats(a, b) for b in left)]
    sharers = [a for a in left if a.level != EXPLICIT and all(shares(a, b) for b in left)]
    if winners:
        a = winners[-1]
        result = together(a.charset, a.collation, a.level, left)
    elif is_text and sharers:
        charset = sharers[-1].charset
        result = together(charset, SETS.index(charset), NO_COLLATION, left)
    if result and not is_text and len(left) > 1 and result.level == NO_COLLATION:
        return None
    return result


def operand(charset: str, kind: int, level: int, repertoire: str) -> Operand:
    """An operand of the set's built-in collation, or of its first or second declared one."""
    declared = (0, BUILT_IN, BUILT_IN + 8)[kind if charset != "Binary" else 0]
    return Operand(charset, SETS.index(charset) + declared, level, repertoire)


def of_two_sets(first: str, second: str) -> list[tuple[Operand, Operand]]:
    """Pairs of operands of two sets: levels alike and not, texts of ASCII and of all characters."""
    ascii_first, ascii_second = (operand(each, 1, IMPLICIT, "Ascii") for each in (first, second))
    full_first = operand(first, 1, IMPLICIT, GREATEST[first])
    full_second = operand(second, 1, IMPLICIT, GREATEST[second])
    return [
        (ascii_first, ascii_second),
        (full_first, ascii_second),
        (ascii_first, full_second),
        (full_first, full_second),
        (ascii_first, full_second._replace(level=COERCIBLE)),
        (full_first._replace(level=NUMERIC), ascii_second),
        (ascii_first._replace(level=EXPLICIT), full_second._replace(level=EXPLICIT)),
    ]


def of_one_set(charset: str) -> list[tuple[Operand, Operand]]:
    """Pairs of operands of one set: one collation, a binary one beside another one, and two.

    Of utf8mb4 there are two built-in collations, neither of which beats the other.
    """
    binary = operand(charset, 0, IMPLICIT, GREATEST[charset])
    one, other = (operand(charset, kind, IMPLICIT, GREATEST[charset]) for kind in (1, 2))
    built_in = [(binary, binary._replace(collation=UTF8MB4_0900_BIN))] if charset == "Utf8mb4" else []
    return [
        *built_in,
        (one, one._replace(repertoire="Ascii")),
        (one, one._replace(level=CONSTANT)),
        (one, other),
        (binary, one),
        (binary, one._replace(level=NO_COLLATION)),
        (one._replace(level=EXPLICIT), binary._replace(level=EXPLICIT)),
    ]


TABLES = {
    "BINARY": ["Binary"],
    "LATIN1": ["Latin1"],
    "ASCII": ["Ascii"],
    "UTF8": ["Utf8mb3", "Utf8mb4"],
    "WIDE": ["Ucs2", "Utf16", "Utf32"],
}
"""Tables of pairs of two sets, each with the sets of its first operands."""


def pairs_of(name: str) -> list[tuple[Operand, Operand]]:
    """The pairs of a table; in all tables together each two sets stand."""
    chosen = []
    for first, second in combinations_with_replacement(SETS, 2):
        if name == "ONE_SET" and first == second:
            chosen += of_one_set(first)
        elif name != "ONE_SET" and first != second and first in TABLES[name]:
            chosen += of_two_sets(first, second)
    return list(dict.fromkeys(chosen))


NAMED = {
    "NULL": Operand("Binary", 0, IGNORABLE, "Ascii"),
    "NUMBER": Operand("Utf8mb4", 4, NUMERIC, "Ascii"),
    "BYTES": Operand("Binary", 0, COERCIBLE, "Bytes"),
    "BYTES_BELOW_80": Operand("Binary", 0, COERCIBLE, "Ascii"),
    "EXPLICIT_BYTES": Operand("Binary", 0, EXPLICIT, "Bytes"),
    "LETTERS": Operand("Utf8mb4", 13, COERCIBLE, "Ascii"),
    "CYRILLIC": Operand("Utf8mb4", 13, COERCIBLE, "Bmp"),
    "SWEDISH": Operand("Latin1", 10, IMPLICIT, "Latin1"),
    "GERMAN": Operand("Latin1", 18, IMPLICIT, "Latin1"),
    "GERMAN_CONSTANT": Operand("Latin1", 18, CONSTANT, "Latin1"),
    "LATIN1_BIN": Operand("Latin1", 1, IMPLICIT, "Latin1"),
    "LATIN1_MIXED": Operand("Latin1", 1, NO_COLLATION, "Latin1"),
    "EXPLICIT_SWEDISH": Operand("Latin1", 10, EXPLICIT, "Latin1"),
    "EXPLICIT_GERMAN": Operand("Latin1", 18, EXPLICIT, "Latin1"),
    "UTF8": Operand("Utf8mb4", 13, IMPLICIT, "Unicode"),
    "UTF8_ASCII": Operand("Utf8mb4", 13, IMPLICIT, "Ascii"),
    "UTF8_OTHER": Operand("Utf8mb4", 21, IMPLICIT, "Unicode"),
    "UTF8_OTHER_ASCII": Operand("Utf8mb4", 21, IMPLICIT, "Ascii"),
    "UTF16": Operand("Utf16", 15, IMPLICIT, "Unicode"),
    "UTF16_ASCII": Operand("Utf16", 15, IMPLICIT, "Ascii"),
    "UTF16_BIN": Operand("Utf16", 6, IMPLICIT, "Unicode"),
    "UTF16_BIN_ASCII": Operand("Utf16", 6, IMPLICIT, "Ascii"),
    "UTF32": Operand("Utf32", 16, IMPLICIT, "Unicode"),
    "UTF32_ASCII": Operand("Utf32", 16, IMPLICIT, "Ascii"),
}
"""Operands of the lists, by their names."""

LISTS = {
    "SHORT": [
        ("", "no operand"),
        ("LATIN1_MIXED", "one operand of no collation"),
        ("SWEDISH", "one column"),
        ("NULL", "one NULL"),
        ("SWEDISH GERMAN", "two columns"),
        ("SWEDISH LETTERS", "a column and a literal of ASCII"),
        ("SWEDISH CYRILLIC", "a column and a literal that its set lacks"),
        ("SWEDISH BYTES", "a column and a byte above 7F"),
        ("LATIN1_MIXED LETTERS", "two columns joined, and a literal"),
    ],
    "COLUMNS": [
        ("SWEDISH SWEDISH LETTERS", "a column beats a literal of ASCII"),
        ("SWEDISH LETTERS CYRILLIC", "a character that the column's set lacks"),
        ("SWEDISH GERMAN LATIN1_BIN", "the binary collation beats both"),
        ("SWEDISH GERMAN LETTERS", "two columns and a literal that fits their set"),
        ("SWEDISH GERMAN CYRILLIC", "two columns and a literal that doesn't fit"),
        ("SWEDISH GERMAN EXPLICIT_SWEDISH", "COLLATE beats both"),
        ("EXPLICIT_SWEDISH EXPLICIT_GERMAN LATIN1_BIN", "COLLATE twice"),
    ],
    "UNICODE": [
        ("UTF16_ASCII UTF16 UTF32_ASCII", "of one collation the greater repertoire beats"),
        ("UTF16 UTF32 UTF8", "three sets of all characters"),
        ("UTF8_ASCII UTF16_ASCII UTF32_ASCII", "three sets of ASCII"),
        ("UTF8 UTF16_ASCII UTF32_ASCII", "one of all characters, two of ASCII"),
        ("UTF16_ASCII UTF16_BIN UTF32_ASCII", "a binary collation above ASCII"),
        ("UTF16 UTF16_BIN_ASCII UTF32_ASCII", "a binary collation of ASCII"),
    ],
    "BYTES": [
        ("NULL NULL NULL", "nothing but NULL"),
        ("NULL SWEDISH NULL", "one beside NULL"),
        ("SWEDISH GERMAN NULL", "two columns share their set"),
        ("BYTES LETTERS NUMBER", "bytes beside letters"),
        ("BYTES_BELOW_80 CYRILLIC NUMBER", "the repertoire of bytes"),
        ("SWEDISH BYTES NULL", "a byte above 7F beside a column"),
        ("SWEDISH BYTES_BELOW_80 NULL", "bytes below 80 beside a column"),
        ("LATIN1_MIXED LETTERS NULL", "no collation is compared with a literal"),
        ("LATIN1_MIXED NULL NULL", "no collation beside NULL"),
        ("NUMBER NUMBER NUMBER", "numbers"),
    ],
    "FOUR": [
        ("SWEDISH GERMAN UTF8_ASCII NULL", "a Unicode column beats both"),
        ("SWEDISH GERMAN UTF8 LETTERS", "a Unicode column beats a literal too"),
        ("UTF8 UTF8_OTHER SWEDISH NUMBER", "two Unicode columns share their set"),
        ("UTF8 UTF8_OTHER_ASCII UTF16_ASCII LETTERS", "the one above ASCII shares"),
        ("UTF8_ASCII UTF8_OTHER_ASCII UTF16_ASCII LETTERS", "two Unicode sets of ASCII"),
        ("SWEDISH GERMAN_CONSTANT LETTERS NUMBER", "four levels"),
        ("EXPLICIT_BYTES CYRILLIC SWEDISH NULL", "binary takes all"),
    ],
}
"""Tables of lists of operands, and what each list shows."""

ONE_LINE = 60
"""How wide the elements of an array may be that stands in one line."""

HEADER = "//! Printed by tools/coercibility_table.py, which works the answers out from the rules."


def show(answer: Operand | None) -> str:
    """An answer as the test reads it."""
    return answer.text() if answer else "mix"


def winner(a: Operand, b: Operand) -> str:
    """Which of the two beats the other one."""
    return {
        (True, False): "first",
        (False, True): "second",
        (True, True): "both",
        (False, False): "neither",
    }[beats(a, b), beats(b, a)]


def print_pairs() -> None:
    """Each pair, and which of the two beats the other one."""
    for name in ["ONE_SET", *TABLES]:
        rows = [f"{a.text()} | {b.text()} | {winner(a, b)}" for a, b in pairs_of(name)]
        sets = " or ".join(each.lower() for each in TABLES.get(name, []))
        of_sets = f"{sets}, and of a later set" if sets else "one set"
        print(f"\n/// Operands of {of_sets}: which one beats the other.")
        print(f"pub(crate) const {name}: [&'static [u8]; {len(rows)}] = [")
        for row in rows:
            print(f'    b"{row}",')
        print("];")


def print_list(names: list[str], why: str) -> None:
    """A list, what its operands have together to be compared and as a text, and what it shows."""
    operands = [NAMED[name] for name in names]
    compare, text = aggregate(operands, False), aggregate(operands, True)
    for other in permutations(operands):
        assert (aggregate(list(other), False), aggregate(list(other), True)) == (compare, text)
    texts = [f'b"{each.text()}"' for each in operands]
    print("    Row {")
    if len(", ".join(texts)) <= ONE_LINE:
        print(f"        operands: &[{', '.join(texts)}],")
    else:
        print("        operands: &[", *(f"            {text}," for text in texts), "        ],", sep="\n")
    print(f'        compare: b"{show(compare)}",')
    print(f'        text: b"{show(text)}",')
    print(f'        why: "{why}",')
    print("    },")


def print_lists() -> None:
    """The type of a row, and the tables."""
    print("\n/// Operands, what they have to be compared and as a text, and what the row shows.")
    print("pub(crate) struct Row {")
    print("    pub(crate) operands: &'static [&'static [u8]],")
    for field in ["compare", "text"]:
        print(f"    pub(crate) {field}: &'static [u8],")
    print("    pub(crate) why: &'static str,")
    print("}")
    for table, rows in LISTS.items():
        print(f"\npub(crate) const {table}: [Row; {len(rows)}] = [")
        for names, why in rows:
            print_list(names.split(), why)
        print("];")


def main() -> None:
    """Prints the table that the one word names."""
    print(HEADER)
    {"pairs": print_pairs, "lists": print_lists}[sys.argv[1]]()


if __name__ == "__main__":
    main()
