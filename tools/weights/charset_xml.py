"""The charset files that MySQL and MariaDB ship: `share/charsets/latin1.xml` and its like."""

import hashlib
import re
import xml.etree.ElementTree as ElementTree
from dataclasses import dataclass, field
from pathlib import Path

from weights.fault import Fault
from weights.sets import BYTE_SETS, UNICODE_SETS, is_collation_name, is_general, set_name
from weights.table import Table

_HEX = re.compile(r"[0-9A-Fa-f]{1,4}")


@dataclass
class CharsetFiles:
    """What charset files hold: tables to write, what hinders other collations, other sets."""

    tables: list[Table] = field(default_factory=list)
    hindrances: dict[str, str] = field(default_factory=dict)
    other_sets: list[str] = field(default_factory=list)

    def remarks(self) -> list[str]:
        """A line for each collation without a table, and one for the sets that are skipped."""
        have = {table.collation for table in self.tables}
        lines = [f"{name}: {why}" for name, why in self.hindrances.items() if name not in have]
        if self.other_sets:
            names = ", ".join(dict.fromkeys(self.other_sets))
            lines.append(f"skipped, mycoll does not have these character sets: {names}")
        return lines


def read_files(paths: list[str], origin: str) -> CharsetFiles:
    """The collations of all files, in their order; a Fault where a file or a map is broken."""
    found = CharsetFiles()
    for path in paths:
        content = _content(path)
        digest = hashlib.sha256(content).hexdigest()[:16]
        source = f"{Path(path).name} (sha256 {digest}..) of {origin}"
        for charset in _root(path, content).iter("charset"):
            _add_charset(found, charset, path, source)
    return found


def _content(path: str) -> bytes:
    """The bytes of a file."""
    try:
        return Path(path).read_bytes()
    except OSError as error:
        raise Fault(
            f"{path}: {error.strerror}",
            "on Debian the package mariadb-server-core has /usr/share/mysql/charsets/*.xml",
        ) from error


def _root(path: str, content: bytes) -> ElementTree.Element:
    """The element of a charset file that holds all others."""
    try:
        root = ElementTree.fromstring(content)
    except ElementTree.ParseError as error:
        raise Fault(f"{path}: no XML: {error}", "take the file anew from the server") from error
    if root.tag != "charsets":
        raise Fault(
            f"{path}: no charset file, its root is <{root.tag}>",
            "give files of the server's folder share/charsets",
        )
    return root


def _add_charset(
    found: CharsetFiles, charset: ElementTree.Element, path: str, source: str
) -> None:
    """Adds the collations of one character set."""
    name = set_name(charset.get("name", ""))
    if name not in BYTE_SETS + UNICODE_SETS:
        if name != "binary":
            found.other_sets.append(name)
        return
    for collation in charset.findall("collation"):
        collation_name = _name(collation, path)
        hindrance = _hindrance(collation, name, collation_name, Path(path).name)
        if hindrance:
            found.hindrances[collation_name] = hindrance
        else:
            weights = _weights(collation, path, collation_name)
            found.tables.append(Table(collation_name, name, weights, source))


def _name(collation: ElementTree.Element, path: str) -> str:
    """A collation's name, folded as a catalog folds it."""
    name = collation.get("name", "").lower()
    if not is_collation_name(name):
        raise Fault(
            f"{path}: a catalog cannot hold the collation name {name!r}",
            "rename it in a copy of the file",
        )
    return name


def _hindrance(collation: ElementTree.Element, charset: str, name: str, file: str) -> str:
    """Why no file is written for a collation, with the way to get it; empty where one is."""
    flags = {collation.get("flag", "")} | {flag.text for flag in collation.findall("flag")}
    if "nopad" in flags or "_nopad_" in name:
        return "does not pad with spaces, as mycoll's kinds table8 and general do"
    if "binary" in flags or name.endswith("_bin"):
        return f"is built into mycoll as {charset}_bin"
    if charset in UNICODE_SETS and not is_general(name):
        return "is not exported; mycoll's kinds uca400 to uca900 may suit"
    if collation.find("rules") is not None:
        return "has rules, which mycoll reads in a form of its own"
    if charset in UNICODE_SETS or collation.find("map") is None:
        other = charset in BYTE_SETS and file != f"{charset}.xml"
        look = f"look in {charset}.xml, or " if other else ""
        return f"is only named in {file}; {look}ask a server: tools/export_weights.py server {name}"
    return ""


def _weights(
    collation: ElementTree.Element, path: str, name: str
) -> dict[int, tuple[int, ...]]:
    """The collation's map, one number of hexadecimal digits for each of 256 bytes."""
    numbers = (collation.findtext("map") or "").split()
    for number in numbers:
        if not _HEX.fullmatch(number):
            raise Fault(
                f"{path}: {name}: {number!r} in its map is no hexadecimal number",
                "take the file anew from the server",
            )
    if len(numbers) != 0x100:
        raise Fault(
            f"{path}: {name}: its map has {len(numbers)} numbers, not 256",
            "take the file anew from the server",
        )
    return {byte: (int(number, 16),) for byte, number in enumerate(numbers)}
