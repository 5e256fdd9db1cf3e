"""Files that appear whole or not at all."""

import os
from dataclasses import dataclass
from pathlib import Path

from weights.fault import Fault
from weights.table import Table, file_name


@dataclass(frozen=True)
class Target:
    """Where files go; `force` lets them replace what is there."""

    folder: str
    force: bool

    def check(self, collations: list[str]) -> None:
        """A Fault where the files of these collations may not be written here."""
        if not Path(self.folder).is_dir():
            raise Fault(f"{self.folder}: no folder", f"make it: mkdir -p {self.folder}")
        for name in collations:
            if collations.count(name) > 1:
                raise Fault(f"{name}: stands there twice", "name each collation once")
        paths = [self.path(name) for name in collations]
        there = [str(path) for path in paths if os.path.lexists(path)]
        if there and not self.force:
            raise Fault(
                f"there already: {' '.join(there)}",
                "give --force to write over them, or --out FOLDER for another place",
            )

    def path(self, collation: str) -> Path:
        """The file of a collation, by a name that a catalog can hold."""
        path = Path(self.folder) / file_name(collation)
        if not all("!" <= char <= "~" and char != "#" for char in str(path)):
            raise Fault(
                f"a catalog cannot name the file {str(path)!r}: it is one field of printable ASCII",
                "give --out a folder without spaces, # and other letters, or run in that folder",
            )
        return path

    def write(self, tables: list[Table], command: str) -> list[str]:
        """Writes a file for each table, and gives the lines of a catalog for them."""
        self.check([table.collation for table in tables])
        texts = {self.path(table.collation): self._text(table, command) for table in tables}
        _place(texts, self.force)
        return [self._catalog_line(table) for table in tables]

    def _text(self, table: Table, command: str) -> str:
        """A whole file: what it is and where it comes from, its catalog line, its weights."""
        what = f"{table.collation}, the weights of {table.charset} as a {table.kind} file"
        comments = [
            f"# {_plain(f'{what}, from {table.source}, by: {command}')}",
            f"# In a catalog: {self._catalog_line(table)}",
        ]
        return "\n".join(comments + table.lines()) + "\n"

    def _catalog_line(self, table: Table) -> str:
        """The line of a catalog that stands where the command was run."""
        return table.catalog_line(str(self.path(table.collation)))


def _plain(words: str) -> str:
    """Words that can stand in a comment: printable ASCII on one line."""
    return "".join(char if " " <= char <= "~" else ascii(char)[1:-1] for char in words)


def _place(texts: dict[Path, str], force: bool) -> None:
    """Writes all files beside their places, and moves them there when all are whole."""
    beside = {path: path.with_name(f".{path.name}.{os.getpid()}") for path in texts}
    placed: list[Path] = []
    try:
        for path, text in texts.items():
            with beside[path].open("x", encoding="ascii") as file:
                file.write(text)
        for path in texts:
            _move(beside[path], path, force)
            placed.append(path)
    except OSError as error:
        raise Fault(
            f"{error.filename}: {error.strerror}",
            "see that the folder has room and may be written",
            _taken_back(placed, force),
        ) from error
    finally:
        for path in beside.values():
            path.unlink(missing_ok=True)


def _move(beside: Path, path: Path, force: bool) -> None:
    """Gives a whole file its place; without `force` only where nothing is."""
    if force:
        os.replace(beside, path)
    else:
        os.link(beside, path)


def _taken_back(placed: list[Path], force: bool) -> str:
    """What a run leaves behind that failed when these files had their places."""
    if force and placed:
        return f"written before that: {' '.join(str(path) for path in placed)}"
    for path in placed:
        path.unlink()
    return "nothing was written"
