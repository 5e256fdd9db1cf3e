"""A dump, read once: its tables, and their rows into files."""

from pathlib import Path
from typing import BinaryIO, Optional

from migration.collations import NOTHING, Collations, default_of
from migration.definitions import alter_table, create_index, read_table, split_index
from migration.names import Names
from migration.progress import Progress
from migration.rows import NULL, OTHER, Rows, Value, plain_value
from migration.schema import newer, text_of
from migration.tokens import Cut, Token, Tokens, plain_values
from weights.fault import Fault

_TEXT_SETS = ("utf8mb3", "utf8mb4", "latin1", "ascii", "binary")
_OTHERS = (b"VIEW", b"TRIGGER", b"PROCEDURE", b"FUNCTION", b"EVENT")
_HEAD = (b"LOW_PRIORITY", b"DELAYED", b"HIGH_PRIORITY", b"IGNORE", b"INTO")


class Dump:
    """What a dump holds. `others` are what is no table, `faults` what stopped the reading."""

    def __init__(self, collations: Collations, wanted: list[str], folder: Path) -> None:
        self.tables: dict[str, Rows] = {}
        self.others: list[str] = []
        self.faults: list[tuple[str, str]] = []
        self._collations = collations
        self._wanted = {name.lower() for name in wanted}
        self._folder = folder
        self._files = Names("t", [])
        self._homeless: dict[str, int] = {}
        self._database = ""
        self._text_set = "utf8mb4"
        self._open: Optional[Rows] = None
        self._inside: Optional[Rows] = None
        self._progress = Progress()

    def read(self, file: BinaryIO) -> None:
        """Reads all statements, in one pass."""
        self._tokens = Tokens(file)
        try:
            while True:
                token = self._tokens.next_or_none()
                if token is None:
                    break
                if token is not Tokens.END:
                    self._statement(token)
        except Cut as cut:
            self._note_cut(cut)
        if self._tokens.program and not self._tokens.is_completed and not self.faults:
            self._note("the dump's last line, -- Dump completed, is missing: it was cut off")
        for title, count in self._homeless.items():
            rows = "1 row stands" if count == 1 else f"{count:,} rows stand"
            reason = f"{rows} before its CREATE TABLE, or without one"
            self.faults.append((f"table {title}", reason))
        for rows in self.tables.values():
            rows.finish()

    def _note_cut(self, cut: Cut) -> None:
        """The dump ends inside a statement."""
        self._note(f"the dump ends inside a statement, at byte {cut.place}")
        if self._inside is not None:
            self._inside.fault = "the dump ends inside its rows"

    def _note(self, reason: str) -> None:
        """What is wrong with the dump as a whole."""
        self.faults.append(("the dump", reason))

    def _statement(self, first: Token) -> None:
        """One statement, whose first token was taken."""
        word = first.word
        if word in (b"INSERT", b"REPLACE"):
            self._insert()
            return
        if word not in (b"CREATE", b"ALTER", b"DROP", b"USE", b"SET"):
            self._tokens.skip_statement()
            return
        rest = self._rest()
        if word == b"CREATE":
            self._create(rest)
        elif word == b"ALTER":
            self._alter(rest)
        elif word == b"DROP" and rest and rest[0].word == b"TABLE":
            self._drop(rest[1:])
        elif word == b"USE" and rest:
            self._database = text_of(rest[0].value)
        elif word == b"SET" and len(rest) > 1 and rest[0].word == b"NAMES":
            self._set_names(newer(text_of(rest[1].value)))

    def _rest(self) -> list[Token]:
        """The tokens of a statement up to its end."""
        tokens: list[Token] = []
        while True:
            token = self._tokens.next()
            if token is Tokens.END:
                return tokens
            tokens.append(token)

    def _set_names(self, charset: str) -> None:
        """The set of the dump's texts from here on."""
        if charset in _TEXT_SETS:
            self._text_set = charset
        elif charset != "default" and not charset.startswith("@"):
            raise Fault(
                f"the dump's texts are in {charset}",
                "dump again with --default-character-set=utf8mb4",
                NOTHING,
            )

    def _create(self, rest: list[Token]) -> None:
        """A table, a key, or another thing that is named and left out."""
        index = split_index(rest)
        if index is not None:
            title, parts = self._named(index[0])
            if title in self.tables:
                create_index(self.tables[title].table, index[1], parts)
            return
        at = next((i for i, each in enumerate(rest) if each.word in (b"TABLE", *_OTHERS)), None)
        if at is None:
            return
        kind, (title, behind) = rest[at].word, self._named(rest[at + 1 :])
        if kind != b"TABLE":
            line = f"{kind.decode().lower()} {title}"
            if line not in self.others:
                self.others.append(line)
        elif self._is_wanted(title):
            table = read_table(title, behind, self._default_of)
            rows = Rows(table, self._folder / f"{self._files.of(title)}.csv", self._collations)
            if title in self._homeless:
                del self._homeless[title]
                rows.fault = "rows of it stand before its CREATE TABLE"
            self.tables[title] = rows
            if not table.columns:
                rows.fault = "its CREATE TABLE lists no columns"

    def _default_of(self, charset: str) -> str:
        """The default collation of a set on the server that the dump comes from."""
        version = self._tokens.version
        is_mysql = self._tokens.program.startswith(b"MySQL") and b"MariaDB" not in version
        major = version.partition(b".")[0]
        return default_of(charset, is_mysql and major.isdigit() and int(major) >= 8)

    def _named(self, tokens: list[Token]) -> tuple[str, list[Token]]:
        """The name of a thing, with its database where it is told, and what follows."""
        while tokens and tokens[0].word in (b"IF", b"NOT", b"EXISTS"):
            tokens = tokens[1:]
        parts = [text_of(tokens[0].value)] if tokens else ["?"]
        tokens = tokens[1:]
        while len(tokens) > 1 and tokens[0].is_mark(b"."):
            parts.append(text_of(tokens[1].value))
            tokens = tokens[2:]
        return self._title(parts), tokens

    def _title(self, parts: list[str]) -> str:
        """A name with the database that it belongs to."""
        if len(parts) == 1 and self._database:
            parts = [self._database, *parts]
        return ".".join(parts)

    def _is_wanted(self, title: str) -> bool:
        """Whether a table is to be checked."""
        short = title.rpartition(".")[2]
        return not self._wanted or bool({title.lower(), short.lower()} & self._wanted)

    def missing(self) -> list[str]:
        """The tables that were asked for and aren't in the dump."""
        titles = {title.lower() for title in self.tables}
        names = titles | {title.rpartition(".")[2] for title in titles}
        return sorted(self._wanted - names)

    def _alter(self, rest: list[Token]) -> None:
        """The keys that come behind the rows."""
        if not rest or rest[0].word != b"TABLE":
            return
        title, behind = self._named(rest[1:])
        rows = self.tables.get(title)
        if rows is not None:
            for column in alter_table(rows.table, behind):
                reason = "ALTER TABLE changes it behind its CREATE TABLE"
                rows.notes.append(f"column {column}: {reason}")

    def _drop(self, tokens: list[Token]) -> None:
        """A table that is made anew, or was there in a view's place."""
        title, _ = self._named(tokens)
        rows = self.tables.pop(title, None)
        if rows is not None:
            rows.fault = "it is dropped"
            rows.finish()

    def _insert(self) -> None:
        """Rows, as they come."""
        token = self._tokens.next()
        while token.word in _HEAD:
            token = self._tokens.next()
        parts, token = [text_of(token.value)], self._tokens.next()
        while token.is_mark(b"."):
            parts.append(text_of(self._tokens.next().value))
            token = self._tokens.next()
        title, columns = self._title(parts), None
        rows = self._inside = self.tables.get(title)
        if self._open is not None and self._open is not rows:
            self._open.close()
        self._open = rows
        if token.is_mark(b"("):
            columns = self._column_list(rows)
            token = self._tokens.next()
        if token.word in (b"VALUES", b"VALUE"):
            self._take_rows(title, rows, columns)
        elif token is not Tokens.END:
            self._tokens.skip_statement()
            if rows is not None:
                rows.fault = rows.fault or "an INSERT into it has no list of values"
        self._inside = None

    def _column_list(self, rows: Optional[Rows]) -> list[str]:
        """The columns that an INSERT names, as their table spells them."""
        names = []
        while True:
            token = self._tokens.next()
            if token.is_mark(b")"):
                return names
            if not token.is_mark(b","):
                name = text_of(token.value)
                column = rows.table.column(name) if rows is not None else None
                names.append(column.name if column is not None else name)

    def _take_rows(self, title: str, rows: Optional[Rows], columns: Optional[list[str]]) -> None:
        """The lists of values behind VALUES."""
        while True:
            takes = rows is not None and rows.takes()
            plain = self._tokens.plain_row()
            if plain is not None:
                spelled = plain_values(plain) if takes else []
                self._take_row(title, rows, columns, [plain_value(each) for each in spelled])
                continue
            token = self._tokens.next()
            if token is Tokens.END:
                return
            if token.is_mark(b"("):
                self._take_row(title, rows, columns, self._row())
            elif not token.is_mark(b","):
                self._tokens.skip_statement()
                return

    def _take_row(
        self,
        title: str,
        rows: Optional[Rows],
        columns: Optional[list[str]],
        values: list[Value],
    ) -> None:
        """One row, which is counted where there is no table for it."""
        if rows is None:
            if self._is_wanted(title):
                self._homeless[title] = self._homeless.get(title, 0) + 1
            return
        if rows.takes():
            rows.add(values, columns, self._text_set)
        else:
            rows.count += 1
        if rows.count % 1000 == 0:
            self._progress.tell(f"table {title}: {rows.count:,} rows so far")

    def _row(self) -> list[Value]:
        """The values up to the closing parenthesis."""
        values = []
        while True:
            value, closing = self._value()
            values.append(value)
            if closing.value == b")":
                return values

    def _value(self) -> tuple[Value, Token]:
        """A value, and the comma or the parenthesis behind it."""
        token, charset = self._tokens.next(), ""
        if token.kind == "word":
            if token.word[:1] == b"_" or token.word == b"N":
                charset = newer(text_of(token.value[1:])) if token.word != b"N" else "utf8mb3"
                token = self._tokens.next()
        if token.kind == "string" or token.kind == "quoted" or token.kind == "number":
            value = Value("plain", token.value, charset)
        elif token.kind == "hex":
            value = Value("plain", token.value, charset or "binary")
        elif token.word == b"NULL":
            value = NULL
        else:
            return OTHER, self._passed_by(token)
        token = self._tokens.next()
        if token.kind == "mark" and token.value in (b",", b")"):
            return value, token
        return OTHER, self._passed_by(token)

    def _passed_by(self, token: Token) -> Token:
        """The end of a value that is no plain one."""
        depth = 0
        while depth or not (token.is_mark(b",") or token.is_mark(b")")):
            if token is Tokens.END:
                raise Cut(self._tokens.place())
            depth += token.is_mark(b"(") - token.is_mark(b")")
            token = self._tokens.next()
        return token
