#!/usr/bin/env python3
"""Answers random SELECTs over random small tables by a plain implementation of docs/SQL.md, a full
scan that compares weight lists, and compares the answers of ./mycoll with them byte for byte."""

import argparse
import os
import random
import shutil
import subprocess
import sys
import tempfile
from collections import Counter
from collections.abc import Iterator
from pathlib import Path
from typing import Optional

from selects.kinds import has_aggregate
from selects.making import Maker
from selects.scan import answer
from selects.tables import make_files, without_indexes
from selects.trees import Node, Statement, statements_of
from selects.worlds import World, read_world

TOP = Path(__file__).resolve().parent.parent
# How many statements one script has.
SCRIPT = 100
# A statement behind each of them, by which the answers are told apart: one may have many lines.
BETWEEN, MARK = "SELECT 1 AS end_of_answer", b"end_of_answer\n1\n"
# How many of a hundred statements are to be answered, and how often one is made anew for that; how
# many have great numbers; and the chances of a mistake in the others.
ANSWERED, TRIES, GREAT = 58, 30, 15
MISTAKES = [0.04, 0.08, 0.12, 0.2]

EXAMPLES = """examples:
  tools/check_select.py                     2,000 random statements
  tools/check_select.py --seed 7 20000      others, and more of them
  tools/check_select.py --indexes 5000      without the index lines too: the answers are the same

The catalog, its weight files, the tables and the script stand in a folder of their own, which is
kept where an answer differs. MYCOLL names a program in place of ./mycoll. The last line counts:
N passed, M failed; the status is 0 where none failed."""


def main(words: list[str]) -> int:
    """0 where all answers are the same, 1 where one differs, 2 for other words."""
    options = make_parser().parse_args(words)
    dice = random.Random(options.seed)
    kinds: Counter[str] = Counter()
    done, failed = 0, 0
    while done < options.count:
        run = Run(dice, min(SCRIPT, options.count - done))
        kinds.update(run.kinds)
        failed += run.failures(options.program, options.indexes)
        done += len(run.asked)
        print(f"{done:,} of {options.count:,} statements, {failed:,} differ", file=sys.stderr)
    print_kinds(kinds)
    print(f"{options.count - failed} passed, {failed} failed")
    return 1 if failed else 0


def make_parser() -> argparse.ArgumentParser:
    """The words of the command, and its help."""
    parser = argparse.ArgumentParser(
        prog="check_select.py",
        description=__doc__,
        epilog=EXAMPLES,
        formatter_class=argparse.RawDescriptionHelpFormatter,
    )
    parser.add_argument("--seed", type=int, default=1, metavar="N", help="where the dice begin")
    parser.add_argument(
        "--indexes", action="store_true", help="compare with a catalog without index lines too"
    )
    program = os.environ.get("MYCOLL", str(TOP / "mycoll"))
    parser.add_argument("--program", default=program, help="in place of ./mycoll")
    parser.add_argument("count", type=int, nargs="?", default=2000, help="how many statements")
    return parser


class Run:
    """A folder with the files of a run, its statements, and the answers that are wanted."""

    def __init__(self, dice: random.Random, count: int) -> None:
        made = make_files(dice)
        self.world = read_world(made.files)
        self.asked: list[str] = []
        self.wanted: list[bytes] = []
        self.kinds: Counter[str] = Counter()
        maker = Maker(self.world, made.pool, dice)
        for _ in range(count):
            self.ask(maker, dice)
        script = "".join(f"{statement};\n{BETWEEN};\n" for statement in self.asked)
        plain = without_indexes(made.files["cat.txt"])
        self.folder = Path(tempfile.mkdtemp(prefix="check_select."))
        for name, file in {**made.files, "s.sql": script, "plain.txt": plain}.items():
            (self.folder / name).write_bytes(file.encode())

    def ask(self, maker: Maker, dice: random.Random) -> None:
        """Makes a statement, most often anew until it is answered, and half the time with rows."""
        way = dice.randrange(100)
        tries = TRIES if way < ANSWERED else 1
        great = 0.4 if ANSWERED <= way < ANSWERED + GREAT else 0.02
        mistakes = dice.choice(MISTAKES) if way >= ANSWERED + GREAT else 0.0
        with_rows = dice.random() < 0.5
        for _ in range(tries):
            text = maker.statement(mistakes, great)
            [statement] = statements_of(text)
            wanted = answer(statement, self.world)
            if not wanted.startswith("ERROR") and (not with_rows or wanted.count("\n") > 1):
                break
        self.asked.append(text)
        self.wanted.append(wanted.encode())
        self.kinds.update(kinds_of(statement, wanted, self.world))

    def failures(self, program: str, indexes: bool) -> int:
        """How many statements fail, each of which is told. The folder is kept where one does."""
        found = list(self.differences(program, indexes))
        for place, what in found:
            print(f"{self.asked[place] if place is not None else 'the whole script'}\n{what}")
        if found:
            print(f"The files are in {self.folder}: cat.txt, s.sql")
        else:
            shutil.rmtree(self.folder)
        if any(place is None for place, _ in found):
            return len(self.asked)
        return len({place for place, _ in found})

    def differences(self, program: str, indexes: bool) -> Iterator[tuple[Optional[int], str]]:
        """The place of each statement whose answer differs, none for all, and what is told."""
        status, answers = self.answers(program, "cat.txt")
        refused = any(told.startswith(b"ERROR") for told in answers)
        if len(answers) != len(self.asked) or status != int(refused):
            count = f"{len(answers)} answers to {len(self.asked)} statements"
            yield None, f"  status {status}, {count}, the first of them:\n{shown(answers[:1])}"
            return
        for place, (wanted, told) in enumerate(zip(self.wanted, answers)):
            if wanted != told:
                yield place, f"  wanted:\n{shown([wanted])}\n  the program says:\n{shown([told])}"
        if indexes:
            _, plain = self.answers(program, "plain.txt")
            for place, (told, other) in enumerate(zip(answers, plain)):
                if told != other:
                    yield place, f"  with indexes:\n{shown([told])}\n  without:\n{shown([other])}"
            if len(plain) != len(answers):
                yield None, f"  {len(plain)} answers without indexes"

    def answers(self, program: str, catalog: str) -> tuple[int, list[bytes]]:
        """The status of the program, and its answers."""
        words = [str(Path(program).resolve()), catalog, "s.sql"]
        run = subprocess.run(words, cwd=self.folder, stdout=subprocess.PIPE, check=False)
        *answers, rest = run.stdout.split(MARK)
        return run.returncode, [*answers, rest] if rest else answers


def shown(answers: list[bytes]) -> str:
    """Answers, each line behind blanks."""
    text = b"".join(answers).decode(errors="backslashreplace")
    lines = text.removesuffix("\n").split("\n")
    return "\n".join(f"    {line}" for line in lines)


def kinds_of(statement: Statement, wanted: str, world: World) -> Iterator[str]:
    """What a statement shows: the number of its refusal, or its clauses and operations."""
    if wanted.startswith("ERROR"):
        yield f"refused {wanted[6:10]}"
        return
    yield "answered"
    exprs = [item.expr for item in statement.items] + [expr for expr, _ in statement.orders]
    clauses = {
        "WHERE": statement.where, "GROUP BY": statement.groups, "DISTINCT": statement.distinct,
        "ORDER BY": statement.orders, "LIMIT": statement.limit, "*": statement.star,
        "an aggregate": any(map(has_aggregate, exprs)), "no rows": wanted.count("\n") == 1,
        "several rows": wanted.count("\n") > 2, "no table": not statement.table,
        "a condition of an indexed column": is_served(statement, world),
    }  # fmt: skip
    yield from (name for name, there in clauses.items() if there)
    where = [statement.where] if statement.where else []
    yield from {form for expr in (*exprs, *where, *statement.groups) for form in forms_of(expr)}


def forms_of(expr: Node) -> Iterator[str]:
    """The operations in an expression, calls by their names."""
    if expr.parts:
        named = expr.form in ("call", "arith", "compare")
        yield f"{expr.data}()" if expr.form == "call" else str(expr.data) if named else expr.form
    for part in expr.parts:
        yield from forms_of(part)


def is_served(statement: Statement, world: World) -> bool:
    """Whether some member of WHERE's AND compares an indexed column with constants."""
    table = world.tables.get(statement.table or "")
    indexed = table.indexed if table else set()
    members = [statement.where] if statement.where else []
    while members and members[-1].form == "and":
        members += members.pop().parts
    return any(
        any(part.form == "name" and part.data in indexed for part in member.parts)
        and all(part.form in ("name", "str", "hex", "null", "collate") for part in member.parts)
        for member in members
        if member.form in ("compare", "like", "in", "between")
    )


def print_kinds(kinds: "Counter[str]") -> None:
    """How many statements showed each kind of thing, refusals first."""
    for is_refusal in (True, False):
        told = (
            f"{kind} {count:,}"
            for kind, count in kinds.most_common()
            if kind.startswith("refused") == is_refusal
        )
        print(", ".join(told))


if __name__ == "__main__":
    sys.exit(main(sys.argv[1:]))
