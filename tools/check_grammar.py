#!/usr/bin/env python3
"""Compares where ./mycoll refuses a statement's syntax with a chart parser over docs/SQL.md."""

import argparse
import random
import subprocess
import sys
import tempfile
from collections.abc import Iterator, Sequence
from pathlib import Path
from typing import NamedTuple

from statements.chart import Verdict, verdict_of
from statements.grammar import Token
from statements.making import a_list, spelled

TOP = Path(__file__).resolve().parent.parent
# How many statements one script has.
SCRIPT = 200
# A statement behind each of them, by which the answers are told apart: one may have no row.
BETWEEN, HEADER = "SELECT 1 AS end_of_answer", "end_of_answer"

EXAMPLES = """examples:
  tools/check_grammar.py                    1,000 random lists of tokens
  tools/check_grammar.py --seed 7 20000     others, and more of them

A statement that differs is printed with what is wanted of it and what the program says. The last
line counts: N passed, M failed."""


class Statement(NamedTuple):
    """The tokens of a statement, its text, and the byte of each token and of its end."""

    tokens: list[Token]
    text: str
    places: list[int]


def main(words: list[str]) -> int:
    """0 where all places are the same, 1 where one differs, 2 for other words."""
    options = make_parser().parse_args(words)
    dice = random.Random(options.seed)
    failed = 0
    left = options.count
    while left > 0:
        statements = [statement_of(a_list(dice), dice) for _ in range(min(SCRIPT, left))]
        left -= len(statements)
        for line in differences(statements, options.program):
            failed += 1
            print(line)
    print(f"{options.count - failed} passed, {failed} failed")
    return 1 if failed else 0


def make_parser() -> argparse.ArgumentParser:
    """The words of the command, and its help."""
    parser = argparse.ArgumentParser(
        prog="check_grammar.py",
        description=__doc__,
        epilog=EXAMPLES,
        formatter_class=argparse.RawDescriptionHelpFormatter,
    )
    parser.add_argument("--seed", type=int, default=1, metavar="N", help="where the dice begin")
    parser.add_argument("--program", default=str(TOP / "mycoll"), help="in place of ./mycoll")
    parser.add_argument("count", type=int, nargs="?", default=1000, help="how many lists of tokens")
    return parser


def statement_of(tokens: list[Token], dice: random.Random) -> Statement:
    """The tokens as a statement. Between two of them stand blanks or a comment, and so may they
    behind the last one, where they belong to the statement."""
    text, places = "", []
    for token in tokens or [Token("mark", ")")]:
        if text:
            text += dice.choice([" ", " ", " ", "\n", "\t ", "/* ; */", " /**/ "])
        places.append(len(text))
        text += spelled(token, dice)
    text += dice.choice(["", "", "", " ", "\n\t", "/* ; */", " -- ;\n", "#;\n "])
    return Statement(tokens or [Token("mark", ")")], text, [*places, len(text)])


def differences(statements: Sequence[Statement], program: str) -> Iterator[str]:
    """A line for each statement whose answer is not the one that is wanted."""
    script, starts = "", []
    for statement in statements:
        starts.append(len(script))
        script += f"{statement.text};\n{BETWEEN};\n"
    answers = answers_of(script, program)
    if len(answers) != len(statements):
        yield f"{len(answers)} answers to {len(statements)} statements of {script!r}"
        return
    for statement, start, answer in zip(statements, starts, answers):
        wanted = wanted_of(verdict_of(statement.tokens), statement, start)
        if said_of(answer) != wanted:
            yield f"{statement.text!r}: wanted {wanted}, the program says {answer!r}"


def wanted_of(verdict: Verdict, statement: Statement, start: int) -> str:
    """The refusal that a statement of a script must have, or `read`."""
    place = start + statement.places[verdict.place]
    return {
        "read": "read",
        "many": "ERROR 9004: more than 2048 tokens",
        "stuck": f"ERROR 9001: no reading at byte {place}",
        "deep": f"ERROR 9003: nested deeper than 64 at byte {place}",
    }[verdict.what]


def said_of(answer: str) -> str:
    """The answer's refusal of syntax, or `read`."""
    return answer if answer.startswith(("ERROR 9001", "ERROR 9003", "ERROR 9004")) else "read"


def answers_of(script: str, program: str) -> list[str]:
    """The answers of the program to the statements of a script but those between: the line of a
    refusal, or of the headers; rows are left out."""
    with tempfile.NamedTemporaryFile("w", suffix=".sql") as file:
        file.write(script)
        file.flush()
        run = subprocess.run([program, file.name], stdout=subprocess.PIPE, check=False)
    answers, first = [], None
    lines = iter(run.stdout.decode().split("\n")[:-1])
    for line in lines:
        if line == HEADER:
            answers.append(first or "")
            first = None
            next(lines, None)
        elif first is None:
            first = line
    return answers


if __name__ == "__main__":
    sys.exit(main(sys.argv[1:]))
