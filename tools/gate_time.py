#!/usr/bin/env python3
"""Tells what a gate costs: processor seconds by crate and kind of work, and what costs most."""

import argparse
import subprocess
import sys
import threading
import time
from collections.abc import Callable
from pathlib import Path
from typing import IO

from gate.report import between_marks, printed_report, table_for_document
from gate.sizes import crates_of, edits_of, functions_in, sizes_of
from gate.work import Work

TOP = Path(__file__).resolve().parent.parent
DOCUMENT = TOP / "docs" / "ARCHITECTURE.md"
# The seconds between two looks at the processes, and at the modules that they keep.
PAUSE, MODULES_PAUSE = 0.5, 5

EXAMPLES = """examples:
  tools/gate_time.py -- rt ci                     runs the gate, then prints what it cost
  tools/gate_time.py --pid 4711                   looks at a gate that runs, until it ends
  tools/gate_time.py --write -- rt ci --anew      writes the table of docs/ARCHITECTURE.md too

Only the processes that stand below the command count, so other gates may run beside it. In the
table a crate that an earlier run proved, and this one did not, keeps its seconds."""


def main(words: list[str]) -> int:
    """The status of the command, 0 for a process that ran already, 2 for other words."""
    options = make_parser().parse_args(words)
    if bool(options.command) == bool(options.pid) or options.write and options.pid:
        make_parser().error("give a command behind --, or --pid N without --write")
    if options.pid:
        work = watched(options.pid, lambda: True)
        print(report(work), end="")
        return 0
    status, printed, work = run(options.command)
    print(f"\n{report(work)}", end="")
    return write_table(printed, work) if options.write and not status else status


def make_parser() -> argparse.ArgumentParser:
    """The words of the command, and its help."""
    parser = argparse.ArgumentParser(
        prog="gate_time.py",
        description=__doc__,
        epilog=EXAMPLES,
        formatter_class=argparse.RawDescriptionHelpFormatter,
    )
    parser.add_argument("--pid", type=int, metavar="N", help="a process that runs already")
    parser.add_argument("--write", action="store_true", help="write docs/ARCHITECTURE.md's table")
    parser.add_argument("command", nargs="*", help="a command to run, behind --")
    return parser


def report(work: Work) -> str:
    """What is printed of a gate over this repository."""
    return printed_report(work, {name: edits_of(TOP / "crates" / name) for name in crates_of(TOP)})


def watched(root: int, is_running: Callable[[], bool]) -> Work:
    """What the processes below a root spend until it ends."""
    work, next_look = Work(root), 0.0
    while is_running() and work.sample():
        if time.monotonic() >= next_look:
            work.look_at_modules()
            next_look = time.monotonic() + MODULES_PAUSE
        time.sleep(PAUSE)
    work.look_at_modules()
    return work


def run(command: list[str]) -> tuple[int, str, Work]:
    """Runs a command, passing on what it prints: its status, its text, and what it cost."""
    both = {"stdout": subprocess.PIPE, "stderr": subprocess.STDOUT}
    with subprocess.Popen(command, text=True, errors="replace", **both) as process:
        lines: list[str] = []
        passing = threading.Thread(target=pass_on, args=(process.stdout, lines))
        passing.start()
        work = watched(process.pid, lambda: process.poll() is None)
        passing.join()
        return process.wait(), "".join(lines), work


def pass_on(stream: IO[str], lines: list[str]) -> None:
    """Prints each line of a stream, and keeps it."""
    for line in stream:
        print(line, end="", flush=True)
        lines.append(line)


def write_table(printed: str, work: Work) -> int:
    """Renews the table of the document, with the seconds of the crates that this run proved."""
    sizes = {crate: sizes_of(TOP / "crates" / crate) for crate in crates_of(TOP)}
    document = DOCUMENT.read_text()
    try:
        table = table_for_document(sizes, functions_in(printed), work, document)
        DOCUMENT.write_text(between_marks(document, table))
    except ValueError as error:
        say(f"{DOCUMENT}: {error}")
        return 1
    return 0


def say(line: str) -> None:
    """One line for the person who runs this."""
    print(f"gate_time.py: {line}", file=sys.stderr)


if __name__ == "__main__":
    sys.exit(main(sys.argv[1:]))
