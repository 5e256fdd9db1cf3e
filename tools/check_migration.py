#!/usr/bin/env python3
"""Tells what changes in the tables of a MySQL or MariaDB dump under another collation.

It says which unique keys break and by which rows, which values merge or part, and which indexes
still serve. The answers are mycoll's, over files that it writes: a catalog, rows and a script for
each table, which --keep keeps to be run again by hand."""

import argparse
import contextlib
import sys
import tempfile
from collections.abc import Iterator
from pathlib import Path
from typing import Optional

from migration.answers import Groups, read_answers, run
from migration.collations import NOTHING, Collations
from migration.dump import Dump
from migration.plan import Plan, plan_of
from migration.progress import say
from migration.report import Report
from migration.rows import Rows
from migration.script import Statements
from weights.fault import Fault

TOP = Path(__file__).resolve().parent.parent

MANY = 10_000
"""From so many rows on, it is said that mycoll is at work."""

EXAMPLES = """examples:
  Towards MySQL 8.0's default, by Unicode's allkeys.txt of version 9.0.0:
    mysqldump shop > shop.sql
    tools/check_migration.py shop.sql --to utf8mb4_0900_ai_ci --weights allkeys.txt

  The same, with the weights of the collation of today from a server, so that before and after are
  both answered by mycoll (the file is named for its collation, as the exporter names it):
    tools/export_weights.py server --socket /run/mysqld/mysqld.sock utf8mb4_general_ci
    tools/check_migration.py shop.sql --to utf8mb4_0900_ai_ci --weights allkeys.txt \\
        --weights utf8mb4_general_ci.txt --table customers --keep checked

All texts of a table get the new collation, as ALTER TABLE t CONVERT TO CHARACTER SET does it.
Exit status: 0 nothing changes, 1 something does, 2 something could not be checked (the report
says what and why). The last line of the report is for scripts."""


def main(words: list[str]) -> int:
    """The status."""
    options = make_parser().parse_args(words)
    try:
        with folder_of(options.keep) as folder:
            return Check(options, folder).run()
    except Fault as fault:
        for line in fault.lines():
            say(line)
        return 2
    except OSError as error:
        say(f"{error.filename or 'writing'}: {error.strerror}")
        return 2
    except KeyboardInterrupt:
        say("stopped")
        return 130


def make_parser() -> argparse.ArgumentParser:
    """The words of the command, and its help."""
    parser = argparse.ArgumentParser(
        prog="check_migration.py",
        description=__doc__,
        epilog=EXAMPLES,
        formatter_class=argparse.RawDescriptionHelpFormatter,
    )
    parser.add_argument("dump", metavar="DUMP", help="what mysqldump or mariadb-dump wrote")
    parser.add_argument("--to", required=True, metavar="COLLATION", help="the new collation")
    parser.add_argument(
        "--weights",
        action="append",
        default=[],
        metavar="FILE",
        help="a weight file, as [COLLATION=][KIND:]FILE: of the collation that is named, else of"
        " the one that the file is named for, else of the new one; the kind where the collation's"
        " name doesn't tell it. Several may be given",
    )
    parser.add_argument(
        "--rules",
        action="append",
        default=[],
        metavar="FILE",
        help="tailoring rules of a Unicode collation, as [COLLATION=]FILE",
    )
    parser.add_argument(
        "--table",
        action="append",
        default=[],
        metavar="T",
        help="only this table (or database.table); several may be given",
    )
    parser.add_argument("--keep", metavar="DIR", help="a new folder for the files of the run")
    parser.add_argument(
        "--mycoll", default=str(TOP / "mycoll"), metavar="PROGRAM", help="in place of ./mycoll"
    )
    return parser


@contextlib.contextmanager
def folder_of(keep: Optional[str]) -> Iterator[Path]:
    """The folder of the run: one that stays, or one for the time of the run."""
    if keep is None:
        with tempfile.TemporaryDirectory() as name:
            yield Path(name)
        return
    folder = Path(keep)
    if folder.exists() and (not folder.is_dir() or any(folder.iterdir())):
        raise Fault(f"{keep}: is there already", "give --keep a new or an empty folder", NOTHING)
    folder.mkdir(parents=True, exist_ok=True)
    yield folder


class Check:
    """One run: a dump, the new collation, the program, the folder, the report."""

    def __init__(self, options: argparse.Namespace, folder: Path) -> None:
        self._path = options.dump
        self._wanted = options.table
        self._collations = Collations(options.to, options.weights, options.rules)
        self._folder = folder
        named = options.mycoll
        self._program = str(Path(named).resolve()) if "/" in named else named
        self._report = Report(print)

    def run(self) -> int:
        """Reads the dump, asks mycoll, prints the report; gives the status."""
        dump, report = Dump(self._collations, self._wanted, self._folder), self._report
        with open(self._path, "rb") as file:
            dump.read(file)
        report.head(Path(self._path).name, self._collations.titles())
        files = self._collations.copied(self._folder)
        for title, rows in dump.tables.items():
            report.table(title, rows.count)
            self._table(title, rows, files)
        report.others(dump.others)
        missing = [(f"table {name}", "is not in the dump") for name in dump.missing()]
        faults = dump.faults + missing
        report.faults(faults if faults or dump.tables else [("the dump", "it has no table")])
        report.summary(report.status())
        return report.status()

    def _table(self, title: str, rows: Rows, files: dict[str, str]) -> None:
        """One table: its files, mycoll's answers, its part of the report."""
        plan = plan_of(rows, self._collations)
        if plan.units or plan.lookups:
            self._ask(title, rows, Statements(title, rows, plan, self._collations), files, plan)
        for name, reason in plan.unchecked:
            self._report.not_checked(name, reason)
        self._report.left_out(plan)

    def _ask(
        self, title: str, rows: Rows, statements: Statements, files: dict[str, str], plan: Plan
    ) -> None:
        """Writes a table's catalog and script, runs them, and reports the answers."""
        catalog, script = rows.path.with_suffix(".catalog"), rows.path.with_suffix(".sql")
        catalog.write_text(statements.catalog(files), encoding="utf-8")
        script.write_text(statements.script(), encoding="utf-8")
        labels = [label for label, _ in statements.labelled()]
        if rows.count >= MANY:
            say(f"table {title}: mycoll answers {len(labels)} statements")
        output = rows.path.with_suffix(".answers")
        status = run(self._program, self._folder, catalog.name, script.name, output)
        answers = read_answers(output, labels, status)
        for unit in plan.units:
            old = None if unit.unknown else Groups(next(answers), next(answers))
            new = Groups(next(answers), next(answers))
            self._report.unit(unit, statements.first_key(unit), new, old)
        for lookup in plan.lookups:
            names = statements.index_names()
            self._report.lookup(lookup, names, next(answers), rows.count)


if __name__ == "__main__":
    sys.stdout.reconfigure(encoding="utf-8")
    sys.exit(main(sys.argv[1:]))
