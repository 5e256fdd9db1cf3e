#!/usr/bin/env python3
"""Writes the weight tables of a MySQL or MariaDB server as files that mycoll reads."""

import argparse
import shlex
import sys

from weights.charset_xml import read_files
from weights.fault import Fault
from weights.output import Target
from weights.server import read_server, wishes_of

EXAMPLES = """examples:
  From the charset files that a server ships (one table8 file for each weight map):
    tools/export_weights.py xml --origin 'MariaDB 10.11' /usr/share/mysql/charsets/latin1.xml

  From a server that runs, by its own client (mariadb or mysql, whichever is on the PATH):
    tools/export_weights.py server --socket /run/mysqld/mysqld.sock latin1_german2_ci
    tools/export_weights.py server --host db1 --port 3306 --user me utf8mb4_general_ci > cat.txt

What is printed are the lines of a catalog for the files. A run writes all its files or reports a
fault and writes none."""

XML_EXAMPLE = """example:
  tools/export_weights.py xml --out tables --origin 'MySQL 8.0.36' share/charsets/latin1.xml

Each collation of latin1 or ascii that has a weight map gets a table8 file, COLLATION.txt. What is
printed is a catalog for them; its comments list the other collations, and the way to get them."""

SERVER_EXAMPLE = """example:
  tools/export_weights.py server --socket /run/mysqld/mysqld.sock --user root --out tables \\
      latin1_swedish_ci latin1_german2_ci ascii_general_ci utf8mb4_general_ci

A collation of latin1 or ascii gets a table8 file, a *_general_ci collation of a Unicode set a
general file. What is printed is a catalog for them. The client reads a password from its own
option files (~/.my.cnf, or --defaults-file), or asks for it with --ask-password."""


def main(words: list[str]) -> int:
    """The status: 0 where the run did what was asked, 1 after a fault, 2 for other words."""
    parser = make_parser()
    options = parser.parse_args(words)
    if options.form == "server" and options.socket and (options.host or options.port):
        parser.error("give --socket PATH, or --host H and --port P, not both")
    try:
        return run_xml(options) if options.form == "xml" else run_server(options)
    except Fault as fault:
        for line in fault.lines():
            say(line)
        return 1
    except KeyboardInterrupt:
        say("stopped")
        return 130


def make_parser() -> argparse.ArgumentParser:
    """The words of the command, and its help."""
    layout = argparse.RawDescriptionHelpFormatter
    parser = argparse.ArgumentParser(
        prog="export_weights.py", description=__doc__, epilog=EXAMPLES, formatter_class=layout
    )
    forms = parser.add_subparsers(dest="form", required=True, metavar="xml|server")
    xml = forms.add_parser(
        "xml", help="from charset files", epilog=XML_EXAMPLE, formatter_class=layout
    )
    xml.add_argument("files", nargs="+", metavar="FILE", help="a charset file, as latin1.xml")
    xml.add_argument(
        "--origin",
        default="a server whose name and version were not told",
        metavar="TEXT",
        help="the server and version that ships the files, for the first comment in each",
    )
    server = forms.add_parser(
        "server", help="from a server that runs", epilog=SERVER_EXAMPLE, formatter_class=layout
    )
    add_server_words(server)
    for form in (xml, server):
        form.add_argument("--out", default=".", metavar="FOLDER", help="where the files go (.)")
        form.add_argument("--force", action="store_true", help="write over files that are there")
    return parser


def add_server_words(server: argparse.ArgumentParser) -> None:
    """How the client reaches the server, and what it asks for."""
    server.add_argument("collations", nargs="+", metavar="COLLATION", help="as latin1_german2_ci")
    server.add_argument("--socket", metavar="PATH", help="the server's socket")
    server.add_argument("--host", metavar="H", help="the server's host")
    server.add_argument("--port", metavar="P", type=int, help="the server's port")
    server.add_argument("--user", metavar="U", help="the user's name on the server")
    server.add_argument(
        "--defaults-file", metavar="FILE", help="an option file, read in place of the client's own"
    )
    server.add_argument(
        "--ask-password", action="store_true", help="the client asks for the password"
    )


def run_xml(options: argparse.Namespace) -> int:
    """The form `xml`: a catalog whose comments are what was not written."""
    found = read_files(options.files, options.origin)
    lines = Target(options.out, options.force).write(found.tables, command_line())
    for line in lines + [f"# {remark}" for remark in found.remarks()]:
        print(line)
    if not lines:
        say("no weight map of latin1 or ascii there, so no file was written")
    return 0


def run_server(options: argparse.Namespace) -> int:
    """The form `server`: a catalog."""
    wishes = wishes_of(options.collations)
    target = Target(options.out, options.force)
    target.check([wish.collation for wish in wishes])
    tables = read_server(client_options(options), wishes)
    for line in target.write(tables, command_line()):
        print(line)
    return 0


def client_options(options: argparse.Namespace) -> list[str]:
    """The client's words; an option file must stand first."""
    told = [
        ("--defaults-file", options.defaults_file),
        ("--socket", options.socket),
        ("--host", options.host),
        ("--port", options.port),
        ("--user", options.user),
    ]
    words = [f"{name}={value}" for name, value in told if value is not None]
    return words + (["--password"] if options.ask_password else [])


def say(line: str) -> None:
    """A line beside the catalog."""
    print(f"export_weights.py: {line}", file=sys.stderr)


def command_line() -> str:
    """The command as it was given."""
    return shlex.join(sys.argv)


if __name__ == "__main__":
    sys.exit(main(sys.argv[1:]))
