"""The server's own command-line client, run once in batch mode over a script."""

import re
import shutil
import subprocess
import tempfile
from collections.abc import Iterable

from weights.fault import Fault

CLIENTS = ("mariadb", "mysql")

UNKNOWN = "SHOW COLLATION lists the server's collations"

_REACH = "give --socket PATH, or --host H and --port P, of a server that runs"
_ADVICE = {
    "1045": "give --user, and the password in the client's option file or by --ask-password",
    "1273": UNKNOWN,
    "1305": "the server is too old: WEIGHT_STRING came with MySQL 5.6 and MariaDB 10.0.5",
    "2002": _REACH,
    "2003": _REACH,
    "2005": _REACH,
}
"""What to do, by the number of the client's error."""


class Answers:
    """The client's answer lines, by the label that stands first in each."""

    def __init__(self, output: str) -> None:
        self._fields: dict[str, list[str]] = {}
        for line in output.splitlines():
            label, *fields = line.split("\t")
            self._fields[label] = fields

    def has(self, label: str) -> bool:
        """Whether a line has the label."""
        return label in self._fields

    def take(self, label: str, count: int) -> list[str]:
        """The fields of one answer; a Fault where it is missing or has another number."""
        fields = self._fields.get(label)
        if fields is None or len(fields) != count:
            got = "nothing" if fields is None else f"{len(fields)} fields"
            raise Fault(
                f"the client answered {got} to '{label}', wanted {count} fields",
                "run it again; where that stays, see what the client prints for SELECT 1",
            )
        return fields


def ask(options: list[str], statements: Iterable[str]) -> Answers:
    """The answers to statements, a line each; a Fault where the client ends with another status."""
    client = _find_client()
    command = [client, *options, "--batch", "--skip-column-names"]
    with tempfile.TemporaryFile("w+", encoding="ascii") as script:
        script.writelines(statements)
        script.seek(0)
        try:
            run = subprocess.run(command, stdin=script, capture_output=True, check=False)
        except OSError as error:
            raise Fault(f"{client}: {error.strerror}", "see that it runs by hand") from error
    if run.returncode != 0:
        raise _client_fault(client, run.returncode, run.stderr.decode(errors="replace"))
    return Answers(run.stdout.decode(errors="replace"))


def _find_client() -> str:
    """The path of the client that is there."""
    for name in CLIENTS:
        path = shutil.which(name)
        if path:
            return path
    raise Fault(
        "neither mariadb nor mysql, the server's command-line client, is on the PATH",
        "on Debian the package mariadb-client has it",
    )


def _client_fault(client: str, status: int, complaint: str) -> Fault:
    """What the client said last of its error, and what to do."""
    errors = [line for line in complaint.splitlines() if line.startswith("ERROR")]
    said = errors[-1] if errors else (complaint.strip().splitlines() or ["it said nothing"])[-1]
    number = re.search(r"ERROR (\d+)", said)
    advice = _ADVICE.get(number.group(1) if number else "", "see that the server still runs")
    return Fault(f"{client} ended with status {status}: {said}", advice)
