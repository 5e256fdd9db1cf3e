"""The processes of a machine, as /proc tells them."""

import os
from pathlib import Path
from typing import NamedTuple


class Process(NamedTuple):
    """One process; its times are in ticks of the clock, `waited` that of its ended children."""

    pid: int
    parent: int
    begun: int
    own: int
    waited: int


def ticks_per_second() -> int:
    """How many ticks make a second of a processor."""
    return os.sysconf("SC_CLK_TCK")


def processes(proc: Path) -> dict[int, Process]:
    """All processes by number; one that ends meanwhile may be missing."""
    found = {}
    for name in os.listdir(proc):
        if name.isdigit():
            try:
                found[int(name)] = parsed((proc / name / "stat").read_text(errors="replace"))
            except OSError:
                continue
    return found


def parsed(stat: str) -> Process:
    """The process of a line of `stat`, whose second field may hold blanks and brackets."""
    pid = int(stat.split(" ", 1)[0])
    fields = stat.rpartition(")")[2].split()
    parent, (user, system, waited_user, waited_system) = int(fields[1]), map(int, fields[11:15])
    return Process(pid, parent, int(fields[19]), user + system, waited_user + waited_system)


def tree(all_processes: dict[int, Process], root: int) -> list[Process]:
    """A process and all that it started, each behind the one that started it."""
    children: dict[int, list[Process]] = {}
    for process in all_processes.values():
        children.setdefault(process.parent, []).append(process)
    found = [all_processes[root]] if root in all_processes else []
    for process in found:
        found += children.get(process.pid, [])
    return found


def words_of(proc: Path, pid: int) -> list[str]:
    """The words of a process's command; none where it has ended."""
    try:
        whole = (proc / str(pid) / "cmdline").read_bytes().decode(errors="replace")
    except OSError:
        return []
    return whole.split("\0")[:-1]


def folder_of(proc: Path, pid: int) -> Path:
    """The folder that a process works in; an empty path where it has ended."""
    try:
        return Path(os.readlink(proc / str(pid) / "cwd"))
    except OSError:
        return Path()
