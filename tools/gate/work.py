"""The work of a gate: the processes of the prover, and what those below a root have spent."""

import os
from collections import Counter
from contextlib import suppress
from dataclasses import dataclass, field
from pathlib import Path

from gate.processes import Process, folder_of, processes, ticks_per_second, tree, words_of

KINDS = ("build", "tests", "edits")


@dataclass(frozen=True)
class Job:
    """What a process of the prover does: its crate, the kind of work, what it keeps where."""

    crate: str
    kind: str
    keeps: Path | None


def job_of(words: list[str], folder: Path) -> Job | None:
    """The job of a process by its words and its folder; None for other processes.

    Edits that must fail are tried in copies of the crate, in folders rt-edit-N-.. for temporary
    files. What such a check keeps has the edit's number for its name, or `seed` before all edits.
    """
    if len(words) < 2 or Path(words[0]).name != "rattle" or words[1] not in ("build", "check"):
        return None
    crate = behind(words, "--crate-name")
    if crate is None:
        return None
    is_edit = folder.name.startswith("rt-edit-")
    kind = "edits" if is_edit else "tests" if "--test" in words else "build"
    kept = behind(words, "--incremental")
    return Job(crate, kind, folder / kept if kept else None)


def behind(words: list[str], name: str) -> str | None:
    """The word behind an option."""
    pairs = zip(words, words[1:])
    return next((value for option, value in pairs if option == name), None)


@dataclass
class Work:
    """What the processes below a root have spent, sampled while they run.

    A job's last moments, from the last sample to its end, count as time of no job.
    """

    root: int
    proc: Path = Path("/proc")
    jobs: dict[tuple[int, int], Job] = field(default_factory=dict)
    ticks: dict[tuple[int, int], int] = field(default_factory=dict)
    modules: dict[tuple[str, str], int] = field(default_factory=dict)
    all_ticks: int = 0

    def sample(self) -> bool:
        """Looks once at the processes; False where the root has ended."""
        found = tree(processes(self.proc), self.root)
        if not found:
            return False
        self.all_ticks = sum(each.own + each.waited for each in found)
        spent: Counter[tuple[int, int]] = Counter()
        job_at: dict[int, tuple[int, int]] = {}
        for process in found:
            key = job_at.get(process.parent) or self.job_begun(process)
            if key:
                job_at[process.pid] = key
                spent[key] += process.own + process.waited
        for key, ticks in spent.items():
            self.ticks[key] = max(ticks, self.ticks.get(key, 0))
        return True

    def job_begun(self, process: Process) -> tuple[int, int] | None:
        """The key of the job that a process is, if it is one: its number may come again later."""
        key = (process.pid, process.begun)
        if key not in self.jobs:
            words = words_of(self.proc, process.pid)
            job = job_of(words, folder_of(self.proc, process.pid))
            if job is None:
                return None
            self.jobs[key] = job
        return key

    def look_at_modules(self) -> None:
        """Notes the sizes of the modules that the jobs keep, as far as they are there."""
        for job in {(job.crate, job.keeps): job for job in self.jobs.values()}.values():
            for name, size in kept_modules(job.crate, job.keeps).items():
                key = (job.crate, name)
                self.modules[key] = max(size, self.modules.get(key, 0))

    def seconds(self) -> dict[tuple[str, str], float]:
        """The processor seconds of each crate and kind of work."""
        found: Counter[tuple[str, str]] = Counter()
        for key, ticks in self.ticks.items():
            found[self.jobs[key].crate, self.jobs[key].kind] += ticks
        return {key: ticks / ticks_per_second() for key, ticks in found.items()}

    def seconds_of_edits(self) -> dict[tuple[str, int], float]:
        """The processor seconds of each edit, by its crate and its number there, from 0."""
        found: Counter[tuple[str, int]] = Counter()
        for key, ticks in self.ticks.items():
            job = self.jobs[key]
            if job.kind == "edits" and job.keeps and job.keeps.name.isdigit():
                found[job.crate, int(job.keeps.name)] += ticks
        return {key: ticks / ticks_per_second() for key, ticks in found.items()}

    def all_seconds(self) -> float:
        """The processor seconds of the root and of all that it started."""
        return self.all_ticks / ticks_per_second()


def kept_modules(crate: str, folder: Path | None) -> dict[str, int]:
    """The bytes of each proof module of a crate that a check has kept in a folder."""
    found = {}
    begin, end = f"Rattle-{crate}-proofs.", ".oantt"
    for kept in folder.glob("antt-checked-*") if folder else ():
        # The folder of an edit goes when its check ends.
        with suppress(OSError), os.scandir(kept) as entries:
            for entry in entries:
                if entry.name.startswith(begin) and entry.name.endswith(end):
                    found[entry.name.removeprefix(begin).removesuffix(end)] = entry.stat().st_size
    return found
