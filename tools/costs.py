"""What the kit's prover takes while a command runs, in processor seconds as the kernel counts them (Linux).

Used by tools/gate-costs, tools/progress, tools/edits and tools/budget. A file of costs has a line for each thing that
the prover was at: `CRATE KIND PART SECONDS`. KIND is `proof`, `tests` or `edits`. PART is `-`, or of an edit its number
among the crate's edits in the order of their names, or `seed` for the check of the whole crate that its edits begin
with."""

import contextlib
import os
import subprocess
from dataclasses import dataclass
from pathlib import Path

TOP = Path(__file__).resolve().parent.parent
MARKS = TOP / "tools" / "proof-seconds"
TICK = os.sysconf("SC_CLK_TCK")
KINDS = ("proof", "tests", "edits")
# An edit that has not been seen: loading the libraries, and a twelfth of the crate's proof (seen: 21 to 47 s where the
# proof takes 180 to 350).
LOADING, PART_OF_PROOF = 10.0, 1 / 12


@dataclass(frozen=True, order=True)
class Work:
    """What a process of the prover is at."""

    crate: str
    kind: str
    part: str = "-"


@dataclass(frozen=True)
class Process:
    """A process: which one began it, when, and its processor seconds, alone and with the children that have ended."""

    parent: int
    began: str
    own: float
    all: float


def running_now() -> dict[int, Process]:
    """The processes of this machine."""
    found = {}
    for name in os.listdir("/proc") if os.path.isdir("/proc") else ():
        if name.isdigit():
            try:
                with open(f"/proc/{name}/stat", encoding="utf-8", errors="replace") as file:
                    rest = file.read().rpartition(")")[2].split()
            except OSError:
                continue
            own, ended = (int(rest[11]) + int(rest[12])) / TICK, (int(rest[13]) + int(rest[14])) / TICK
            found[int(name)] = Process(int(rest[1]), rest[19], own, own + ended)
    return found


def below(top: int, processes: dict[int, Process]) -> list[int]:
    """A process, if it is there, and those that come from it, also by way of others."""
    children: dict[int, list[int]] = {}
    for one, process in processes.items():
        children.setdefault(process.parent, []).append(one)
    todo, found = [top] if top in processes else [], []
    while todo:
        one = todo.pop()
        found.append(one)
        todo += children.get(one, [])
    return found


def what_runs(process: int) -> Work | None:
    """What a process of the prover is at; None for any other process."""
    try:
        words = Path(f"/proc/{process}/cmdline").read_bytes().decode(errors="replace").split("\0")
        place = os.readlink(f"/proc/{process}/cwd")
    except OSError:
        return None
    return work_of(words, place)


def work_of(words: list[str], place: str) -> Work | None:
    """What these words have the prover do in this folder. The kit checks each edit in a folder of its own, over a copy
    of what the seed has proved, which has the edit's number for its name."""
    if os.path.basename(words[0]) != "rattle" or "--crate-name" not in words[:-1]:
        return None
    crate = words[words.index("--crate-name") + 1]
    if "--test" in words:
        return Work(crate, "tests")
    if not os.path.basename(place).startswith("rt-edit-"):
        return Work(crate, "proof")
    kept = words[words.index("--incremental") + 1] if "--incremental" in words[:-1] else "-"
    return Work(crate, "edits", os.path.basename(kept))


class Meter:
    """Counts what the provers that come from a process take. What one takes after the last reading is not seen.

    A prover that has several jobs begins copies of itself, which may end between two readings. What they took is their
    prover's, as the kernel adds it up."""

    def __init__(self, top: int) -> None:
        self.top = top
        self.works: dict[tuple[int, str], Work] = {}
        self.took: dict[tuple[int, str], float] = {}
        self.running: set[Work] = set()
        # Processor seconds of all processes, provers or not.
        self.spent = 0.0

    def read(self) -> None:
        """Reads what has been taken by now."""
        processes = running_now()
        self.running = set()
        spent = 0.0
        taken: dict[tuple[int, str], float] = {}
        # The prover that a process is, or whose copy it is.
        provers: dict[int, tuple[int, str]] = {}
        # (what began a process comes before it)
        for one in below(self.top, processes):
            process = processes[one]
            spent += process.all
            key = provers.get(process.parent, (one, process.began))
            # (a process may yet become the prover)
            work = self.works.get(key) or what_runs(one)
            if work:
                provers[one] = key
                self.works[key] = work
                taken[key] = taken.get(key, 0.0) + process.all
                self.running.add(work)
        for key, seconds in taken.items():
            self.took[key] = max(self.took.get(key, 0.0), seconds)
        self.spent = max(self.spent, spent)

    def costs(self) -> dict[Work, float]:
        """The seconds of each thing that a prover was at."""
        found: dict[Work, float] = {}
        for key, seconds in self.took.items():
            found[self.works[key]] = found.get(self.works[key], 0.0) + seconds
        return found


def watched(command: list[str], **how) -> tuple[int, dict[Work, float]]:
    """Runs a command, and gives its status and what the prover took in it."""
    with subprocess.Popen(command, **how) as ran:
        meter = Meter(ran.pid)
        while ran.poll() is None:
            meter.read()
            with contextlib.suppress(subprocess.TimeoutExpired):
                ran.wait(timeout=1)
    return ran.returncode, meter.costs()


def write_costs(path: str | Path, costs: dict[Work, float]) -> None:
    """Writes a file of costs."""
    lines = (f"{work.crate} {work.kind} {work.part} {seconds:.1f}\n" for work, seconds in sorted(costs.items()))
    Path(path).write_text("".join(lines), encoding="utf-8")


def read_costs(path: str | Path) -> dict[Work, float]:
    """Reads a file of costs."""
    found = {}
    for line in Path(path).read_text(encoding="utf-8").splitlines():
        crate, kind, part, seconds = line.split()
        found[Work(crate, kind, part)] = float(seconds)
    return found


def by_crate(costs: dict[Work, float], *kinds: str) -> dict[str, float]:
    """What each crate took for these kinds together."""
    found: dict[str, float] = {}
    for work, seconds in costs.items():
        if work.kind in kinds:
            found[work.crate] = found.get(work.crate, 0.0) + seconds
    return found


def edit_seconds(proof: float) -> float:
    """The processor seconds that an edit is thought to take over what the crate's proof, of so many, has proved."""
    return LOADING + PART_OF_PROOF * proof


def edits_seconds(proof: float, edits: int) -> float:
    """The processor seconds that a crate's edits are thought to take, where its proof takes so many: the proof once
    more, and then each edit over what that has proved. A single edit is checked from nothing."""
    if edits <= 1:
        return proof * edits
    return proof + edits * edit_seconds(proof)


def marks(path: Path = MARKS) -> dict[str, float]:
    """The seconds that each crate's proof is to take, with that of its own tests."""
    try:
        lines = path.read_text(encoding="utf-8").splitlines()
    except FileNotFoundError:
        return {}
    words = [line.partition("#")[0].split() for line in lines]
    return {pair[0]: float(pair[1]) for pair in words if len(pair) == 2}
