"""How far a run of the kit's gate is, for tools/progress and tools/prove."""

import re
import time
from pathlib import Path

import costs

# What has to be done before the time that is left is told: seconds of the clock, and marks of crates that were proved.
ENOUGH_SECONDS, ENOUGH_MARKED = 60, 100


def minutes(seconds: float) -> str:
    """A time as it is told."""
    return f"{seconds:.0f} s" if seconds < 90 else f"{seconds / 60:.0f} min"


class Gate:
    """How far `rt ci` is, by the lines that it prints and the provers that run."""

    def __init__(self, top: Path) -> None:
        self.marks = costs.marks()
        self.crates = names_in(top / "crates.txt")
        self.edits = {it: len(list((top / "crates" / it / "must-fail").glob("*.edit"))) for it in self.crates}
        self.has_tests = {it for it in self.crates if has_tests(top / "crates" / it / "src")}
        self.proved: set[str] = set()
        self.kept: set[str] = set()
        self.tested: set[str] = set()
        self.begun = time.monotonic()

    def read(self, line: str) -> None:
        """Takes a line of the kit."""
        told = re.match(r"rt: (\w+)(: its tests are)? (proved$|is kept: |NOT PROVED)", line)
        if told and told[2]:
            self.tested.add(told[1])
        elif told:
            self.proved.add(told[1])
            if told[3].startswith("is kept"):
                # (nothing is said of its tests where they are kept too)
                self.kept.add(told[1])
        tries = re.match(r"rt: (\w+): trying its must-fail edits \((\d+)\)", line)
        if tries and tries[1] in self.edits:
            self.edits[tries[1]] = int(tries[2])

    def edits_done(self, meter: costs.Meter) -> int:
        """How many edits were tried."""
        return sum(self.tried_of(it, meter) for it in self.edits)

    def tried_of(self, crate: str, meter: costs.Meter) -> int:
        """How many edits of a crate were tried."""
        seen = {it for it in meter.works.values() if it.crate == crate and it.kind == "edits" and it.part != "seed"}
        return min(len(seen - meter.running), self.edits[crate])

    def where(self, meter: costs.Meter) -> str:
        """What it is at, and how much is left."""
        at = {kind: sorted({it.crate for it in meter.running if it.kind == kind}) for kind in costs.KINDS}
        proved, edits = len(self.proved), sum(self.edits.values())
        tested = len((self.tested | self.kept) & self.has_tests)
        parts = [f"crate {min(proved + 1, len(self.crates))} of {len(self.crates)}{beside(at['proof'])}"]
        if proved == len(self.crates):
            parts = [f"all {proved} crates proved"]
        if self.has_tests:
            parts.append(f"tests {tested} of {len(self.has_tests)}{beside(at['tests'])}")
        if edits:
            parts.append(f"edits {self.edits_done(meter)} of {edits}{beside(at['edits'])}")
        return ", ".join(parts)

    def left(self, meter: costs.Meter) -> float | None:
        """The seconds of the clock that are thought to be left, once enough is done to tell."""
        passed = time.monotonic() - self.begun
        took = meter.costs()
        proofs, edits = costs.by_crate(took, "proof", "tests"), costs.by_crate(took, "edits")
        here = [it for it in proofs if it in self.proved and it in self.marks]
        marked, spent = sum(self.marks[it] for it in here), sum(took.values())
        if passed < ENOUGH_SECONDS or spent <= 0 or marked < ENOUGH_MARKED:
            return None
        usual = sum(self.marks.values()) / max(len(self.marks), 1)
        left = 0.0
        for crate in self.crates:
            mark = self.marks.get(crate, usual)
            if crate not in self.proved or crate in self.has_tests - self.tested - self.kept:
                left += max(mark - proofs.get(crate, 0.0), 0.0)
            if self.tried_of(crate, meter) < self.edits[crate]:
                left += max(costs.edits_seconds(mark, self.edits[crate]) - edits.get(crate, 0.0), 0.0)
        speed = sum(proofs[it] for it in here) / marked
        return left * speed * passed / spent


def names_in(crates: Path) -> list[str]:
    """The crates that crates.txt lists."""
    if not crates.is_file():
        return []
    lines = [line.partition("#")[0].partition(":") for line in crates.read_text(encoding="utf-8").splitlines()]
    return [words.split()[0] for words, colon, _ in lines if colon]


def has_tests(folder: Path) -> bool:
    """Whether a crate has tests of its own."""
    return any(b"#[test]" in path.read_bytes() for path in folder.rglob("*.rt"))


def beside(names: list[str]) -> str:
    """The crates that are worked at, for the end of a word."""
    return f" ({', '.join(names)})" if names else ""
