"""What a program has to answer about recordings of builds with dyndep files, and what was seen of that."""

from __future__ import annotations

import hashlib
import json
import os
import pathlib
import re
import subprocess
import sys
from dataclasses import dataclass, field
from typing import Any

sys.path.append(str(pathlib.Path(__file__).resolve().parents[2] / "record"))

from recorder.manifest import Manifest  # noqa: E402
from recorder.shuffle.commands import read_dyndep  # noqa: E402

TAKEN = re.compile(r"(\d+) events?, none refused\n$")
OWN_FILES = {".ninja_log", ".ninja_deps", ".ninja_lock", "CMakeOutput.log"}
BY = re.compile(r"  (implicit|implicit outputs) \(by (.+?)\): (.*)")
PLAN_REFUSED = "1 event, 1 refused\n"
FINDINGS = ("race", "cycle", "own", "clash", "unstable")
# Files that CMake's commands read and write beside their build lines, of which an observed recording has a finding.
BESIDE_LINES = ("undeclared", "unlisted")
NO_FINDING, FINDING, FAILED_BUILD, CERTAIN = 0, 4, 5, 0


@dataclass
class Sums:
    """What was seen of a project with a number of jobs. `faults` has a sentence for each thing that was missed."""

    builds: int = 0
    commands: int = 0
    events: int = 0
    refused_by_both: int = 0
    beside: int = 0
    by_logs: int = 0
    not_recorded: int = 0
    files: int = 0
    named: int = 0
    certain: str = "not asked"
    faults: list[str] = field(default_factory=list)


def run(*words: object, text: str = "", folder: pathlib.Path | None = None) -> subprocess.CompletedProcess[str]:
    """Runs the words with a text on their input, and gives what they said."""
    return subprocess.run(words, input=text, capture_output=True, text=True, cwd=folder, check=False)


def logged(build: pathlib.Path) -> list[str]:
    """The lines of Ninja's log."""
    log = build / ".ninja_log"
    return log.read_text().splitlines()[1:] if log.exists() else []


def manifest_of(folder: pathlib.Path) -> Manifest:
    return Manifest(b"build.ninja", lambda name: (folder / os.fsdecode(name)).read_bytes())


def loaded(recording: pathlib.Path) -> dict[str, bytes]:
    """The dyndep files that Ninja loaded, and what they had."""
    notes = [it.split(" ") for it in (recording / "dyndep/notes").read_text().splitlines()]
    return {it[1]: (recording / "dyndep/files" / it[2]).read_bytes() for it in notes if it[0] == "loaded"}


def digest(room: pathlib.Path) -> dict[str, str]:
    """What a build left, by path. The name of the room does not count."""
    build = room / "build"
    found = [it for it in build.rglob("*") if it.is_file() and it.name not in OWN_FILES]
    return {str(it.relative_to(build)): hashlib.sha256(it.read_bytes().replace(os.fsencode(room), b"")).hexdigest()
            for it in found}


def _is_beside(finding: dict[str, Any], manifest: Manifest) -> bool:
    """Whether the lines of the manifest do not have a path: as an output of the maker, or as an input of the user."""
    path = finding["path"].encode()
    if finding["kind"] == "undeclared":
        return path not in manifest.producer[finding["maker"]["output"].encode()].outputs
    return path not in manifest.producer[finding["user"]["output"].encode()].inputs


class Judge:
    """Asks the program about a recording, and notes in the sums what it says."""

    def __init__(self, program: pathlib.Path, sums: Sums) -> None:
        self.program, self.sums = program, sums

    def missed(self, what: str, ran: subprocess.CompletedProcess[str]) -> None:
        self.sums.faults.append(f"{what}: status {ran.returncode}: {(ran.stdout + ran.stderr)[-1500:]}")

    def replayed(self, name: str, recording: pathlib.Path, is_refused: bool = False) -> None:
        """Every event is taken. Where Ninja refused the build before it began a command, so may the program refuse the
        plan."""
        ran = run(self.program, "replay", recording)
        found = TAKEN.search(ran.stdout)
        if is_refused and ran.stdout.endswith(PLAN_REFUSED):
            self.sums.refused_by_both += 1
        elif ran.returncode or not found:
            self.missed(f"{name}: replay", ran)
        else:
            self.sums.events += int(found[1])

    def named(self, name: str, recording: pathlib.Path) -> None:
        """`edge` has each path that a dyndep file adds beside the file, and no other one."""
        own = manifest_of(recording / "dyndep/manifest")
        due: dict[str, set[tuple[str, str, str]]] = {}
        for file, content in loaded(recording).items():
            for number, (inputs, outputs) in read_dyndep(own, {file.encode(): content}).items():
                edge = own.edges[number]
                paths = [("implicit", it) for it in inputs if it not in edge.inputs]
                paths += [("implicit outputs", it) for it in outputs if it not in edge.outputs]
                due[edge.name.decode()] = {(kind, file, it.decode()) for kind, it in paths}
        ran = run(self.program, "ask", recording, text="run\n" + "".join(f"edge {it} --all\n" for it in due))
        found = {(kind, file, it) for kind, file, rest in BY.findall(ran.stdout) for it in rest.split(" ")}
        wanted = set[tuple[str, str, str]]().union(*due.values())
        if ran.returncode or found != wanted:
            differ = sorted(found ^ wanted)
            self.missed(f"{name}: {len(differ)} paths are not named as due, as {differ[:3]}", ran)
        self.sums.named += len(found & wanted)
        self.sums.files += len(loaded(recording))

    def races(self, name: str, recording: pathlib.Path, fails: bool) -> None:
        """No race is found, and the line of an undeclared or unlisted path does not have it. Of a build that failed by
        its sources no cause is known."""
        ran = run(self.program, "races", "--json", recording)
        answers = [json.loads(it) for it in ran.stdout.splitlines()]
        beside = [it for it in answers if it["kind"] in BESIDE_LINES]
        manifest = manifest_of(recording)
        wrong = [it for it in beside if not _is_beside(it, manifest)]
        due = FINDING if beside else FAILED_BUILD if fails else NO_FINDING
        if wrong or any(it["kind"] in FINDINGS for it in answers) or ran.returncode not in (due, NO_FINDING):
            self.missed(f"{name}: races, {wrong[:1]}", ran)
        self.sums.beside += len(beside)

    def certified(self, name: str, recording: pathlib.Path) -> None:
        """A build from nothing is certain."""
        ran = run(self.program, "certify", recording)
        self.sums.certain = ran.stdout.splitlines()[0] if ran.stdout else ran.stderr
        if ran.returncode != CERTAIN:
            self.missed(f"{name}: certify", ran)
