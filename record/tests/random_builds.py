#!/usr/bin/env python3
"""Records random builds, and says which commands of them rebug's rules refuse.

    random_builds.py [--seed N] [--runs N] [--keep FOLDER] [NINJA...]

A build folder gets random edges (restat, deps lists, depfiles, generators, pools, response files, phony groups, several
outputs, commands that fail, that write a source, or that write their output anew where it is another) and is then built
again and again, each time after some changes: other sources, flags, lists, touched, broken and deleted files. Each run
is recorded, with a Ninja that is chosen anew of those that are named (else the one on the PATH). Where the program is
there (REBUG_PROGRAM, or as built here), it replays each recording, and `held` compares it with the recorder's rules.

What is known to differ (docs/NINJA.md) is left out of the builds, so that each refusal is a fault. The last line has
the counts; the status is 1 where something was refused, and FOLDER keeps that recording.
"""

from __future__ import annotations

import argparse
import os
import pathlib
import random
import shutil
import subprocess
import sys
import tempfile
import time
from dataclasses import dataclass, field

sys.dont_write_bytecode = True
HERE = pathlib.Path(__file__).resolve().parent
sys.path[:0] = [str(HERE.parent), str(HERE)]

from builds import LONGEST_SECONDS  # noqa: E402
from held import differences  # noqa: E402
from recorder.checking import check  # noqa: E402

RECORDER = HERE.parent / "rebug-record"
BUILT = HERE.parents[1] / "crates/rebug/out/rebug"
# kind of an edge -> its rule. `n` is a flag; `stop` is a file that has a command fail.
RULES = {
    "copy": "command = cat $in > $out # $n",
    "slow": "command = sleep 0.0$n; cat $in > $out",
    "keep": "command = cat $in > $out.new; cmp -s $out.new $out && rm $out.new || mv $out.new $out # $n\n  restat = 1",
    "once": "command = test -e $out || cat $in > $out # $n\n  restat = 1",
    "dep": "command = cat $in > $out && echo $out: $in $list > $out.d # $n\n  depfile = $out.d\n  deps = gcc",
    "keptdep": ("command = cat $in > $out.new; cmp -s $out.new $out || mv $out.new $out; echo $out: $list > $out.d "
                "# $n\n  depfile = $out.d\n  deps = gcc\n  restat = 1"),
    "depfile": "command = cat $in > $out && echo $out: $in $list > $out.d # $n\n  depfile = $out.d",
    "made": "command = cat $in > $out # $n\n  generator = 1",
    "madekeep": "command = cat $in | cmp -s - $out || cat $in > $out # $n\n  generator = 1\n  restat = 1",
    "response": "command = cat $out.rsp > $out # $n\n  rspfile = $out.rsp\n  rspfile_content = $in $n",
    "pooled": "command = sleep 0.01; cat $in > $out # $n\n  pool = two",
    "shown": "command = cat $in > $out # $n\n  pool = console",
    "failing": "command = test ! -e stop && cat $in > $out # $n",
    "late": "command = cat $in > $out && test ! -e stop # $n",
    "two": "command = set -- $out; cat $in > $$1; test -e $$2 || cat $in > $$2 # $n",
    "keeptwo": ("command = set -- $out; cat $in > $$1.new; cmp -s $$1.new $$1 || mv $$1.new $$1; test -e $$2 || "
                "cat $in > $$2 # $n\n  restat = 1"),
    "writing": "command = cat $in > $out; test -e quiet || touch $written; sleep 0.02; cat $in > $out # $n",
    "keepwriting": ("command = sleep 0.02; test -e quiet || touch $written; sleep 0.02; cat $in > $out.new; "
                    "cmp -s $out.new $out && rm $out.new || mv $out.new $out # $n\n  restat = 1"),
}
LISTING = ("dep", "keptdep", "depfile")


@dataclass
class Edge:
    kind: str
    outputs: list[str]
    inputs: list[str]
    implicit: list[str] = field(default_factory=list)
    order_only: list[str] = field(default_factory=list)
    listed: list[str] = field(default_factory=list)
    flag: int = 1

    def lines(self) -> str:
        text = f"build {' '.join(self.outputs)}: {self.kind} {' '.join(self.inputs)}"
        text += f" | {' '.join(self.implicit)}" if self.implicit else ""
        text += f" || {' '.join(self.order_only)}" if self.order_only else ""
        if self.kind == "phony":
            return text
        return f"{text}\n  n = {self.flag}\n  list = {' '.join(self.listed)}\n  written = {self.inputs[0]}"


class Project:
    """A build folder with random edges, and what changes in it from one run to the next."""

    def __init__(self, folder: pathlib.Path, chance: random.Random):
        self.folder, self.chance = folder, chance
        self.sources = [f"s{it}" for it in range(6)]
        self.headers = [f"h{it}" for it in range(4)]
        self.edges: list[Edge] = []
        folder.mkdir(parents=True)
        for path in self.sources + self.headers:
            self.write(path, path)
        for place in range(chance.randint(4, 16)):
            self.edges.append(self.edge(place))
        self.write_manifest()

    def edge(self, place: int) -> Edge:
        chance = self.chance
        kind = chance.choice([*RULES, "phony", "copy", "keep"])
        made = [out for it in self.edges for out in it.outputs if it.kind != "phony"]
        groups = [out for it in self.edges for out in it.outputs if it.kind == "phony"]
        outputs = [f"o{place}"] + ([f"o{place}b"] if kind in ("two", "keeptwo") else [])
        if kind == "phony":
            inputs = chance.sample(made + self.sources, k=min(len(made) + 6, chance.randint(1, 3)))
            return Edge("phony", [f"g{place}"], inputs)
        inputs = [chance.choice(made + self.sources) for _ in range(chance.randint(1, 2))]
        if kind in ("writing", "keepwriting"):
            inputs = [chance.choice(self.sources)]
        implicit = chance.sample(made + groups + self.sources, k=1) if chance.random() < 0.3 else []
        order_only = chance.sample(made + groups, k=1) if made + groups and chance.random() < 0.3 else []
        edge = Edge(kind, outputs, list(dict.fromkeys(inputs)), implicit, order_only, flag=chance.randint(1, 4))
        self.choose_list(edge)
        return edge

    def choose_list(self, edge: Edge):
        """Headers; and of what it waits for in any case also what edges make."""
        if edge.kind in LISTING:
            edge.listed = self.chance.sample(self.headers, k=self.chance.randint(0, 3))
            edge.listed += [it for it in edge.order_only if it.startswith("o")]

    def write(self, path: str, text: str):
        (self.folder / path).write_text(text + "\n")

    def write_manifest(self):
        text = "pool two\n  depth = 2\n" + "".join(f"rule {kind}\n  {rule}\n" for kind, rule in RULES.items())
        (self.folder / "build.ninja").write_text(text + "".join(it.lines() + "\n" for it in self.edges))

    def outputs(self) -> list[str]:
        return [out for it in self.edges if it.kind != "phony" for out in it.outputs]

    def change(self) -> str:
        """One change, and what it was."""
        chance = self.chance
        what = chance.choice(["source", "source", "same", "header", "output", "gone", "flag", "list", "stop", "go",
                              "quiet", "edge", "log", "nothing"])
        if what in ("source", "same"):
            path = chance.choice(self.sources)
            self.write(path, path if what == "same" else f"{path} {chance.randint(1, 3)}")
        elif what == "header":
            path = chance.choice(self.headers)
            self.write(path, path)
        elif what == "output":
            path = chance.choice(self.outputs() or self.sources)
            # one with a list would be newer than its record, which docs/NINJA.md tells of
            is_listing = any(path in it.outputs and it.kind in LISTING for it in self.edges)
            if not is_listing and (self.folder / path).exists():
                os.utime(self.folder / path)
        elif what == "gone":
            (self.folder / chance.choice(self.outputs() or ["none"])).unlink(missing_ok=True)
        elif what == "flag":
            chance.choice(self.edges).flag += 1
        elif what == "list":
            self.choose_list(chance.choice(self.edges))
        elif what in ("stop", "quiet"):
            self.write(what, what)
        elif what == "go":
            for it in ("stop", "quiet"):
                (self.folder / it).unlink(missing_ok=True)
        elif what == "edge":
            self.edges.append(self.edge(100 + len(self.edges)))
        elif what == "log" and chance.random() < 0.2:
            (self.folder / ".ninja_log").unlink(missing_ok=True)
        self.write_manifest()
        return what

    def words(self) -> list[str]:
        """Words for Ninja: how many side by side, how many failures, which targets."""
        chance = self.chance
        words = [f"-j{chance.randint(1, 4)}"] + (["-k0"] if chance.random() < 0.6 else [])
        names = [out for it in self.edges for out in it.outputs]
        return words + (chance.sample(names, k=min(len(names), chance.randint(1, 3))) if chance.random() < 0.4 else [])


@dataclass
class Counts:
    runs: int = 0
    starts: int = 0
    refused: int = 0
    replayed: int = 0
    compared: int = 0


def record(folder: pathlib.Path, out: pathlib.Path, words: list[str], ninja: str) -> tuple[int, str]:
    shutil.rmtree(out, ignore_errors=True)
    done = subprocess.run([sys.executable, RECORDER, folder, out, "--verbose", "--force", "--", *words],
                          env={**os.environ, "NINJA": ninja}, stdin=subprocess.DEVNULL, stdout=subprocess.PIPE,
                          stderr=subprocess.STDOUT, text=True, timeout=LONGEST_SECONDS)
    return done.returncode, done.stdout


def program() -> str | None:
    named = os.environ.get("REBUG_PROGRAM") or str(BUILT)
    return named if os.access(named, os.X_OK) else None


class Builds:
    """Random builds, recorded one after another until there are enough runs."""

    def __init__(self, seed: int, ninjas: list[str], keep: pathlib.Path | None = None, is_replayed: bool = True):
        self.chance, self.ninjas, self.keep, self.seed = random.Random(seed), ninjas, keep, seed
        self.counts, self.faults, self.program = Counts(), [], program() if is_replayed else None
        self.recordings: pathlib.Path | None = None  # where each of them is kept

    def run(self, runs: int):
        while self.counts.runs < runs:
            with tempfile.TemporaryDirectory(prefix="rebug-random-") as room:
                self.project(pathlib.Path(room), runs)

    def project(self, room: pathlib.Path, runs: int):
        project, last = Project(room / "build", self.chance), None
        changes: list[str] = []
        for _ in range(self.chance.randint(4, 8)):
            if self.counts.runs >= runs:
                return
            ninja = self.chance.choice(self.ninjas)
            self.one(project, room / "out", ninja, changes, last)
            last = ninja
            time.sleep(0.01)
            changes = [project.change() for _ in range(self.chance.randint(1, 3))]
            time.sleep(0.01)

    def one(self, project: Project, out: pathlib.Path, ninja: str, changes: list[str], last: str | None):
        words = project.words()
        shutil.copytree(project.folder, out.with_name("before"), dirs_exist_ok=True)
        status, said = record(project.folder, out, words, ninja)
        self.counts.runs += 1
        what = f"seed {self.seed}, run {self.counts.runs}: {ninja} after {last}, {' '.join(words)}, {changes}"
        if "Traceback" in said or "fault of the recorder" in said or not (out / "trace").exists():
            self.fault(out, what, said)
            return
        trace = (out / "trace").read_text()
        self.counts.starts += trace.count("\nstart ")
        if self.recordings:
            shutil.copytree(out, self.recordings / f"{self.counts.runs:02}")
        if "rules differ" in said:
            self.fault(out, what, said)
        elif self.program:
            self.replay(out, what)
        shutil.rmtree(out.with_name("before"), ignore_errors=True)

    def replay(self, out: pathlib.Path, what: str):
        lines: list[str] = []
        status = check(str(out), self.program, lines.append)
        if status:
            self.fault(out, what, "\n".join(lines))
            return
        self.counts.replayed += 1
        found = differences(out, self.program, random.Random(self.counts.runs))
        self.counts.compared += 1
        if found:
            self.fault(out, what, "\n".join(found))

    def fault(self, out: pathlib.Path, what: str, said: str):
        self.counts.refused += 1
        self.faults.append(f"{what}\n{said}")
        if self.keep and out.exists():
            target = self.keep / f"{self.seed}-{self.counts.runs}"
            shutil.copytree(out.parent, target, dirs_exist_ok=True, ignore_dangling_symlinks=True)


def main() -> int:
    parser = argparse.ArgumentParser(description=__doc__, formatter_class=argparse.RawDescriptionHelpFormatter)
    parser.add_argument("--seed", type=int, default=1)
    parser.add_argument("--runs", type=int, default=60)
    parser.add_argument("--keep", type=pathlib.Path)
    parser.add_argument("ninjas", nargs="*", metavar="NINJA")
    given = parser.parse_args()
    ninjas = given.ninjas or [it for it in [shutil.which("ninja")] if it]
    if not ninjas:
        print("there is no ninja on the PATH", file=sys.stderr)
        return 1
    it = Builds(given.seed, ninjas, given.keep)
    it.run(given.runs)
    for fault in it.faults:
        print(fault)
    counts = it.counts
    print(f"{counts.runs} runs with {counts.starts} starts, {counts.replayed} replayed, {counts.compared} compared; "
          f"{counts.refused} faults")
    return 1 if it.faults else 0


if __name__ == "__main__":
    sys.exit(main())
