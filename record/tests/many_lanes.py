#!/usr/bin/env python3
"""Runs generated traces of many lanes on threads, and says what came to a run without threads, command by command.

    many_lanes.py RUNS [SEED]

Whatever order the lanes came in, the journal that rebug prints with --workers says which command each entry was: the
entries of a lane are that lane's commands in their order. Said again in the journal's order by a script alone, each
command has to get the same reply, and `kept`, `marks`, `stamps` and `logs` have to be the same.

Covered: 2 to 63 lanes; builds whose edges are spread over the lanes, so that starts wait for inputs and jobs of other
lanes; touches, undo, redo, cone, back, breaks, interrupts and failures in between; events named by number and by label.
Since the second run has one lane, a label becomes the number of the entry that it names (one that is not there where it
names none yet), and `plan` names its targets. Not covered: journals that are full, memory or threads that run out.
"""

import os
import pathlib
import random
import re
import subprocess
import sys
import tempfile

PROGRAM = pathlib.Path(__file__).resolve().parents[2] / "crates/rebug/out/rebug"
ENTRY = re.compile(r"(\d+) (\d+) ((?:ok|cone|refused)\b.*)")
LABEL = re.compile(r"^(undo|redo|cone) (\d+):(\d+)$")
# more than any entry's number
NO_ENTRY = 2_000_000
QUESTIONS = ["kept", "marks", "stamps", "logs"]


class Case:
    """A manifest, the opening of a trace, its lanes, and the script's words before and after `run`."""

    def __init__(self, seed):
        self.random = random.Random(seed)
        self.edges = self.random.randint(1, 30)
        self.count = self.random.choice([2, 3, 4, 8, 16, 63])
        self.manifest = self.make_manifest()
        sources = [f"stamp s{it} {it + 1}" for it in range(5)]
        self.opening = ["rebug-trace 1", f"jobs {self.count}", *sources]
        self.lanes = self.make_lanes()
        self.before = [f"plan o{self.edges - 1}"] if self.random.random() < 0.8 else []
        if self.random.random() < 0.3:
            self.before.append(self.break_point())
        self.after = self.noise(self.random.randint(0, 3))

    def make_manifest(self):
        lines = ["pool p", "  depth = 2", "rule cc", "  command = cc $in"]
        lines += ["rule re", "  command = re $in", "  restat = 1"]
        for edge in range(self.edges):
            inputs = [f"s{self.random.randint(0, 4)}"]
            inputs += [f"o{it}" for it in range(edge) if it == edge - 1 or self.random.random() < 2 / self.edges]
            lines.append(f"build o{edge}: {self.random.choice(['cc', 'cc', 're', 'phony'])} {' '.join(inputs)}")
        return lines

    def make_lanes(self):
        """Edges are spread over the lanes; a lane that has no edges, or some others, says other things too."""
        lanes = [[] for _ in range(self.count)]
        for edge in range(self.edges):
            lane = self.random.randrange(self.count)
            lanes[lane] += self.work(edge, lane)
        if self.random.random() < 0.7:
            for lane in self.random.sample(lanes, self.random.randint(1, min(8, self.count))):
                for words in self.noise(self.random.randint(1, 8)):
                    lane.insert(self.random.randint(0, len(lane)), words)
        return lanes

    def work(self, edge, lane):
        stamp = self.random.randint(1, 200)
        if self.random.random() < 0.1:
            return [f"start o{edge} {lane}", f"fail o{edge} {self.random.choice([0, stamp])}"]
        if self.manifest[7 + edge].split()[2] == "phony":
            return [f"pass o{edge}"]
        # Two edges may be given one job, so that one waits for the other.
        job = lane if self.random.random() < 0.8 else 0
        return [f"start o{edge} {job}", f"finish o{edge} {stamp}"]

    def which(self):
        if self.random.random() < 0.5:
            return f"{self.random.randint(1, 40)}"
        return f"{self.random.randrange(self.count + 1)}:{self.random.randint(0, 4)}"

    def break_point(self):
        edge = self.random.randrange(self.edges)
        kind = self.random.choice([f"touch s{edge % 5}", "plan", f"start o{edge}", f"finish o{edge}", f"pass o{edge}"])
        return f"break {kind}"

    def noise(self, count):
        edge = lambda: self.random.randrange(self.edges)
        makers = [lambda: f"touch s{edge() % 5} {self.random.randint(0, 300)}", lambda: f"undo {self.which()}",
                  lambda: f"redo {self.which()}", lambda: f"cone {self.which()}", lambda: "back", self.break_point,
                  lambda: f"unbreak {self.random.randint(1, 20)}", lambda: "continue", lambda: "continue",
                  lambda: f"plan o{edge()}", lambda: f"clean o{edge()}", lambda: f"pass o{edge()}",
                  lambda: f"finish o{edge()} {self.random.randint(0, 200)}",
                  lambda: self.random.choice(["interrupt", f"abort o{edge()} 0", "continue", "back"])]
        return [self.random.choice(makers)() for _ in range(count)]

    def trace(self):
        lines = list(self.opening)
        for number, commands in enumerate(self.lanes):
            lines += [f"lane {number}", *commands]
        return lines

    def script(self):
        return [*self.before, "run", *self.after, *QUESTIONS]


def report_of(program, manifest, trace, script, *options):
    """What the program reports, with its status."""
    with tempfile.TemporaryDirectory() as folder:
        for name, lines in (("m", manifest), ("trace", trace), ("script", script)):
            (pathlib.Path(folder) / name).write_text("".join(f"{line}\n" for line in lines))
        words = [program, "--manifest", "m", "--trace", "trace", "--script", "script", *options]
        done = subprocess.run(words, cwd=folder, stdin=subprocess.DEVNULL, capture_output=True, timeout=600)
    return done.stdout.decode().splitlines(), done.returncode


def split(report):
    """The journal's entries as (lane, reply), and the lines of the listings."""
    entries, listed = [], []
    for line in report:
        match = ENTRY.fullmatch(line)
        if not match:
            listed.append(line)
            continue
        assert int(match[1]) == len(entries) + 1, line
        entries.append((int(match[2]), match[3]))
    return entries, listed


def in_order(case, entries):
    """The commands in the journal's order, in which labels are numbers."""
    left = {number: list(commands) for number, commands in enumerate(case.lanes)}
    left[case.count] = [*case.before, *case.after]
    numbers = {}
    for number, (lane, _) in enumerate(entries, 1):
        command = left[lane].pop(0)
        label = LABEL.match(command)
        if label:
            # a lane's own entry is named as well, where it has none other of that place
            named = numbers.get(int(label[2]), [])
            place = int(label[3])
            command = f"{label[1]} {named[place - 1] if 0 < place <= len(named) else NO_ENTRY}"
        numbers.setdefault(lane, []).append(number)
        yield command
    said = sum(map(len, left.values()))
    assert not said, f"{said} commands have no entry"


def differences(program, case):
    """What differs between the run on threads and the same order said one after another: nothing, where all is well."""
    report, status = report_of(program, case.manifest, case.trace(), case.script(), "--workers")
    if status:
        return [f"status {status}", *report[-1:]]
    entries, listed = split(report)
    script = [*in_order(case, entries), *QUESTIONS]
    again, status = report_of(program, case.manifest, case.opening, script)
    if status:
        return [f"status {status} of the second run", *again[-1:]]
    replies, listed_again = split(again)
    found = [f"entry {at}: {one[1]}, and then {two[1]}" for at, (one, two) in enumerate(zip(entries, replies), 1)
             if one[1] != two[1]]
    if len(entries) != len(replies):
        found.append(f"{len(entries)} entries, and then {len(replies)}")
    return found + [f"{one}, and then {two}" for one, two in zip(listed, listed_again) if one != two] + (
        [] if len(listed) == len(listed_again) else [f"{len(listed)} lines, and then {len(listed_again)}"])


def main(words):
    program = os.environ.get("REBUG_PROGRAM") or str(PROGRAM)
    runs, seed = int(words[0]), int(words[1]) if len(words) > 1 else 0
    bad = 0
    for run in range(seed, seed + runs):
        case = Case(run)
        found = differences(program, case)
        if found:
            bad += 1
            print(f"seed {run}:", *found[:5], sep="\n  ", flush=True)
    print(f"{runs} runs, {bad} that differ")
    return 1 if bad else 0


if __name__ == "__main__":
    sys.exit(main(sys.argv[1:]))
