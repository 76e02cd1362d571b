"""Builds with dyndep files are recorded, by what Ninja's own log and its exit status say. Where one is not, a sentence
says why."""

from __future__ import annotations

import functools
import os
import pathlib
import re
import shutil
import unittest

import builds
from dyndep_cases import JOBS, Plain, Runner, Step, cases
from recorder.fields import field
from recorder.manifest import Manifest
from recorder.shuffle.commands import read_dyndep
from versions import since

SOURCE, AGAIN = "for a source", "written again"
# What is not recorded, by case and jobs: the numbers of the builds, and what the sentence says. With several targets
# Ninja up to 1.11 queues what the first leads to before it looks at the second.
NOT_RECORDED = {
    ("StaticUserFirst", 1): ({1: SOURCE, 3: SOURCE, 5: SOURCE}),
    ("StaticUserDirtyDD", 1): ({2: SOURCE, 3: SOURCE, 4: SOURCE}),
    ("StaticUserFirst", 4): ({1: SOURCE, 3: SOURCE, 5: SOURCE}),
    ("StaticUserDirtyDD", 4): ({2: SOURCE, 3: SOURCE, 4: SOURCE}),
    ("LateOtherFile", 4): ({2: SOURCE, 3: SOURCE}),
    ("WrittenAgain", 1): ({1: AGAIN}),
    ("WrittenAgain", 4): ({1: AGAIN}),
    **{("RuleLevel", jobs): {it: "has its dyndep in the rule" for it in (1, 2, 3, 4)} for jobs in JOBS},
    **{("UsesDyndepVariable", jobs): {1: "needs the variable dyndep"} for jobs in JOBS},
}
# From 1.12 on Ninja queues nothing before it has looked at all targets, and goes by the length of ways.
IS_LATER = since((1, 12))
NOT_RECORDED_LATER = {**{("StaticUserFirst", jobs): {3: SOURCE, 5: SOURCE} for jobs in JOBS},
                      ("LateOtherFile", 4): {1: SOURCE}}
# Ninja says why it builds nothing, and the recording is of no command.
NOTHING_BUILT = "Ninja built nothing"


@functools.lru_cache(maxsize=None)
def recorded(name: str, jobs: int) -> list[Step]:
    """The builds of a case, recorded once. The cases have statuses of Ninja 1.11: a later one is asked for its own."""
    folder = builds.recordings() / "dyndep" / f"{name}.{jobs}"
    shutil.rmtree(folder, ignore_errors=True)
    steps = Runner(cases()[name], folder, jobs).run()
    if IS_LATER:
        for step, plain in zip(steps, Plain(cases()[name], folder / "plain", jobs).run()):
            step.wanted = plain.status
    return steps


def manifest_of(out: pathlib.Path, below: str = "") -> Manifest:
    """The manifest of a recording, or the user's own that is kept there."""
    return Manifest(b"build.ninja", lambda name: (out / below / os.fsdecode(name)).read_bytes())


class RecordingsOfDyndep(unittest.TestCase):
    def look_at(self, step: Step) -> None:
        """A recorded build: no event is refused, and the trace has the commands of Ninja's log, each once."""
        self.assertEqual(step.status, step.wanted, step.said)
        self.assertNotIn("rebug's rules differ", step.said)
        resolved, own = manifest_of(step.out), manifest_of(step.out, "dyndep/manifest")
        trace = (step.out / "trace").read_text().split("\nlane 0\n")[1].splitlines()
        ended = [line.split(" ")[1] for line in trace if line.startswith("finish ")]
        logged = {field(resolved.producer[it.encode()].name).decode() for it in step.logged}
        self.assertEqual(sorted(ended), sorted(logged))
        self.assertEqual([(it.line, it.explicit, it.order_only, it.command) for it in resolved.edges],
                         [(it.line, it.explicit, it.order_only, it.command) for it in own.edges])
        self.assertFalse([it for it in resolved.edges if it.dyndep])
        self.assertEqual({it.number: (it.outputs, it.implicit) for it in resolved.edges}, self.said_of(step, own))
        self.assertEqual((step.out / "build.ninja").read_bytes().count(b"\n"),
                         (step.out / "dyndep/manifest/build.ninja").read_bytes().count(b"\n"))


    @unittest.skipIf(builds.missing_tools("ninja"), "there is no Ninja")
    def test_a_path_that_its_former_command_writes_again(self):
        """By its dyndep file `m` is one of `f`, and no longer of `e`, whose command writes it all the same. The file then
        has another stamp than Ninja's log, and the trace says when: while `e` ran."""
        trace = (recorded("Moved", 4)[1].out / "trace").read_text().splitlines()
        made, started, ended = (next(at for at, it in enumerate(trace) if it.startswith(word))
                                for word in ("finish f ", "start e ", "finish e "))
        touched = [at for at, it in enumerate(trace) if it.startswith("touch m ")]
        self.assertEqual(len(touched), 1, trace)
        self.assertTrue(made < started < touched[0] < ended, trace)
        self.assertGreater(int(trace[touched[0]].split(" ")[2]), int(trace[made].split(",")[1]))

    def said_of(self, step: Step, own: Manifest) -> dict[int, tuple[list[bytes], list[bytes]]]:
        """The outputs and implicit inputs of each edge by the loaded files' contents, as `shuffle` reads them."""
        notes = [it.split(" ") for it in (step.out / "dyndep/notes").read_text().splitlines()]
        files = step.out / "dyndep/files"
        contents = {it[1].encode(): (files / it[2]).read_bytes() for it in notes if it[0] == "loaded"}
        found = {it.number: (it.outputs, it.implicit) for it in own.edges}
        for number, (inputs, outputs) in read_dyndep(own, contents).items():
            found[number] = found[number][0] + outputs, found[number][1] + inputs
        for _, output, kind, path in (it for it in notes if it[0] == "left-out"):
            lists = found[own.producer[output.encode()].number]
            lists["output input".split().index(kind)].remove(path.encode())
        return found


def _test(name: str, jobs: int):
    def test(self):
        lacking = builds.missing_tools("ninja")
        if lacking:
            self.skipTest(lacking)
        left_out = NOT_RECORDED.get((name, jobs), {})
        if IS_LATER:
            left_out = NOT_RECORDED_LATER.get((name, jobs), left_out)
        for step in recorded(name, jobs):
            with self.subTest(step=step.number):
                if step.number in left_out:
                    self.assertFalse((step.out / "replay").exists(), step.said)
                    self.assertIn(left_out[step.number], step.said)
                    self.assertIn(step.status, (2, 3, step.wanted))
                elif NOTHING_BUILT in step.said:
                    self.assertEqual((step.status, step.logged), (1, set()), step.said)
                else:
                    self.look_at(step)

    return test


for _name in cases():
    for _jobs in JOBS:
        setattr(RecordingsOfDyndep, f"test_{re.sub('(?<!^)(?=[A-Z])', '_', _name).lower()}_{_jobs}",
                _test(_name, _jobs))


if __name__ == "__main__":
    unittest.main()
