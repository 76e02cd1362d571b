"""The flaky projects of bench/flakes: by their seeds some builds fail, and the culprit is named first. Real Ninja runs
their commands in the order that a seed says, whatever the speed of the machine."""

from __future__ import annotations

import functools
import importlib.util
import json
import pathlib
import subprocess
import sys
import tempfile
import unittest

import builds
from recorder.summary.lines import lines_of
from recorder.summary.packed import Run
from recorder.summary.recording import Build

BENCH = builds.RECORDER.parent.parent / "bench/flakes"
FLAKES = builds.RECORDER.parent / "rebug-flakes"
SEEDS = range(1, 41)
FEWEST, MOST = 8, 24
# The words in which `rebug flakes` names each culprit.
NAMED = {"header": ("tab.h had not ended when use.o began",),
         "cleaner": ("cleaner had ended when reader began",),
         "two": ("a.txt had not ended when report began", "b.txt had not ended when report began"),
         "port": ("holder ran when user began",)}
LACKING = builds.missing_tools("ninja", "cc")


@functools.lru_cache(maxsize=None)
def bench():
    """The module with the projects."""
    spec = importlib.util.spec_from_file_location("flaky_projects", BENCH / "projects.py")
    assert spec and spec.loader
    module = sys.modules["flaky_projects"] = importlib.util.module_from_spec(spec)
    spec.loader.exec_module(module)
    return module


def summary(project, seed: int) -> str:
    """The summary of a build that goes as the seed says."""
    spans, names = project.schedule(seed), list(project.commands)
    fails = project.fails(spans)
    stop = spans[project.anchor].begin
    runs = [Run(names.index(it), round(span.begin), round(span.end)) for it, span in spans.items()
            if not fails or span.begin <= stop]
    waits = [[names.index(other) for other in it.waits] for it in project.commands.values()]
    build = Build(names, [("build.ninja", it) for it in range(len(names))], waits, "0123456789abcdef", runs,
                  {names.index(project.anchor): "error"} if fails else {}, "1.11.1", project.jobs,
                  1_700_000_000 + seed, True)
    return "".join(f"{it}\n" for it in lines_of(build, [], {}))


class FlakyProjects(unittest.TestCase):
    def failing(self, project) -> list[int]:
        return [it for it in SEEDS if project.fails(project.schedule(it))]

    def test_some_builds_fail(self):
        for make in bench().ALL:
            self.assertTrue(FEWEST <= len(self.failing(make())) <= MOST, make.__name__)

    def test_the_culprit_is_named_first(self):
        for make in bench().ALL:
            project = make()
            with self.subTest(project.name), tempfile.TemporaryDirectory(prefix="rebug-flaky-") as room:
                path = pathlib.Path(room) / "builds"
                path.write_text("".join(summary(project, it) for it in SEEDS))
                said, objects = (subprocess.run([sys.executable, FLAKES, path, *words], capture_output=True, text=True,
                                                stdin=subprocess.DEVNULL) for words in ((), ("--json",)))
                self.assertEqual((said.returncode, said.stderr, objects.returncode), (4, "", 4))
                orders = [it for it in map(json.loads, objects.stdout.splitlines()) if it["kind"] == "order"]
                named = [it["command"] for it in orders if it["named"]]
                self.assertEqual([orders[0][it] for it in ("anchor", "ties", "named")], [project.anchor, [], True])
                self.assertTrue(named and set(named) <= project.culprits, named)
                first = next(it for it in said.stdout.splitlines() if it.startswith("  it separates: in "))
                self.assertTrue(any(it in first for it in NAMED[project.name]), first)
                self.assertIn(f"failed in {len(self.failing(project))} of {len(SEEDS)} builds", said.stdout)

    @unittest.skipIf(LACKING, LACKING)
    def test_ninja_goes_as_the_seed_says(self):
        with tempfile.TemporaryDirectory(prefix="rebug-flaky-") as name:
            room = pathlib.Path(name)
            subprocess.run(["cc", "-std=c11", "-o", room / "turn", BENCH / "turn.c"], check=True)
            for make in bench().ALL:
                project = make()
                bad = self.failing(project)[0]
                good = next(it for it in SEEDS if it not in self.failing(project))
                for seed, status in ((bad, 1), (good, 0)):
                    with self.subTest(project.name, seed=seed):
                        self.look_at(project, seed, status, room / f"{project.name}-{seed}", room / "turn")

    def look_at(self, project, seed: int, status: int, folder: pathlib.Path, turn: pathlib.Path) -> None:
        """Ninja ends with the status. Up to the failure its log has the commands in the order of their ends."""
        project.make(folder, seed, turn)
        ran = subprocess.run(["ninja", "-j", str(project.jobs)], cwd=folder, stdin=subprocess.DEVNULL,
                             capture_output=True, text=True, timeout=builds.LONGEST_SECONDS)
        self.assertEqual(ran.returncode != 0, status != 0, ran.stdout)
        spans = project.schedule(seed)
        until = spans[project.anchor].begin if status else float("inf")
        due = sorted((it for it in spans if spans[it].end <= until), key=lambda it: spans[it].end)
        logged = [it.split("\t")[3] for it in (folder / ".ninja_log").read_text().splitlines()[1:]]
        self.assertEqual(logged[: len(due)], due)
        self.assertEqual(project.anchor in logged, not status)


if __name__ == "__main__":
    unittest.main()
