"""What `rebug flakes` counts and names, beside wrong ways to do so: each check fails with a body that is bad."""

from __future__ import annotations

import base64
import contextlib
import json
import pathlib
import random
import shutil
import tempfile
import unittest
import unittest.mock
from collections.abc import Callable, Iterator, Sequence
from dataclasses import dataclass, field
from fractions import Fraction

import many_builds
from recorder import stable
from recorder.flakes import counting, judging, sums
from recorder.flakes.counting import Counted, counted
from recorder.flakes.judging import Culprit
from recorder.flakes.reading import Summaries
from recorder.summary.findings import Finding, NotAsked, findings_of
from recorder.summary.lines import lines_of
from recorder.summary.packed import Run
from recorder.summary.recording import Build

Span = tuple[int, int | None]
SEEDS = range(40)
TRIES, SHARE_OF_TRIES = 500, Fraction(1, 100)


@dataclass
class Made:
    """A build: when commands began and ended, in milliseconds, those that failed, and whether it is from nothing."""

    spans: dict[str, Span]
    failed: Sequence[str] = ()
    is_from_nothing: bool = True


@dataclass
class Project:
    """Commands with what each waits for, and findings: path, maker and user."""

    waits: dict[str, Sequence[str]]
    findings: Sequence[tuple[str, str, str]] = field(default=())

    def summary(self, made: Made, number: int) -> str:
        """The lines of a build."""
        names = list(self.waits)
        runs = [Run(names.index(name), *span) for name, span in made.spans.items()]
        build = Build(names, [("build.ninja", it) for it in range(len(names))],
                      [[names.index(it) for it in its] for its in self.waits.values()], "0123456789abcdef", runs,
                      {names.index(it): "error" for it in made.failed}, "1.11.1", len(names), 1_700_000_000 + number,
                      made.is_from_nothing)
        found = [Finding(f"{at:016x}", "race", path, names.index(maker), names.index(user), "before", "")
                 for at, (path, maker, user) in enumerate(self.findings)]
        return "".join(f"{it}\n" for it in lines_of(build, found, {}))


class Case(unittest.TestCase):
    def setUp(self) -> None:
        self.room = pathlib.Path(tempfile.mkdtemp(prefix="rebug-flakes-"))
        self.addCleanup(shutil.rmtree, self.room)

    def counted(self, project: Project, make: Callable[[random.Random], Made]) -> Counted:
        """The counts of 40 builds, by Python alone."""
        path = self.room / "builds"
        path.write_text("".join(project.summary(make(random.Random(it)), it) for it in SEEDS))
        summaries = Summaries()
        summaries.read([str(path)])
        with unittest.mock.patch.object(counting, "has_program", lambda: False):
            (found,) = counted(summaries, [], False)
        self.assertEqual(summaries.faults.first, [])
        return found

    def culprits(self, found: Counted, anchor: str) -> list[Culprit]:
        (it,) = [it for it in found.anchors() if found.manifest.names[it.command] == anchor]
        return it.culprits

    def named(self, found: Counted, anchor: str) -> list[str]:
        """The culprits that are named, each with its ties."""
        names = found.manifest.names
        return [", ".join(names[it] for it in (it.separation.command, *it.ties))
                for it in self.culprits(found, anchor) if it.is_named]

    def fails_with(self, check: Callable[[], None], *bodies: contextlib.AbstractContextManager) -> None:
        """The check passes, and fails with each bad body."""
        check()
        for body in bodies:
            with body, self.assertRaises(AssertionError):
                check()


def body(owner: object, name: str, bad: object) -> contextlib.AbstractContextManager:
    """A function in place of another one."""
    return unittest.mock.patch.object(owner, name, bad)


class WhatCounts(Case):
    def test_a_command_that_did_not_run_has_no_order(self) -> None:
        """`late` is up to date in each build in which `user` fails, and comes behind `user` in half of the others."""
        project = Project({"user": [], "late": []})

        def make(chance: random.Random) -> Made:
            if chance.random() < 0.5:
                return Made({"user": (20, 60)}, ["user"], is_from_nothing=False)
            late = chance.choice([0, 30])
            return Made({"user": (20, 60), "late": (late, late + 5)}, is_from_nothing=False)

        def check() -> None:
            found = self.counted(project, make)
            orders = found.sums.orders[0]
            self.assertEqual(set(orders.bad.values()), {"----"})
            self.assertEqual(sum(orders.good[1][: sums.SPANS]), orders.used - len(orders.bad))
            self.assertEqual(self.named(found, "user"), [])

        good = sums.OrderCount._row
        self.fails_with(check, body(sums.OrderCount, "_row", lambda self, its, began, _: good(self, its, began, True)))

    def test_what_a_stopped_build_never_began_is_no_cause(self) -> None:
        """`quick` and `user` fail in the same builds. Ninja stops there as `quick` fails, and never begins `late`,
        which else begins before `user` ends."""
        project = Project({"quick": [], "user": [], "late": []})

        def make(chance: random.Random) -> Made:
            spans: dict[str, Span] = {"quick": (0, 50), "user": (20, 400)}
            if chance.random() < 0.4:
                return Made(spans, ["quick", "user"])
            return Made({**spans, "late": (60, 90)})

        def check() -> None:
            found = self.counted(project, make)
            self.assertEqual(found.sums.orders[1].known, 30)
            self.assertEqual([self.named(found, it) for it in ("quick", "user")], [[], []])

        self.fails_with(check, body(sums, "first_failure", lambda build, its: sums.NEVER))

    def test_what_was_to_come_behind_the_failure_counts(self) -> None:
        """`maker` would have begun behind `user` where that failed, and Ninja stopped before."""
        project = Project({"user": [], "maker": []})

        def make(chance: random.Random) -> Made:
            if chance.random() < 0.4:
                return Made({"user": (0, 40)}, ["user"])
            return Made({"maker": (0, 10), "user": (20, 60)})

        def check() -> None:
            self.assertEqual(self.named(self.counted(project, make), "user"), ["maker"])

        self.fails_with(check, body(counting, "is_stopped", lambda build, its: False))

    def test_a_build_that_went_on_is_not_stopped(self) -> None:
        """`other` fails before `user` begins, and Ninja goes on without `late`, which waits for `other`."""
        project = Project({"other": [], "user": [], "late": ["other"]})

        def make(chance: random.Random) -> Made:
            if chance.random() < 0.4:
                return Made({"other": (0, 10), "user": (20, 60)}, ["other", "user"])
            return Made({"other": (0, 10), "late": (10, 15), "user": (20, 60)})

        def check() -> None:
            found = self.counted(project, make)
            self.assertEqual({it[4:] for it in found.sums.orders[1].bad.values()}, {"--"})
            self.assertEqual(self.named(found, "user"), [])

        self.fails_with(check, body(counting, "is_stopped", lambda build, its: bool(build.failed)))


class WhatIsNamed(Case):
    def test_all_tests_of_a_manifest_count(self) -> None:
        """The builds that fail are dealt out anew. A chance of one test names somebody in most tries."""
        project, text = many_builds.race(), ""
        project.fails = lambda it: None
        for seed in SEEDS:
            text += project.build(seed)
        (self.room / "builds").write_text(text)
        summaries = Summaries()
        summaries.read([str(self.room / "builds")])
        (manifest,), them = summaries.manifests.values(), list(summaries.builds.values())
        anchor, columns = manifest.names.index("use.o"), {it.id: it.columns(len(manifest.names)) for it in them}

        def named(chance: random.Random, tests_of: Callable[[sums.Orders], int]) -> bool:
            bad = set(chance.sample(range(len(them)), len(them) // 3))
            orders = sums.OrderCount(anchor, manifest, lambda it: sums.Fate.BAD if them.index(it) in bad
                                     else sums.Fate.GOOD, False)
            for it in them:
                orders.add(it, columns[it.id], False)
            found = orders.total()
            return judging.judge(anchor, manifest, found, tests_of(found)).culprits[0].is_named

        most = TRIES * SHARE_OF_TRIES
        chance = random.Random(7)
        self.assertLessEqual(sum(named(chance, judging.tests_of) for _ in range(TRIES)), most)
        chance, count = random.Random(7), 0
        for _ in range(TRIES):
            count += named(chance, lambda _: 1)
            if count > most:
                return
        self.fail("a chance of one test names as few")

    def behind(self, chance: random.Random) -> Made:
        """`user` fails where `maker` has not ended. `behind` does not wait for `maker`, but begins when that ends, as
        in a pool of one job."""
        end, begin = chance.randrange(20, 100), 60
        spans: dict[str, Span] = {"maker": (0, end), "behind": (end, end + 1), "user": (begin, begin + 20)}
        return Made(spans, ["user"] if end > begin else []) if end != begin else self.behind(chance)

    def test_a_command_that_only_runs_late_is_a_tie(self) -> None:
        project = Project({"behind": [], "maker": [], "user": []})

        def check() -> None:
            self.assertEqual(self.named(self.counted(project, self.behind), "user"), ["maker, behind"])

        self.fails_with(check, body(judging, "_lateness", lambda *_: 0))

    def test_a_finding_comes_first(self) -> None:
        """`maker` begins and ends with `twin`, and reads nothing of `user`'s; a race says that `twin` is read."""
        project = Project({"maker": [], "twin": [], "user": []}, [("twin", "twin", "user")])

        def make(chance: random.Random) -> Made:
            its = self.behind(chance)
            return Made({**{it: its.spans["maker"] for it in ("maker", "twin")}, "user": its.spans["user"]}, its.failed)

        def check() -> None:
            found = self.counted(project, make)
            self.assertEqual(self.named(found, "user"), ["twin, maker"])
            self.assertEqual([it.path for it in self.culprits(found, "user")[0].findings], ["twin"])

        check()
        with self.assertRaises(AssertionError):
            project.findings = ()
            check()

    def test_the_maker_comes_before_what_waits_for_it(self) -> None:
        """`behind` stands first in the manifest, and waits for `maker`."""
        project = Project({"behind": ["maker"], "maker": [], "user": []})

        def check() -> None:
            found = self.counted(project, self.behind)
            self.assertEqual(self.named(found, "user"), ["maker"])
            self.assertEqual(self.culprits(found, "user")[0].followers, [0])

        self.fails_with(check, body(judging, "_first", lambda commands, _: list(commands)))


class HowAFindingFell(Case):
    """A build of two commands by hand, and what `races` says of them: the user ran from 10 to 20."""

    def fell(self, maker: Span | None, look: str | None, user: Span | None = (10, 20)) -> str:
        """How the finding fell. `maker` is when the maker ran."""
        program = self.room / "races"
        line = {"kind": "race", "id": "0" * 16, "path": "gen.h", "look": look, "mend": None,
                "maker": {"output": "gen.h"}, "user": {"output": "use.o"}}
        program.write_text(f"#!/bin/sh\necho '{json.dumps(line)}'\n")
        program.chmod(0o755)
        runs = [Run(command, *span) for command, span in enumerate((maker, user)) if span]
        build = Build(["gen.h", "use.o"], [("build.ninja", 1), ("build.ninja", 2)], [[], []], "0" * 16, runs, {}, "", 2,
                      0, True)
        (it,) = findings_of(str(program), "recording", build)
        return it.fell

    def test_by_times_where_the_user_was_not_observed(self) -> None:
        for maker, due in (((0, 5), "before"), ((0, 10), "before"), ((20, 30), "after"), ((25, 30), "after"),
                           ((0, 11), "at once"), ((10, 20), "at once"), ((19, 30), "at once"), ((0, None), "at once"),
                           (None, "after")):
            self.assertEqual(self.fell(maker, None), due, maker)
        self.assertEqual(self.fell((0, 5), None, None), "not run")
        self.assertEqual(self.fell((25, 30), None, (10, None)), "at once")

    def test_by_what_the_user_was_observed_to_see(self) -> None:
        """Times say nothing there: one millisecond has many reads."""
        for maker in ((0, 5), (0, 15), (25, 30)):
            self.assertEqual([self.fell(maker, it) for it in ("read", "miss")], ["read", "missed"])


class Questions(Case):
    """What the proved program is asked where an order is printed, and what its answer changes."""

    def make(self, is_bad: bool) -> Made:
        return Made({"user": (5, 9), "maker": (0, 10)}, ["user"]) if is_bad else Made({"user": (6, 9), "maker": (0, 5)})

    def asked(self, text: str) -> Counted:
        """One failing and one passing build, counted beside a program."""
        project, program = Project({"user": [], "other": [], "maker": []}), self.room / "program"
        (self.room / "builds").write_text("".join(project.summary(self.make(bool(it)), it) for it in range(2)))
        program.write_text(f"#!/bin/sh\ncat > {self.room}/asked\n{text}\n")
        program.chmod(0o755)
        summaries = Summaries()
        summaries.read([str(self.room / "builds")])
        with unittest.mock.patch("recorder.flakes.proved.asking_program", lambda: str(program)):
            (found,) = counted(summaries, [], False)
        return found

    def answer(self, *failing: int) -> str:
        """The program's answer where one build passed, in which both commands ran and `maker` had ended."""
        its = {"anchor": 0, "moment": 0, "failing": [[1, 1, 1, 0], failing], "passing": [[1, 1, 1, 0], [1, 0, 0, 0]]}
        return f"echo '{json.dumps(its)}'"

    def test_two_commands_of_each_build(self) -> None:
        """The text is packed by hand: begins, then differences, of which n is 2n, and -1 is 1."""
        self.asked("exit 1")
        first, second, third, *lines = (self.room / "asked").read_text().splitlines()
        self.assertEqual([first, second, third], ["builds 1 2", "anchors 0", "moments 0"])
        runs = [base64.b64encode(bytes(it)).decode() for it in ([2, 0, 20, 1, 10, 8], [2, 0, 10, 1, 12, 6])]
        self.assertEqual(set(lines), {f"stopped {runs[0]} 0", f"build {runs[1]}"})

    def test_other_counts_are_no_answer(self) -> None:
        self.assertEqual(self.asked(self.answer(1, 1, 0, 0)).sums.bad, 1)
        for wrong in ((1, 0, 0, 0), (2, 2, 0, 0), (0, 0, 0, 0)):
            with self.assertRaisesRegex(counting.OtherCounts, "^no answer: of maker and user Python counts 1 of 1"):
                self.asked(self.answer(*wrong))

    def test_an_answer_of_another_form_changes_nothing(self) -> None:
        for text in ("exit 2", "echo no", "echo {}", "echo '{\"failing\":[],\"passing\":[]}'"):
            self.assertEqual(self.asked(text).sums.bad, 1)


class NamesOfFindings(Case):
    """The texts of a finding are those that `races` writes; a program that writes them stands in its place."""

    def names(self, folder: str) -> Iterator[tuple[str, str]]:
        """The names and paths of findings of a build in a folder."""
        program = self.room / "races"
        ends = {"maker": {"output": f"{folder}/gen.h"}, "user": {"output": "use.o"}}
        lines = [{"kind": "race", "id": stable.name_of([it.encode() for it in ("race", f"{folder}/gen.h",
                                                                                f"{folder}/gen.h", "use.o")]),
                  "path": f"{folder}/gen.h", "look": None, "mend": None, **ends},
                 {"kind": "clash", "id": "0" * 16, "path": f"{folder}/log", "mend": None,
                  "first": ends["user"], "other": ends["maker"]},
                 {"kind": "race", "id": "a8a4fcf42eb58d0f", "path": "version.h", "look": None, "mend": None,
                  "maker": {"output": "version.h"}, "user": {"output": "main.o"}}]
        program.write_text("#!/bin/sh\n" + "".join(f"echo '{json.dumps(it)}'\n" for it in lines))
        program.chmod(0o755)
        build = Build([f"{folder}/gen.h", "use.o", "version.h", "main.o"], [("build.ninja", it) for it in range(4)],
                      [[]] * 4, "0" * 16, [], {}, "", 0, 0, True)
        return ((it.id, it.kind) for it in findings_of(str(program), "recording", build))

    def test_no_whole_path_is_in_a_name(self) -> None:
        def check() -> None:
            here, there = ([*self.names(it)] for it in ("/home/one/build", "/srv/runner-7/build"))
            self.assertEqual(here, there)
            self.assertEqual([kind for _, kind in here], ["race", "clash", "race"])

        self.fails_with(check, body(stable, "text_without_folders", lambda text: text),
                        body(stable, "without_folders", lambda text: text))

    def test_names_without_whole_paths_are_those_of_races(self) -> None:
        self.assertEqual([*self.names("/home/one/build")][2][0], "a8a4fcf42eb58d0f")
        self.assertEqual(stable.name_of([b"race", b"version.h", b"version.h", b"main.o"]), "a8a4fcf42eb58d0f")

    def test_a_program_without_an_answer(self) -> None:
        build = Build([], [], [], "0" * 16, [], {}, "", 0, 0, True)
        for name, text, due in (("fails", "echo no >&2; exit 2", "no"), ("silent", "exit 3", "status 3")):
            program = self.room / name
            program.write_text(f"#!/bin/sh\n{text}\n")
            program.chmod(0o755)
            with self.assertRaisesRegex(NotAsked, due):
                findings_of(str(program), "recording", build)


if __name__ == "__main__":
    unittest.main()
