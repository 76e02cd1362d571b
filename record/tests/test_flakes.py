"""Summaries of builds, and which orders separate the failing ones from the others."""

from __future__ import annotations

import base64
import json
import os
import pathlib
import random
import shlex
import shutil
import signal
import subprocess
import sys
import tempfile
import unittest
import unittest.mock
import zlib
from fractions import Fraction

import builds
import many_builds
from recorder.flakes.counting import counted
from recorder.flakes.fisher import chance, is_below, tail
from recorder.flakes.judging import judge, tests_of
from recorder.flakes.main import _partial
from recorder.flakes.reading import Build, Manifest, Summaries
from recorder.flakes.sums import OrderCount, Orders, failed_or_not, is_stopped
from recorder.flakes.telling import lines_of as told_lines
from recorder.summary import recording as summary
from recorder.summary.findings import Finding
from recorder.summary.lines import lines_of
from recorder.summary.packed import BadText, Run, in_order, packed, unpacked, unpacked_numbers
from recorder.summary.recording import settled
from shuffled import RULES, statement

sys.path.append(str(pathlib.Path(__file__).resolve().parents[2] / "tests"))
from json_schema import misfits  # noqa: E402

SUMMARY, FLAKES = (builds.RECORDER.parent / f"rebug-{it}" for it in ("summary", "flakes"))
EXAMPLES = pathlib.Path(__file__).resolve().parents[2] / "examples/flaky"
HAS_PARALLEL = shutil.which("parallel") is not None and b"GNU parallel" in subprocess.run(
    ["parallel", "--version"], stdin=subprocess.DEVNULL, capture_output=True).stdout
EACH = shlex.join([sys.executable, str(FLAKES), "--partial", "--anchor", "use.o"])
BUILDS, TRIES, SHARE_OF_TRIES = 40, 500, Fraction(1, 100)

# Of bad builds with and without a property, and of good ones with and without: what scipy 1.10.1 has for
# scipy.stats.fisher_exact([[a, b], [c, d]], alternative="greater")[1].
TABLE = [
    ((3, 1, 1, 3), 0.24285714285714283),
    ((4, 0, 0, 4), 0.014285714285714284),
    ((10, 3, 2, 15), 0.000465180943362905),
    ((0, 5, 0, 5), 1.0),
    ((5, 0, 5, 0), 1.0),
    ((8, 2, 1, 5), 0.024475524475524483),
    ((13, 0, 0, 27), 8.310325587520407e-11),
    ((17, 0, 0, 23), 1.1269843246893772e-11),
    ((9, 4, 6, 21), 0.005870507901703554),
    ((1, 0, 0, 999), 0.001),
    ((50, 0, 0, 950), 1.057030939762014e-85),
    ((30, 20, 210, 740), 2.4648440532163158e-08),
    ((12, 38, 60, 890), 0.00010420480979794109),
    ((3, 0, 0, 37), 0.00010121457489878545),
    ((20, 80, 180, 720), 0.544076000145843),
    ((499, 1, 1, 499), 9.249421992075048e-295),
]
_DIGITS = 1e-10  # in which scipy's logarithms are sure


class Numbers(unittest.TestCase):
    def test_chances_are_those_of_tables(self):
        for (a, b, c, d), due in TABLE:
            self.assertAlmostEqual(chance(a, a + b, c, c + d) / due, 1, delta=_DIGITS, msg=str((a, b, c, d)))

    def test_chances_are_counted(self):
        """By each way to deal so many builds out, one by one."""
        for bad, good, having in ((3, 4, 3), (5, 2, 4), (4, 4, 1)):
            ways: dict[int, int] = {}
            for deal in range(1 << (bad + good)):
                if bin(deal).count("1") == having:
                    count = bin(deal & ((1 << bad) - 1)).count("1")
                    ways[count] = ways.get(count, 0) + 1
            for a in range(max(0, having - good), min(bad, having) + 1):
                part, whole = tail(a, bad, having - a, good)
                due = Fraction(sum(it for count, it in ways.items() if count >= a), sum(ways.values()))
                self.assertEqual(Fraction(part, whole), due)

    def test_the_border_is_exact(self):
        self.assertFalse(is_below(4, 4, 0, 4, 7, Fraction(1, 10)))  # 7/70 is not below 1/10
        self.assertTrue(is_below(4, 4, 0, 4, 6, Fraction(1, 10)))

    def test_runs_are_packed_and_unpacked(self):
        runs = [Run(2, 0, 5), Run(0, 0, None), Run(1, 70_000, 70_000)]
        self.assertEqual(sorted(unpacked(packed(runs), 3), key=lambda it: it.command),
                         sorted(runs, key=lambda it: it.command))
        self.assertEqual(unpacked(packed([]), 0), [])

    def test_a_failed_command_began_when_a_job_was_free(self):
        """Of two jobs one is free from 50 on, when command 1 ends, and the command that failed was seen at 80. Command
        0 ends at 60, which is later."""
        runs = [Run(0, 0, 60), Run(1, 3, 50), Run(2, 80, 90)]
        self.assertEqual(settled(runs, {2}, [[], [], []], 2), [Run(0, 0, 60), Run(1, 0, 50), Run(2, 50, 90)])
        # it waits for command 0, through a phony edge
        self.assertEqual(settled(runs, {2}, [[], [], [3], [0]], 2)[2], Run(2, 60, 90))
        # three jobs: one was free from the begin on
        self.assertEqual(settled(runs, {2}, [[], [], []], 3)[2], Run(2, 0, 90))
        # nobody knows how many jobs there were, or the log has the begin
        self.assertEqual(settled(runs, {2}, [[], [], []], 0)[2], Run(2, 60, 90))
        self.assertEqual(settled(runs, set(), [[], [], []], 2)[2], Run(2, 60, 90))

    def test_texts_of_others_are_no_runs(self):
        def text(data: bytes) -> str:
            return base64.b64encode(zlib.compress(data)).decode()
        good = packed([Run(0, 0, 5)])
        for it in ("", "?", good[:-4], text(b"\0\0"), text(b"\xff" * 20), text(b"\x04\0\0"), text(b"\0\0\0\0\0\0"),
                   text(b"\0\1\0"), text(b"\0\0\x80"), base64.b64encode(b"no").decode()):
            with self.assertRaises(BadText, msg=it):
                unpacked(it, 2)
        with self.assertRaises(BadText):
            unpacked(text(b"\0" * (1 << 27)), 1 << 27)


def orders_of(anchor: int, them: list[Build], manifest: Manifest) -> Orders:
    """How commands stood to an anchor that failed in some builds."""
    counting = OrderCount(anchor, manifest, failed_or_not(anchor), False)
    for it in them:
        columns = it.columns(len(manifest.names))
        counting.add(it, columns, is_stopped(it, columns))
    return counting.total()


class Case(unittest.TestCase):
    def setUp(self):
        self.room = pathlib.Path(tempfile.mkdtemp(prefix="rebug-flakes-"))
        self.addCleanup(shutil.rmtree, self.room)

    def write(self, project: many_builds.Project, seeds: range, name: str = "builds", **how: object) -> pathlib.Path:
        path = self.room / name
        path.write_text("".join(project.build(it, **how) for it in seeds))
        return path

    def flakes(self, *words: object, **how: object) -> tuple[int, list[dict], str]:
        """The answer as JSON."""
        ran = subprocess.run([sys.executable, FLAKES, *words, "--json"],
                             **{"capture_output": True, "text": True, "stdin": subprocess.DEVNULL, **how})
        assert not misfits(ran.stdout.encode(), "flakes"), misfits(ran.stdout.encode(), "flakes")
        return ran.returncode, [json.loads(it) for it in ran.stdout.splitlines()], ran.stderr

    def told(self, *words: object) -> tuple[int, str, str]:
        ran = subprocess.run([sys.executable, FLAKES, *words], capture_output=True, text=True,
                             stdin=subprocess.DEVNULL)
        return ran.returncode, ran.stdout, ran.stderr

    def orders(self, path: pathlib.Path, status: int = 4) -> list[dict]:
        found = self.flakes(path)
        self.assertEqual((found[0], found[2]), (status, ""))
        return [it for it in found[1] if it["kind"] == "order"]


class Culprits(Case):
    def test_a_file_that_is_made_too_late(self):
        path = self.write(many_builds.race(), range(BUILDS))
        (it,) = self.orders(path)
        self.assertEqual((it["named"], it["command"], it["anchor"], it["state"], it["moment"], it["holds"], it["ties"]),
                         (True, "tab.h", "use.o", "had ended", 0, False, []))
        self.assertEqual((it["bad"][0], it["good"][0], [its["id"] for its in it["findings"]]),
                         (it["bad"][1], 0, ["a8a4fcf42eb58d0f"]))
        self.assertEqual(it["bad"][1] + it["good"][1], BUILDS)
        self.assertTrue(9 <= it["bad"][1] <= 31, it)
        status, said, _ = self.told(path)
        bad, good = it["bad"][1], it["good"][1]
        self.assertIn(f"  it separates: in {bad} of {bad} failing builds tab.h had not ended when use.o began; in 0 of "
                      f"{good} passing ones (chance ", said)
        self.assertIn("    mend: build.ninja:1: build use.o: ... || tab.h\n", said)

    def test_a_lock_that_nothing_observes(self):
        (it,) = self.orders(self.write(many_builds.lock(), range(BUILDS)))
        self.assertEqual((it["named"], it["command"], it["state"], it["moment"], it["holds"], it["findings"]),
                         (True, "holder", "ran", 0, True, []))
        self.assertEqual((it["bad"][0], it["good"][0]), (it["bad"][1], 0))

    def test_a_file_that_is_gone_too_early(self):
        (it,) = self.orders(self.write(many_builds.gone(), range(BUILDS)))
        self.assertEqual((it["named"], it["command"], it["state"], it["moment"], it["holds"]),
                         (True, "cleaner", "had ended", 0, True))

    def test_two_culprits(self):
        them = self.orders(self.write(many_builds.two_culprits(), range(3 * BUILDS)))
        self.assertEqual({it["command"] for it in them if it["named"]}, {"a", "b"}, them)

    def test_commands_of_the_same_times_are_a_tie(self):
        project = many_builds.race()
        times = project.times
        project.waits["twin.h"] = ["o0"]

        def with_a_twin(chance: random.Random) -> dict[str, tuple[int, int]]:
            found = times(chance)
            found["twin.h"] = found["tab.h"]
            return found

        project.times = with_a_twin  # type: ignore[method-assign]
        (it,) = self.orders(self.write(project, range(BUILDS)))
        self.assertEqual((it["command"], it["ties"], it["named"]), ("tab.h", ["twin.h"], True))

    def test_what_waits_for_the_culprit_is_no_culprit(self):
        (it,) = self.orders(self.write(many_builds.race(), range(BUILDS)))
        self.assertNotIn("list.o", [it["command"], *it["ties"]])

    def test_few_builds_are_not_certain(self):
        path = self.write(many_builds.race(), range(5))
        (it,) = self.orders(path)
        self.assertEqual((it["named"], type(it["more"])), (False, int))
        self.assertIn("    try: rebug shuffle BUILD --overlap -- use.o\n", self.told(path)[1])

    def test_labels_by_chance_name_nobody(self):
        """The builds that fail are dealt out anew, so nothing separates them."""
        names, chance_of = 0, random.Random(7)
        project = many_builds.race()
        project.fails = lambda it: None
        summaries = Summaries()
        summaries.read([str(self.write(project, range(BUILDS)))])
        (manifest,), them = summaries.manifests.values(), list(summaries.builds.values())
        anchor = manifest.names.index("use.o")
        for _ in range(TRIES):
            bad = set(chance_of.sample(range(BUILDS), BUILDS // 3))
            for at, it in enumerate(them):
                it.failed = {anchor: ""} if at in bad else {}
            orders = orders_of(anchor, them, manifest)
            found = judge(anchor, manifest, orders, tests_of(orders))
            names += found.culprits[0].is_named
        self.assertLessEqual(Fraction(names, TRIES), SHARE_OF_TRIES)

    def test_a_command_that_did_not_run_counts_in_no_order(self):
        """`seldom` runs in passing builds alone, as where a build is not from nothing."""
        project = many_builds.race()
        project.waits["seldom"] = []
        text = []
        for seed in range(BUILDS):
            *names, build = project.build(seed).splitlines()
            it = json.loads(build)
            it["nothing"] = False
            runs = unpacked(it["runs"], len(project.waits))
            if it["failed"]:
                runs = [run for run in runs if run.command != len(project.waits) - 1]
            text += [*names, json.dumps({**it, "runs": packed(runs)})]
        (self.room / "builds").write_text("\n".join(text) + "\n")
        for it in self.orders(self.room / "builds"):
            self.assertNotIn("seldom", [it["command"], *it["ties"]])

    def test_what_a_stopped_build_never_began_is_no_cause(self):
        """`o5` and all that comes behind the failure never begin there, and are not named."""
        for project, culprit in ((many_builds.race(), "tab.h"), (many_builds.gone(), "cleaner")):
            (it,) = self.orders(self.write(project, range(BUILDS)))
            self.assertEqual((it["command"], it["ties"]), (culprit, []))


class ProvedCounts(Case):
    """The counts of the proved program, where it is built: tests/separation compares them with those of Python."""

    def both(self, path: pathlib.Path, program: str, is_partial: bool) -> tuple[list[str], list[str]]:
        """The sums and the words by Python alone and by a program."""
        found = []
        for it in ("/nowhere", program):
            summaries = Summaries()
            summaries.read([str(path)])
            with unittest.mock.patch("recorder.flakes.proved.asking_program", lambda it=it: it):
                them = counted(summaries, [], is_partial)
            found.append([*_partial(them), *told_lines(them)])
        return found[0], found[1]

    def test_a_program_that_has_no_answer_changes_nothing(self):
        for name, text in {"fails": "exit 2", "other": "echo '{}'", "short": "echo '{\"anchor\":7,\"passing\":[]}'",
                           "words": "echo no"}.items():
            program = self.room / name
            program.write_text(f"#!/bin/sh\ncat > /dev/null\n{text}\n")
            program.chmod(0o755)
            path = self.write(many_builds.race(), range(9))
            for is_partial in (False, True):
                own, other = self.both(path, str(program), is_partial)
                self.assertEqual(own, other)


class Answers(Case):
    def test_rates_first_and_last_builds_and_labels(self):
        project = many_builds.race()
        fails = [bool(project.fails(project.times(random.Random(it)))) for it in range(BUILDS)]
        path = self.room / "builds"
        path.write_text("".join(project.build(it, {"commit": "abc"[it % 3], "machine": "m"}) for it in range(BUILDS)))
        status, found, said = self.flakes(path)
        failed = next(it for it in found if it["kind"] == "failed")
        bad = [it for it, is_bad in enumerate(fails) if is_bad]
        self.assertEqual((failed["output"], failed["failed"], failed["ran"]), ("use.o", len(bad), BUILDS))
        self.assertEqual([failed[it]["when"] for it in ("first", "last")],
                         [1_700_000_000 + bad[0], 1_700_000_000 + bad[-1]])
        self.assertEqual(failed["last"]["labels"], {"commit": "abc"[bad[-1] % 3], "machine": "m"})
        due = {f"commit={'abc'[at]}": sum(it % 3 == at for it in bad) for at in range(3)}
        self.assertEqual(failed["labels"], {**due, "machine=m": len(bad)})
        self.assertRegex(self.told(path)[1], r"\n  by commit: [abc] \d+ of 1[34], [abc] \d+ of 1[34], [abc] ")

    def test_no_failure(self):
        project = many_builds.race()
        project.fails = lambda it: None
        path = self.write(project, range(5))
        status, said, errors = self.told(path)
        self.assertEqual((status, errors), (0, ""))
        self.assertEqual(said.splitlines(), [
            "manifest 0123456789abcdef: 5 builds, 0 failed; 18 commands",
            "harmless so far: race tab.h (a8a4fcf42eb58d0f): before in 5"])

    def test_a_command_that_always_fails(self):
        project = many_builds.race()
        project.fails = lambda it: "use.o"
        status, said, _ = self.told(self.write(project, range(5)))
        self.assertEqual(status, 4)
        self.assertIn("failed in each of 5 builds in which it ran", said)

    def test_a_build_that_is_told_of_twice_counts_once(self):
        path = self.write(many_builds.race(), range(5))
        once = self.told(path)
        path.write_text(path.read_text() * 2)
        self.assertEqual(self.told(path), once)

    def test_files_folders_and_standard_input(self):
        project = many_builds.race()
        path = self.write(project, range(BUILDS))
        due = self.told(path)[:2]
        folder = self.room / "folder"
        (folder / "inner").mkdir(parents=True)
        for seed in range(BUILDS):
            (folder / ("inner" if seed % 2 else ".") / f"{seed}.jsonl").write_text(project.build(seed))
        self.assertEqual(self.told(folder)[:2], due)
        with path.open() as file:
            ran = subprocess.run([sys.executable, FLAKES, "-"], stdin=file, capture_output=True, text=True)
        self.assertEqual((ran.returncode, ran.stdout), due)

    def test_sums_of_64_files_add_up_in_any_order(self):
        project, sums = many_builds.race(), []
        for seed in range(64):
            summaries = Summaries()
            summaries.read([str(self.write(project, range(seed, seed + 1), f"{seed}.jsonl"))])
            sums.append("".join(it + "\n" for it in _partial(counted(summaries, ["use.o"], True))))
        whole = self.told(*(self.room / f"{seed}.jsonl" for seed in range(64)))
        for seed in range(3):
            random.Random(seed).shuffle(sums)
            (self.room / "sums").write_text("".join(sums))
            self.assertEqual(self.told(self.room / "sums"), whole)
        ran = subprocess.run([sys.executable, FLAKES, "--partial", self.room / "sums"], capture_output=True, text=True)
        (self.room / "all").write_text(ran.stdout)
        self.assertEqual(self.told(self.room / "all"), whole)
        self.assertEqual(self.told(self.room / "sums", "--json"), self.told(*(self.room / f"{seed}.jsonl" for seed in
                                                                              range(64)), "--json"))

    def same_bytes_by(self, *words: str) -> None:
        """Ten of 64 files a part, which the words count side by side."""
        project, sums = many_builds.race(), self.room / "sums"
        paths = [self.write(project, range(seed, seed + 1), f"{seed}.jsonl") for seed in range(64)]
        sums.mkdir()
        ran = subprocess.run(words, input="".join(f"{path}\n" for path in paths), capture_output=True, text=True,
                             cwd=sums)
        self.assertEqual((ran.returncode, ran.stdout, len(os.listdir(sums))), (0, "", 7), ran.stderr)
        for words in ([], ["--json"]):
            self.assertEqual(self.told(sums, *words), self.told(*paths, *words))

    @unittest.skipUnless(HAS_PARALLEL, "there is no GNU parallel on the PATH")
    def test_parts_that_gnu_parallel_counts_give_the_same_bytes(self):
        self.same_bytes_by("parallel", "-n", "10", f"{EACH} {{}} > {{#}}")

    @unittest.skipUnless(shutil.which("xargs"), "there is no xargs on the PATH")
    def test_parts_that_xargs_counts_give_the_same_bytes(self):
        self.same_bytes_by("xargs", "-n", "10", "-P", "4", "sh", "-c", f'{EACH} "$@" > $$', "part")

    def test_sums_without_the_orders_of_an_anchor_say_so(self):
        """A part in which nothing fails has no anchor, unless it is named."""
        project, text = many_builds.race(), ""
        for seed in range(12):
            path = self.write(project, range(seed, seed + 1), f"{seed}.jsonl")
            text += subprocess.run([sys.executable, FLAKES, "--partial", path], capture_output=True, text=True).stdout
        (self.room / "sums").write_text(text)
        self.assertIn("of these builds: write each sum with --anchor use.o\n", self.told(self.room / "sums")[1])

    def test_sizes(self):
        """Compressed at most 12 bytes a command, 20 with digests of what commands left, and 200 a finding."""
        chance_of, count = random.Random(3), 1_000
        names = [f"some/folder/with/names/{it}.o" for it in range(count)]
        runs = [Run(it, 7 * it, 7 * it + chance_of.randrange(60_000)) for it in range(count)]
        processor = {it: chance_of.randrange(60_000) for it in range(count)}
        left = {it: chance_of.randbytes(6) for it in range(count)}
        findings = [Finding(f"{chance_of.getrandbits(64):016x}", "race", name, at, 0, "before",
                            f"build.ninja:{at}: build {names[0]}: ... || {name}") for at, name in enumerate(names)]

        def size(found: list[Finding], **members: dict) -> int:
            build = summary.Build(names, [("build.ninja", it) for it in range(count)], [[] for _ in names], "0" * 16,
                                  runs, {}, "1.11.1", 4, 1_700_000_000, True, **members)
            _, *lines = lines_of(build, found, {})
            return len(zlib.compress("\n".join(lines).encode(), 9))

        self.assertLessEqual(size([], processor=processor), 12 * count)
        self.assertLessEqual(size([], processor=processor, left=left), 20 * count)
        self.assertLessEqual(size(findings) - size([]), 200 * count)
        self.assertGreater(size([], processor=processor), size([]))


class OtherBytes(Case):
    def test_the_order_of_a_command_that_leaves_other_bytes(self):
        """`use.o` fails in no build, and leaves other bytes where `tab.h` has not ended; `app` only follows it."""
        project, text = many_builds.race(), []
        fails, names = project.fails, project.names()
        project.fails = lambda it: None
        for seed in range(BUILDS):
            *more, build = project.build(seed).splitlines()
            it = json.loads(build)
            is_other = bool(fails(project.times(random.Random(seed))))
            left = [b"same.." for _ in names]
            for name in ("use.o", "app"):
                left[names.index(name)] = b"other." if is_other else b"same.."
            left[names.index("o4")] = b"%06d" % seed  # a date: other bytes in each build
            it["left"] = base64.b64encode(b"".join(left)).decode()
            text += [*more, json.dumps(it)]
        (self.room / "builds").write_text("\n".join(text) + "\n")
        (it,) = self.orders(self.room / "builds")
        self.assertEqual((it["what"], it["anchor"], it["command"], it["named"], it["state"], it["holds"]),
                         ("left", "use.o", "tab.h", True, "had ended", False))
        self.assertIn("o4 (build.ninja:9) leaves other bytes in most builds, in any order (rebug rerun)\n",
                      self.told(self.room / "builds")[1])


class BadInput(Case):
    def test_lines_of_others_are_said_and_the_rest_counts(self):
        good = self.write(many_builds.race(), range(BUILDS)).read_text()
        whole = self.told(self.room / "builds")[1]
        last = good.splitlines()[-1]
        lines = [last[: len(last) // 2], "[]", "null", "7", "no line", '{"rebug":"other","version":1}',
                 last.replace('"version":1', '"version":2'), last.replace('"manifest":"0123', '"manifest":"x123'),
                 last.replace('"labels":{}', '"labels":[]'), last.replace('"when":', '"when":-'),
                 '{"rebug":"names","version":1,"manifest":"0123456789abcdef","names":[],"places":[],"waits":[]}',
                 '{"rebug":"names","version":1,"manifest":"1123456789abcdef","names":["a"],"places":["b"],'
                 '"waits":[[5]]}', "[" * 100_000]
        said = ["cut off", "no line of a summary", "no line of a summary", "no line of a summary", "cut off",
                "no line of a summary", "version 2, which this rebug does not read", "names no manifest",
                "a build with other members", "a build with other members", "other names for manifest",
                "some wait for none of them", "cut off"]
        for line, due in zip(lines, said):
            (self.room / "bad").write_text(good + line + "\n")
            status, text, errors = self.told(self.room / "bad")
            self.assertEqual((status, text, errors.count("\n")), (4, whole, 1), errors)
            self.assertIn(f"{self.room}/bad:{good.count(chr(10)) + 1}: ", errors)
            self.assertIn(due, errors)

    def test_builds_without_names_and_with_runs_of_others(self):
        text = self.write(many_builds.race(), range(3)).read_text()
        names, finding, build = text.splitlines()[:3]
        (self.room / "bad").write_text(build + "\n")
        status, said, errors = self.told(self.room / "bad")
        self.assertEqual((status, said), (3, ""))
        self.assertIn("no line has the names of its manifest 0123456789abcdef", errors)
        (self.room / "bad").write_text(text + build.replace('"id":"', '"id":"x').replace('"runs":"', '"runs":"AAAA'))
        status, said, errors = self.told(self.room / "bad")
        self.assertIn("3 builds, ", said)
        self.assertRegex(errors, r"\Arebug flakes: build x[0-9a-f]{16}: its runs are no text of this form\n\Z")

    def test_two_manifests_are_not_mixed(self):
        one, other = many_builds.race(), many_builds.lock()
        text = "".join(one.build(it) for it in range(BUILDS))
        text += "".join(other.build(it) for it in range(BUILDS)).replace("0123456789abcdef", "fedcba9876543210")
        (self.room / "builds").write_text(text)
        them = self.orders(self.room / "builds")
        self.assertEqual(sorted((it["manifest"], it["command"]) for it in them),
                         [("0123456789abcdef", "tab.h"), ("fedcba9876543210", "holder")])

    def test_sums_of_others(self):
        path = self.write(many_builds.race(), range(6))
        text = subprocess.run([sys.executable, FLAKES, "--partial", path], capture_output=True, text=True).stdout
        for old, new in (('"builds":6', '"builds":-6'), ('"good":{', '"good":{"99":[],'),
                         ('"used":', '"used":"x","y":'), ('"bad":{', '"bad":{"x":"12",')):
            self.assertIn(old, text)
            (self.room / "sums").write_text(text.replace(old, new, 1))
            status, said, errors = self.told(self.room / "sums")
            self.assertEqual((status, said, "sums with " in errors), (3, "", True), errors)

    def test_many_lines(self):
        good = self.write(many_builds.race(), range(3)).read_text()
        (self.room / "many").write_text("x\n" * 1_000_000 + good)
        status, said, errors = self.told(self.room / "many")
        self.assertIn("3 builds, ", said)
        self.assertEqual((errors.count("\n"), "999,990 more lines do not count" in errors), (11, True), errors[-200:])
        self.assertIn(f"{self.room}/many:1: it is cut off", errors)

    def test_an_anchor_that_no_manifest_has(self):
        path = self.write(many_builds.race(), range(3))
        status, said, errors = self.told("--partial", "--anchor", "other", path)
        self.assertEqual(errors, "rebug flakes: --anchor other: no manifest has a command of which that is the first "
                                 "output\n")
        self.assertEqual((status, json.loads(said.splitlines()[-1])["builds"]), (0, 3))

    def test_a_failed_command_that_the_manifest_does_not_have(self):
        *more, build = self.write(many_builds.race(), range(3)).read_text().splitlines()
        it = json.loads(build)
        (self.room / "bad").write_text("\n".join([*more, json.dumps({**it, "id": "x", "failed": {"18": ""}})]) + "\n")
        self.assertIn("build x: a command failed there that its manifest does not have\n",
                      self.told(self.room / "bad")[2])

    def test_manifests_of_which_commands_wait_for_each_other(self):
        """No manifest of Ninja's is so. Each command that separates waits for each other one."""
        text = []
        for seed in range(BUILDS):
            for line in many_builds.race().build(seed).splitlines():
                it = json.loads(line)
                if it["rebug"] == "names":
                    it["waits"] = [[(at + 1) % 18] if at not in (7, 6) else [] for at in range(18)]
                text.append(json.dumps(it))
        (self.room / "round").write_text("\n".join(text) + "\n")
        status, _, errors = self.told(self.room / "round")
        self.assertEqual((status, errors), (4, ""))

    def test_signals_and_a_full_disk(self):
        """A call that waits for more of its input is ended by a signal."""
        good = self.write(many_builds.race(), range(3)).read_text()
        for number in (signal.SIGINT, signal.SIGTERM, signal.SIGHUP, signal.SIGKILL):
            asked = subprocess.Popen([sys.executable, FLAKES, "-"], stdin=subprocess.PIPE, stdout=subprocess.PIPE,
                                     stderr=subprocess.PIPE, text=True)
            asked.stdin.write(good)
            asked.stdin.flush()
            builds.wait_until_asleep(asked.pid)
            asked.send_signal(number)
            said, errors = asked.communicate(timeout=builds.LONGEST_SECONDS)
            due = (-9, "") if number == signal.SIGKILL else (128 + number, f"rebug flakes: ended by {number.name}\n")
            self.assertEqual((asked.returncode, errors, said), (*due, ""))
        for word, path in ((FLAKES, self.room / "builds"), (SUMMARY, EXAMPLES / "failed")):
            with open("/dev/full", "wb") as full:
                more = ["--without-findings"] if word == SUMMARY else []
                ran = subprocess.run([sys.executable, word, path, *more], stdin=subprocess.DEVNULL, stdout=full,
                                     stderr=subprocess.PIPE, text=True)
            self.assertEqual((ran.returncode, ran.stderr.count("\n")), (3, 1), ran.stderr)
            self.assertIn(" cannot be written\n", ran.stderr)

    def test_words_and_files(self):
        path = self.write(many_builds.race(), range(3))
        for words, status, due in (([], 2, "wants summaries"), (["--partial", "--json", path], 2, "leave --json out"),
                                   ([self.room / "none"], 2, "there is no such file"), (["--other"], 2, "unrecognized"),
                                   ([os.devnull], 2, "it is no file")):
            found = self.told(*words)
            self.assertEqual((found[0], found[1], found[2].count("\n")), (status, "", 1), found)
            self.assertIn(due, found[2])
        self.assertEqual(self.told("--help")[0], 0)


class Summary(Case):
    def summary(self, *words: object) -> subprocess.CompletedProcess[str]:
        return subprocess.run([sys.executable, SUMMARY, *words], capture_output=True, text=True,
                              stdin=subprocess.DEVNULL)

    def lines(self, *words: object) -> dict[str, list[dict]]:
        ran = self.summary(*words)
        self.assertEqual((ran.returncode, ran.stderr), (0, ""))
        found: dict[str, list[dict]] = {}
        self.assertEqual(misfits(ran.stdout.encode(), "summary"), [])
        for it in map(json.loads, ran.stdout.splitlines()):
            found.setdefault(it["rebug"], []).append(it)
        return found

    def test_a_build_that_failed(self):
        """By the example's own trace and times."""
        found = self.lines(EXAMPLES / "failed", "--without-findings", "--label", "commit=1", "--label", "where=a b")
        (names,), (build,) = found["names"], found["build"]
        self.assertEqual(names["names"], ["version.h", "table.h", "list.o", "text.o", "about.o", "main.o", "app"])
        self.assertEqual(names["waits"], [[], [], [], [], [0], [1], [2, 3, 4, 5]])
        self.assertEqual(build["failed"], {"5": "main.c:2:10: fatal error: version.h: No such file or directory"})
        self.assertEqual((build["ninja"], build["jobs"], build["labels"], build["nothing"]),
                         ("1.11.1", 4, {"commit": "1", "where": "a b"}, True))
        runs = {names["names"][it.command]: (it.began, it.ended) for it in unpacked(build["runs"], 7)}
        times = dict(it.split() for it in (EXAMPLES / "failed/times").read_text().splitlines()[1:])
        self.assertLessEqual(int(times["0:8"]), runs["main.o"][0])  # table.h, which it waits for, has ended
        self.assertEqual(runs["main.o"], (int(times["0:8"]), int(times["0:10"])))
        self.assertEqual(set(runs), {"version.h", "table.h", "list.o", "text.o", "main.o"})

    def test_processor_times(self):
        """They stand beside the ends of commands in version 2 of `times`, and nothing else of the summary changes."""
        copy = self.room / "copy"
        shutil.copytree(EXAMPLES / "failed", copy)
        (plain,) = self.lines(copy, "--without-findings")["build"]
        self.assertNotIn("processor", plain)
        spent = {"0:8": "340 2048", "0:10": "12 1024"}  # table.h ends there, and main.o fails
        lines = (copy / "times").read_text().splitlines()[1:]
        (copy / "times").write_text("rebug-times 2\n" + "".join(
            " ".join([it, *filter(None, [spent.get(it.split()[0])])]) + "\n" for it in lines))
        (build,) = self.lines(copy, "--without-findings")["build"]
        self.assertEqual({**plain, "processor": build["processor"], "id": build["id"]}, build)
        its = dict(zip([it.command for it in in_order(unpacked(build["runs"], 7))],
                       unpacked_numbers(build["processor"])))
        self.assertEqual(its, {0: -1, 1: 340, 2: -1, 3: -1, 5: 12})

    def test_what_commands_left(self):
        """Where the recording has contents. A date is other bytes in another build, and what copies it, too."""
        found = []
        for text in ("one", "two"):
            folder = self.room / text
            (folder / "build").mkdir(parents=True)
            (folder / "build/build.ninja").write_text(
                RULES + statement("a", "cat ../date > a", "../date") + statement("b", "cat a > b", "a")
                + statement("c", "echo c > c") + statement("d", "false", "c"))
            (folder / "date").write_text(text)
            ran = subprocess.run([sys.executable, builds.RECORDER, folder / "build", folder / "out", "--observe",
                                  "--contents", "--", "-k", "0"], capture_output=True, stdin=subprocess.DEVNULL)
            self.assertTrue((folder / "out/contents").is_file(), ran.stderr)
            (build,) = self.lines(folder / "out", "--without-findings")["build"]
            left = base64.b64decode(build["left"])
            found.append([left[at : at + 6] for at in range(0, len(left), 6)])
        one, two = found
        self.assertEqual([it == other for it, other in zip(one, two)], [False, False, True, True])
        self.assertEqual((len(one), one[3], bytes(6) in one[:3]), (4, bytes(6), False))

    def test_a_manifest_is_the_same_in_each_folder(self):
        """No whole path is in a summary, and the manifest's name is that of the same build elsewhere."""
        found = []
        for name in ("here", "there"):
            folder = self.room / name / "build"
            folder.mkdir(parents=True)
            (folder / "in").write_text("in\n")
            (folder / "build.ninja").write_text(RULES + statement("a", f"cat {folder}/in > {folder}/a", f"{folder}/in")
                                                + statement("b", f"echo {folder}/x >&2; false", "a"))
            subprocess.run([sys.executable, builds.RECORDER, folder, self.room / name / "out"], capture_output=True,
                           stdin=subprocess.DEVNULL)
            ran = self.summary(self.room / name / "out", "--without-findings")
            self.assertEqual(ran.returncode, 0, ran.stderr)
            self.assertNotIn(str(self.room), ran.stdout)
            found.append(json.loads(ran.stdout.splitlines()[-1]))
        self.assertEqual(found[0]["manifest"], found[1]["manifest"])
        self.assertEqual(found[0]["failed"], {"1": "/x"})
        other = self.lines(EXAMPLES / "failed", "--without-findings")["build"][0]["manifest"]
        self.assertNotEqual(found[0]["manifest"], other)

    def test_bad_words_and_recordings(self):
        for words, status, due in (([], 2, "wants one recording"), ([self.room / "no"], 2, "there is no recording"),
                                   ([self.room], 2, "it has no file build.ninja"),
                                   ([EXAMPLES / "failed", "--label", "x"], 2, "a name"),
                                   ([EXAMPLES / "failed", "--rebug", "/nowhere"], 3, "races cannot be asked")):
            ran = self.summary(*words)
            self.assertEqual((ran.returncode, ran.stdout, ran.stderr.count("\n")), (status, "", 1), ran.stderr)
            self.assertIn(due, ran.stderr)
        copy = self.room / "copy"
        shutil.copytree(EXAMPLES / "failed", copy)
        (self.room / "rules.ninja").write_text("rule r\n  command = true\n")
        for text, due in (("include ../rules.ninja\n", "no file of a recording has this name"),
                          (f"include {self.room}/rules.ninja\n", "no file of a recording has this name"),
                          (None, "it is a link")):
            (copy / "build.ninja").unlink()
            if text:
                (copy / "build.ninja").write_text(text)
            else:
                (copy / "build.ninja").symlink_to(self.room / "rules.ninja")
            ran = self.summary(copy, "--without-findings")
            self.assertEqual((ran.returncode, ran.stdout, ran.stderr.count("\n")), (2, "", 1), ran.stderr)
            self.assertIn(due, ran.stderr)
        (copy / "build.ninja").unlink()
        shutil.copy(EXAMPLES / "failed" / "build.ninja", copy)
        (copy / "trace").write_bytes((copy / "trace").read_bytes().replace(b"start text.o", b"start other.o"))
        ran = self.summary(copy, "--without-findings")
        self.assertEqual((ran.returncode, ran.stderr.count("\n")), (2, 1), ran.stderr)
        line = (copy / "trace").read_text().splitlines().index("start other.o 3") + 1
        self.assertIn(f"trace:{line}: a command that the manifest does not have", ran.stderr)
        (copy / "trace").unlink()
        self.assertIn("it has no file trace", self.summary(copy, "--without-findings").stderr)


if __name__ == "__main__":
    unittest.main()
