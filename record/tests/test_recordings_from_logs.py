"""Recordings of Ninja's logs alone, beside those of the same builds that Ninja ran for the recorder."""

import os
import pathlib
import shutil
import subprocess
import sys
import tempfile
import unittest

import builds
import taken
from builds import missing_tools
from recorder.from_logs import last_build, runs_of
from recorder.logs import LogEntry
from recorder.manifest import Manifest
from recorder.ninja import Ninja

MANIFEST = """\
rule cc
  command = cat $in > $out && sleep 0.05 && echo "$out: $in h.h" > $out.d
  depfile = $out.d
  deps = gcc
rule make
  command = sleep 0.05; cat $in > $out
rule rest
  command = cmp -s $in $out || cp $in $out
  restat = 1
rule bad
  command = false
build h.h: make h.in
build r.h: rest h.in
build a.o: cc a.c || r.h h.h
build b.o: cc b.c || h.h
build app: make a.o b.o
build test: make app
build broken: bad app
build all: phony app
default all
"""
SECOND = 1_000_000_000
OF_DYNDEP = """\
rule cp
  command = cp $in $out
build dd: cp dd-in
build o: cp s || dd
  dyndep = dd
build p: cp o
"""


def manifest(text):
    return Manifest(b"build.ninja", lambda _: text.encode())


def lines(*entries):
    """Lines of a log: start and end in milliseconds, the second at which that Ninja began, the output."""
    return [LogEntry(start, end, begin * SECOND + start * 1_000_000, path, 1) for start, end, begin, path in entries]


class RunsOfALog(unittest.TestCase):
    """Which lines are of one run of Ninja, and which runs are one build. The stamps are those of Ninja 1.12."""

    def build(self, *entries):
        it = manifest(MANIFEST)
        found = last_build(runs_of(lines(*entries), it, Ninja("", (1, 12))), it)
        return [it.output for it in found.earlier], [(it.start, it.end, it.output) for it in found.ran]

    def test_times_that_count_anew_begin_a_run(self):
        self.assertEqual(self.build((0, 50, 100, b"h.h"), (50, 90, 100, b"b.o"), (2, 40, 200, b"b.o")),
                         ([b"h.h"], [(2, 40, b"b.o")]))

    def test_a_run_that_began_when_the_other_had_ended_is_another(self):
        self.assertEqual(self.build((0, 50, 100, b"h.h"), (0, 500, 200, b"h.h")), ([], [(0, 500, b"h.h")]))
        self.assertEqual(self.build((0, 50, 100, b"h.h"), (50, 90, 100, b"b.o"), (0, 500, 200, b"h.h")),
                         ([b"b.o"], [(0, 500, b"h.h")]))

    def test_runs_with_nothing_in_common_are_one_build(self):
        self.assertEqual(self.build((0, 50, 100, b"h.h"), (10, 60, 103, b"b.o")),
                         ([], [(0, 50, b"h.h"), (3_010, 3_060, b"b.o")]))

    def test_what_waits_for_a_command_that_ran_again_is_of_an_earlier_build(self):
        self.assertEqual(self.build((0, 50, 100, b"app"), (5, 55, 200, b"test"), (10, 60, 300, b"app")),
                         ([b"test"], [(10, 60, b"app")]))

    def test_a_run_whose_order_is_lost_is_none_of_the_build(self):
        """Ninja wrote its log anew: the lines of the first build stand in no order, and begin at one time."""
        self.assertEqual(self.build((60, 9_000, 100, b"app"), (0, 5_000, 100, b"h.h"), (3, 5_500, 100, b"a.o"),
                                    (0, 9, 200, b"test")), ([b"app", b"h.h", b"a.o"], [(0, 9, b"test")]))

    def test_a_run_whose_user_did_not_run_behind_it_is_none_of_the_build(self):
        """`app` has `b.o` as an input, and `group` is a name for it."""
        self.assertEqual(self.build((60, 90, 100, b"app"), (0, 50, 100, b"b.o"), (0, 9, 200, b"test")),
                         ([b"app", b"b.o"], [(0, 9, b"test")]))
        it = manifest(MANIFEST + "build group: phony b.o\nbuild late: make group\n")
        log = lines((60, 90, 100, b"late"), (0, 50, 100, b"b.o"), (0, 9, 200, b"h.h"))
        found = last_build(runs_of(log, it, Ninja("", (1, 12))), it)
        self.assertEqual([one.output for one in found.ran], [b"h.h"])

    def test_what_began_before_its_input_was_made_is_of_a_later_run(self):
        """`rest` has `restat`, so its stamp does not tell when Ninja began; `a.o` waits for it."""
        self.assertEqual(self.build((0, 50, 100, b"r.h"), (10, 60, 103, b"a.o")),
                         ([], [(0, 50, b"r.h"), (3_010, 3_060, b"a.o")]))

    def test_a_late_stamp_begins_no_run(self):
        found = runs_of(lines((0, 5, 100, b"h.h")) + [LogEntry(1, 9, 100 * SECOND + 400_000_000, b"test", 1)],
                        manifest(MANIFEST), Ninja("", (1, 12)))
        self.assertEqual([len(it.entries) for it in found], [2])


class FromLogs(unittest.TestCase):
    """Real builds by the Ninja on the PATH, and recordings of what they logged."""

    def setUp(self):
        lacking = missing_tools("ninja")
        if lacking:
            self.skipTest(lacking)
        self.folder = pathlib.Path(tempfile.mkdtemp(prefix="rebug-from-logs-"))
        self.addCleanup(shutil.rmtree, self.folder)
        self.build = self.folder / "build"
        self.build.mkdir()
        self.write("build.ninja", MANIFEST)
        for name in ("h.in", "a.c", "b.c"):
            self.write(name, f"{name}\n")

    def write(self, name, text):
        (self.build / name).write_text(text)

    def ninja(self, *words, status=0):
        self.assertEqual(subprocess.run(["ninja", *words], cwd=self.build, capture_output=True).returncode, status)
        builds.wait_for_another_stamp()

    def record(self, *words, build=None, status=0):
        """A recording of the logs: what was said, and the lines of the trace."""
        out = self.folder / "out"
        done = subprocess.run([sys.executable, builds.RECORDER, "--from-logs", build or self.build, out, *words],
                              env={**os.environ, "PATH": "/nothing"}, capture_output=True, text=True)
        self.assertEqual(done.returncode, status, done.stderr)
        return done.stderr, (out / "trace").read_text().split("\n")[:-1] if status == 0 else []

    def words(self, trace, *wanted):
        return [" ".join(it.split(" ")[:2]) for it in trace if it.split(" ")[0] in wanted]

    def test_it_is_the_recording_of_the_build(self):
        """Of a build from nothing it is byte by byte the one that the recorder made while Ninja ran."""
        recorded = self.folder / "recorded"
        words = [sys.executable, builds.RECORDER, self.build, recorded, "-j", "4", "--", "app", "test"]
        subprocess.run(words, check=True, capture_output=True)
        said, _ = self.record("--", "app", "test")
        for name in ("trace", "times", "names", "output", "build.ninja", "script"):
            self.assertEqual((self.folder / "out" / name).read_text(), (recorded / name).read_text(), name)
        self.assertIn("no command that failed", said)

    def test_no_ninja_is_run(self):
        self.ninja()
        before = {it: it.stat().st_mtime_ns for it in self.build.rglob("*")}
        self.record()
        self.assertEqual({it: it.stat().st_mtime_ns for it in self.build.rglob("*")}, before)

    def test_what_was_built_before_stands_in_the_opening(self):
        self.ninja("app", "test")
        self.write("b.c", "other\n")
        self.ninja("app")
        said, trace = self.record()
        self.assertEqual(self.words(trace, "start", "finish"), ["start b.o", "finish b.o", "start app", "finish app"])
        self.assertEqual(self.words(trace, "built"), ["built a.o", "built h.h", "built r.h", "built test"])
        self.assertIn("4 commands of earlier builds that did not run in the last one", said)
        self.assertNotIn("rules differ", said)

    def test_a_log_that_was_written_anew_between_two_builds(self):
        """As CMake has Ninja do where it writes the manifest anew: the lines then stand in no order. `a.o` listed `h.h`
        and did not run behind it. `r.h` stands behind `||` alone, so no line says of which build it is."""
        self.ninja("app", "test")
        self.ninja("-t", "recompact")
        self.write("b.c", "other\n")
        self.ninja("app")
        said, trace = self.record()
        found = [it for it in self.words(trace, "start", "finish") if not it.endswith(" r.h")]
        self.assertEqual(found, ["start b.o", "finish b.o", "start app", "finish app"])
        self.assertNotIn("rules differ", said)

    def test_builds_one_after_the_other_are_one(self):
        self.ninja("app")
        self.ninja("test")
        said, trace = self.record()
        self.assertEqual(self.words(trace, "start")[-1], "start test")
        self.assertEqual(len(self.words(trace, "start")), 6)
        self.assertEqual(self.words(trace, "target"), ["target all", "target test"])
        self.assertNotIn("rules differ", said)

    def test_restat_that_left_its_output_alone(self):
        self.ninja("app")
        os.utime(self.build / "h.in")
        self.ninja("app")
        said, trace = self.record()
        self.assertIn("start r.h", self.words(trace, "start"))
        stamps = {it.split(" ")[1]: it.split(" ")[2] for it in trace if it.startswith("stamp ")}
        self.assertIn(f"finish r.h {stamps['r.h']}", trace)
        self.assertNotIn("rules differ", said)

    def test_the_first_output_of_restat_is_made_where_the_clock_is_coarse(self):
        """Its stamp is that of the last tick, which may be earlier than the beginning of Ninja."""
        begin = 1_700_000_000 * SECOND
        for early, was_there in ((2, False), (40, True)):
            stamps = {"h.in": begin - SECOND, "r.h": begin - early * 1_000_000, "h.h": begin + 59_000_000}
            for name, stamp in stamps.items():
                self.write(name, "")
                os.utime(self.build / name, ns=(stamp, stamp))
            self.write(".ninja_log", f"# ninja log v5\n0\t3\t{stamps['r.h']}\tr.h\t1\n"
                                     f"0\t60\t{stamps['h.h']}\th.h\t1\n")
            trace = self.record("--", "r.h", "h.h")[1]
            self.assertEqual(f"stamp r.h {stamps['r.h']}" in trace, was_there)
            self.assertIn(f"finish r.h {stamps['r.h']}", trace)

    def of_dyndep(self, told, *lines):
        """A recording of these lines of a log, and of a dyndep file as it is now: what was said, trace and notes."""
        begin = 1_700_000_000 * SECOND
        self.write("build.ninja", OF_DYNDEP)
        for place, name in enumerate(("s", "dd-in", "dd", "o", "p")):
            self.write(name, f"ninja_dyndep_version = 1\n{told}" if name == "dd" else "")
            os.utime(self.build / name, ns=(begin + place, begin + place))
        log = "".join(f"{start}\t{start + 5}\t{begin}\t{output}\t1\n" for start, output in lines)
        self.write(".ninja_log", f"# ninja log v5\n{log}")
        said, trace = self.record("--", "p")
        return said, trace, (self.folder / "out/dyndep/notes").read_text().splitlines()

    def test_a_dyndep_file_that_was_written_again(self):
        """Ninja logs all outputs of a command, and `new` was none of them."""
        said, trace, notes = self.of_dyndep("build o | new: dyndep\n", (0, "dd"), (5, "o"), (5, "old"), (10, "p"))
        self.assertIn("the dyndep file dd now says it makes: the file was written again since", said)
        self.assertIn("left-out o output new", notes)
        self.assertEqual([it.count(",") for it in trace if it.startswith("finish o ")], [0])
        self.assertIn("\nbuild o: cp s || dd\n", (self.folder / "out/build.ninja").read_text())

    def test_a_dyndep_file_that_was_made_again_and_whose_user_did_not_run(self):
        _, trace, notes = self.of_dyndep("build o | new: dyndep\n", (0, "dd"), (5, "o"), (5, "old"), (10, "p"),
                                         (0, "dd"))
        self.assertEqual(self.words(trace, "start", "finish"), ["start dd", "finish dd"])
        self.assertFalse([it for it in notes if it.startswith("left-out")])
        self.assertIn("\nbuild o | new : cp s || dd\n", (self.folder / "out/build.ninja").read_text())

    def test_a_dyndep_file_by_which_a_command_needs_itself(self):
        said, trace, notes = self.of_dyndep("build o: dyndep | p\n", (0, "dd"), (5, "o"), (10, "p"))
        self.assertIn("the dyndep file dd cannot be loaded (o would need itself), so what it says is left out", said)
        self.assertIn("not-loaded dd o\\swould\\sneed\\sitself", notes)
        self.assertEqual(self.words(trace, "finish"), ["finish dd", "finish o", "finish p"])

    def test_the_logs_are_enough(self):
        """A job of CI that kept its manifest and both logs, and nothing else."""
        self.ninja("app", "test")
        whole = self.record()[1]
        kept = self.folder / "kept"
        kept.mkdir()
        for name in ("build.ninja", ".ninja_log", ".ninja_deps"):
            shutil.copy(self.build / name, kept)
        said, trace = self.record(build=kept)
        events = ("start", "finish", "pass", "plan")
        self.assertEqual(self.words(trace, *events), self.words(whole, *events))
        self.assertEqual([it.partition(" list ")[2] for it in trace], [it.partition(" list ")[2] for it in whole])
        self.assertEqual(self.words(trace, "stamp"), self.words(whole, "stamp"))
        self.assertNotIn("rules differ", said)

    def test_a_failed_command_is_named_as_lacking(self):
        subprocess.run(["ninja", "-k0", "app", "broken"], cwd=self.build, capture_output=True)
        said, trace = self.record("--", "app", "broken")
        self.assertEqual(self.words(trace, "start", "fail").count("start broken"), 0)
        self.assertIn("no log has 1 command that the targets need, which failed, was not reached, or was not asked for",
                      said)
        self.assertIn("broken", said)
        self.assertEqual(self.words(trace, "target"), ["target app", "target broken"])

    def test_another_manifest_is_said(self):
        self.ninja("app")
        self.write("build.ninja", MANIFEST.replace("cat $in > $out\n", "cat $in  > $out\n"))
        said, _ = self.record()
        self.assertIn("the manifest was written anew since that build: 2 commands", said)
        self.assertIn("h.h, app", said)

    def test_jobs_are_as_many_as_ran_at_one_time(self):
        self.ninja("-j1", "app")
        self.assertEqual(self.record("--jobs-as-run")[1][1], "jobs 1")

    def test_the_file_ninja_says_where_it_comes_from(self):
        self.ninja("app")
        version = (self.build / ".ninja_log").read_text().split("\n")[0].removeprefix("# ninja log v")
        self.record("--", "app")
        self.assertEqual((self.folder / "out/ninja").read_text(), f"rebug-ninja 1\nlogs {version}\nwords app\n")

    def test_without_a_build_there_is_nothing_to_record(self):
        said, _ = self.record(status=2)
        self.assertIn(".ninja_log is not there, or is no build log of Ninja's", said)
        self.write(".ninja_log", "# ninja log v7\n")
        self.assertIn("has no command of this manifest", self.record(status=2)[0])
        self.write(".ninja_log", "# ninja log v8\n0\t1\t1\th.h\t1\n")
        self.assertIn("is a log of version 8, and the recorder knows those up to 7", self.record(status=2)[0])
        self.assertFalse((self.folder / "out/trace").exists())

    def test_what_asks_for_a_run_is_refused(self):
        self.assertIn("--observe does not go with --from-logs", self.record("--observe", status=2)[0])
        self.assertIn("--output does not go with --from-logs", self.record("--output", "all", status=2)[0])


class FromLogsOfProjects(unittest.TestCase):
    """Projects that are built in two runs of Ninja, by CMake and by hand, of which the recorder ran the second: the
    recordings of their logs have both."""


def _test(chain, tools):
    def test(self):
        lacking = missing_tools(*tools)
        if lacking:
            self.skipTest(lacking)
        folder = builds.made(chain)
        self.assertNotIn("rules differ", (folder / "logs.said").read_text())
        words = [[it.split(" ")[:2] for it in (folder / name / "trace").read_text().split("\n")]
                 for name in ("passed", "logs")]
        started = [{it[1] for it in lines if it[0] == "start"} for lines in words]
        self.assertLess(started[0], started[1], (folder / "logs.said").read_text())

    return test


for _chain, (_, _tools, _) in taken.RECORDED.items():
    setattr(FromLogsOfProjects, f"test_{_chain}", _test(_chain, _tools))


if __name__ == "__main__":
    unittest.main()
