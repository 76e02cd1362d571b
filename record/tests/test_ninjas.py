"""What differs from one Ninja to the next: logs, their hashes and stamps, statuses, the jobserver. With the Ninja on
the PATH, and with those that NINJAS names as the ones that built before."""

from __future__ import annotations

import os
import pathlib
import re
import shutil
import signal
import subprocess
import tempfile
import time
import unittest

import builds
from recorder.logs import BuildLog, LogEntry
from recorder.ninja import HASHES, Ninja, asked_ninja, changed_commands
from test_recordings_kept import ONE, TOUCH, Kept
from versions import NINJA, VERSION, since

FLAGS = "rule cc\n  command = cat $in > $out # %s\nbuild a: cc s\nbuild b: cc s\nbuild c: cc a b\n"
# `x` stays as it is where `t` alone changed, and has a log entry that is older than `s`, which its own command writes.
LEFT_ALONE = """rule two
  command = sleep .05; touch s; sleep .05; cmp -s s x || cp s x; test -e y || cp s y
  restat = 1
rule cp
  command = cat $in > $out
build x y: two s
build u: cp x
build w: cp t
build v: cp u w
"""
MADE = "rule make\n  command = touch $out\n  generator = 1\nbuild build.ninja: make in\n" + ONE


class Recorded(Kept):
    """A build folder, and its recordings in `out`."""

    def ninja(self, *words, program="ninja"):
        done = subprocess.run([program, *words], cwd=self.build, stdin=subprocess.DEVNULL, capture_output=True,
                              text=True)
        builds.wait_for_another_stamp()
        return done.stdout + done.stderr

    def record(self, *words, status=0, **how):
        got, said = self.run_recorder(*words, **how)
        self.assertEqual(got, status, said)
        self.assertNotIn("rules differ", said)
        self.said = said
        self.trace = (self.out / "trace").read_text().split("\n")
        return said

    def about(self, word):
        """The lines of the file `ninja` that begin with the word."""
        head, *lines = (self.out / "ninja").read_text().split("\n")[:-1]
        self.assertEqual(head, "rebug-ninja 1")
        return [it for it in lines if it.split(" ")[0] == word]

    def touch(self, path):
        (self.build / path).write_text(str(time.time_ns()))
        builds.wait_for_another_stamp()

    def events(self, *kinds):
        """The events of these kinds, each as its word and its path."""
        lines = self.trace[self.trace.index("lane 0") + 1 :]
        return [" ".join(it.split(" ")[:2]) for it in lines if it.split(" ")[0] in kinds]


class Commands(Recorded):
    def test_another_flag_is_another_command(self):
        self.write(FLAGS % "-O1")
        self.record()
        self.write(FLAGS % "-O2")
        self.record()
        self.assertEqual(self.events("start"), ["start a", "start b", "start c"])
        stand_ins = [it for it in self.trace if it.startswith("built ") and "another\\scommand" in it]
        self.assertEqual([it.split(" ")[1] for it in stand_ins], ["a", "b", "c"])

    def test_the_same_command_is_known(self):
        self.write(FLAGS % "-O1")
        self.record()
        self.touch("s")
        self.record("a")
        self.assertEqual([it for it in self.trace if "another\\scommand" in it], [])
        self.assertEqual(len([it for it in self.trace if it.startswith("built ")]), 3)


class Logs(Recorded):
    """A log that this Ninja starts over counts as empty; one that it reads on does not."""

    def test_headers_of_other_versions(self):
        for version in (4, 5, 6, 7, 8):
            with self.subTest(version=version):
                self.write(FLAGS % "-O1")
                self.ninja("-t", "clean")
                self.ninja()
                log = self.build / ".ninja_log"
                log.write_bytes(b"# ninja log v%d\n" % version + log.read_bytes().split(b"\n", 1)[1])
                self.record()
                is_read = version == NINJA.log or not since((1, 12)) and version > 4
                self.assertEqual(len(self.events("start")), 0 if is_read else 3, self.said)
                self.assertEqual("starting over" in self.said, not is_read and since((1, 12)))

    def test_a_log_with_commands_in_place_of_hashes(self):
        self.write(FLAGS % "-O1")
        self.ninja()
        (self.build / ".ninja_log").write_text("# ninja log v4\n" + "".join(
            f"0\t1\t{(self.build / out).stat().st_mtime_ns}\t{out}\tcat {given} > {out} # -O1\n"
            for out, given in (("a", "s"), ("b", "s"), ("c", "a b"))))
        self.record()
        self.assertEqual(self.events("start"), [f"start {it}" for it in "abc"] if since((1, 12)) else [])

    def test_a_log_of_each_other_ninja(self):
        others = builds.other_ninjas()
        if not others:
            self.skipTest("there is one Ninja on this machine")
        for other in others:
            with self.subTest(other=other):
                self.write(FLAGS % "-O1")
                self.ninja("-t", "clean")
                (self.build / ".ninja_log").unlink(missing_ok=True)
                self.ninja(program=other)
                self.touch("s")
                self.record("b")
                self.assertEqual(self.events("start"), ["start b"])
                self.record()
                self.record()
                self.assertEqual(self.events("start"), [])


class UnknownHash(Recorded):
    """A log whose hash the recorder does not know: that of this Ninja, hidden. Ninja is asked what changed."""

    def words(self, *words, **how):
        program, script, *rest = super().words(*words, **how)
        hide = (f"import sys; sys.path.insert(0, {str(pathlib.Path(script).parent)!r}); "
                f"from recorder import main, ninja; ninja.HASHES.clear(); sys.exit(main.main(sys.argv[1:]))")
        return [program, "-c", hide, *rest]

    def test_what_changed_is_asked(self):
        self.write(FLAGS % "-O1")
        self.record()
        self.assertIn("has hashes that the recorder does not know", self.said)
        self.write(FLAGS.replace("cat $in > $out #", "cat -- $in > $out #") % "-O1")
        self.touch("b")
        self.record()
        self.assertEqual(self.events("start"), ["start a", "start b", "start c"])
        self.record()
        self.assertEqual(self.events("start"), [])

    def test_what_failed_had_another_command_too(self):
        self.write(FLAGS % "-O1")
        self.record()
        self.write(FLAGS.replace("cat $in > $out #", "false #") % "-O1")
        self.record("-k0", status=1)
        self.assertEqual(sorted(self.events("start", "fail")), ["fail a", "fail b", "start a", "start b"])

    def test_a_command_behind_one_that_restat_left_alone(self):
        text = ("rule keep\n  command = test -e $out || touch $out # %s\n  restat = 1\n"
                "rule cp\n  command = cp $in $out # %s\n"
                "build a: keep s\nbuild b: cp a\n")
        self.write(text % (1, 1))
        self.record()
        self.write(text % (2, 2))
        self.record()
        self.assertEqual(self.events("start", "clean"), ["start a", "start b"])

    def test_another_manifest_that_was_asked_for_by_name(self):
        (self.build / "other.ninja").write_text(FLAGS % "-O1")
        self.record("-f", "other.ninja", "a")
        (self.build / "other.ninja").write_text(FLAGS % "-O2")
        self.record("-f", "other.ninja", "a", "b")
        self.assertEqual(self.events("start"), ["start a", "start b"])


class Stamps(Recorded):
    def test_an_output_that_restat_left_alone_behind_a_stamp_of_the_log(self):
        self.write(LEFT_ALONE)
        self.touch("t")
        self.record()
        self.touch("s")
        self.record()
        self.touch("t")
        self.record()
        # Ninja up to 1.11 sees no reason to run `x`, whose output is newer than `s`
        self.assertEqual(self.events("start"), ["start x", "start w", "start v"] if since((1, 12)) else
                         ["start w", "start v"])

    def test_a_source_that_a_command_touches_is_touched_while_it_runs(self):
        """Times count from the moment at which Ninja began, here well after the recorder had started it."""
        late = self.room / "late"
        late.write_text(f"#!/bin/sh\n[ \"$1\" = --version ] || sleep .25\nexec '{shutil.which('ninja')}' \"$@\"\n")
        late.chmod(0o755)
        self.write("rule slow\n  command = touch begun; sleep .2; touch t; sleep .2; touch ended; touch $out\n"
                   "build o: slow s | t\n")
        self.touch("t")
        self.record(env={**os.environ, "NINJA": str(late)})
        self.assertEqual(self.events("start", "touch", "finish"), ["start o", "touch t", "finish o"])
        start, touch, finish = [int(it.split(" ")[1]) for it in (self.out / "times").read_text().split("\n")[2:5]]
        # however busy the machine is: the command's own two moments lie between its start and its end
        begun, t, ended = [(self.build / it).stat().st_mtime_ns // 1_000_000 for it in ("begun", "t", "ended")]
        self.assertGreater(touch - start, t - begun - 100)
        self.assertGreater(finish - touch, ended - t - 100)

    def changed_again(self, kind, change):
        """Records `o` of this kind, which `change` changes while another command runs: the stamps of `o` at the end of
        its own command, and of its touch where there is one."""
        shutil.rmtree(self.build)
        self.build.mkdir()
        self.touch("s")
        self.write(f"{TOUCH}rule dep\n  command = touch $out; echo $out: s > $out.d\n  deps = gcc\n  depfile = $out.d\n"
                   "rule made\n  command = touch $out\n  generator = 1\n"
                   f"rule strip\n  command = sleep 1; {change}; sleep .1; touch $out\n"
                   f"build first: touch\nbuild o: {kind} s\nbuild p: strip o\n")
        self.record(own=["--verbose"])
        found = [it.split(" ") for it in self.trace if it.split(" ")[1:2] == ["o"]]
        return {it[0]: int(it[2]) for it in found if it[0] in ("finish", "touch")}

    def test_an_output_that_another_command_changes_is_touched_while_that_runs(self):
        """The log of 1.11 has the stamp at the end; later ones have it of generators, and their deps log of lists."""
        for kind in ("touch", "dep", "made"):
            with self.subTest(kind=kind):
                stamps = self.changed_again(kind, "echo >> o")
                self.assertEqual([it for it in self.events("start", "touch", "finish") if not it.endswith("first")],
                                 ["start o", "finish o", "start p", "touch o", "finish p"])
                self.assertEqual(stamps["touch"], (self.build / "o").stat().st_mtime_ns)
                self.assertLess(stamps["finish"], stamps["touch"] - 500_000_000)
                self.assertEqual("no log has its stamp" in self.said, kind == "touch" and since((1, 12)), self.said)

    def test_what_changed_again_is_built_again_where_ninja_does_that(self):
        """The list of `o` is older than `o` then, which Ninja sees by its deps log."""
        self.changed_again("dep", "echo >> o")
        self.assertIn("[1/2] touch o", self.ninja("-n", "-v"))
        self.record("o")
        self.assertEqual(self.events("start"), ["start o"])

    def test_a_stamp_that_is_still_to_come_is_no_later_change(self):
        """A command may set the stamp of its own output."""
        self.write(TOUCH + "rule set\n  command = touch -d 'next month' $out\nbuild first: touch\nbuild o: set s\n")
        self.record()
        self.assertEqual(self.events("touch"), [])
        (finish,) = [it for it in self.trace if it.startswith("finish o ")]
        self.assertEqual(int(finish.split(" ")[2]), (self.build / "o").stat().st_mtime_ns)

    def test_what_is_said_of_the_opening_is_true(self):
        self.write("rule two\n  command = cat $in > $out && ! grep -q bad $in\nbuild o: two s\n")
        self.ninja()
        (self.build / "s").write_text("bad")
        self.ninja()
        said = self.record(status=1)
        self.assertIn("changed since Ninja's log has it as built" if not since((1, 12)) else
                      "Ninja's log has its command begin before an input changed", said)


class Statuses(Recorded):
    def test_the_status_is_ninjas(self):
        for command, status in (("exit 2", 2), ("exit 3", 3), ("kill -9 $$$$", 137), ("exit 1", 1)):
            with self.subTest(command=command):
                self.write(f"rule r\n  command = {command}\nbuild o: r s\n")
                self.record(status=NINJA.status_of_failure(status), own=["--verbose"])
                self.assertEqual(self.events("start", "fail", "abort"), ["start o", "fail o"])
                self.assertEqual(f"o (fail, status {status})" in self.said, NINJA.tells_status_of_failures, self.said)
                self.assertEqual(self.about("failed"), [f"failed o {status}"] * NINJA.tells_status_of_failures)
                self.assertEqual(self.about("status"), [f"status {NINJA.status_of_failure(status)}"])

    def test_a_command_that_exits_as_after_an_interrupt(self):
        self.write("rule r\n  command = touch $out; sleep .2; exit 130\nbuild o: r s\n")
        self.record(status=130 if since((1, 13)) else 1)
        self.assertEqual(self.events("interrupt", "fail", "abort"),
                         ["interrupt", "abort o"] if since((1, 13)) else ["fail o"])

    def test_a_ninja_that_stops_in_order_and_then_ends_by_the_interrupt(self):
        """As it does where the interrupt comes while a command ends: nothing of it was killed in the middle."""
        late = self.room / "late"
        late.write_text(f"#!/bin/sh\n'{shutil.which('ninja')}' \"$@\"\n[ \"$1\" = --version ] || kill -INT $$\n")
        late.chmod(0o755)
        self.write("rule r\n  command = touch $out; kill -INT $$$$\nbuild o: r s\n")
        self.record(status=128 + signal.SIGINT, env={**os.environ, "NINJA": str(late)})
        self.assertIn("ninja: build stopped: interrupted by user.", self.said)
        self.assertNotIn("killed", self.said)
        self.assertEqual(self.events("interrupt", "fail", "abort"), ["interrupt", "abort o"])


class Preliminaries(Recorded):
    """What Ninja says before it builds is no build of the manifest."""

    def set_up_maker(self):
        (self.build / "in").write_text("")
        self.write(MADE)
        self.ninja()

    def test_a_log_that_is_started_over(self):
        self.set_up_maker()
        log = self.build / ".ninja_log"
        log.write_bytes(b"# ninja log v99\n" + log.read_bytes().split(b"\n", 1)[1])
        self.record()
        self.assertEqual("starting over" in self.said, since((1, 12)))
        self.assertNotIn("brought up to date", self.said)

    def test_a_manifest_that_is_made_is_told(self):
        self.set_up_maker()
        self.touch("in")
        self.assertIn("that was the manifest, brought up to date", self.record())

    def test_a_jobserver(self):
        self.set_up_maker()
        os.mkfifo(self.room / "jobs")
        end = os.open(self.room / "jobs", os.O_RDWR)
        self.addCleanup(os.close, end)
        os.write(end, b"+++")
        given = ((f" -j4 --jobserver-auth=fifo:{self.room}/jobs", True), (" --jobserver-auth=3,4", False))
        for flags, is_taken in given:
            with self.subTest(flags=flags):
                (self.build / "o").unlink(missing_ok=True)
                self.record(env={**os.environ, "MAKEFLAGS": flags})
                self.assertNotIn("brought up to date", self.said)
                words = re.findall("Jobserver mode detected|Ignoring jobserver", self.said)
                self.assertEqual(words, ["Jobserver mode detected" if is_taken else "Ignoring jobserver"]
                                 if NINJA.takes_a_jobserver else [])
                self.assertEqual(self.events("start"), ["start o"])
                wanted = f"jobserver {flags.strip().replace(' ', chr(92) + 's')}"
                self.assertEqual(self.about("jobserver"), [wanted] * (is_taken and NINJA.takes_a_jobserver))

    def test_words_that_say_how_many_leave_the_jobserver_alone(self):
        os.mkfifo(self.room / "jobs")
        self.record(env={**os.environ, "MAKEFLAGS": f" -j4 --jobserver-auth=fifo:{self.room}/jobs"}, own=["-j", "2"])
        self.assertEqual(self.about("jobserver"), [])
        self.assertEqual(self.about("words"), ["words -j 2"])

    def test_what_ninja_it_was(self):
        self.record("o", env={**os.environ, "NINJA_STATUS": "[%s of %t] "})
        told = subprocess.run(["ninja", "--version"], capture_output=True, text=True).stdout.strip()
        self.assertEqual((self.out / "ninja").read_text(),
                         f"rebug-ninja 1\nversion {told}\nwords o\nstatus 0\nformat [%s\\sof\\s%t]\\s\n")


class Order(Recorded):
    def test_of_starts_in_one_millisecond(self):
        """Quick commands start together; those with the longest way behind them first, from 1.12 on."""
        chain = "".join(f"build c{it}: touch c{it - 1}\n" for it in range(1, 6))
        self.write(TOUCH + "build a: touch s\nbuild b: touch s\nbuild c0: touch s\n" + chain +
                   "build all: phony a b c5\n")
        self.record("all", own=["-j", "8"])
        starts = self.events("start")
        first = self.first_of_ninja()
        self.assertEqual(starts[0], f"start {first}")
        self.assertEqual(first, "c0" if NINJA.starts_longest_way_first else "a")

    def first_of_ninja(self):
        """The first edge that Ninja starts, as it says on one job."""
        for path in self.build.glob("[abc]*"):
            if path.name != "build.ninja":
                path.unlink()
        return re.search(r"touch (\w+)", self.ninja("-j1", "-v", "all"))[1]


class Versions(unittest.TestCase):
    """What follows from a version, without a Ninja."""

    def test_logs_that_are_read(self):
        entries = [LogEntry(0, 1, 2, b"o", 3)]
        for version, read in (((1, 11), {4, 5, 6, 7, 8}), ((1, 12), {6}), ((1, 13), {7}), ((1, 14), {7, 8}),
                              ((2, 0), {7, 8})):
            ninja = Ninja("ninja", version)
            self.assertEqual({it for it in range(4, 9) if ninja.as_read(BuildLog(it, entries)).entries}, read)

    def test_the_hash_follows_from_the_ninja(self):
        for version, log, wanted in (((1, 11), 7, 5), ((1, 11), 5, 5), ((1, 12), 6, 6), ((1, 13), 7, 7),
                                     ((1, 14), 8, None)):
            ninja = Ninja("ninja", version)
            self.assertIs(ninja.hash_in(ninja.as_read(BuildLog(log, []))), HASHES.get(wanted), version)

    def test_what_ninja_explains(self):
        said = (b"ninja explain: command line changed for ./a b\n[1/2] x\nninja explain: output c doesn't exist\n"
                b"ninja explain: command line changed for d/../e\n")
        self.assertEqual(changed_commands(said), {b"a b", b"e"})

    def test_versions_with_words_behind(self):
        self.assertEqual(VERSION, asked_ninja("ninja").version) if not builds.missing_tools("ninja") else None
        for said, version in (("1.11.1.git.kitware.dyndep-1.jobserver-1", (1, 11)), ("a banner\n1.13.0", (1, 13))):
            with self.subTest(said=said):
                room = tempfile.TemporaryDirectory()
                self.addCleanup(room.cleanup)
                program = pathlib.Path(room.name) / "ninja"
                program.write_text(f"#!/bin/sh\ncat <<E\n{said}\nE\n")
                program.chmod(0o755)
                self.assertEqual(asked_ninja(str(program)).version, version)


if __name__ == "__main__":
    unittest.main()
