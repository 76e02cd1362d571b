"""A recording is never lost, and never replaced by nothing: whatever fails or ends the recorder, the one that was there
stays, and a sentence and a status say what happened."""

import os
import pathlib
import resource
import shutil
import signal
import subprocess
import sys
import tempfile
import threading
import time
import unittest

import builds
from builds import LONGEST_SECONDS
from recorder.folders import OutFolder
from recorder.main import main
from versions import NINJA

TOUCH = "rule touch\n  command = touch $out\n"
ONE = TOUCH + "build o: touch s\n"
# The recorder reads what the edge left as its depfile, and waits for a writer.
WAITING = "rule wait\n  command = test -p o.d || mkfifo o.d; touch $out\n  depfile = o.d\nbuild o: wait s\n"
SLOW = (f"rule slow\n  command = echo $$$$ > pid; touch begun; {builds.until_gone('begun')}; touch $out\n"
        "build o: slow s\n")


class Kept(unittest.TestCase):
    """A build folder with a recording of it in `out`, whose trace is known."""

    def setUp(self):
        # What runs the tests may ignore one of these, as nohup does; the recorder would then, too.
        for number in (signal.SIGINT, signal.SIGTERM, signal.SIGHUP):
            self.addCleanup(signal.signal, number, signal.getsignal(number) or signal.SIG_DFL)
            signal.signal(number, signal.default_int_handler if number == signal.SIGINT else signal.SIG_DFL)
        lacking = builds.missing_tools("ninja")
        if lacking:
            self.skipTest(lacking)
        room = tempfile.TemporaryDirectory(prefix="rebug-kept-")
        self.addCleanup(room.cleanup)
        self.room = pathlib.Path(room.name)
        self.build, self.out = self.room / "build", self.room / "out"
        self.build.mkdir()
        (self.build / "s").write_text("s")
        self.write(ONE)

    def write(self, manifest):
        (self.build / "build.ninja").write_text(manifest)

    def words(self, *words, own=(), out=None):
        return [sys.executable, builds.RECORDER, self.build, out or self.out, *own, *(["--", *words] if words else [])]

    def run_recorder(self, *words, own=(), out=None, **how):
        how = {"stdin": subprocess.DEVNULL, "stdout": subprocess.PIPE, "stderr": subprocess.STDOUT,
               "timeout": LONGEST_SECONDS, **how}
        done = subprocess.run(self.words(*words, own=own, out=out), text=True, **how)
        self.assertNotIn("Traceback", done.stdout or "")
        return done.returncode, done.stdout

    def record_first(self):
        """A first recording, and questions of the user's own beside it."""
        status, said = self.run_recorder()
        self.assertEqual(status, 0, said)
        (self.out / "questions").write_text("run\n")
        self.before = self.content()

    def content(self):
        return {it.relative_to(self.out): it.read_bytes() for it in self.out.rglob("*") if it.is_file()}

    def assert_kept(self):
        self.assertEqual(self.content(), self.before)
        self.assertEqual(sorted(it.name for it in self.out.iterdir()),
                         ["build.ninja", "names", "ninja", "output", "questions", "replay", "script", "times", "trace"])

    def started(self, *words, own=()):
        # without the terminal of the tests, from which the recorder would take Ninja to have each SIGINT already
        process = subprocess.Popen(self.words(*words, own=own), stdin=subprocess.DEVNULL, stdout=subprocess.PIPE,
                                   stderr=subprocess.STDOUT, text=True, start_new_session=True)
        end = threading.Timer(LONGEST_SECONDS, process.kill)
        end.daemon = True
        end.start()
        self.addCleanup(process.stdout.close)
        self.addCleanup(process.wait)
        self.addCleanup(process.kill)
        self.addCleanup(end.cancel)
        return process


class Refused(Kept):
    """Ninja started nothing, and was refused."""

    def test_words_that_ninja_refuses(self):
        self.record_first()
        for words in (["nothing"], ["-Z"], ["-f", "build.ninja", "-j", "x"]):
            status, said = self.run_recorder(*words)
            self.assertEqual(status, 1, said)
            self.assertIn("the recording in", said)
            self.assert_kept()

    def test_a_first_recording_without_a_command_says_so(self):
        status, said = self.run_recorder("nothing")
        self.assertEqual((status, "Ninja built nothing" in said, "Next: " in said), (1, True, False), said)
        self.assertIn(b"target nothing", (self.out / "trace").read_bytes())

    def test_a_manifest_that_only_ninja_refuses(self):
        self.record_first()
        self.write(ONE + "default x\n")
        status, said = self.run_recorder()
        self.assertEqual((status, "stays (--force replaces it)" in said), (1, True), said)
        self.assert_kept()

    def test_a_manifest_that_both_refuse(self):
        self.record_first()
        self.write("build\n")
        status, said = self.run_recorder()
        self.assertEqual((status, "build.ninja:1: " in said), (2, True), said)
        self.assert_kept()

    def test_a_command_that_is_too_long_for_the_system(self):
        self.record_first()
        self.write("rule long\n  command = touch $out # " + "x" * 200_000 + "\nbuild long: long s\n")
        status, said = self.run_recorder()
        self.assertEqual(status, 1, said[-300:])
        self.assertIn("Argument list too long", said)
        self.assertIn("the recording in", said)
        self.assert_kept()

    def test_force_replaces_it(self):
        self.record_first()
        status, _ = self.run_recorder("nothing", own=["--force"])
        self.assertEqual(status, 1)
        self.assertIn(b"target nothing", (self.out / "trace").read_bytes())
        self.assertEqual((self.out / "questions").read_text(), "run\n")

    def test_a_build_of_nothing_is_a_recording(self):
        self.record_first()
        status, said = self.run_recorder()
        self.assertEqual((status, "has 1 event of" in said), (0, True), said)
        self.assertNotIn(b"\nstart ", (self.out / "trace").read_bytes())

    def test_what_both_refuse_is_no_difference(self):
        (self.build / "s").unlink()
        status, said = self.run_recorder()
        self.assertEqual((status, "rules differ" in said), (1, False), said)

    def test_a_difference_names_the_path(self):
        self.write(TOUCH + "build o: touch s || gone\n")
        (self.build / "gone").write_text("")
        self.record_first()
        (self.build / "gone").unlink()
        _, said = self.run_recorder()
        self.assertIn("they refuse 'plan' (52 1 0), for gone; 1 in all", said)


class Useless(Kept):
    """What makes a recording useless is said before Ninja runs."""

    def refused(self, manifest, number):
        self.record_first()
        self.write(manifest)
        (self.build / "o").unlink(missing_ok=True)
        status, said = self.run_recorder()
        self.assertEqual((status, f"({number})" in said, "--anyway" in said), (2, True, True), said[-500:])
        self.assertFalse((self.build / "o").exists())
        self.assert_kept()
        status, said = self.run_recorder("o", own=["--anyway"])
        self.assertEqual((status, (self.build / "o").exists()), (0, True), said[-500:])
        self.assertIn(b"start o 0", (self.out / "trace").read_bytes())

    def test_a_dyndep_of_a_whole_file(self):
        self.record_first()
        (self.build / "dd").write_text("ninja_dyndep_version = 1\nbuild o: dyndep\n")
        self.write("dyndep = dd\n" + TOUCH + "build o: touch s || dd\n")
        (self.build / "o").unlink(missing_ok=True)
        status, said = self.run_recorder(own=["--anyway"])
        self.assertEqual((status, "(22)" in said, (self.build / "o").exists()), (2, True, False), said[-500:])
        self.assert_kept()

    def test_a_value_above_the_limit(self):
        text = "rule r\n  command = touch $out\n  rspfile = r\n  rspfile_content = " + "x" * 1_048_577 + "\n"
        self.refused(text + "build o: r s\n", 23)

    def test_a_depth_above_the_limit(self):
        self.refused("pool p\n  depth = 1000001\n" + TOUCH + "  pool = p\nbuild o: touch s\n", 19)

    def test_a_cycle_that_no_target_reaches(self):
        self.refused(ONE + "build x: touch y\nbuild y: touch x\n", 41)

    def test_files_that_are_included_too_deep(self):
        for it in range(17):
            (self.build / f"{it}.ninja").write_text(f"include {it + 1}.ninja\n" if it < 16 else "")
        self.refused(ONE + "include 0.ninja\n", 21)


class Folders(Kept):
    """OUT is made and tried before Ninja runs."""

    def refused(self, out, *, words=(), **how):
        status, said = self.run_recorder(*words, out=out, **how)
        self.assertEqual((status, said.count("\n")), (2, 1), said)
        self.assertFalse((self.build / "o").exists())
        return said

    def test_in_proc(self):
        self.assertIn("/proc/rebug cannot be written", self.refused("/proc/rebug"))

    def test_a_file(self):
        self.out.write_text("")
        self.assertIn("is a file", self.refused(self.out))
        self.assertIn("cannot be written", self.refused(self.out / "below"))

    def test_files_that_are_no_recording(self):
        self.out.mkdir()
        (self.out / "thesis").write_text("")
        self.assertIn("no recording", self.refused(self.out))
        self.assertEqual(os.listdir(self.out), ["thesis"])

    def test_without_rights(self):
        os.chmod(self.room, 0o755)
        self.out.mkdir(mode=0o555)
        for out in (self.out, self.out / "below"):
            status, said = self.as_another_user(out)
            self.assertEqual((status, said.count("\n")), (2, 1), said)
            self.assertIn(f"{out} cannot be written: Permission denied", said)
        self.assertEqual(os.listdir(self.out), [])

    def as_another_user(self, out):
        """The recorder in a child of this process, which gives up the rights of root where it has them."""
        outer, inner = os.pipe()
        child = os.fork()
        if not child:
            os.dup2(inner, 2)
            os.close(outer)
            if not os.geteuid():
                os.setuid(65534)
            os._exit(main([str(self.build), str(out)]))
        os.close(inner)
        with open(outer) as said:
            return os.waitstatus_to_exitcode(os.waitpid(child, 0)[1]), said.read()

    def test_what_was_made_for_nothing_goes(self):
        status, _ = self.run_recorder(out=self.room / "a/b", env={**os.environ, "NINJA": "/nowhere/ninja"})
        self.assertEqual((status, (self.room / "a").exists()), (2, False))
        self.write("build\n")
        status, _ = self.run_recorder(out=self.room / "a/b")
        self.assertEqual((status, (self.room / "a").exists()), (2, False))

    def test_a_ninja_that_is_not_there(self):
        said = self.refused(self.out, env={**os.environ, "NINJA": "/nowhere/ninja"})
        self.assertIn("NINJA names /nowhere/ninja", said)
        (self.room / "ninja").write_text("no program\n")
        (self.room / "ninja").chmod(0o755)
        status, said = self.run_recorder(env={**os.environ, "NINJA": str(self.room / "ninja")})
        self.assertEqual((status, said.count("\n")), (2, 1), said)
        self.assertIn("ninja cannot be run: ", said)
        (self.room / "ninja").write_text("#!/bin/sh\necho no version\n")
        said = self.refused(self.out, env={**os.environ, "NINJA": str(self.room / "ninja")})
        self.assertIn("does not tell Ninja's version", said)

    def test_targets_stand_behind_two_dashes(self):
        status, said = self.run_recorder(own=["app"])
        self.assertEqual((status, "targets and other words for Ninja go behind --, as in `-- app`" in said), (2, True))

    def test_the_next_command_is_quoted(self):
        _, said = self.run_recorder(out=self.room / "an out", cwd=builds.RECORDER.parents[1])
        self.assertIn(f"races '{self.room}/an out', or ./rebug ask '{self.room}/an out'", said)

    def test_a_second_recorder_waits_for_nobody(self):
        with OutFolder(str(self.out)):
            self.assertIn("another recording is being written", self.refused(self.out))


class Full(Kept):
    """No room for the recording. The manifest is copied into it, and is too large."""

    LARGE = ONE + "# x\n" * 100_000

    def test_a_small_file_system(self):
        self.out.mkdir()
        mount = ["mount", "-t", "tmpfs", "-o", "size=128k", "none", self.out]
        if os.geteuid() or not shutil.which("mount") or subprocess.run(mount, stderr=subprocess.DEVNULL).returncode:
            self.skipTest("no file system can be mounted here")
        self.addCleanup(subprocess.run, ["umount", self.out])
        self.record_first()
        self.full({})

    def test_a_limit_on_files(self):
        self.record_first()
        self.full({"preexec_fn": lambda: resource.setrlimit(resource.RLIMIT_FSIZE, (200_000, 200_000))})

    def full(self, how):
        self.write(self.LARGE)
        (self.build / "s").write_text("again")
        status, said = self.run_recorder(**how)
        self.assertEqual(status, 3, said)
        self.assertRegex(said, r"\[1/1\] touch o\nrebug-record: the recording could not be written \(.*\): "
                               r".* is as it was\n$")
        self.assert_kept()


class Ended(Kept):
    """Signals while the recorder works are held; a second one within two seconds ends it."""

    def waiting(self):
        """A recorder that waits for what it reads after the build, and the end by which it goes on."""
        self.record_first()
        self.write(WAITING)
        self.process = self.started()
        builds.wait_for(self.build / "o.d")
        return self.end_of(self.build / "o.d", self.process)

    def end_of(self, fifo, process):
        """The end to write to, once the recorder waits at the other one.

        A signal that comes between its opening of the file and its reading is looked at when the reading ends, since
        Python runs handlers between system calls: so the recorder must be asleep in the reading before one is sent.
        """
        ends = []

        def is_read():
            try:
                ends.append(os.open(fifo, os.O_WRONLY | os.O_NONBLOCK))
            except OSError:
                return False
            return True

        builds.wait_until(is_read, f"the recorder did not come to {fifo}")
        builds.wait_until_asleep(process.pid)
        return ends[0]

    def lines_until(self, text):
        for line in self.process.stdout:
            if text in line:
                return line
        raise AssertionError(f"not said: {text}")

    def test_one_is_held_until_the_recording_is_written(self):
        for number in (signal.SIGINT, signal.SIGTERM, signal.SIGHUP):
            with self.subTest(number=number):
                shutil.rmtree(self.build)
                shutil.rmtree(self.out, ignore_errors=True)
                self.setUp_build()
                end = self.waiting()
                self.process.send_signal(number)
                self.assertIn("held until", self.lines_until(number.name))
                os.close(end)
                said = self.process.stdout.read()
                self.assertEqual(self.process.wait(LONGEST_SECONDS), 128 + number, said)
                self.assertNotIn("Traceback", said)
                self.assertIn(b"rule wait", (self.out / "build.ninja").read_bytes())
                self.assertIn(b"finish o ", (self.out / "trace").read_bytes())

    def setUp_build(self):
        self.build.mkdir()
        (self.build / "s").write_text("s")
        self.write(ONE)

    def test_one_before_ninja_runs_ends_it(self):
        self.record_first()
        (self.build / "o").unlink()
        self.write(ONE + "include more.ninja\n")
        os.mkfifo(self.build / "more.ninja")
        process = self.started()
        end = self.end_of(self.build / "more.ninja", process)
        process.send_signal(signal.SIGTERM)
        said = process.stdout.read()
        os.close(end)
        self.assertEqual((process.wait(LONGEST_SECONDS), said), (
            143, "rebug-record: ended by SIGTERM: nothing was recorded, and what was there stays\n"))
        self.assertFalse((self.build / "o").exists())
        self.assert_kept()

    def test_a_second_one_ends_it(self):
        end = self.waiting()
        self.process.send_signal(signal.SIGTERM)
        self.lines_until("held until")
        said = "held until"
        while "held until" in said:  # a busy machine may need two seconds for this, and the second one is a late one
            self.process.send_signal(signal.SIGINT)
            said = self.process.stdout.readline()
        said += self.process.stdout.read()
        os.close(end)
        self.assertEqual((self.process.wait(LONGEST_SECONDS), said), (
            130, "rebug-record: ended by SIGINT: nothing was recorded, and what was there stays\n"))
        self.assert_kept()

    def test_a_late_one_is_held_again(self):
        end = self.waiting()
        for _ in range(2):
            self.process.send_signal(signal.SIGINT)
            self.lines_until("held until")
            time.sleep(2.1)
        os.close(end)
        self.assertIn("events of this build", self.process.stdout.read())
        self.assertEqual(self.process.wait(LONGEST_SECONDS), 130)

    def test_a_killed_ninja_is_said(self):
        self.record_first()
        self.write(SLOW)
        process = self.started()
        builds.wait_for(self.build / "begun")
        builds.wait_until_it_has_looked(process.pid)
        ninja = pathlib.Path(f"/proc/{process.pid}/task/{process.pid}/children").read_text().split()
        os.kill(int(ninja[0]), signal.SIGKILL)
        said = process.stdout.read()
        os.killpg(int((self.build / "pid").read_text()), signal.SIGKILL)
        self.assertEqual(process.wait(LONGEST_SECONDS), 137)
        self.assertIn("Ninja was killed by SIGKILL", said)
        self.assertRegex((self.out / "trace").read_text(), r"lane 0\nplan\nstart o 0\ninterrupt\nabort o \d+\n$")

    def test_a_ninja_that_ends_in_the_middle_is_said(self):
        self.write(SLOW + "rule quick\n  command = while ! test -e seen; do sleep 0.05; done; touch $out\n"
                   "build q: quick s\nrule long\n  command = touch $out # " + "x" * 200_000 + "\nbuild p: long q\n")
        process = self.started()
        builds.wait_for(self.build / "begun")
        builds.wait_until_it_has_looked(process.pid)
        (self.build / "seen").touch()
        said = process.stdout.read()
        status = process.wait(LONGEST_SECONDS)
        os.killpg(int((self.build / "pid").read_text()), signal.SIGKILL)
        self.assertEqual(status, 1)
        self.assertIn("Ninja ended in the middle of the build", said)
        self.assertTrue((self.out / "trace").read_text().endswith("\ninterrupt\nabort o 0\n"))

    def test_signals_reach_ninja(self):
        for number in (signal.SIGINT, signal.SIGTERM, signal.SIGHUP):
            with self.subTest(number=number):
                (self.build / "begun").unlink(missing_ok=True)
                self.write(SLOW)
                process = self.started()
                builds.wait_for(self.build / "begun")  # the recorder looks at Ninja's children before it hands one on
                process.send_signal(number)
                said = process.stdout.read()
                self.assertEqual(process.wait(LONGEST_SECONDS), NINJA.status_of_interrupt, said)
                self.assertIn(b"interrupt\nabort o 0\n", (self.out / "trace").read_bytes())

    def test_descriptors_that_are_closed(self):
        command = f"'{sys.executable}' '{builds.RECORDER}' '{self.build}' '{self.out}' <&- >&- 2>&-"
        self.assertEqual(subprocess.run(["sh", "-c", command]).returncode, 0)
        self.assertIn(b"lane 0\nplan\nstart o 0\n", (self.out / "trace").read_bytes())

    def test_a_reader_that_goes_away(self):
        self.record_first()
        process = self.started("-v", own=["--verbose"])
        process.stdout.close()
        self.assertEqual(process.wait(LONGEST_SECONDS), 0)
        self.assertEqual((self.out / "trace").read_text().split("lane 0\n")[1], "plan\n")


if __name__ == "__main__":
    unittest.main()
