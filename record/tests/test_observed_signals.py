"""SIGINT, SIGTERM and SIGHUP at any moment of a recording, observed and not: the build ends as it would without, no
process stays behind, and what is recorded is whole.

REBUG_SIGNALS is the number of runs of each kind (6, if it is not set).
"""

import os
import pathlib
import pty
import random
import select
import shutil
import signal
import subprocess
import sys
import time
import unittest

import builds
from observing import Room, read_observed, refusal

RUNS = int(os.environ.get("REBUG_SIGNALS", "6"))
SIGNALS = (signal.SIGINT, signal.SIGTERM, signal.SIGHUP)
SOME = 16
MANIFEST = ("rule c\n  command = for i in 1 2 3; do cat a > $out.new; sleep 0.02; done; cat b >> $out.new; "
            "mv $out.new $out\n" + "".join(f"build o{it}: c a\n" for it in range(SOME)))
WITHOUT_NINJA = builds.missing_tools("ninja")


@unittest.skipIf(WITHOUT_NINJA, WITHOUT_NINJA)
class Signals(unittest.TestCase):
    """Each run gets one signal; a part of the interrupts comes from a terminal, to the whole group."""

    def setUp(self):
        self.room = Room()
        self.addCleanup(self.room.close)

    def runs(self, observer):
        chance = random.Random(f"{observer} {RUNS}")
        longest = self.seconds_of_a_build(observer)
        outcomes = set()
        for run in range(RUNS):
            number, delay = SIGNALS[run % 3], chance.uniform(0, 1.05 * longest)
            with self.subTest(run=run, signal=number.name, delay=delay):
                outcomes.add(self.run_once(observer, f"{run}", number, delay, by_terminal=run % 6 == 0))
        return outcomes

    def seconds_of_a_build(self, observer):
        begin = time.monotonic()
        self.run_once(observer, "first", None, 0, False)
        return time.monotonic() - begin

    def run_once(self, observer, name, number, delay, by_terminal):
        folder = self.room.path / name
        (folder / "build").mkdir(parents=True)
        for path, text in (("build.ninja", MANIFEST), ("a", "a\n"), ("b", "b\n")):
            (folder / "build" / path).write_text(text)
        own = ["--observe", "--observer", observer] if observer else []
        words = [sys.executable, builds.RECORDER, folder / "build", folder / "out", *own, "--", "-j", "4"]
        start = self.by_terminal if by_terminal else self.by_pipe
        status, said = start(list(map(str, words)), number, delay)
        self.look_at(folder, observer, status, said, number)
        shutil.rmtree(folder)
        return status

    def by_pipe(self, words, number, delay):
        process = subprocess.Popen(words, stdin=subprocess.DEVNULL, stdout=subprocess.PIPE, stderr=subprocess.STDOUT,
                                   start_new_session=True)
        if number is not None:
            time.sleep(delay)
            process.send_signal(number)
        said, _ = process.communicate(timeout=builds.LONGEST_SECONDS)
        return process.returncode, said.decode()

    def by_terminal(self, words, number, delay):
        """The user's Ctrl-C, at a terminal of which the recorder has the foreground."""
        child, terminal = pty.fork()
        if not child:
            os.execv(words[0], words)
        said, sent, begin = b"", False, time.monotonic()
        while True:
            if not sent and time.monotonic() - begin >= delay:
                os.write(terminal, b"\x03")
                sent = True
            ready, _, _ = select.select([terminal], [], [], 0.01)
            part = builds.read_terminal(terminal) if ready else None
            if part == b"":
                break
            said += part or b""
            self.assertLess(time.monotonic() - begin, builds.LONGEST_SECONDS)
        os.close(terminal)
        _, status = os.waitpid(child, 0)
        return os.waitstatus_to_exitcode(status), said.decode()

    def look_at(self, folder, observer, status, said, number):
        """What stands there after a run is what would stand there without a look at it."""
        build, out = folder / "build", folder / "out"
        is_early = "Traceback" in said  # one of Python's own, before it has read a line of the recorder
        if is_early:
            self.assertNotIn(str(builds.RECORDER), said)
        self.assertNotIn("fault of the recorder", said)
        allowed = {0} if number is None else {0, 2, 130, 128 + number, -number, *([1] if is_early else [])}
        self.assertIn(status, allowed, said)
        builds.wait_until(lambda: not processes_of(folder), f"a process goes on in {folder}", every=0.05)
        for output in build.glob("o*"):  # whole, or taken away by Ninja
            if "." not in output.name:
                self.assertEqual(output.read_text(), "a\nb\n")
        if (out / "trace").exists():
            self.look_at_recording(build, out, observer, said)
        ran = subprocess.run(["ninja", "--quiet"], cwd=build, capture_output=True,
                             timeout=builds.LONGEST_SECONDS)
        self.assertEqual((ran.returncode, len(list(build.glob("o*[0-9]")))), (0, SOME), ran)

    def look_at_recording(self, build, out, observer, said):
        """Every command that ended well is in the trace and, whole, among those that were observed."""
        trace = (out / "trace").read_text().splitlines()
        finished = {it.split()[1] for it in trace if it.startswith("finish ")}
        log = build / ".ninja_log"
        logged = {it.split("\t")[3] for it in log.read_text().splitlines()[1:]} if log.exists() else set()
        self.assertEqual(finished, logged, said)
        if observer:
            observed = read_observed(out / "observed")
            self.assertLessEqual(logged, {it.decode() for it in observed}, said)
            for name in logged:
                it = observed[name.encode()]
                self.assertEqual((it.reads, it.flags - {"twin"}), ({b"a", b"b"}, set()), (name, said))

    def test_not_observed(self):
        self.runs("")

    def test_observed_by_own(self):
        if refusal("own"):
            self.skipTest(refusal("own"))
        self.runs("own")

    def test_observed_by_strace(self):
        if refusal("strace"):
            self.skipTest(refusal("strace"))
        self.runs("strace")


def processes_of(folder: pathlib.Path) -> list[str]:
    """The processes that work in the folder or name it."""
    found, name = [], os.fsencode(folder)
    for it in os.listdir("/proc"):
        if it.isdigit():
            try:
                with open(f"/proc/{it}/cmdline", "rb") as file:
                    words = file.read()
                if name in words or os.readlink(f"/proc/{it}/cwd").startswith(str(folder)):
                    found.append(f"{it} {words!r}")
            except OSError:
                continue
    return found


if __name__ == "__main__":
    unittest.main()
