"""How a call of `rebug shuffle` can end: bad input gets a sentence before anything runs, and whatever ends it nothing
is changed, and nothing goes on."""

from __future__ import annotations

import concurrent.futures
import contextlib
import os
import pathlib
import random
import shutil
import signal
import subprocess
import tempfile
import time
import unittest
import uuid
from collections.abc import Callable, Sequence
from dataclasses import dataclass
from typing import TypeVar

from builds import wait_until
from recorder.observed.observers import chosen
from shuffled import RULES, Shuffled, statement
from test_shuffle import DIFFERS, HIDDEN, LACKING, SOFT, SOUND, Case

T, U = TypeVar("T"), TypeVar("U")
SEED = 5
LANES = 3
"""How many calls are ended side by side, each over a build of its own."""
KILLS = 60
KILLS_OF_RECORDERS = 20
SIGNALS = (signal.SIGKILL, signal.SIGTERM, signal.SIGINT, signal.SIGHUP)
MARK = "REBUG_TEST_MARK"


def processes(mark: str) -> list[int]:
    """The processes that have the mark in their environment."""
    found = []
    for name in os.listdir("/proc"):
        with contextlib.suppress(OSError):
            if name.isdigit() and mark.encode() in pathlib.Path("/proc", name, "environ").read_bytes():
                found.append(int(name))
    return found


@dataclass(frozen=True)
class Kill:
    """A signal, after how many seconds it comes, and the words of the call."""

    number: int
    seconds: float
    words: tuple[str, ...]


def in_lanes(work: Callable[[Shuffled, T], U], made: Sequence[Shuffled], tasks: Sequence[T]) -> list[U]:
    """What comes of the tasks, in their order. Each build has a thread, in which its tasks run one after the other."""
    def lane(number: int) -> list[U]:
        return [work(made[number], it) for it in tasks[number :: len(made)]]

    with concurrent.futures.ThreadPoolExecutor(len(made)) as pool:
        lanes = list(pool.map(lane, range(len(made))))
    return [lanes[number % len(made)][number // len(made)] for number in range(len(tasks))]


def seconds_of(it: Shuffled, *words: str) -> float:
    """How long a call takes that finds a difference."""
    begun = time.monotonic()
    assert it.shuffle(*words).status == DIFFERS
    return time.monotonic() - begun


def wait_for_commands(mark: str) -> None:
    """Waits until a command of a build runs: this process, those of the run, Ninja, and the command."""
    wait_until(lambda: len(processes(mark)) > 5, "no command is run")


class BadInput(Case):
    def refused(self, it: Shuffled, said: str, *words: object, status: int = 2, **how: object) -> None:
        """One sentence, and no command has run."""
        (it.build / "build.ninja").open("a").close()
        before = it.everything()
        found = it.shuffle(*words, **how)
        self.assertEqual((found.status, found.said.count("\n"), found.objects), (status, 1, []), found.said)
        self.assertIn(said, found.said)
        self.assertTrue(found.said.startswith("rebug shuffle: "), found.said)
        self.assertEqual(it.everything(), before)

    def test_targets_and_manifests(self):
        it = self.made(SOUND + "build all: phony m.o\nbuild empty: phony\n")
        self.refused(it, "the manifest has no target nowhere", "--", "nowhere")
        self.refused(it, "need no command", "--", "empty")
        self.refused(it, f"cannot read {it.build}/other: No such file", "--", "-f", "other")
        (it.build / "bad").write_text("build a: unknown\n")
        self.refused(it, "bad:1: unknown rule", "--", "-f", "bad")
        (it.build / "loop").write_text(RULES + "build a: r b\nbuild b: r a\nbuild c: r\ndefault a c\n")
        self.refused(it, "wait for each other", "--", "-f", "loop")
        (it.build / "build.ninja").unlink()
        (it.build / "build.ninja").mkdir()
        self.assertIn("Is a directory", it.shuffle().said)

    def test_a_build_folder_that_is_none(self):
        it = self.made(SOUND)
        for name in ("nothing", "build.ninja"):
            done = subprocess.run([*it.words()[:2], it.build / name], capture_output=True, text=True)
            self.assertEqual((done.returncode, done.stderr), (2, f"rebug shuffle: {it.build / name} is no folder\n"))

    def test_folders_for_what_is_left(self):
        it = self.made(SOUND)
        (it.room / "file").write_text("")
        self.refused(it, "is no folder", it.room / "file")
        self.refused(it, "is not empty", it.room)
        self.refused(it, "cannot be made", it.room / "no/such")
        self.refused(it, "which is compared", it.build / "out")

    def test_a_ninja_that_is_none(self):
        it = self.made(SOUND)
        self.refused(it, "which cannot be run", env={**os.environ, "NINJA": "/nowhere/ninja"})

    def test_a_system_that_makes_no_namespaces(self):
        """By a filter of calls, as a container has it: unshare is refused."""
        it = self.made(SOUND)
        program = it.room / "deny"
        source = pathlib.Path(__file__).parent / "programs/deny_unshare.c"
        compiler = shutil.which("cc") or shutil.which("gcc")
        if not compiler:
            self.skipTest("not on this machine: cc")
        subprocess.run([compiler, "-o", program, source], check=True)
        before = it.everything()
        done = subprocess.run([program, *it.words()], capture_output=True, text=True)
        self.assertEqual((done.returncode, done.stdout), (2, ""), done.stderr)
        self.assertRegex(done.stderr, r"\Arebug shuffle: this system makes no copy .*namespaces: .*Nothing has run "
                                      r"\(--in-copy .*\)\n\Z")
        self.assertEqual(it.everything(), before)

    def test_a_build_that_fails_in_each_order(self):
        it = self.made(statement("a", "echo why >&2; false") + SOUND)
        self.refused(it, "a failed: why", status=3)

    def test_a_ninja_that_refuses_the_manifest(self):
        it = self.made("ninja_required_version = 99\n" + SOUND)
        self.refused(it, "Ninja refuses the build: ninja: ")

    def test_a_target_that_cannot_be_built(self):
        """Its source is not there, and no statement makes it."""
        it = self.made(SOUND + statement("a", "cp gone.c a", "gone.c"))
        for words in ([], ["--", "a"]):
            self.refused(it, "'gone.c', needed by 'a', missing and no known rule to make it. Nothing has run", *words)
        self.assertEqual(it.shuffle("--", "m.o", "n").status, 0)

    def test_a_build_folder_that_changes_meanwhile(self):
        it = self.made(SOUND + statement("slow", "sleep 1; touch slow"))
        mark = str(uuid.uuid4())
        with subprocess.Popen(it.words(), stdin=subprocess.DEVNULL, stdout=subprocess.DEVNULL, stderr=subprocess.PIPE,
                              text=True, env={**os.environ, MARK: mark}) as process:
            wait_for_commands(mark)
            (it.build / "new").write_text("")
            said = process.communicate()[1]
        self.assertEqual((process.returncode, said.count("\n"), "changed meanwhile" in said), (3, 1, True), said)

    def test_no_room_in_the_copies(self):
        it = self.made(statement("big", "head -c 40000000 /dev/zero > big && touch done") + SOUND)
        self.refused(it, "there is no room for what this build leaves", "--most-memory", "16", status=3)
        it.ninja()
        self.refused(it, "of which 16 MB are free, and the outputs that are there take 38 MB", "--most-memory", "16")


class InCopy(Case):
    """Builds in copies in another path."""

    def test_what_differs_is_found_and_nothing_is_changed(self):
        it = self.made(HIDDEN + statement("n", "cat ../src/s > n; echo more >> ../src/s", "| ../src/s"),
                       {"src/s": "s\n"})
        before = it.everything()
        found = it.shuffle("--in-copy")
        self.assertEqual((found.status, found.pair, found.difference["mended"]), (4, ("v.h", "m.o"), True), found.said)
        self.assertRegex(found.said, r"\Arebug shuffle: the builds run in /\S+/build, one after the other; [^\n]*\n\Z")
        self.assertEqual(it.everything(), before)

    def test_temporaries_and_the_users_own_folder_are_others(self):
        name = f"rebug-shuffle-{uuid.uuid4()}"
        it = self.made(statement("a", f"echo x > $HOME/{name}; echo x > $TMPDIR/{name}; cat $HOME/{name} > a") + SOUND)
        self.assertEqual(it.shuffle("--in-copy").status, 0)
        self.assertFalse(os.path.exists(os.path.expanduser(f"~/{name}")))
        self.assertFalse(os.path.exists(os.path.join(tempfile.gettempdir(), name)))

    def test_what_would_change_the_folders_is_refused(self):
        it = self.made(statement("a", "echo x > @ROOM@/build/a"))
        before = it.everything()
        found = it.shuffle("--in-copy")
        self.assertEqual((found.status, "by its whole path" in found.said), (2, True), found.said)
        self.assertEqual(it.everything(), before)
        it = self.made(SOUND)
        for leads in (it.room / "elsewhere", it.build / "s"):
            (it.build / "l").symlink_to(leads)
            (it.build / "s").write_text("")
            found = it.shuffle("--in-copy")
            self.assertEqual((found.status, "would change" in found.said), (2, True), found.said)
            (it.build / "l").unlink()


class Ends(Case):
    def setUp(self):
        self.chance = random.Random(SEED)

    def ended(self, it: Shuffled, number: int, seconds: float | None, *words: str) -> int:
        """The status of a call that a signal ends after so many seconds, or once a command runs; nothing of it is
        left."""
        room = tempfile.TemporaryDirectory(prefix="rebug-temporaries-")
        self.addCleanup(room.cleanup)
        mark = f"{MARK}={uuid.uuid4()}"
        name, _, value = mark.partition("=")
        before = it.everything()
        environment = {**os.environ, name: value, "TMPDIR": room.name}
        said = tempfile.TemporaryFile()
        self.addCleanup(said.close)
        process = subprocess.Popen(it.words(*words), stdin=subprocess.DEVNULL, stdout=subprocess.DEVNULL, stderr=said,
                                   env=environment, start_new_session=True)
        if seconds is None:
            wait_for_commands(value)
        else:
            time.sleep(seconds)
        process.send_signal(number)
        status = process.wait()
        said.seek(0)
        if status == 1 and b"KeyboardInterrupt" in said.read():
            status = -number  # Python itself began
        wait_until(lambda: not processes(mark), "processes of an ended call do not end")
        self.assertEqual(it.everything(), before, (number, seconds))
        self.assertEqual(os.listdir(room.name), [])
        self.assertNotIn(str(it.room), pathlib.Path("/proc/self/mounts").read_text())
        return status

    def test_signals_at_any_moment(self):
        more = "".join(statement(f"n{it}", f"sleep 0.02; echo {it} > n{it}; echo {it} >> s") for it in range(6))
        made = [self.made(HIDDEN + SOFT + more, {"build/s": "s\n"}) for _ in range(LANES)]
        undisturbed = min(in_lanes(lambda it, _: seconds_of(it), made, range(LANES)))
        kills = [Kill(self.chance.choice(SIGNALS), self.chance.random() * undisturbed,
                      ("--in-copy",) if self.chance.random() < 0.3 else ()) for _ in range(KILLS)]
        statuses = in_lanes(lambda it, kill: self.ended(it, kill.number, kill.seconds, *kill.words), made, kills)
        for kill, status in zip(kills, statuses):
            self.assertIn(status, (4, -kill.number, 128 + kill.number))
        self.assertGreater(sum(it != 4 for it in statuses), KILLS // 2)

    @unittest.skipIf(chosen(None)[1], "no observer")
    def test_signals_while_orders_are_recorded(self):
        """Nothing of the build changes, and nothing goes on, also none of the observers."""
        made = [self.made(HIDDEN + SOFT + statement("n", "sleep 0.1; echo n > n")) for _ in range(LANES)]
        above = tempfile.TemporaryDirectory(prefix="rebug-out-")
        self.addCleanup(above.cleanup)
        whole = in_lanes(lambda it, lane: seconds_of(it, f"{above.name}/whole{lane}", "--observe"), made, range(LANES))
        kills = [Kill(self.chance.choice(SIGNALS), self.chance.uniform(0.2, 1) * min(whole),
                      (f"{above.name}/{number}", "--observe")) for number in range(KILLS_OF_RECORDERS)]
        statuses = in_lanes(lambda it, kill: self.ended(it, kill.number, kill.seconds, *kill.words), made, kills)
        for kill, status in zip(kills, statuses):
            self.assertIn(status, (4, -kill.number, 128 + kill.number))
            out = pathlib.Path(kill.words[0])
            if status != 4 and out.exists():  # the signal came as the folder was written
                self.assertLessEqual({them.name for them in out.iterdir()}, set(os.listdir(f"{above.name}/whole0")))

    def test_a_command_that_goes_on_is_ended(self):
        """A process that a command leaves behind, and that takes no signal that can be refused."""
        left = "(trap '' INT TERM HUP; sleep 100; touch late) > /dev/null 2>&1 < /dev/null & touch a"
        it = self.made(statement("a", left) + statement("b", "sleep 2; touch b"))
        self.assertEqual(self.ended(it, signal.SIGINT, None), 128 + signal.SIGINT)
        mark = uuid.uuid4()
        found = it.shuffle(env={**os.environ, MARK: str(mark)})
        self.assertEqual((found.status, processes(str(mark))), (0, []))

    def test_a_process_of_a_run_is_killed(self):
        it = self.made(SOUND + statement("slow", "sleep 3; touch slow"))
        mark, before = str(uuid.uuid4()), it.everything()
        with subprocess.Popen(it.words(), stdin=subprocess.DEVNULL, stdout=subprocess.DEVNULL, stderr=subprocess.PIPE,
                              text=True, env={**os.environ, MARK: mark}) as process:
            wait_for_commands(mark)
            while process.poll() is None:
                for one in set(processes(mark)) - {process.pid}:
                    with contextlib.suppress(ProcessLookupError):
                        os.kill(one, signal.SIGKILL)
                time.sleep(0.01)
            said = process.communicate()[1]
        self.assertEqual((process.returncode, said.count("\n")), (3, 1), said)
        wait_until(lambda: not processes(mark), "processes of an ended call do not end")
        self.assertEqual(it.everything(), before)


if __name__ == "__main__":
    unittest.main()
