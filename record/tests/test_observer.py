"""rebug's own observer (record/observer): what it tells of calls that are hard to follow, and that nothing of a command
changes by it: its signals, its stops, its status, whatever becomes of the observer's reader."""

import os
import pathlib
import shutil
import signal
import struct
import subprocess
import tempfile
import time
import unittest
from io import BytesIO

import builds
from observed_calls import NO_SUCH_CALL, Log, built, observed, whole
from recorder.observed.calls import NOT_ASKED, Kind
from recorder.observed.own import LONGEST_TRY, SOURCE, NotBuilt, Own, _built
from recorder.observed.own_records import Records
from recorder.observed.ways import Standing

REFUSED = builds.missing_tools("cc") or Own().refusal()


def texts_of(texts):
    return b"".join(struct.pack("=I", len(it)) + it for it in texts)


def block(texts=(), ways=(), calls=(), commands=(), events=()):
    """A block as the observer writes it. A way is ten numbers and then pairs."""
    parts = [texts_of(texts), texts_of(struct.pack(f"={len(it)}I", *it) for it in ways),
             b"".join(struct.pack("=IiI4I", *it) for it in calls), texts_of(commands),
             b"".join(struct.pack("=iIiI", *it) for it in events)]
    return struct.pack("=5I", *map(len, parts)) + b"".join(parts)


class Reading(unittest.TestCase):
    """The records of a log, written here byte by byte."""

    LINE = b"rebug-observer 2 1764200000000 6.10 x86-64\n"
    FIRST = block([b"/d/a b\xff", b"/bin/sh", b"/usr/bin/dash", b"dash", b"/d", b"openat", b"/bin", b"usr/bin"],
                  [(2, 1, 0, 0, 5, 0, 0, 0, 0, 0), (4, 2, 2, 3, 0, 0, 0, 1, 1, 1, 7, 8, 2, 4, 5, 3)],
                  [(4, NOT_ASKED, os.O_RDONLY, 1, 0, 0, 6), (9, 0, 0, 1, 2, 0, 0), (1, 0, 0, 2, 0, 0, 0)],
                  [b"cat x; exit"], [(7, 1, 0, 5), (7, 2, 0, 5), (8, 3, 1, 6), (7, 1, 0, 7)])

    def read(self, data):
        records = Records(BytesIO(data))
        return list(records.events()), records

    def test_texts_calls_commands_and_events(self):
        second = block(calls=[(2, 0, 0, 0, 0, 0, 0), (0, 0, 512, 0, 0, 0, 0)],
                       events=[(7, 5, 9, 8), (9, 4, -15, 9), (7, 4, 0, 9)])
        events, records = self.read(self.LINE + self.FIRST + second)
        self.assertTrue(records.is_whole)
        self.assertEqual(records.began, 1764200000000)
        told = [(process, it.kind, whole(it), it.other, it.flags, it.result, it.command) for process, it in events]
        self.assertEqual(told, [
            (7, Kind.OPEN, b"/d/a b\xff", b"", 0, NOT_ASKED, None),
            (7, Kind.RENAME, b"/d/a b\xff", b"/bin/sh", 0, 0, None),
            (8, Kind.EXEC, b"/bin/sh", b"", 0, 0, b"cat x; exit"),
            (7, Kind.OPEN, b"/d/a b\xff", b"", 0, NOT_ASKED, None),
            (7, Kind.SPAWN, b"", b"", 512, 9, None),
            (9, Kind.EXIT, b"", b"", 0, -15, None),
            (7, Kind.EXIT, b"", b"", 0, 0, None)])
        self.assertIs(events[0][1], events[3][1])  # the same call is the same object
        self.assertEqual((records.release, records.machine, events[0][1].name), (b"6.10", b"x86-64", b"openat"))

    def test_ways(self):
        events, _ = self.read(self.LINE + self.FIRST)
        plain, program = events[0][1].way, events[2][1].way
        self.assertEqual((plain.entry, plain.standing, plain.end, plain.base, plain.links, plain.asked),
                         (b"/d/a b\xff", Standing.FILE, None, b"/d", (), ()))
        self.assertEqual((program.entry, program.standing, program.end, program.end_standing),
                         (b"/bin/sh", Standing.LINK, b"/usr/bin/dash", Standing.FILE))
        self.assertEqual((program.links, program.ends, program.asked),
                         (((b"/bin", b"usr/bin"),), ((b"/bin/sh", b"dash"),), ((b"/d", Standing.FOLDER),)))

    def test_a_log_without_a_word(self):
        self.assertEqual(self.read(b"")[0], [])
        self.assertTrue(self.read(b"")[1].is_whole)

    def test_a_log_that_is_cut_off_gives_its_whole_blocks(self):
        for cut in (1, 19, 20, 24, len(self.FIRST) - 1):
            events, records = self.read(self.LINE + self.FIRST + self.FIRST[:cut])
            self.assertEqual((len(events), records.is_whole), (4, False), cut)

    def test_numbers_that_nothing_has(self):
        for wrong in (block(events=[(7, 4, 0, 5)]), block(calls=[(99, 0, 0, 0, 0, 0, 0)]),
                      block(calls=[(4, 0, 0, 9, 0, 0, 0)]), block(events=[(8, 3, 2, 6)]), b"x" * 20,
                      block(ways=[(2, 99, 0, 0, 0, 0, 0, 0, 0, 0)]), block(ways=[(2, 1, 0, 0, 0, 0, 0, 1, 0, 0)]),
                      block(ways=[(99, 1, 0, 0, 0, 0, 0, 0, 0, 0)]),
                      struct.pack("=5I", 8, 0, 0, 0, 0) + struct.pack("=I", 9) + b"abcd"):
            events, records = self.read(self.LINE + self.FIRST + wrong)
            self.assertEqual((len(events), records.is_whole), (4, False))

    def test_another_first_line(self):
        for line in (b"rebug-observer 1 1\n", b"rebug-observer 2 x 6.10 arm64\n", b"rebug-observer 2 1\n", b"7 execve(\n"):
            self.assertEqual((self.read(line + self.FIRST)[0], self.read(line + self.FIRST)[1].is_whole), ([], False))

    def test_the_kinds_are_the_observers(self):
        text = SOURCE.read_text()
        names = text[text.index("enum kind {") + 11:].split("}")[0].replace("\n", " ").split(",")
        from recorder.observed.own_records import KINDS
        self.assertEqual([it.strip() for it in names][:len(KINDS)], [it.name for it in KINDS])


@unittest.skipIf(builds.missing_tools("cc"), builds.missing_tools("cc"))
class Building(unittest.TestCase):
    """The program is built once, into the cache."""

    def setUp(self):
        self.room = pathlib.Path(tempfile.mkdtemp(prefix="rebug-tests-"))
        self.addCleanup(shutil.rmtree, self.room)
        before = {it: os.environ.get(it) for it in ("XDG_CACHE_HOME", "PATH")}
        self.addCleanup(lambda: [os.environ.__setitem__(it, to) if to is not None else os.environ.pop(it, None)
                                 for it, to in before.items()])
        os.environ["XDG_CACHE_HOME"] = str(self.room / "cache")
        self.source = self.room / "observer.c"
        self.source.write_text("int main(void) { return 0; }\n")

    def test_it_is_built_once_for_each_source(self):
        first = _built(self.source)
        self.assertEqual(first.parent, self.room / "cache" / "rebug")
        self.assertEqual(subprocess.run([first]).returncode, 0)
        stamp = first.stat().st_mtime_ns
        self.assertEqual((_built(self.source), first.stat().st_mtime_ns), (first, stamp))
        self.source.write_text("int main(void) { return 3; }\n")
        second = _built(self.source)
        self.assertEqual(subprocess.run([second]).returncode, 3)
        self.assertEqual(sorted(first.parent.iterdir()), sorted([first, second]))  # and nothing that was left behind

    def test_what_make_built_is_taken_where_it_is_not_older(self):
        beside = self.room / "observer"
        beside.write_text("#!/bin/sh\n")
        beside.chmod(0o755)
        self.assertEqual(_built(self.source), beside)
        os.utime(beside, ns=(1, 1))
        self.assertNotEqual(_built(self.source), beside)

    def test_a_source_that_does_not_build_is_a_sentence(self):
        self.source.write_text("int main(void) { return nothing_of_this_name; }\n")
        with self.assertRaisesRegex(NotBuilt, "does not build the observer.*nothing_of_this_name"):
            _built(self.source)
        self.assertEqual(list((self.room / "cache" / "rebug").iterdir()), [])

    def test_without_a_compiler_it_is_a_sentence(self):
        os.environ["PATH"] = str(self.room)
        with self.assertRaisesRegex(NotBuilt, "there is no C compiler"):
            _built(self.source)

    @unittest.skipIf(os.geteuid() == 0, "the superuser writes where nobody may")
    def test_a_cache_that_cannot_be_written(self):
        (self.room / "cache").mkdir(mode=0o500)
        self.assertEqual(subprocess.run([_built(self.source)]).returncode, 0)

    def test_a_trial_has_time_on_a_busy_machine(self):
        """The observer's own limit is the recorder's, and a trial that it ended is said as one that was too late."""
        self.assertIn(f"LONGEST_TRY = {LONGEST_TRY} ", SOURCE.read_text())
        self.assertGreaterEqual(LONGEST_TRY, 60)
        program = self.room / "observer"
        program.write_text("#!/bin/sh\nkill -ALRM $$\n")
        program.chmod(0o755)
        self.assertEqual(Own(program).refusal(), f"a trial of ptrace did not end within {LONGEST_TRY} seconds")

    def test_a_cache_that_is_a_file(self):
        (self.room / "cache").write_text("")
        self.assertEqual(subprocess.run([_built(self.source)]).returncode, 0)


@unittest.skipIf(REFUSED, REFUSED)
class Calls(unittest.TestCase):
    """What is told of the test's program (programs/calls.c), in a folder with `a` and `d/a`."""

    @classmethod
    def setUpClass(cls):
        cls.room = pathlib.Path(tempfile.mkdtemp(prefix="rebug-tests-"))
        cls.room.chmod(0o755)
        cls.addClassCleanup(shutil.rmtree, cls.room)
        cls.program = built(cls.room)

    def setUp(self):
        self.folder = pathlib.Path(tempfile.mkdtemp(dir=self.room))
        self.folder.chmod(0o777)
        (self.folder / "d").mkdir()
        for path, text in (("a", "above\n"), ("d/a", "below\n")):
            (self.folder / path).write_text(text)
        self.here = os.fsencode(os.path.realpath(self.folder))

    def run_calls(self, *words, before=None, observer=None):
        found = observed(Own(observer), [self.program, *words], self.folder, before)
        if found.status == NO_SUCH_CALL:
            self.skipTest(f"this machine has no such call: {words[0]}")
        self.assertEqual(found.status, 0)
        return found

    def opened(self, found, reading=True):
        """The paths below the folder that were opened to read, or to write."""
        return {whole(call)[len(self.here) + 1:] for _, call in found.events
                if call.kind is Kind.OPEN and call.result == NOT_ASKED and not call.flags & os.O_PATH
                and (call.flags & os.O_ACCMODE == os.O_RDONLY) == reading and whole(call).startswith(self.here + b"/")}

    def test_paths_of_each_way(self):
        for words, reads, writes in (
                (("copy", "a", "out"), {b"a"}, {b"out"}),
                (("vforks", "3", "a", "out"), {b"a"}, {b"out"}),
                (("openat2", "d", "a", "out"), {b"d/a"}, {b"d/out"}),
                (("in-root", "d", "/../a", "/out"), {b"d/a"}, {b"d/out"}),
                (("path", "d", "a", "out"), {b"d/a"}, {b"d/out"}),
                (("duplicate", "d", "a", "out"), {b"d", b"d/a"}, {b"d/out"}),
                (("empty", "a", "out"), {b"a"}, {b"out"}),
                (("thread", "d", "a", "out"), {b"d/a", b"a"}, {b"d/out", b"out"}),
                (("trace", "a", "out"), {b"a"}, {b"out"})):
            with self.subTest(words[0]):
                found = self.run_calls(*words)
                self.assertEqual((self.opened(found), self.opened(found, False)), (reads, writes))
                (self.folder / "out").unlink(missing_ok=True)
                (self.folder / "d/out").unlink(missing_ok=True)

    def test_a_file_that_gets_its_name_late(self):
        found = self.run_calls("unnamed", "d", "a", "d/new")
        self.assertEqual((self.opened(found), self.opened(found, False)), ({b"a"}, {b"d"}))
        links = [call for _, call in found.events if call.kind is Kind.LINK]
        self.assertEqual([(it.path.endswith(b" (deleted)"), it.other, it.result) for it in links],
                         [(True, self.here + b"/d/new", 0)])

    def test_a_path_without_a_letter_is_none(self):
        found = self.run_calls("empty", "a", "out")
        self.assertEqual([call for _, call in found.events if whole(call) == self.here], [])

    def test_a_folder_that_was_renamed_has_its_other_name(self):
        found = self.run_calls("renamed", "d", "../d", "../e", "a", "out")
        self.assertEqual((self.opened(found), self.opened(found, False)), ({b"e/a"}, {b"e/out"}))
        self.assertEqual(found.paths(Kind.RENAME), [self.here + b"/d"])

    def test_programs_by_descriptors(self):
        shutil.copy(self.program, self.folder / "d/other")
        found = self.run_calls("execveat", "d", "other", "a", "out")
        program = os.fsencode(os.path.realpath(self.program))
        self.assertEqual(found.paths(Kind.EXEC)[1:], [self.here + b"/d/other", program])
        found = self.run_calls("memfd", str(self.program), "a", "out")
        self.assertEqual([it.partition(b":")[0] for it in found.paths(Kind.EXEC)[1:]], [b"/memfd"])
        self.assertEqual(self.opened(found), {b"a"})

    def test_a_thread_puts_a_program_in_the_place_of_its_process(self):
        found = self.run_calls("thread-runs", str(self.program), "copy", "a", "out")
        last = [(process, call.result) for process, call in found.events if call.kind is Kind.EXEC][-1]
        self.assertNotEqual(last[0], found.root)
        self.assertEqual(last[1], found.root)
        self.assertEqual({process for process, call in found.events if whole(call) == self.here + b"/a"}, {found.root})
        self.assertEqual([process for process, call in found.events if call.kind is Kind.EXIT], [found.root])

    @unittest.skipIf(os.geteuid(), "only the superuser may change a process's root")
    def test_another_root(self):
        found = self.run_calls("chroot", "d", "/a", "/out")
        self.assertEqual((self.opened(found), self.opened(found, False)), ({b"d/a"}, {b"d/out"}))
        self.assertIn(Kind.NAMESPACE, found.kinds())

    def test_what_cannot_be_followed_is_told(self):
        self.assertIn(Kind.URING, self.run_calls("ring", "a", "out").kinds())
        self.assertIn(Kind.UNRESOLVED, self.run_calls("thirty-two", "a").kinds())
        traces = [call.result for _, call in self.run_calls("trace", "a", "out").events if call.kind is Kind.TRACE]
        self.assertEqual(traces, [-1])
        self.assertTrue({Kind.UNRESOLVED, Kind.TRACE, Kind.URING}.isdisjoint(self.run_calls("copy", "a", "out").kinds()))

    @unittest.skipIf(os.geteuid(), "only the superuser becomes another user")
    def test_another_user_without_rights(self):
        observer = self.folder / "observer"
        shutil.copy(Own().program(), observer)
        nobody = {"before": lambda: (os.setgroups([]), os.setgid(65534), os.setuid(65534)), "observer": observer}
        found = self.run_calls("copy", "a", "out", **nobody)
        self.assertEqual((self.opened(found), self.opened(found, False)), ({b"a"}, {b"out"}))
        (self.folder / "out").unlink()
        found = self.run_calls("hidden", "a", "out", **nobody)  # it lets nobody look into it, and that is told
        self.assertEqual([call.kind for _, call in found.events[-3:]], [Kind.UNRESOLVED, Kind.UNRESOLVED, Kind.EXIT])

    def test_what_failed(self):
        script = "cat gone; cat a/b; mkdir d; ln -s x d/a; echo 2>/dev/null >/gone/x; ./a; set -C; echo > a; true"
        at = lambda path: self.here + b"/" + path
        found = observed(Own(), ["/bin/sh", "-c", script], self.folder)
        results = {(call.kind, call.path if call.kind is not Kind.SYMLINK else call.other): call.result
                   for _, call in found.events if call.result < 0}
        for key, errno in {(Kind.OPEN, at(b"gone")): -2, (Kind.OPEN, at(b"a/b")): -20, (Kind.MKDIR, at(b"d")): -17,
                           (Kind.SYMLINK, at(b"d/a")): -17, (Kind.OPEN, b"/gone/x"): -2,
                           (Kind.EXEC, at(b"a")): -13}.items():
            self.assertEqual(results.get(key), errno, key)

    def test_listings_and_descriptors_of_folders(self):
        found = observed(Own(), ["/bin/sh", "-c", "ls d; cd d && cp a ../out"], self.folder)
        self.assertEqual(set(found.paths(Kind.LIST)), {self.here + b"/d"})
        self.assertIn(self.here + b"/d/a", found.paths(Kind.OPEN))
        self.assertIn(self.here + b"/out", found.paths(Kind.OPEN))

    def test_a_command_is_told_as_ninja_starts_it_and_only_so(self):
        text = "echo 'a b'; : " + "x" * 120_000
        for words, command in ((["/bin/sh", "-c", text], os.fsencode(text)), (["/bin/sh", "-c", text, "more"], None),
                               (["/bin/sh", "-e", text], None), (["/bin/echo", "-c", text], None)):
            found = observed(Own(), words, self.folder)
            self.assertEqual(found.events[0][1].command, command)

    def test_odd_bytes_and_the_longest_paths(self):
        names = [b"caf\xc3\xa9 \xff\"\\x>.txt", b"x" * 255, b"/".join([b"y" * 200] * 20)]
        (self.folder / os.fsdecode(os.path.dirname(names[2]))).mkdir(parents=True)
        for name in names:
            (self.folder / os.fsdecode(name)).write_text("x")
            found = observed(Own(), [b"/bin/cat", name], self.folder)
            self.assertIn(self.here + b"/" + name, [call.path for _, call in found.events if call.result == NOT_ASKED])

    def test_three_thousand_processes(self):
        found = observed(Own(), ["/bin/sh", "-c", "for i in $(seq 3000); do /bin/true; done; cat a"], self.folder)
        spawned = [call.result for _, call in found.events if call.kind is Kind.SPAWN]
        self.assertGreaterEqual(len(spawned), 3001)
        self.assertEqual(len([1 for _, call in found.events if call.kind is Kind.EXIT]), len(spawned) + 1)
        self.assertIn(self.here + b"/a", found.paths(Kind.OPEN))


@unittest.skipIf(REFUSED, REFUSED)
class Nothing(unittest.TestCase):
    """Nothing of the command is another because it is observed."""

    def run_shell(self, script, **options):
        return Log(Own(), ["/bin/sh", "-c", script], **options)

    def test_statuses_and_signals_are_the_commands_own(self):
        for script, status in (("exit 0", 0), ("exit 3", 3), ("exit 255", 255), ("kill -TERM $$", -15),
                               ("kill -KILL $$", -9), ("kill -INT $$", -2), ("/bin/sh -c 'kill -9 $$'; exit $?", 137)):
            log = self.run_shell(script, stderr=subprocess.DEVNULL)
            exits = [(process, call.result) for process, call in log.events() if call.kind is Kind.EXIT]
            self.assertEqual((log.end(), exits[-1]), (status, (log.process.pid, status)), script)

    def test_each_signal_is_handled_once(self):
        with tempfile.TemporaryDirectory() as room:
            found = observed(Own(), [built(pathlib.Path(room)), "signals", "500"], pathlib.Path(room))
            self.assertEqual(found.status, 0)

    def test_a_signal_from_outside(self):
        for number in (signal.SIGINT, signal.SIGTERM, signal.SIGHUP):
            script = f"trap 'exit 9' {number.value}; echo; while :; do sleep 0.05; done"
            log = self.run_shell(script, stdout=subprocess.PIPE)
            with log.process.stdout as said:
                said.readline()
            log.process.send_signal(number)
            log.events()
            self.assertEqual(log.end(), 9)

    def test_a_stopped_command_stays_stopped_until_it_is_continued(self):
        log = self.run_shell("kill -STOP $$; exit 7")
        _, status = os.waitpid(log.process.pid, os.WUNTRACED)
        self.assertTrue(os.WIFSTOPPED(status) and os.WSTOPSIG(status) == signal.SIGSTOP)
        time.sleep(0.3)
        with open(f"/proc/{log.process.pid}/stat") as file:
            self.assertIn(file.read().split()[2], "tT")
        log.process.send_signal(signal.SIGCONT)
        log.events()
        self.assertEqual(log.end(), 7)

    def test_it_has_its_parent_group_session_descriptors_and_no_other_child(self):
        script = ("import os; me = os.getpid(); print(os.getppid(), os.getpgrp(), os.getsid(0), me, "
                  "open(f'/proc/{me}/task/{me}/children').read().split(), sorted(os.listdir('/proc/self/fd')))")
        words = [shutil.which("python3"), "-c", script]
        found = observed(Own(), words, pathlib.Path("/"), output=True)
        parent, group, session, number, rest = found.output.decode().split(" ", 4)
        self.assertEqual((int(parent), int(group), int(session), int(number)),
                         (os.getpid(), os.getpgrp(), os.getsid(0), found.root))
        self.assertEqual(rest, "[] ['0', '1', '2', '3']\n")  # 3 is the folder that it lists

    def test_the_observer_has_a_session_of_its_own_and_takes_no_signal(self):
        with tempfile.TemporaryDirectory() as room:
            log = self.run_shell("while ! test -e go; do sleep 0.05; done; exit 4", cwd=room)
            beside = log.beside()
            self.assertEqual(os.getsid(beside), beside)
            for number in (signal.SIGINT, signal.SIGTERM, signal.SIGHUP, signal.SIGPIPE, signal.SIGTSTP):
                os.kill(beside, number)
            pathlib.Path(room, "go").touch()
            log.events()
            self.assertEqual(log.end(), 4)

    def test_a_reader_that_goes_leaves_the_command_alone(self):
        log = self.run_shell("for i in $(seq 300); do /bin/true; done; cat /dev/null && exit 5")
        os.close(log.reader)
        self.assertEqual(log.end(), 5)

    def test_a_slow_reader_loses_nothing(self):
        log = self.run_shell("for i in $(seq 400); do /bin/echo >/dev/null; done; exit 6")
        time.sleep(1.5)
        self.assertIsNone(log.process.poll())  # it waits for its reader
        events = log.events()
        self.assertEqual((log.end(), len([1 for _, it in events if it.kind is Kind.EXIT])), (6, 402))

    def test_where_the_observer_is_killed_the_command_ends_at_once(self):
        log = self.run_shell("sleep 900; true")
        os.kill(log.beside(), signal.SIGKILL)
        self.assertEqual(log.end(), -9)
        os.close(log.reader)

    def test_what_lives_on_is_observed_on(self):
        with tempfile.TemporaryDirectory() as room:
            program = built(pathlib.Path(room))
            log = Log(Own(), [program, "daemon", "when", "late"], cwd=room)
            self.assertEqual(log.process.wait(builds.LONGEST_SECONDS), 0)
            self.assertFalse(os.path.exists(os.path.join(room, "late")))
            pathlib.Path(room, "when").touch()
            events = log.events()
            self.assertEqual(log.end(), 0)
        # the command, the one between, and the one that lives on: on a busy machine the first two may be told last
        ended = {process: place for place, (process, call) in enumerate(events) if call.kind is Kind.EXIT}
        ((opened, late),) = [(place, process) for place, (process, call) in enumerate(events) if call.path.endswith(b"/late")]
        self.assertEqual((len(ended), log.process.pid in ended, late == log.process.pid), (3, True, False))
        self.assertGreater(ended[late], opened)


if __name__ == "__main__":
    unittest.main()
