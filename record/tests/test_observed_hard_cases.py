"""What is hard to observe, by each observer, in real builds: calls that few programs make, programs that want to trace
themselves, processes that live on or are killed, and signals at any moment."""

import os
import pathlib
import shutil
import subprocess
import unittest

import builds
from observed_calls import NO_SUCH_CALL, built
from observing import WithRoom
from versions import NINJA

WITHOUT_COMPILER = builds.missing_tools("cc")
ONE = "rule c\n  command = {}\nbuild out: c\n"


class Cases(WithRoom):
    """The cases, for each observer."""

    @classmethod
    def setUpClass(cls):
        super().setUpClass()
        cls.programs = None if WITHOUT_COMPILER else cls.room.path / "programs"
        if cls.programs:
            cls.programs.mkdir()
            built(cls.programs)

    def one(self, command, files=None, **options):
        """A build of one command, whose output is `out`: its footprint, and the build."""
        files = {"a": "1", "d/a": "2"} if files is None else files
        found = self.room.build(self.observer, ONE.format(command), files, **options)
        self.assertIn(b"out", found.commands, found.said)
        return found.commands[b"out"], found

    def calls(self, *words, then=": > $out", fails=False):
        """A build of one command that runs the test's program with these words."""
        if WITHOUT_COMPILER:
            self.skipTest(WITHOUT_COMPILER)
        program = self.programs / "calls"
        script = f"{program} {' '.join(words)}; s=$$?; {then}; exit $$s"
        it, found = self.one(script)
        if "FAILED" in found.said and found.status == 1 and subprocess.run(
                [program, *words], cwd=found.folder, capture_output=True).returncode == NO_SUCH_CALL:
            self.skipTest(f"this machine has no such call: {words[0]}")
        self.assertEqual(found.status != 0, fails, found.said)
        return it, found

    # calls that few programs make

    def test_calls_that_few_programs_make(self):
        for words, reads, writes in ((("vforks", "4", "a", "new"), {b"a"}, {b"new"}),
                                     (("openat2", "d", "a", "new"), {b"d/a"}, {b"d/new"}),
                                     (("path", "d", "a", "new"), {b"d/a"}, {b"d/new"}),
                                     (("duplicate", "d", "a", "new"), {b"d/a"}, {b"d/new"}),
                                     (("thread", "d", "a", "new"), {b"a", b"d/a"}, {b"new", b"d/new"})):
            with self.subTest(words[0]):
                it, found = self.calls(*words)
                self.assertEqual((it.reads, it.writes - {b"out"}, it.flags), (reads, writes, set()), found.said)

    def test_a_program_of_no_folder(self):
        it, _ = self.calls("memfd", str(self.programs / "calls"), "a", "new")
        self.assertEqual((it.reads, it.writes, it.flags), ({b"a"}, {b"out", b"new"}, set()))

    def test_a_program_by_its_folders_descriptor(self):
        copy = lambda folder: shutil.copy(self.programs / "calls", folder / "d/other")
        it, found = self.one(f"{self.programs}/calls execveat d other a new; : > $out", before=copy)
        self.assertEqual((it.reads, it.writes, it.flags), ({b"a", b"d/other"}, {b"out", b"new"}, set()), found.said)

    def test_a_folder_as_the_root_of_one_call(self):
        it, found = self.calls("in-root", "d", "/a", "/new")
        if not it.flags:  # one that cannot follow it has to say so
            self.assertEqual((it.reads, it.writes), ({b"d/a"}, {b"out", b"d/new"}), found.said)
        self.assertLessEqual(it.flags, {"unresolved"})

    def test_another_root(self):
        if os.geteuid():
            self.skipTest("only the superuser may change a process's root")
        it, found = self.calls("chroot", "d", "/a", "/new")
        self.assertEqual((it.reads, it.writes, it.flags), ({b"d/a"}, {b"out", b"d/new"}, {"namespace"}), found.said)

    def test_a_ring_of_the_kernels(self):
        it, _ = self.calls("ring", "a", "new")
        self.assertEqual((it.flags, it.writes), ({"uring"}, {b"out", b"new"}))

    def test_calls_of_32_bits(self):
        if self.observer == "strace":
            self.skipTest("strace follows calls of 32 bits")
        self.assertEqual(self.calls("thirty-two", "x")[0].flags, {"unresolved"})

    def test_a_static_program(self):
        if WITHOUT_COMPILER:
            self.skipTest(WITHOUT_COMPILER)
        try:
            make = lambda folder: built(folder, "prog", ("-static",))
            it, found = self.one("./prog copy a new; : > $out", before=make)
        except subprocess.CalledProcessError:
            self.skipTest("no static program can be built here")
        self.assertEqual((it.reads, it.writes, it.flags), ({b"a", b"prog"}, {b"out", b"new"}, set()), found.said)

    # programs that want to trace

    def test_a_program_that_asks_to_be_traced(self):
        it, found = self.calls("trace", "a", "new")
        self.assertEqual((it.reads, it.writes), ({b"a"}, {b"out", b"new"}))
        self.assertIn("asked to trace a process", found.said)
        self.assertIn("out", found.said)

    def test_strace_within_a_command(self):
        if builds.missing_tools("strace"):
            self.skipTest(builds.missing_tools("strace"))
        it, found = self.one("strace -o log cat a > new; : > $out")
        self.assertIn("asked to trace a process", found.said)
        self.assertEqual(found.status, 0)
        self.assertIn(b"new", it.writes)

    def test_sanitizers(self):
        if WITHOUT_COMPILER:
            self.skipTest(WITHOUT_COMPILER)
        text = ('#include <stdio.h>\n#include <stdlib.h>\nint main(void) {\n'
                '  char *p = malloc(9);\n  FILE *f = fopen("a", "r");\n  if (!f || !p) return 1;\n  fgets(p, 9, f);\n'
                '  f = fopen("new", "w");\n  fputs(p, f);\n  fclose(f);\n  free(p);\n  return 0;\n}\n')
        built_it = subprocess.run(["cc", "-fsanitize=address", "-o", self.programs / "safe", "-x", "c", "-"],
                                  input=text.encode(), capture_output=True)
        if built_it.returncode or subprocess.run([self.programs / "safe"], cwd="/",
                                                 capture_output=True).returncode != 1:
            self.skipTest("no program with a sanitizer can be built or run here")
        it, found = self.one(f"{self.programs}/safe && : > $out", environment={"ASAN_OPTIONS": "detect_leaks=0"})
        self.assertEqual((found.status, it.reads, it.writes), (0, {b"a"}, {b"out", b"new"}), found.said)
        it, found = self.one(f"{self.programs}/safe && : > $out")  # the search for leaks traces the program
        if found.status:
            self.assertIn("LSAN_OPTIONS=detect_leaks=0", found.said)
        self.assertEqual((it.reads, b"new" in it.writes), ({b"a"}, True), found.said)
        it, found = self.one(f"{self.programs}/safe && : > $out", environment={"LSAN_OPTIONS": "detect_leaks=0"})
        self.assertEqual((found.status, it.reads), (0, {b"a"}), found.said)

    # processes that live on, or are killed

    def test_a_process_that_outlives_ninja(self):
        it, found = self.calls("daemon", "when", "late")
        self.assertEqual(it.flags, {"cut"}, found.said)
        self.assertFalse((found.folder / "late").exists())  # nobody waited for it
        (found.folder / "when").touch()
        builds.wait_for(found.folder / "late")  # and nobody ended it

    def test_a_process_that_outlives_its_command_and_not_ninja(self):
        ninja = ("rule c\n  command = $cmd\n"
                 "build out: c\n  cmd = (sleep 1; cat a > late) >/dev/null 2>&1 & echo $$! > out\n"
                 "build all: c | out\n"
                 "  cmd = while test -e /proc/$$(cat out)/exe; do sleep 0.1; done; sleep 1; : > all\n")
        found = self.room.build(self.observer, ninja, {"a": "1"})
        it = found.commands[b"out"]
        reads, writes = it.reads - {b"/dev/null"}, it.writes - {b"/dev/null"}
        self.assertEqual((reads, writes, it.flags), ({b"a"}, {b"out", b"late"}, {"unresolved"}), found.said)
        self.assertIn("out (late)", found.said)
        self.assertEqual(found.commands[b"all"].writes, {b"all"})

    def test_commands_that_are_killed(self):
        ninja = ("rule c\n  command = $cmd\nbuild out: c\n  cmd = cat a > out; kill -9 $$$$\n"
                 "build two: c\n  cmd = cat b > two\nbuild three: c\n  cmd = cat a > three; kill -SEGV $$$$\n")
        found = self.room.build(self.observer, ninja, {"a": "1", "b": "2"})
        self.assertEqual({name: (it.reads, it.writes, it.flags) for name, it in found.commands.items()},
                         {b"out": ({b"a"}, {b"out"}, set()), b"two": ({b"b"}, {b"two"}, set()),
                          b"three": ({b"a"}, {b"three"}, set())}, found.said)
        self.assertIn(found.status, {NINJA.status_of_failure(128 + signal) for signal in (9, 11)}, found.said)

    # where ptrace is refused

    def test_another_user_in_a_container_without_ptrace(self):
        if os.geteuid():
            self.skipTest("only the superuser makes what stands for a container")
        folder = self.room.path / "refused"
        (folder / "build").mkdir(parents=True)
        (folder / "build/build.ninja").write_text(ONE.format("cat a > $out"))
        (folder / "build/a").write_text("1")
        copied = folder / "record"
        shutil.copytree(builds.RECORDER.parent, copied, ignore=shutil.ignore_patterns("tests", "__pycache__"))
        for path in (self.room.path, folder, folder / "build"):
            path.chmod(0o777)
        python = shutil.which("python3", path="/usr/bin:/bin")
        if python is None:
            self.skipTest("there is no Python that every user may run")
        wrapper = [python, pathlib.Path(__file__).resolve().parent / "without_ptrace.py"]
        for own, status in (((), 2), (("--observe=if-possible",), 0)):
            words = [*wrapper, python, copied / "rebug-record", folder / "build", folder / "out",
                     *(own or ("--observe",)), "--observer", self.observer, "--"]
            ran = subprocess.run(words, stdin=subprocess.DEVNULL, capture_output=True, text=True, cwd=folder)
            self.assertEqual(ran.returncode, status, ran.stderr)
            self.assertIn("cannot be observed", ran.stderr)
            self.assertEqual((folder / "out/trace").exists(), bool(own))
            self.assertFalse((folder / "out/observed").exists())


class OwnCases(Cases, unittest.TestCase):
    observer = "own"


class StraceCases(Cases, unittest.TestCase):
    observer = "strace"


if __name__ == "__main__":
    unittest.main()
