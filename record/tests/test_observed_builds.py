"""Builds that are recorded with --observe, by each observer: commands of every shape, what else is recorded, and which
files of an earlier recording stay."""

import os
import re
import subprocess
import sys
import unittest
import unittest.mock

import builds
import observed_2
from observing import Room, WithRoom
from recorder.observed import log_pipe
from versions import NINJA

ONE = "rule c\n  command = {}\nbuild out: c\n"
PYTHON = f"{os.path.realpath(sys.executable)} -B -E"
ODD = b'caf\xc3\xa9 \xff"\\x>.txt'
MANY = ("rule c\n  command = for i in 1 2 3; do cat a$$i > o$$i & done; wait; touch $out\nbuild out: c\n"
        "rule d\n  command = sleep 0.01; cat $in > $out\n"
        + "".join(f"build w{it}: d a{it % 3 + 1}\n" for it in range(200)))
CHAIN = """rule copy
  command = cat $in > $out
rule keep
  command = cmp -s $in $out || cp $in $out
  restat = 1
rule list
  command = cat $in list.h > $out && echo "$out: $in list.h" > $out.d
  depfile = $out.d
  deps = gcc
rule fail
  command = cat $in > $out; exit 3
build one: copy s1
build kept: keep one
build user: copy kept
build listed: list s2
"""


class Cases(WithRoom):
    """The cases, for each observer."""

    def one(self, command, files=None, **options):
        """The footprint of the one command of a build, whose output is `out`."""
        found = self.room.build(self.observer, ONE.format(command), {"a": "1"} if files is None else files, **options)
        self.assertEqual((found.status, list(found.commands)), (0, [b"out"]), found.said)
        self.said = found.said
        return found.commands[b"out"]

    # commands of every shape

    def test_odd_bytes_in_names(self):
        it = self.one("cat caf* > out; cat out > 'sp ace'; mkdir \"`cat a`\"; : > 'tab\tline\\end'",
                      {ODD: "x", "a": "x\ny"})
        self.assertIn(ODD, it.reads)
        self.assertEqual(it.writes, {b"out", b"sp ace", b"tab\tline\\end"})
        self.assertEqual(it.folders, {b"x\ny"})

    def test_a_command_of_100000_bytes(self):
        it = self.one(": " + "x" * 100_000 + "; cat a > $out")
        self.assertEqual((it.reads, it.writes), ({b"a"}, {b"out"}))

    def test_3000_processes_in_a_command(self):
        it = self.one("i=0; while [ $$i -lt 3000 ]; do (:) ; i=$$((i + 1)); done; cat a > $out")
        self.assertEqual((it.reads, it.writes, it.flags), ({b"a"}, {b"out"}, set()))

    def test_the_console(self):
        it = self.one("cat a > $out\n  pool = console")
        self.assertEqual((it.reads, it.writes), ({b"a"}, {b"out"}))

    def test_threads_that_have_a_folder_in_common(self):
        script = ("import threading, os\ndef f():\n    os.chdir('d')\n"
                  "    open('../out', 'w').write(open('../a').read())\nos.mkdir('d')\n"
                  "t = threading.Thread(target=f)\nt.start()\nt.join()\nopen('../b', 'w').close()\n"
                  "open('c', 'w').close()\n")
        it = self.one(f"{PYTHON} t.py", {"a": "1", "t.py": script})
        self.assertEqual((it.reads, it.writes, it.folders),
                         ({b"a", b"t.py"}, {b"out", b"b", b"d/c"}, {b"d"}))

    def test_copied_descriptors_of_folders(self):
        script = ("import os\nd = os.open('d', os.O_RDONLY | os.O_DIRECTORY)\ne = os.dup(d)\nos.close(d)\n"
                  "os.mkdir('other')\nos.open('other', os.O_RDONLY)\nos.open('a', os.O_RDONLY, dir_fd=e)\n"
                  "os.open('../out', os.O_WRONLY | os.O_CREAT, dir_fd=e)\nos.fchdir(e)\nopen('b').read()\n")
        it = self.one(f"{PYTHON} t.py", {"d/a": "1", "d/b": "2", "t.py": script})
        self.assertEqual((it.reads, it.writes, it.flags), ({b"d/a", b"d/b", b"t.py"}, {b"out"}, set()))

    def test_renamed_folders(self):
        it = self.one("mkdir -p d && cd d && mkdir -p e && cat ../a > e/x && mv e g && cd g && cat x ../../b > "
                      "../../out", {"a": "1", "b": "2"})
        self.assertEqual((it.reads, it.writes, it.folders, it.temps),
                         ({b"a", b"b"}, {b"out", b"d/g/x"}, {b"d", b"d/g"}, {b"d/e", b"d/e/x"}))

    def test_a_ninja_within_a_command(self):
        it = self.one("ninja -f inner.ninja && touch $out",
                      {"a": "1", "inner.ninja": "rule c\n  command = cat a > $out\nbuild x: c\n"})
        self.assertLessEqual({b"a", b"inner.ninja"}, it.reads)
        self.assertLessEqual({b"x", b"out"}, it.writes)

    def test_a_ninja_within_a_command_that_runs_a_command_of_the_outer_one(self):
        ninja = ("rule c\n  command = $do\nbuild x: c\n  do = cat a > x\n"
                 "build out: c | x\n  do = rm x; ninja -f inner.ninja; : > out\n")
        inner = "rule c\n  command = cat a > x\nbuild x: c a\n"
        found = self.room.build(self.observer, ninja, {"a": "1", "inner.ninja": inner}, words=("-j1",))
        self.assertEqual(found.status, 0, found.said)
        self.assertEqual((found.commands[b"x"].reads, found.commands[b"x"].writes), ({b"a"}, {b"x"}))
        self.assertLessEqual({b"x", b"out"}, found.commands[b"out"].writes)
        self.assertIn(b"a", found.commands[b"out"].reads)

    def test_equal_commands_of_two_edges(self):
        ninja = ("rule c\n  command = cat a > /dev/null; mkdir one two 2>/dev/null || :\nbuild one: c\nbuild two: c\n"
                 "rule d\n  command = sleep 0.5; : > $out\nbuild late: d\n")
        found = self.room.build(self.observer, ninja, {"a": "1"})
        starts = [line.split(b"\t") for line in (found.folder / ".ninja_log").read_bytes().splitlines()[1:]]
        at = {fields[3]: fields[0] for fields in starts}
        self.assertEqual(set(found.commands), {b"one", b"two", b"late"})
        expected = {"twin"} if at[b"one"] == at[b"two"] else set()
        self.assertEqual([found.commands[it].flags for it in (b"one", b"two", b"late")], [expected, expected, set()])

    def test_200_commands_and_32_at_once(self):
        found = self.room.build(self.observer, MANY, {"a1": "1", "a2": "2", "a3": "3"}, words=("-j", "32"))
        self.assertEqual((found.status, len(found.commands)), (0, 201), found.said)
        for number in range(200):
            it = found.commands[b"w%d" % number]
            self.assertEqual((it.reads, it.writes, it.flags),
                             ({b"a%d" % (number % 3 + 1)}, {b"w%d" % number}, set()))
        self.assertEqual(found.commands[b"out"].reads, {b"a1", b"a2", b"a3"})

    def test_a_response_file_and_a_depfile(self):
        ninja = ("rule c\n  command = cat $out.rsp > $out; echo $out: a > $out.d\n  rspfile = $out.rsp\n"
                 "  rspfile_content = words of $in\n  depfile = $out.d\n  deps = gcc\nbuild out: c a\n")
        found = self.room.build(self.observer, ninja, {"a": "1"})
        it = found.commands[b"out"]
        self.assertEqual((it.reads, it.writes), ({b"out.rsp"}, {b"out", b"out.d"}))

    def test_pythons_import_lists_folders_for_modules_alone(self):
        ninja = (f"rule c\n  command = $do\nbuild out: c\n  do = {PYTHON} gen.py out\n"
                 f"build late.h: c\n  do = : > late.h\nbuild late.py: c | out\n  do = : > late.py\n"
                 f"build list: c\n  do = {PYTHON} -c \"import os; open('list', 'w').write(str(os.listdir('.')))\"\n")
        found = self.room.build(self.observer, ninja, {"gen.py": "import sys, helper\nopen(sys.argv[1], 'w')\n",
                                                       "helper.py": ""}, words=("-j", "1"))
        it = found.commands[b"out"]
        self.assertEqual((it.reads, it.lists), ({b"gen.py", b"helper.py"}, set()))
        self.assertIn(b"late.py", it.stats)
        self.assertNotIn(b"late.h", it.stats | it.misses)
        self.assertIn(b".", found.commands[b"list"].lists)

    def test_a_module_by_its_compiled_copy(self):
        python = os.path.realpath(sys.executable)
        ninja = f"rule c\n  command = {python} gen.py $out\nbuild one: c\nbuild two: c || one\n"
        found = self.room.build(self.observer, ninja, {"gen.py": "import sys, helper\nopen(sys.argv[1], 'w')\n",
                                                       "helper.py": ""},
                                environment={"PYTHONDONTWRITEBYTECODE": "", "PYTHONPYCACHEPREFIX": ""})
        self.assertIn(b"helper.py", found.commands[b"two"].reads)
        self.assertTrue(any(it.endswith(b".pyc") for it in found.commands[b"two"].reads))

    def test_places_outside_are_counted_and_not_named(self):
        """Those of a folder in which a command changes an entry are named, as all that is below the build folder."""
        other, busy = self.room.path / "other", self.room.path / "busy"
        for folder, name in ((other, "private"), (busy, "beside")):
            folder.mkdir(exist_ok=True)
            (folder / name).write_text("1")
        command = f"cat {other}/private {busy}/beside a > out; : > {busy}/left"
        found = self.room.build(self.observer, ONE.format(command), {"a": "1"})
        it, busy = found.commands[b"out"], os.fsencode(os.path.realpath(busy))
        self.assertNotIn(b"private", (found.out / "observed").read_bytes())
        self.assertEqual(it.reads, {b"a", busy + b"/beside"})
        self.assertEqual(it.writes, {b"out", busy + b"/left"})
        self.assertGreater(it.outside, 0)

    # builds that fail, and builds that go on

    def test_builds_that_go_on(self):
        found = self.room.build(self.observer, CHAIN + "build bad: fail s1\n",
                                {"s1": "1", "s2": "2", "list.h": "h"}, words=("-k", "0", "-j", "2"))
        self.assertEqual(found.status, NINJA.status_of_failure(3), found.said)
        self.assertEqual(set(found.commands), {b"one", b"kept", b"user", b"listed", b"bad"})
        self.assertEqual((found.commands[b"bad"].reads, found.commands[b"bad"].writes), ({b"s1"}, {b"bad"}))
        self.assertEqual(found.commands[b"listed"].reads, {b"s2", b"list.h"})
        (found.folder / "build.ninja").write_text(CHAIN)
        nothing = self.room.record(self.observer, found.folder)
        self.assertEqual((nothing.status, nothing.commands), (0, {}), nothing.said)
        builds.wait_for_another_stamp()
        (found.folder / "s1").write_text("1")
        restat = self.room.record(self.observer, found.folder)  # `kept` leaves what is there, so `user` does not run
        self.assertEqual(set(restat.commands), {b"one", b"kept"}, restat.said)
        self.assertEqual((restat.commands[b"kept"].reads, restat.commands[b"kept"].writes), ({b"one", b"kept"}, set()))
        builds.wait_for_another_stamp()
        (found.folder / "list.h").write_text("more")
        self.assertEqual(set(self.room.record(self.observer, found.folder).commands), {b"listed"})

    # what else is recorded

    def test_equal_but_for_the_observation(self):
        if builds.missing_tools("cc"):
            self.skipTest(builds.missing_tools("cc"))
        ninja = CHAIN + "rule cc\n  command = cc -MD -MF $out.d -c $in -o $out\n  depfile = $out.d\n  deps = gcc\n" \
                        "build m.o: cc m.c\nrule say\n  command = echo said; cat nothing >&2 || :; : > $out\n" \
                        "build said: say\nbuild bad: fail s1\n"
        files = {"s1": "1", "s2": "2", "list.h": "h", "m.h": "",
                 "m.c": '#include "m.h"\nint main(void) { return 0; }\n'}
        with_it = self.room.build(self.observer, ninja, files, words=("-j1", "-k0"))
        recording = {it.name: it.read_bytes() for it in with_it.out.iterdir() if it.is_file()}
        subprocess.run(["ninja", "-t", "clean"], cwd=with_it.folder, check=True, capture_output=True)
        (with_it.folder / ".ninja_log").unlink()
        (with_it.folder / ".ninja_deps").unlink()
        ran = subprocess.run([sys.executable, builds.RECORDER, with_it.folder, with_it.out, "--", "-j1", "-k0"],
                             stdin=subprocess.DEVNULL, stdout=subprocess.PIPE, stderr=subprocess.STDOUT)
        without = {it.name: it.read_bytes() for it in with_it.out.iterdir() if it.is_file()}
        self.assertEqual(set(recording) - set(without), {"observed", "filters"})
        self.assertEqual((with_it.status, plain(with_it.said.encode())), (ran.returncode, plain(ran.stdout)))
        for name in without:
            self.assertEqual(plain(recording[name]), plain(without[name]), name)

    def test_files_of_an_earlier_recording(self):
        found = self.room.build(self.observer, ONE.format("cat a > $out"), {"a": "1"}, own=("--keep-log",))
        names = {it.name for it in found.out.iterdir()}
        self.assertLessEqual({"observed", "observed-log", "filters"}, names)
        self.assertGreater((found.out / "observed-log").stat().st_size, 0)
        (found.out / "mine").write_text("kept")
        (found.folder / "out").unlink()
        self.room.record(self.observer, found.folder)
        self.assertEqual({it.name for it in found.out.iterdir()}, names - {"observed-log"} | {"mine"})
        (found.folder / "out").unlink()
        ran = subprocess.run([sys.executable, builds.RECORDER, found.folder, found.out], capture_output=True)
        self.assertEqual((ran.returncode, {it.name for it in found.out.iterdir()}),
                         (0, names - {"observed", "observed-log", "filters"} | {"mine"}))

    def test_a_recorder_that_is_killed_leaves_nothing_elsewhere(self):
        folder, rest = self.room.path / "killed", self.room.path / "temporary"
        for it in (folder, folder / "build", rest):
            it.mkdir()
        (folder / "build/build.ninja").write_text(ONE.format(": > begun; sleep 1; : > $out"))
        words = [sys.executable, builds.RECORDER, folder / "build", folder / "out", "--observe", "--observer",
                 self.observer]
        process = subprocess.Popen(words, stdin=subprocess.DEVNULL, stdout=subprocess.DEVNULL,
                                   stderr=subprocess.DEVNULL, env={**os.environ, "TMPDIR": str(rest)})
        builds.wait_for(folder / "build/begun")
        process.kill()
        process.wait()
        self.assertEqual(os.listdir(rest), [])

    def test_entries_stand_once_and_are_named(self):
        found = self.room.build(self.observer, MANY, {"a1": "1", "a2": "2", "a3": "3"})
        whole = observed_2.read(found.out / "observed")
        self.assertTrue(whole.is_whole)
        named = {path for block in whole.blocks.values() for _, _, path in block.texts}
        above = {whole.paths[it] for it in whole.folders if it is not None}
        self.assertEqual(named | above, set(whole.paths))
        self.assertEqual([it for it in whole.blocks if it], list(found.commands))

    def test_version_1_says_the_same(self):
        """The file of version 1, which a test alone asks for, has the footprints that version 2 has in its words."""
        files = {"a1": "1", "a2": "2", "a3": "3"}
        found = self.room.build(self.observer, MANY, files)
        before = self.room.build(self.observer, MANY, files, environment={"REBUG_OBSERVED_VERSION": "1"})
        self.assertTrue((before.out / "observed").read_bytes().startswith(b"rebug-observed 1\n"))
        self.assertEqual(before.commands.keys(), found.commands.keys())
        for kind in ("flags", "reads", "misses", "lists", "writes", "edits", "deletes", "temps", "folders"):
            of_each = [{name: getattr(it, kind) for name, it in its.commands.items()} for its in (before, found)]
            self.assertEqual(*of_each, kind)


def plain(text: bytes) -> bytes:
    """A text without stamps, times of the clock, and the names of this test's folder."""
    text = re.sub(rb"\d{12,}", b"STAMP", text)
    text = re.sub(rb"^(\d+:\d+) \d+$", rb"\1 TIME", text, flags=re.M)
    return re.sub(rb"rebug-record: \d+ starts fell.*\n|^rebug-record: .* has no commands.*\n", b"", text)


class OwnCases(Cases, unittest.TestCase):
    observer = "own"


class StraceCases(Cases, unittest.TestCase):
    observer = "strace"


class Pipes(unittest.TestCase):
    """The pipe of the log, by its name in /proc, and as a FIFO where nobody else may open that name."""

    def hold(self, pipe):
        """What others write comes, and the log ends with the last of them."""
        subprocess.run(["/bin/sh", "-c", 'echo one > "$1"; echo two > "$1"', "sh", pipe.path], check=True)
        with open(pipe.path, "wb") as writer:
            pipe.close()
            writer.write(b"three\n")
        with open(pipe.reader, "rb") as reader:
            self.assertEqual(reader.read(), b"one\ntwo\nthree\n")

    def test_by_the_name_in_proc(self):
        pipe = log_pipe.LogPipe()
        if not pipe.path.startswith(b"/proc/"):
            self.skipTest("other processes may not open this one's descriptors here")
        self.hold(pipe)

    def test_a_fifo(self):
        with unittest.mock.patch.object(log_pipe, "_can_be_opened", lambda path: False):
            pipe = log_pipe.LogPipe()
        folder = os.path.dirname(pipe.path)
        self.assertEqual(os.listdir(folder), [b"log"])
        self.hold(pipe)
        self.assertFalse(os.path.exists(folder))


class Words(unittest.TestCase):
    """The words that observe, and those that do not go together."""

    def setUp(self):
        why = builds.missing_tools("ninja")
        if why:
            self.skipTest(why)
        self.room = Room()
        self.addCleanup(self.room.close)
        self.build = self.room.path / "build"
        self.build.mkdir()
        (self.build / "build.ninja").write_text(ONE.format(": > $out"))

    def run_it(self, *own, **environment):
        return subprocess.run([sys.executable, builds.RECORDER, self.build, self.room.path / "out", *own], text=True,
                              capture_output=True, stdin=subprocess.DEVNULL, env={**os.environ, **environment})

    def test_words_that_go_with_observe(self):
        for own in (["--observer", "strace"], ["--keep-log"]):
            ran = self.run_it(*own)
            self.assertEqual((ran.returncode, "goes with --observe" in ran.stderr), (2, True), ran.stderr)
        self.assertEqual(self.run_it("--observe", "--observer", "nobody").returncode, 2)
        self.assertFalse((self.build / "out").exists())

    def test_without_an_observer(self):
        path = self.room.path / "bin"
        path.mkdir()
        for name in ("ninja", "sh"):
            os.symlink(builds.shutil.which(name), path / name)
        environment = {"PATH": str(path), "XDG_CACHE_HOME": str(self.room.path / "cache")}
        ran = self.run_it("--observe", "--observer", "strace", **environment)
        self.assertEqual(ran.returncode, 2)
        self.assertIn("cannot be observed: there is no strace on the PATH. Ninja was not run", ran.stderr)
        self.assertFalse((self.build / "out").exists())
        ran = self.run_it("--observe=if-possible", "--observer", "strace", **environment)
        self.assertEqual(ran.returncode, 0, ran.stderr)
        self.assertIn("It is recorded without", ran.stderr)
        self.assertFalse((self.room.path / "out/observed").exists())
        self.assertTrue((self.build / "out").exists())


if __name__ == "__main__":
    unittest.main()
