"""Tests of how the launcher sees that sources have changed: by the times and sizes of files, and by the sums of those
files alone that these say have changed."""

import os
import re
import shutil
import subprocess
import sys
import time
import unittest

from room import Room

# What every system has, and the launcher may run to look at sources.
TOOLS = ("bash", "cut", "find", "mv", "readlink", "rm", "sed", "sha256sum", "sort", "stat", "xargs")
# Notes its name and its words, and becomes the command of this name.
NOTING = r"""#!/bin/sh
printf '%s\n' "{name} $*" >>"{room}/started"
exec {real} "$@"
"""
# Gives what it read and what its processes read, in calls: the launcher becomes this program.
READER = """#!{python}
print(next(line.split()[1] for line in open("/proc/self/io") if line.startswith("syscr")))
"""
SAME = "rebug: proved, and of the sources that are here (rattle-kit-0 logic 0)\n"
OLDER = "rebug: proved, but older than the sources that are here; ./rebug proves these\n"


class Looked(Room):
    """The program `rebug` is proved, and a table says what the launcher found."""

    def setUp(self):
        super().setUp()
        self.call("x")
        self.called()
        self.table = f"{self.top}/crates/rebug/out/launcher.looked"
        self.source = f"{self.top}/crates/rev_desk/src/lib.rt"
        self.settle()

    def settle(self):
        """Has the launcher look until no file has changed so shortly before that it has no row."""
        for _ in range(600):
            self.assertEqual(self.state(), SAME)
            if os.path.exists(self.table) and re.match(r"[^\n]* listed [0-9a-f]{64}\n", self.read(self.table)):
                return
            time.sleep(0.2)
        self.fail("the table is never whole")

    def state(self, **more):
        """How the program stands. Nothing else is said."""
        ran = self.call("--version", **more)
        self.assertEqual((ran.stdout, ran.returncode, self.called()), ("proved report --version\n", 0, []))
        return ran.stderr

    def read(self, path):
        with open(path, encoding="utf-8") as file:
            return file.read()

    def put(self, path, text):
        """Writes a file in its place, without other inode."""
        with open(path, "w", encoding="utf-8") as file:
            file.write(text)

    def set_times(self, path, found, later=0):
        os.utime(path, ns=(found.st_atime_ns, found.st_mtime_ns + later))

    def noting(self):
        """A PATH of commands that note what was started."""
        folder = f"{self.room}/noting"
        os.makedirs(folder, exist_ok=True)
        for name in TOOLS:
            with open(f"{folder}/{name}", "w", encoding="utf-8") as file:
                file.write(NOTING.format(name=name, room=self.room, real=shutil.which(name)))
            os.chmod(f"{folder}/{name}", 0o755)
        return folder

    def answer(self, *words, path=None):
        """What a start writes into a file. (At a pipe the launcher stays, and passes it on.)"""
        how = self.how(**({"PATH": path} if path else {}))
        with open(f"{self.room}/answer", "w", encoding="utf-8") as how["stdout"]:
            ran = subprocess.run([shutil.which("bash"), f"{self.top}/rebug", *words], timeout=600, **how)
        self.assertEqual((ran.returncode, ran.stderr), (0, ""))
        return self.read(f"{self.room}/answer")

    def started(self, *words):
        """The commands that a start runs, and their words."""
        self.answer(*words, path=self.noting())
        started = self.read(f"{self.room}/started").splitlines()
        os.remove(f"{self.room}/started")
        return sorted(line.split() for line in started)

    def summed(self, started):
        """The files that were read to be summed."""
        return [word for line in started if line[0] == "sha256sum" for word in line[1:]]

    # WHAT A START COSTS

    def test_where_nothing_has_changed_two_commands_are_started_and_no_source_is_read(self):
        for words in (["x"], ["--manifest", "m"]):
            self.assertEqual([line[0] for line in self.started(*words)], ["find", "sha256sum"])
            self.assertEqual(self.summed(self.started(*words)), [])

    def test_one_file_that_has_changed_is_read_alone(self):
        self.put(self.source, self.read(self.source))
        self.assertEqual(self.summed(self.started("x")), ["crates/rev_desk/src/lib.rt"])

    @unittest.skipUnless(os.access("/proc/self/io", os.R_OK), "this system does not count reads")
    def test_a_start_reads_little(self):
        """A pipe that bash reads word by word costs a call for each byte."""
        self.put(self.program, READER.format(python=sys.executable))
        own = int(subprocess.run([self.program], stdout=subprocess.PIPE, text=True, check=True).stdout)
        for _ in range(2):
            first = int(self.answer("x")) - own
            self.assertLess(first, 2000)

    # CLOCKS THAT WERE TOUCHED

    def test_other_bytes_with_an_older_time_are_seen(self):
        self.put(self.source, "// other, longer\n")
        os.utime(self.source, (1, 1))
        self.assertEqual(self.state(), OLDER)
        self.assertEqual((self.call("x").stdout, self.called()), ("proved report x\n", ["ci"]))
        self.assertEqual(self.state(), SAME)

    def test_other_bytes_with_the_same_size_and_time_are_seen(self):
        before, text = os.stat(self.source), self.read(self.source)
        self.put(self.source, text.upper())
        self.set_times(self.source, before)
        after = os.stat(self.source)
        self.assertEqual((after.st_ino, after.st_size, after.st_mtime_ns),
                         (before.st_ino, before.st_size, before.st_mtime_ns))
        self.assertEqual(self.state(), OLDER)
        self.put(self.source, text)
        self.set_times(self.source, before)
        self.assertEqual(self.state(), SAME)

    def test_another_file_in_the_place_with_the_same_size_and_time_is_seen(self):
        before = os.stat(self.source)
        self.put(f"{self.source}.new", self.read(self.source).upper())
        self.set_times(f"{self.source}.new", before)
        os.replace(f"{self.source}.new", self.source)
        self.assertEqual(self.state(), OLDER)

    def test_a_file_with_a_time_to_come_is_read_each_time(self):
        before = os.stat(self.source)
        self.set_times(self.source, before, later=10**12)
        time.sleep(3.5)
        for _ in range(2):
            self.assertEqual(self.summed(self.started("x")), ["crates/rev_desk/src/lib.rt"])
            self.assertRegex(self.read(self.table), r"\A[^\n]* listed none\n")
            self.assertNotIn("rev_desk/src", self.read(self.table))

    def test_a_file_that_has_just_changed_is_read_once_more(self):
        """Its time of change counts: that of its text is as it was."""
        before, text = os.stat(self.source), self.read(self.source)
        for _ in range(100):
            self.put(self.source, text)
            self.set_times(self.source, before)
            self.assertEqual(self.state(), SAME)
            if os.stat(self.table).st_mtime - os.stat(self.source).st_ctime < 1:
                break
        self.assertNotIn("rev_desk/src", self.read(self.table))
        self.assertEqual(self.summed(self.started("x")), ["crates/rev_desk/src/lib.rt"])

    def test_files_that_come_and_go_are_seen(self):
        extra = f"{self.top}/crates/rev_desk/src/extra.rt"
        self.put(extra, "")
        os.utime(extra, (1, 1))
        self.assertEqual(self.state(), OLDER)
        os.remove(extra)
        self.assertEqual(self.state(), SAME)
        os.rename(self.source, extra)
        self.assertEqual(self.state(), OLDER)
        os.rename(extra, self.source)
        self.assertEqual(self.state(), SAME)

    def test_crates_that_the_program_comes_to_stand_on_are_seen(self):
        text = self.read(f"{self.top}/crates.txt")
        self.assertNotIn("\nrev_desk: report_tests", text)
        self.put(f"{self.top}/crates.txt", text.replace("\nrev_desk:", "\nrev_desk: report_tests"))
        self.assertEqual(self.state(), OLDER)
        self.assertIn(" report_tests ", self.read(self.table).partition(" sources ")[0])

    def test_a_link_counts_as_what_it_leads_to(self):
        elsewhere = f"{self.room}/elsewhere.rt"
        shutil.move(self.source, elsewhere)
        os.symlink(elsewhere, self.source)
        self.settle()
        self.put(elsewhere, "// changed\n")
        self.assertEqual(self.state(), OLDER)

    def test_another_program_in_the_place_is_not_the_noted_one(self):
        found = os.stat(self.program)
        self.put(self.program, self.read(self.program).replace('"proved', '"Proved'))
        self.set_times(self.program, found)
        ran = self.call("--version")
        self.assertEqual(ran.stdout, "Proved report --version\n")
        self.assertIn("not noted as proved", ran.stderr)

    # TABLES THAT DO NOT FIT

    def test_a_table_that_is_cut_or_of_another_form_is_not_believed(self):
        """These tables are wrong, so that it shows whether they are believed."""
        whole = self.read(self.table)
        wrong = re.sub("(?m)^[0-9a-f]{64} ", f"{'0' * 64} ", whole).replace(" state same ", " state older ", 1)
        first = wrong.index("\n")
        self.put(self.table, wrong)
        self.assertEqual(self.state(), OLDER)
        others = [wrong[:at] for at in (0, 20, wrong.index(" sources ") - 9, first - 1, first)]
        others += [wrong.replace("rebug-looked 1", "rebug-looked 2", 1), wrong.replace(" state older", " state", 1),
                   wrong.replace(" crates ", " crates $(touch x) ", 1), "\n\n" + wrong, "\0\0\xff" + wrong]
        for table in others:
            self.put(self.table, table)
            self.assertEqual(self.state(), SAME, table[:200])
            self.assertTrue(self.read(self.table).startswith("rebug-looked 1 "))

    def test_rows_that_are_cut_are_not_believed(self):
        whole, text = self.read(self.table), self.read(self.source)
        row = whole.index("crates/rev_desk/src")
        for number, at in enumerate((whole.index("\n") + 1, row - 120, row - 50, row + 9, len(whole) - 1)):
            self.put(self.table, whole[:at])
            self.put(self.source, f"// {number}\n")
            self.assertEqual(self.state(), OLDER, whole[:at][-200:])
            self.put(self.table, whole[:at])
            self.put(self.source, text)
            self.assertEqual(self.state(), SAME, whole[:at][-200:])

    def test_a_table_of_another_checkout_is_not_believed(self):
        other = f"{self.room}/other"
        shutil.copytree(self.top, other)
        source = f"{other}/crates/rev_desk/src/lib.rt"
        found = os.stat(source)
        self.put(source, self.read(source).upper())
        self.set_times(source, found)
        self.assertEqual(found.st_mtime_ns, os.stat(self.source).st_mtime_ns)
        for _ in range(2):
            ran = subprocess.run([f"{other}/rebug", "--version"], timeout=600, **self.how())
            self.assertEqual((ran.stderr, ran.returncode), (OLDER, 0))
            shutil.copy2(self.table, f"{other}/crates/rebug/out/launcher.looked")

    def test_a_name_that_a_row_cannot_have_is_summed(self):
        odd = f"{self.top}/crates/rev_desk/src/a\nb.rt"
        self.put(odd, "// one\n")
        self.assertEqual(self.state(), OLDER)
        self.assertEqual((self.call("x").stdout, self.called()), ("proved report x\n", ["ci"]))
        self.assertEqual(self.state(), SAME)
        found = os.stat(odd)
        self.put(odd, "// two\n")
        self.set_times(odd, found)
        self.assertEqual(self.state(), OLDER)

    def test_a_find_that_tells_no_times_is_enough(self):
        self.write("../bin/find", f"#!/bin/sh\nfor it; do [ x$it != x-printf ] || exit 1; done\n"
                                  f'exec {shutil.which("find")} "$@"\n')
        os.chmod(f"{self.room}/bin/find", 0o755)
        self.assertEqual(self.state(), SAME)
        found, text = os.stat(self.source), self.read(self.source)
        self.put(self.source, text.upper())
        self.set_times(self.source, found)
        self.assertEqual(self.state(), OLDER)
        self.put(self.source, text)
        self.assertEqual(self.state(), SAME)

    # OTHERS WHO START IT

    def test_starts_at_once_leave_one_table_that_is_whole(self):
        for table in ("", None):
            if table is not None:
                self.put(self.table, table)
            self.put(self.source, self.read(self.source))
            ran = [subprocess.Popen([f"{self.top}/rebug", "x"], **self.how()) for _ in range(8)]
            for one in ran:
                self.assertEqual((*one.communicate(timeout=600), one.returncode), ("proved report x\n", "", 0))
            self.assertEqual(sorted(os.listdir(os.path.dirname(self.table))),
                             ["launcher.built", "launcher.log", "launcher.looked", "rebug"])
        self.settle()

    def test_a_checkout_that_cannot_be_written_is_answered_from(self):
        """The superuser can write everything, so another user calls it then."""
        who = {"user": 65534, "group": 65534, "extra_groups": []} if os.geteuid() == 0 else {}
        out = os.path.dirname(self.table)
        os.chmod(self.room, 0o755)
        os.remove(self.table)
        os.chmod(out, 0o555)
        self.addCleanup(os.chmod, out, 0o755)
        for words, due in ((["x"], ("proved report x\n", "")), (["--version"], ("proved report --version\n", SAME))):
            ran = subprocess.run([f"{self.top}/rebug", *words], timeout=600, **self.how(), **who)
            self.assertEqual((ran.stdout, ran.stderr), due)
        self.assertNotIn("launcher.looked", os.listdir(out))
        self.put(self.source, "// changed\n")
        ran = subprocess.run([f"{self.top}/rebug", "x"], timeout=600, **self.how(), **who)
        self.assertEqual(ran.stdout, "proved report x\n")
        self.assertIn("cannot be written; running the program that is there", ran.stderr)
