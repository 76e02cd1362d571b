"""Ninja's logs as files: read one line at a time, however long, and with a sentence for those that are broken."""

import os
import pathlib
import random
import struct
import subprocess
import sys
import tempfile
import unittest

import builds
from recorder.depslog import BrokenLog, DepsLog
from recorder.disk import take_snapshot
from recorder.logs import LogEntry, new_entries, open_build_log, read_build_log
from recorder.manifest import Manifest
from recorder.ninja import Ninja

HEAD = b"# ninja log v5\n"
MANIFEST = b"rule c\n  command = touch $out\n  deps = gcc\n  depfile = x\nbuild o: c\nbuild p: c\n"
# Runs the recorder in a process of its own, and says the greatest memory that it took, in kilobytes. The kernel gives
# it as VmHWM: `ru_maxrss` counts the memory of the process that started this one, too.
MEASURED = """
import re, sys
sys.path.insert(0, sys.argv.pop(1))
from recorder.main import main
status = main(sys.argv[1:])
with open("/proc/self/status") as file:
    print("kilobytes", re.search(r"VmHWM:\\s+(\\d+) kB", file.read()).group(1))
sys.exit(status)
"""


def line(number, output=None):
    return b"%d\t%d\t%d\t%b\t%x\n" % (number, number + 1, 10**18 + number, output or b"out%d" % number, number)


def deps_log(*records, version=4):
    """A deps log: of a bytes record the path, of a tuple the output's number and those that it lists."""
    content, count = b"# ninjadeps\n" + struct.pack("<I", version), 0
    for it in records:
        if isinstance(it, bytes):
            body = it.ljust((len(it) + 3) // 4 * 4, b"\0") + struct.pack("<I", count ^ 0xFFFFFFFF)
            content, count = content + struct.pack("<I", len(body)) + body, count + 1
        else:
            body = struct.pack("<IQ", it[0], 5) + b"".join(struct.pack("<I", number) for number in it[1:])
            content += struct.pack("<I", len(body) | 1 << 31) + body
    return content


class InFolder(unittest.TestCase):
    def setUp(self):
        room = tempfile.TemporaryDirectory(prefix="rebug-logs-")
        self.addCleanup(room.cleanup)
        self.room = pathlib.Path(room.name)
        (self.room / "build.ninja").write_bytes(MANIFEST)

    def opened(self, content, name=".ninja_log"):
        (self.room / name).write_bytes(content)
        return open_build_log(os.fsencode(self.room / name))


class BuildLogs(InFolder):
    def test_a_file_is_read_as_its_bytes_are(self):
        for seed in range(40):
            rng = random.Random(seed)
            lines = [line(it, rng.choice([None, b"x" * rng.randrange(1, 90_000)])) for it in range(rng.randrange(30))]
            content = HEAD + b"".join(lines) + rng.choice([b"", b"1\t2", b"half" * 30_000])
            log = self.opened(content)
            self.assertEqual(list(log.entries), list(read_build_log(content).entries))
            self.assertEqual(list(log.entries), list(log.entries))

    def test_heads_that_are_none(self):
        long = b"# ninja log v" + b"9" * 5000
        for content in (b"", b"# ninja log v5", b"# ninja log v3\n1\t2\t3\to\t4\n", b"x\n", long, long + b"\n"):
            self.assertTrue(self.opened(content).is_empty())
        self.assertTrue(open_build_log(os.fsencode(self.room)).is_empty())
        self.assertTrue(open_build_log(os.fsencode(self.room / "none")).is_empty())

    def test_lines_that_are_none_are_left_out(self):
        bad = (b"", b"1\t2\t3\to", b"x\t2\t3\to\t4", b"1\t2\t" + b"9" * 20 + b"\to\t4", b"1_0\t2\t3\to\t4",
               b"-1\t2\t3\to\t4", b"9" * 5000 + b"\t2\t3\to\t4", b"1\t2\t3\to\tx",
               b"1\t2\t3\t" + b"o" * 300_000 + b"\t4")
        log = self.opened(HEAD + b"\n".join([*bad, b"1\t2\t-3\tgood\tfF", b""]))
        self.assertEqual(list(log.entries), [LogEntry(1, 2, 0, b"good", 255)])

    def test_what_a_run_appended(self):
        before = self.opened(HEAD + line(1) + line(2))
        with open(self.room / ".ninja_log", "ab") as file:
            file.write(line(3) + line(1))
        after = open_build_log(os.fsencode(self.room / ".ninja_log"))
        self.assertEqual([it.start for it in new_entries(before, after)], [3, 1])
        self.assertEqual(new_entries(after, after), [])

    def test_what_a_run_appended_to_a_log_that_it_wrote_anew(self):
        before = self.opened(HEAD + line(1) + line(2) + line(7, b"out1") + line(3))
        os.unlink(self.room / ".ninja_log")
        after = self.opened(HEAD + line(3) + line(7, b"out1") + line(8, b"out3") + line(7, b"out1"))
        self.assertEqual([it.start for it in new_entries(before, after)], [8, 7])

    def test_a_log_that_a_command_wrote_over(self):
        before = self.opened(HEAD + line(1) + line(2))
        after = self.opened(HEAD + line(4) + line(5) + line(6))
        self.assertEqual([it.start for it in new_entries(before, after)], [4, 5, 6])

    def test_a_long_log_takes_the_memory_of_a_line(self):
        lacking = builds.missing_tools("ninja")
        if lacking:
            self.skipTest(lacking)
        for kind, output, lines in (("of many outputs", lambda it: None, 1_000_000),
                                    ("of few outputs", lambda it: b"out%d" % (it % 40), 200_000)):
            with self.subTest(kind=kind):
                build = self.room / kind
                build.mkdir()
                (build / "build.ninja").write_text("rule c\n  command = touch $out\nbuild out3: c\n")
                with open(build / ".ninja_log", "wb") as file:
                    file.write(HEAD)
                    file.writelines(line(it, output(it)) for it in range(lines))
                done = subprocess.run([sys.executable, "-B", "-c", MEASURED, builds.RECORDER.parent, build,
                                       self.room / "out"], capture_output=True, text=True, stdin=subprocess.DEVNULL)
                self.assertEqual(done.returncode, 0, done.stderr)
                self.assertLess(int(done.stdout.split("kilobytes ")[1]), 50_000)
                self.assertIn("finish out3 ", (self.room / "out/trace").read_text())


class DepsLogs(InFolder):
    """A log that Ninja goes on from is read as far as Ninja does; one that ends Ninja by a fault is a sentence."""

    def read(self, content, **how):
        (self.room / ".ninja_deps").write_bytes(content)
        return DepsLog(os.fsencode(self.room / ".ninja_deps"), **how).places

    def test_a_path_that_is_not_there(self):
        content = deps_log(b"o", b"h", (0, 1), (0, 9), (0, 1))
        with self.assertRaises(BrokenLog) as caught:
            self.read(content)
        self.assertIn("/.ninja_deps is broken: it has a list with path 9, and 2 paths before", str(caught.exception))
        # from 1.13 on Ninja takes such a record for the log's end
        self.assertEqual(self.read(content, ends_at_unknown_paths=True)[b"o"][1].paths(), (b"h",))

    def test_a_record_that_is_too_short(self):
        with self.assertRaises(BrokenLog):
            self.read(deps_log(b"o") + struct.pack("<I", 8 | 1 << 31) + bytes(8), ends_at_unknown_paths=True)

    def test_an_output_that_is_not_there_is_left_out(self):
        self.assertEqual(list(self.read(deps_log(b"o", b"h", (7, 1), (0, 1)))), [b"o"])

    def test_the_recorder_says_so_before_ninja(self):
        lacking = builds.missing_tools("ninja")
        if lacking:
            self.skipTest(lacking)
        (self.room / "build").mkdir()
        (self.room / "build/build.ninja").write_bytes(MANIFEST)
        (self.room / "build/.ninja_deps").write_bytes(deps_log(b"o") + struct.pack("<I", 8 | 1 << 31) + bytes(8))
        done = subprocess.run([sys.executable, builds.RECORDER, self.room / "build", self.room / "out"],
                              capture_output=True, text=True, stdin=subprocess.DEVNULL)
        self.assertEqual((done.returncode, done.stdout, done.stderr.count("\n")), (2, "", 1), done.stderr)
        self.assertIn(".ninja_deps is broken: it has a record of 8 bytes", done.stderr)
        self.assertFalse((self.room / "out").exists() or (self.room / "build/o").exists())


class Damaged(InFolder):
    def test_logs_of_any_bytes(self):
        """A snapshot of damaged logs is taken, or the deps log is told to be broken: no other error comes of it."""
        manifest = Manifest(b"build.ninja", lambda name: (self.room / name.decode()).read_bytes())
        whole = {".ninja_log": HEAD + b"".join(line(it, b"o" if it % 2 else b"p") for it in range(8)),
                 ".ninja_deps": deps_log(b"o", b"a long path", b"h", (0, 1, 2), b"p", (3, 2), (0, 2))}
        rng, broken = random.Random(61), 0
        for _ in range(2_000):
            for name, content in whole.items():
                content = bytearray(content)
                for _ in range(rng.choice([0, 1, 1, 2, 5])):
                    at = rng.randrange(max(1, len(content) - 40))
                    if rng.random() < 0.2:
                        del content[at : at + rng.choice([1, 4, 40])]
                    else:
                        content[at] = rng.choice([0, 1, 9, 10, 48, 57, 127, 128, 255, content[at] ^ 4])
                (self.room / name).write_bytes(content)
            try:
                before = take_snapshot(os.fsencode(self.room), manifest, Ninja("ninja", rng.choice([(1, 11), (1, 13)])))
                new_entries(before.log, before.log)
                for _, listing in before.deps.values():
                    listing.text()
            except BrokenLog:
                broken += 1
        self.assertGreater(broken, 50)


if __name__ == "__main__":
    unittest.main()
