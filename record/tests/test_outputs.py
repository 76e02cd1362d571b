"""What commands wrote, of real builds: the recording has it to the byte, and the user sees what Ninja shows without the
recorder."""

import fcntl
import os
import pathlib
import pty
import random
import re
import shutil
import struct
import subprocess
import sys
import tempfile
import termios
import unittest

import builds
from builds import missing_tools, read_terminal, unescaped

MANIFEST = """rule run
  command = sh $out.sh $out
rule told
  command = sh $out.sh $out
  description = MAKE $out
rule lines
  command = sh $out.sh '$in_newline'
  description = $in_newline
rule console
  command = sh $out.sh $out
  pool = console
build good: run
build bad: told
build loud: told
build silent: run
build says: told
build names.txt: lines bad.sh good.sh
build talks: console
build inner: told
build open: run
build last: told | good open
build all: phony good bad loud silent says names.txt talks inner open last
"""
INNER = """rule run
  command = echo inner; exit 7
build bad: run
"""
SCRIPTS = {
    "good": "echo fine; touch good",
    "bad": "printf 'bad.c:1: \\033[31merror\\033[0m: no\\tfile\\\\ here\\r\\n\\001\\377'; exit 3",
    "loud": "printf '123456789%.0s\\n' $(seq 20000); exit 1",
    "silent": "exit 2",
    "says": "printf 'FAILED: good \\nsh good.sh good\\nFAILED: talks \\nsh talks.sh talks\\nno more\\n'; touch says",
    "names.txt": "echo by lines; exit 1",
    "talks": "echo to the terminal; exit 9",
    "inner": "ninja -C folder; exit 5",
    "open": "printf 'no end'; touch open",
    "last": "printf 'the last one'; exit 4",
}
# What Ninja looks at in the environment, as it writes.
LOOKED_AT = ("NINJA_STATUS", "CLICOLOR_FORCE", "TERM")
# What `bad` writes, where Ninja takes its colours out.
BAD = b"bad.c:1: error: no\tfile\\ here\r\n\x01\xff"


def read_output(recording):
    """The lines of a recording's file behind the first: output -> (kind, number, how many were left out, text)."""
    lines = (recording / "output").read_bytes().split(b"\n")
    assert lines[0] == b"rebug-output 1" and lines[-1] == b"", lines[:1]
    found = {}
    for line in lines[1:-1]:
        kind, name, number, left, text = line.split(b" ")
        found[os.fsdecode(unescaped(name))] = kind.decode(), int(number), int(left), unescaped(text)
    return found


def at_terminal(words, folder, environment, columns=300):
    """What the words write to a terminal of this width as their standard output, and their status."""
    outer, inner = pty.openpty()
    fcntl.ioctl(inner, termios.TIOCSWINSZ, struct.pack("HHHH", 24, columns, 0, 0))
    process = subprocess.Popen(words, cwd=folder, env=environment, stdin=subprocess.DEVNULL, stdout=inner,
                               stderr=subprocess.DEVNULL, start_new_session=True)
    os.close(inner)
    found = b""
    while data := read_terminal(outer):
        found += data
    os.close(outer)
    return found, process.wait()


def environment(given):
    """The environment of the tests, with these of what Ninja looks at."""
    return {**{name: it for name, it in os.environ.items() if name not in LOOKED_AT}, "TERM": "xterm", **given}


def through_pipe(words, folder, environment):
    """What the words write to a pipe as their standard output, and their status."""
    done = subprocess.run(words, cwd=folder, env=environment, stdin=subprocess.DEVNULL, stdout=subprocess.PIPE,
                          stderr=subprocess.DEVNULL)
    return done.stdout, done.returncode


def difference(got, due):
    """Where an output parts from the last one of those that were due, and all statuses."""
    place = len(os.path.commonprefix([got[0], due[-1][0]]))
    near = slice(max(0, place - 80), place + 80)
    return (f"statuses {got[1]}, {[it[1] for it in due]}, {len(set(due))} outputs of Ninja; at byte {place} "
            f"{got[0][near]!r}, due is {due[-1][0][near]!r}")


@unittest.skipIf(missing_tools("ninja"), missing_tools("ninja"))
class OfRealBuilds(unittest.TestCase):
    def setUp(self):
        self.room = pathlib.Path(tempfile.mkdtemp(prefix="rebug-outputs-"))
        self.addCleanup(shutil.rmtree, self.room, ignore_errors=True)
        self.build = self.room / "build"
        self.make()

    def make(self):
        """The build folder, made anew."""
        shutil.rmtree(self.build, ignore_errors=True)
        (self.build / "folder").mkdir(parents=True)
        (self.build / "build.ninja").write_text(MANIFEST)
        (self.build / "folder/build.ninja").write_text(INNER)
        for name, text in SCRIPTS.items():
            (self.build / f"{name}.sh").write_text(text + "\n")

    def recorder(self, *own, words=("-k0",), jobs=1):
        out = self.room / "recorded"
        return [sys.executable, builds.RECORDER, self.build, out, "-j", str(jobs), *own, "--", *words]

    def record(self, *own, **how):
        done = subprocess.run(self.recorder(*own, **how), stdin=subprocess.DEVNULL, capture_output=True,
                              env=environment({}))
        self.assertIn(b"events of this build", done.stderr)
        return done.stdout

    def events(self):
        text = (self.room / "recorded/trace").read_bytes()
        return [it for it in text[text.index(b"\nlane 0\n") + 1 :].split(b"\n")[:-1] if not it.startswith(b"lane ")]

    def test_what_failed_commands_wrote(self):
        for own in ([], ["--observe=if-possible"]):
            self.make()
            self.record(*own, jobs=4)
            found = read_output(self.room / "recorded")
            self.assertEqual({name: it[3] for name, it in found.items() if name not in ("inner", "loud", "last")},
                             {"bad": BAD, "silent": b"", "names.txt": b"by lines\n"})
            self.assertIn(found["last"][3], (b"the last one", b"the last one\n"))
            self.assertEqual(found["loud"][2:], (200_000 - 65_536, (b"123456789\n" * 6554)[:65_536]))
            self.assertRegex(found["inner"][3],
                             rb"(?s)^ninja: Entering.*\[1/1\] echo inner; exit 7\nFAILED: .*bad \n"
                             rb"echo inner; exit 7\ninner\nninja: build stopped: subcommand failed.\n$")
            events = self.events()
            self.assertEqual({name: events[it[1] - 1].split(b" ")[:2] for name, it in found.items()},
                             {name: [b"fail", name.encode()] for name in found})
            self.assertEqual([it[1] for it in found.values()], sorted(it[1] for it in found.values()))
            fails = [it.split(b" ")[1].decode() for it in events if it.startswith(b"fail ")]
            self.assertEqual(sorted(fails), sorted([*found, "talks"]))

    def test_what_all_commands_wrote(self):
        self.record("--output", "all", jobs=4)
        found = read_output(self.room / "recorded")
        finished = {name: it[3] for name, it in found.items() if it[0] == "finished"}
        self.assertEqual(finished, {"good": b"fine\n", "open": b"no end",
                                    "says": b"FAILED: good \nsh good.sh good\nFAILED: talks \nsh talks.sh talks\n"
                                            b"no more\n"})
        self.assertEqual(found["bad"][3], BAD)

    def test_none_is_kept_where_none_is_wanted(self):
        self.record("--output", "none")
        self.assertEqual(read_output(self.room / "recorded"), {})

    def test_with_lanes_the_number_counts_the_lines(self):
        self.record("--lanes", jobs=4)
        events, found = self.events(), read_output(self.room / "recorded")
        self.assertEqual(set(found), {"bad", "loud", "silent", "names.txt", "inner", "last"})
        for name, it in found.items():
            self.assertEqual(events[it[1] - 1].split(b" ")[:2], [b"fail", name.encode()])

    def test_the_user_sees_what_ninja_shows(self):
        """Byte for byte, through a pipe and at a terminal, whatever the status line is."""
        formats = ({}, {"NINJA_STATUS": "%f of %t, "}, {"NINJA_STATUS": ""}, {"NINJA_STATUS": "a\nb %s "},
                   {"CLICOLOR_FORCE": "1"}, {"TERM": "dumb"})
        for given in formats:
            for words in (["-k0"], ["-k0", "-v"], []):
                with self.subTest(given=given, words=words):
                    kept = [self.shown_alike(words, environment(given), run) for run in (through_pipe, at_terminal)]
                    self.hold(*kept, given)

    def shown_alike(self, words, environment, run):
        """Runs the recorder, and Ninja without it, which has to show the same and end alike: gives what is kept.

        What bytes come from the commands, and in what order, is not the recorder's. So where Ninja shows something else
        it runs again, up to five times: what the recorder showed has to be what Ninja shows in one of these runs.
        """
        self.make()
        shutil.rmtree(self.room / "recorded", ignore_errors=True)
        got = run(self.recorder("--output", "all", words=words), self.build, environment)
        kept = read_output(self.room / "recorded")
        due = []
        while got not in due and len(due) < 5:
            self.make()
            due.append(run(["ninja", "-j1", *words], self.build, environment))
        self.assertTrue(got in due, difference(got, due))
        return kept

    def hold(self, by_pipe, by_terminal, given):
        """What is kept is the same: colours are taken out by Ninja where it writes to no terminal."""
        is_dumb = given.get("TERM") == "dumb"
        for found in by_pipe, by_terminal:
            has_colours = b"\x1b" in found["bad"][3] if "bad" in found else None
            self.assertIn(has_colours, (None, "CLICOLOR_FORCE" in given or found is by_terminal and not is_dumb))
        without = lambda text: re.sub(rb"\x1b\[[0-9;]*m", b"", text).rstrip(b"\n")
        plain = [{name: (it[0], it[2], without(it[3])) for name, it in found.items() if name != "inner"}
                 for found in (by_pipe, by_terminal)]
        self.assertEqual(*plain)


BYTES = [b"FAILED: c%d \n", b"sh run c%d\n", b"\n", b"\r", b"\r\n", b"text", b" ", b"\\", b"ninja: build stopped: x\n",
         b"[1/9] ", b"\x1e", b"\x1f", b"\x1e1", b"\xff\xfe", b"\0", b"\t", b"\x1b[1m", b"\x1b[K", b"FAILED: "]


@unittest.skipIf(missing_tools("ninja"), missing_tools("ninja"))
class OfRandomBuilds(unittest.TestCase):
    """Commands that write random bytes, among them what Ninja itself writes, and fail or not."""

    def test_each_command_has_what_it_wrote(self):
        for seed in range(6):
            with self.subTest(seed=seed), tempfile.TemporaryDirectory(prefix="rebug-outputs-") as room:
                self.build(pathlib.Path(room), random.Random(seed), at_tty=seed % 2)

    def build(self, room, dice, at_tty):
        folder = room / "build"
        folder.mkdir()
        count, text = 40, ["rule r\n  command = sh run $out\n"]
        text += [f"rule {name}\n  command = sh run $out\n  description = {told}\n"
                 for name, told in (("d", "D $out"), ("one", "SAME"))]
        wrote, status = {}, {}
        for it in range(count):
            wrote[it] = b"".join(piece % dice.randrange(count) if b"%d" in piece else piece
                                 for piece in dice.choices(BYTES, k=dice.choice((0, 0, 1, 3, 20))))
            if dice.random() < 0.05:
                wrote[it] = wrote[it] * 3000
            status[it] = dice.choice((0, 0, 1, 3))
            (folder / f"c{it}.says").write_bytes(wrote[it])
            (folder / f"c{it}.status").write_text(f"{status[it]}\n")
            text.append(f"build c{it}: {dice.choice(('r', 'd') if at_tty else ('r', 'd', 'one'))}\n")
        (folder / "run").write_text('sleep 0.0$(($$ % 7)); cat $1.says; read it <$1.status; [ $it != 0 ] || touch $1\n'
                                    'exit $it\n')
        (folder / "build.ninja").write_text("".join(text))
        words = [sys.executable, builds.RECORDER, folder, room / "recorded", "-j", "4", "--output", "all", "--", "-k0"]
        run = at_terminal if at_tty else through_pipe
        run(words, room, environment({"CLICOLOR_FORCE": "1"}))
        found = read_output(room / "recorded")
        for it in range(count):
            self.assertEqual(f"c{it}" in found, bool(status[it] or wrote[it]), it)
            if f"c{it}" not in found:
                continue
            kind, _, left, kept = found[f"c{it}"]
            due_kind = "failed" if status[it] else "finished"
            self.assertEqual((kind, left), (due_kind, max(0, len(wrote[it]) - 65_536)), it)
            due = wrote[it][:65_536]
            self.assertIn(kept, (due, due + b"\n") if it in self.last(room) else (due,), it)

    def last(self, room):
        """The commands that may be the one that Ninja showed last, behind whose output it has then put a line end."""
        lines = (room / "recorded/trace").read_bytes().split(b"\n")
        times = (room / "recorded/times").read_text().split("\n")[1:-1]
        ends = [(int(time.split(" ")[1]), int(line.split(b" ")[1][1:])) for line, time in
                zip(lines[lines.index(b"lane 0") + 1 :], times) if line.startswith((b"fail ", b"finish "))]
        return {it for time, it in ends if time == max(ends)[0]}


if __name__ == "__main__":
    unittest.main()
