"""Records real builds, and looks at each recording by the recorder's own reading of rebug's rules."""

import os
import pathlib
import pty
import signal
import sys
import tempfile
import threading
import unittest

import builds
import projects  # noqa: F401, adds its chains
from builds import CHAINS, missing_tools, read_terminal, unescaped


class Recordings(unittest.TestCase):
    pass


def _test(chain, name):
    def test(self):
        lacking = missing_tools(*CHAINS[chain][1])
        if lacking:
            self.skipTest(lacking)
        folder = builds.made(chain)
        said = (folder / f"{name}.said").read_bytes()
        self.assertNotIn(b"rules differ", said)
        self.assertRegex(said, rb" has \d+ events? of this build\.")
        lines = (folder / name / "trace").read_bytes().split(b"\n")
        self.assertEqual(lines[0], b"rebug-trace 1")
        self.assertTrue(os.access(folder / name / "replay", os.X_OK))

    return test


for _chain, (_, _, _names) in CHAINS.items():
    for _name in _names:
        setattr(Recordings, f"test_{_chain}_{_name}", _test(_chain, _name))


class Commands(unittest.TestCase):
    """What stands in the traces of single recordings."""

    def lines(self, chain, name):
        lacking = missing_tools(*CHAINS[chain][1])
        if lacking:
            self.skipTest(lacking)
        text = (builds.made(chain) / name / "trace").read_bytes()
        return text[text.index(b"\nlane 0\n") + 8 :].split(b"\n")[:-1]

    def words(self, chain, name):
        return [b" ".join(line.split(b" ")[:2]) for line in self.lines(chain, name)]

    def test_failed_compile_is_a_fail_and_what_stands_on_it_never_starts(self):
        words = self.words("cmake", "failed_compile")
        self.assertIn(b"fail CMakeFiles/words.dir/w3.c.o", words)
        self.assertIn(b"finish CMakeFiles/words.dir/w4.c.o", words)
        self.assertNotIn(b"start libwords.a", words)

    def test_added_header_stands_in_the_list(self):
        lines = self.lines("cmake", "header_added")
        finish = [it for it in lines if it.startswith(b"finish CMakeFiles/words.dir/w3.c.o")]
        self.assertTrue(finish and finish[0].endswith(b"src/numbers.h"))

    def test_restat_leaves_users_clean(self):
        words = self.words("shell", "restat_cleans")
        self.assertEqual(words.count(b"start o/kept"), 1)
        self.assertIn(b"clean o/kept2", words)
        self.assertIn(b"clean o/user", words)

    def test_pooled_edges_have_slots_and_others_none(self):
        starts = {it.split(b" ")[1]: it.split(b" ") for it in self.lines("shell", "every_kind_of_edge")
                  if it.startswith(b"start ")}
        self.assertEqual({len(starts[it]) for it in (b"o/p1", b"o/p2", b"o/talk1", b"o/talk2")}, {4})
        self.assertEqual(len(starts[b"o/kept"]), 3)
        self.assertLessEqual({int(starts[it][3]) for it in (b"o/p1", b"o/p2", b"o/p3")}, {0, 1})

    def test_names_with_blanks_dollars_and_no_text_are_fields(self):
        words = self.words("shell", "every_kind_of_edge")
        self.assertIn(b"finish a\\sfile:of$dollars#and\\smore", words)
        self.assertIn(b"finish o/\xff\xfe", words)

    def test_interrupted_edges_are_aborted_and_others_not_started(self):
        words = self.words("shell", "interrupted_while_slow")
        self.assertIn(b"interrupt", words)
        self.assertIn(b"abort o/slow", words)
        self.assertNotIn(b"start o/behind", words)

    def test_first_failure_ends_what_is_passed(self):
        words = self.words("failing", "first_failure_ends")
        self.assertIn(b"fail z", words)
        self.assertIn(b"finish y", words)
        self.assertNotIn(b"pass v", words)
        self.assertNotIn(b"start w", words)

    def test_console_failure_is_found_in_the_output(self):
        words = self.words("failing", "console_failure")
        self.assertIn(b"fail t", words)

    def test_jobs_are_as_many_as_commands_or_as_ninja_had(self):
        for name, jobs, count in (("repaired", b"jobs 3", 3), ("jobs_as_run", b"jobs 4", 5)):
            taken = [int(it.split(b" ")[2]) for it in self.lines("failing", name) if it.startswith(b"start ")]
            self.assertIn(jobs, (builds.made("failing") / name / "trace").read_bytes().split(b"\n"))
            self.assertEqual(len(taken), count)
            self.assertEqual(taken == list(range(count)), name == "repaired")
            self.assertLess(max(taken), 4)

    def test_no_two_edges_hold_one_job(self):
        chains = [(chain, names) for chain, (_, tools, names) in CHAINS.items() if not missing_tools(*tools)]
        if not chains:
            self.skipTest("not on this machine: ninja")
        for chain, names in chains:
            for name in names:
                held = {}
                for line in self.lines(chain, name):
                    word, *rest = line.split(b" ")
                    if word == b"start":
                        self.assertNotIn(rest[1], held.values(), f"{chain} {name}")
                        held[rest[0]] = rest[1]
                    elif word in (b"finish", b"fail", b"abort"):
                        del held[rest[0]]

    def test_ends_stand_in_the_order_of_the_log(self):
        folder = builds.made("shell") if not missing_tools("ninja") else self.skipTest("not on this machine: ninja")
        ends = [unescaped(it.split(b" ")[1]) for it in self.lines("shell", "resumed") if it.startswith(b"finish ")]
        log = (folder / "build/sub/kept/.ninja_log").read_bytes().split(b"\n")
        places = [max(at for at, line in enumerate(log) if line.split(b"\t")[3:4] == [it]) for it in ends]
        self.assertEqual(places, sorted(places))


AT_A_TERMINAL = f"""rule slow
  command = touch begun$n; {builds.until_gone("begun$n")}; touch $out
rule shown
  command = touch begun$n; {builds.until_gone("begun$n")}; touch $out
  pool = console
build a: slow
  n = 1
build b: shown
  n = 2
"""


def shown_command(number, output):
    """The command of an edge of it, as Ninja shows it."""
    return f"touch begun{number}; {builds.until_gone(f'begun{number}')}; touch {output}".encode()


class Terminals(unittest.TestCase):
    """A recording at a terminal: Ninja writes as it does to one, and Ctrl-C interrupts it once."""

    def setUp(self):
        lacking = missing_tools("ninja")
        if lacking:
            self.skipTest(lacking)

    def run_at_a_terminal(self, folder, keys):
        """The status, and what was shown, of a recording at which the keys are pressed once both commands run, Ninja
        has shown so and the recorder has seen them. What is not read yet as Ctrl-C is pressed the terminal forgets."""
        child, terminal = pty.fork()
        if not child:
            os.environ["TERM"] = "xterm"
            os.execv(sys.executable, [sys.executable, builds.RECORDER, folder / "build", folder / "recorded"])
        end = threading.Timer(builds.LONGEST_SECONDS, os.kill, (child, signal.SIGKILL))
        end.daemon = True
        end.start()
        shown = b""
        while shown_command(2, "b") not in shown:
            data = read_terminal(terminal)
            self.assertTrue(data, shown)
            shown += data
        for name in ("begun1", "begun2"):
            builds.wait_for(folder / "build" / name)
        builds.wait_until_it_has_looked(child)
        os.write(terminal, keys)
        while data := read_terminal(terminal):
            shown += data
        os.close(terminal)
        status = os.waitstatus_to_exitcode(os.waitpid(child, 0)[1])
        end.cancel()
        return status, shown

    def test_an_interrupt_by_a_key(self):
        with tempfile.TemporaryDirectory() as folder:
            folder = pathlib.Path(folder)
            (folder / "build").mkdir()
            (folder / "build/build.ninja").write_text(AT_A_TERMINAL)
            status, shown = self.run_at_a_terminal(folder, b"\x03")
            trace = (folder / "recorded/trace").read_text()
        self.assertIn(status, builds.STATUSES_OF_INTERRUPT)
        self.assertIn(b"[0/2] " + shown_command(1, "a") + b"\x1b[K", shown)
        self.assertNotIn(b"\x1e", shown)
        self.assertTrue(trace.endswith("interrupt\nabort a 0\nabort b 0\n"), trace)


if __name__ == "__main__":
    unittest.main()
