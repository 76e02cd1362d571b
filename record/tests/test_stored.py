"""The recorder's readers and its order, on stored logs and manifests. Nothing here runs Ninja."""

import os
import pathlib
import re
import subprocess
import tempfile
import time
import unittest
from dataclasses import replace

from builds import read_deps
from recorder.checking import check
from recorder.depfiles import read_depfile
from recorder.disk import Snapshot, built_records
from recorder.events import WORDS, Fail, Finish, Pass, Plan, Start
from recorder.fields import canonical, field, line, quoted
from recorder.files import command, commands, names_of_files, opening, write_recording
from recorder.hashes import murmur_hash
from recorder.held import HeldFolder
from recorder.logs import BuildLog, LogEntry, new_entries, read_build_log
from recorder.manifest import BadManifest, Manifest
from recorder.ninja import Ninja
from recorder.outputs import of_finished, output_lines
from recorder.recording import record
from recorder.replaying import replay_text, words_of_replay
from recorder.rules import Build
from recorder.running import Child, Ran
from recorder.said import MOST_WRITTEN, Failed, Said, Written
from recorder.sequence import EdgeRun, sequence
from recorder.words import MOST_JOBS, BadWords, read_words

# Written by Ninja 1.11.1.
LOG = (b"# ninja log v5\n"
       b"3\t38\t1795373768887092529\tCMakeFiles/hello.dir/hello.c.o\tc5a2815e17565f5b\n"
       b"1\t38\t1795373768887092529\tCMakeFiles/greet.dir/greet.c.o\t36359ae688246a3d\n"
       b"38\t450\t1795373769292199035\tlibgreet.a\t9193c598d01a078e\n")
COMPILE = (b"/usr/bin/cc    -MD -MT CMakeFiles/hello.dir/hello.c.o -MF CMakeFiles/hello.dir/hello.c.o.d "
           b"-o CMakeFiles/hello.dir/hello.c.o -c /tmp/cm/hello.c")
ARCHIVE = (b": && /usr/bin/cmake -E rm -f libgreet.a && /usr/bin/ar qc libgreet.a  CMakeFiles/greet.dir/greet.c.o "
           b"&& /usr/bin/ranlib libgreet.a && :")
DEPS = (b"a b.o: #deps 2, deps mtime 17 (VALID)\n    a b.c\n    /usr/include/x.h\n\n"
        b"none.o: #deps 0, deps mtime 3 (STALE)\n\n")

NINJA_1_11 = Ninja("ninja", (1, 11))


def manifest(text, **files):
    contents = {b"build.ninja": text, **{name.replace("_", ".").encode(): it for name, it in files.items()}}
    return Manifest(b"build.ninja", contents.__getitem__)


class Fields(unittest.TestCase):
    def test_paths_are_canonical(self):
        for path, wanted in ((b"./a//b/../c", b"a/c"), (b"/..", b"/"), (b"a/..", b"."), (b"../../a", b"../../a"),
                             (b"a/", b"a"),
                             (b"a.b/..c", b"a.b/..c"), (b"/a/../../b", b"/b")):
            self.assertEqual(canonical(path), wanted)

    def test_fields_escape_what_ends_a_field(self):
        self.assertEqual(field(b"a b\tc\nd\re\\f"), b"a\\sb\\tc\\nd\\re\\\\f")
        self.assertEqual(field(b""), b"\\0")
        self.assertEqual(line("stamp", b"\xff #$", 7), b"stamp \xff\\s#$ 7")

    def test_paths_are_quoted_for_the_shell(self):
        self.assertEqual(quoted(b"a-b/c.d_+"), b"a-b/c.d_+")
        self.assertEqual(quoted(b"it's"), b"'it'\\''s'")


class Logs(unittest.TestCase):
    def test_hashes_are_those_that_ninja_wrote(self):
        entries = read_build_log(LOG).last()
        self.assertEqual(murmur_hash(COMPILE), entries[b"CMakeFiles/hello.dir/hello.c.o"].hash)
        self.assertEqual(murmur_hash(ARCHIVE), entries[b"libgreet.a"].hash)
        self.assertNotEqual(murmur_hash(ARCHIVE + b" "), entries[b"libgreet.a"].hash)

    def test_a_line_that_was_being_written_is_left_out(self):
        for cut in range(len(LOG) - 40, len(LOG)):
            self.assertEqual(len(read_build_log(LOG[:cut]).entries), 2)
        self.assertEqual(read_build_log(b"").entries, [])
        self.assertEqual(read_build_log(b"# ninja log v5").entries, [])

    def test_lines_that_are_no_entries_are_skipped(self):
        log = read_build_log(b"# ninja log v5\nx\t1\n1\t2\t0\tout\tzz\n1\t2\t0\tout name\tff\n")
        self.assertEqual(log.entries, [LogEntry(1, 2, 0, b"out name", 255)])

    def test_the_appended_entries_are_the_new_ones(self):
        one, two, again = LogEntry(0, 1, 5, b"a", 1), LogEntry(1, 2, 6, b"b", 2), LogEntry(0, 3, 9, b"a", 1)
        log = lambda *entries: BuildLog(5, list(entries))
        self.assertEqual(new_entries(log(one, two), log(one, two, again)), [again])
        self.assertEqual(new_entries(log(one, two), log(one, two)), [])
        self.assertEqual(new_entries(log(), log(one)), [one])

    def test_a_log_that_was_written_anew_keeps_its_old_entries_first(self):
        old, one, two, again = (LogEntry(0, 1, 4, b"a", 1), LogEntry(0, 1, 5, b"a", 1), LogEntry(1, 2, 6, b"b", 2),
                                LogEntry(0, 3, 9, b"b", 2))
        before = BuildLog(5, [old, one, two])
        self.assertEqual(new_entries(before, BuildLog(5, [two, one, again])), [again])
        self.assertEqual(new_entries(before, BuildLog(5, [two, one])), [])

    def test_deps_lists_are_read_as_ninja_prints_them(self):
        self.assertEqual(read_deps(DEPS), {b"a b.o": (17, [b"a b.c", b"/usr/include/x.h"]), b"none.o": (3, [])})

    def test_another_command_has_a_stand_in(self):
        found = manifest(b"rule r\n  command = new $in\nbuild o: r i\nbuild p: r i\n")
        entries = [LogEntry(0, 1, 8, b"o", murmur_hash(b"old i")), LogEntry(0, 1, 9, b"p", murmur_hash(b"new i")),
                   LogEntry(0, 1, 9, b"gone", 1)]
        records = built_records(found, BuildLog(5, entries), murmur_hash)
        self.assertEqual(records[b"p"], (9, b"new i"))
        self.assertEqual(records[b"o"][0], 8)
        self.assertNotEqual(records[b"o"][1], b"new i")
        self.assertNotIn(b"gone", records)


class Manifests(unittest.TestCase):
    def test_files_are_found_by_their_expanded_names(self):
        found = manifest(b"d = x\ninclude $d.ninja\nsubninja y.ninja\nbuild c: r $v\n",
                         x_ninja=b"v = 1\nrule r\n  command = $v $in\n", y_ninja=b"v = 2\nbuild b: r $v\n")
        self.assertEqual([name for name, _, _ in found.files], [b"build.ninja", b"x.ninja", b"y.ninja"])
        self.assertEqual([edge.command for edge in found.edges], [b"2 2", b"1 1"])

    def test_lists_of_a_build_line(self):
        edge = manifest(b"rule r\n  command = r $out < $in\nbuild a$ b | c: r d$:e $\n    f | g || h |@ v\n").edges[0]
        self.assertEqual((edge.outputs, edge.explicit, edge.implicit, edge.order_only, edge.validations),
                         ([b"a b", b"c"], [b"d:e", b"f"], [b"g"], [b"h"], [b"v"]))
        self.assertEqual(edge.command, b"r 'a b' < 'd:e' f")

    def test_response_files_are_part_of_the_command(self):
        edge = manifest(b"rule r\n  command = r @$out.rsp\n  rspfile = $out.rsp\n  rspfile_content = $in\nbuild o: "
                        b"r a b\n").edges[0]
        self.assertEqual(edge.command, b"r @o.rsp;rspfile=a b")

    def test_a_variable_of_the_file_wins_in_ninja_where_a_build_line_has_no_block(self):
        found = manifest(b"command = wrong\nrule r\n  command = right\nbuild o: r\nbuild p: r\n  x = 1\n")
        self.assertEqual([(it.command, it.ninja_command) for it in found.edges],
                         [(b"right", b"wrong"), (b"right", b"right")])

    def test_a_phony_edge_loses_its_own_outputs(self):
        self.assertEqual(manifest(b"build a: phony a b\n").edges[0].explicit, [b"b"])

    def test_pools_and_defaults(self):
        found = manifest(b"pool p\n  depth = 2\nrule r\n  command = r\nbuild a: r\n  pool = p\nbuild b: r a\n  "
                         b"pool = console\nbuild c: r\n")
        self.assertEqual([found.depth(it) for it in found.edges], [2, 1, None])
        self.assertEqual(found.defaults(), [b"b", b"c"])

    def test_lines_that_ninja_refuses_are_named(self):
        for text, place in ((b"\nbuild x: nope\n", ":2"), (b"rule\n", ":1"), (b"a = b\nc = $%\n", ":2")):
            with self.assertRaises(BadManifest) as caught:
                manifest(text)
            self.assertIn(f"build.ninja{place}: ", str(caught.exception))


class Outside(unittest.TestCase):
    """What rebug does not take is named with its edge."""

    def notes(self, text):
        found = manifest(text)
        empty = Snapshot({}, BuildLog(5, []), {}, {})
        return record(NINJA_1_11, "nowhere", found, read_words([]), 1, empty, empty, Ran(0, 0)).remarks

    def test_list_of_another_compiler(self):
        notes = self.notes(b"rule r\n  command = r\n  deps = msvc\nbuild o.obj: r\n")
        self.assertTrue(notes[0].startswith("build.ninja:4: o.obj has deps = msvc"), notes)

    def test_another_command_in_ninja(self):
        notes = self.notes(b"command = x\nrule r\n  command = r\nbuild o: r\n")
        self.assertTrue(notes[0].startswith("build.ninja:4: o has another command in Ninja"), notes)

    def test_log_of_an_unknown_version(self):
        found = manifest(b"rule r\n  command = r\nbuild o: r\n")
        before = Snapshot({b"o": 9}, BuildLog(99, [LogEntry(0, 1, 8, b"o", 1)]), {}, {})
        it = record(Ninja("ninja", (1, 99)), "nowhere", found, read_words([]), 1, before, before, Ran(0, 0))
        self.assertIn("(version 99)", it.notes[0])
        self.assertEqual(it.built, {b"o": (8, b"r")})


class Depfiles(unittest.TestCase):
    def test_prerequisites_as_compilers_write_them(self):
        text = b"a.o: a.c \\\n my\\ h.h $$x C:/k.h\nmy\\ h.h:\n"
        self.assertEqual(read_depfile(text, [b"a.o"]), [b"a.c", b"my h.h", b"$x", b"C:/k.h"])

    def test_texts_that_rebug_refuses(self):
        for text in (b"a.o", b"b.o: x\n", b": x\n"):
            self.assertIsNone(read_depfile(text, [b"a.o"]))


FOUR = b"""rule r
  command = r $in $out
build a: r s
build b: r s
build c: r a
build all: phony c b
"""


class Orders(unittest.TestCase):
    """`runs` are (output, start, end) in the order of the log; an end may have another word than finish."""

    def events(self, text, runs, touches=(), failures=1, stamps=None, targets=(), **options):
        self.manifest = manifest(text)
        built = [EdgeRun(self.manifest.producer[out], (word or ["finish"])[0], start, end, [100 + end])
                 for out, start, end, *word in runs]
        self.build = Build(self.manifest, 8, stamps or {b"s": 1})
        self.found = sequence(self.build, list(targets), built, list(touches), failures, **options)
        self.assertEqual(self.found.refused, [])
        return [b" ".join(command(it).split(b" ")[:3]).decode() for it in self.found.events]

    def test_ends_go_first_in_one_millisecond(self):
        found = self.events(FOUR, [(b"a", 0, 5), (b"b", 0, 9), (b"c", 5, 9)])
        self.assertEqual(found, ["plan", "start a 0", "start b 1", "finish a 105", "start c 2", "finish b 109",
                                 "finish c 109", "pass all"])
        self.assertEqual(self.found.tied, [])

    def test_commands_of_no_length_end_before_what_stands_on_them(self):
        found = self.events(FOUR, [(b"a", 3, 3), (b"c", 3, 3), (b"b", 3, 3)])
        self.assertEqual(found[1:], ["start a 0", "finish a 103", "start c 1", "finish c 103", "start b 2",
                                     "finish b 103", "pass all"])
        self.assertEqual(self.found.jobs, 3)

    def test_an_order_that_is_not_known_is_told(self):
        self.events(FOUR, [(b"a", 0, 5), (b"b", 5, 9), (b"c", 5, 9)])
        self.assertEqual([it.name for it in self.found.tied], [b"b"])

    def test_a_failure_ends_what_is_passed(self):
        found = self.events(FOUR, [(b"a", 0, 2, "fail"), (b"b", 0, 5)])
        self.assertEqual(found[1:], ["start a 0", "start b 1", "fail a 102", "finish b 105"])

    def test_an_interrupt_comes_before_its_aborts(self):
        found = self.events(FOUR, [(b"a", 0, 2), (b"b", 0, 9, "abort")], interrupted=True)
        self.assertEqual(found[-2:], ["interrupt", "abort b 109"])

    def test_an_interrupt_of_nothing_that_was_seen(self):
        self.assertEqual(self.events(FOUR, [], interrupted=True), ["plan", "interrupt"])

    def test_edges_that_restat_left_alone_are_clean(self):
        text = b"rule r\n  command = r\n  restat = 1\nbuild a: r s\nbuild b: r a\nbuild c: r || b\nbuild d: phony c\n"
        self.manifest = manifest(text)
        stamps = {b"s": 50, b"a": 10, b"b": 20, b"c": 5, b"d": 0}
        built = {it: (10, b"r") for it in (b"a", b"b", b"c")}
        build = Build(self.manifest, 1, stamps, built)
        run = EdgeRun(self.manifest.producer[b"a"], "finish", 0, 4, [10])
        found = sequence(build, [b"d"], [run], [], 1)
        self.assertEqual([command(it).decode() for it in found.events],
                         ["plan", "start a 0", "finish a 10", "clean b", "pass c", "pass d"])

    def test_places_that_add_least_are_taken(self):
        text = b"pool p\n  depth = 2\nrule r\n  command = r\n  pool = p\nbuild a: r\nbuild b: r\nbuild c: r\n"
        self.manifest = manifest(text)
        runs = [EdgeRun(self.manifest.producer[out], "finish", start, end, [end + 1]) for out, start, end in
                ((b"a", 0, 3), (b"c", 3, 5), (b"b", 1, 9))]
        for as_run, jobs in ((False, 3), (True, 3)):
            found = sequence(Build(self.manifest, 4), [], runs, [], 1, as_run=as_run)
            starts = [(it.output, it.job, it.slot) for it in found.events if isinstance(it, Start)]
            self.assertEqual(starts, [(b"a", 0, 0), (b"b", 1, 1), (b"c", 2, 0)])
            self.assertEqual(found.jobs, jobs)

    def test_as_run_an_edge_takes_the_job_of_one_that_it_stands_on(self):
        found = self.events(FOUR, [(b"a", 0, 5), (b"b", 0, 9), (b"c", 5, 9)], as_run=True)
        self.assertEqual(found[1:5], ["start a 0", "start b 1", "finish a 105", "start c 0"])
        self.assertEqual(self.found.jobs, 2)

    def test_each_start_has_a_job_of_its_own_up_to_the_most_and_then_the_one_free_longest(self):
        count = MOST_JOBS + 3
        self.manifest = manifest(b"rule r\n  command = r\n" + b"".join(b"build o%d: r\n" % it for it in range(count)))
        runs = [EdgeRun(edge, "finish", 2 * edge.number, 2 * edge.number + 1, [5]) for edge in self.manifest.edges]
        found = sequence(Build(self.manifest), [], runs, [], 1)
        self.assertEqual([it.job for it in found.events if isinstance(it, Start)], [*range(MOST_JOBS), 0, 1, 2])
        self.assertEqual((found.jobs, found.refused), (MOST_JOBS, []))

    def test_a_slot_is_another_one_where_the_pool_was_not_full(self):
        text = b"pool p\n  depth = 3\nrule r\n  command = r\n  pool = p\n" + b"".join(
            b"build %c: r\n" % it for it in b"abcdef")
        self.manifest = manifest(text)
        edge = self.manifest.producer
        times = ((b"a", 0, 1), (b"b", 2, 9), (b"c", 3, 8), (b"d", 4, 7), (b"e", 7, 10), (b"f", 12, 13))
        runs = [EdgeRun(edge[out], "finish", start, end, [5]) for out, start, end in times]
        found = sequence(Build(self.manifest), [], runs, [], 1)
        slots = {it.output: it.slot for it in found.events if isinstance(it, Start)}
        # d had to take the one free slot, and e that of d, which had just left a full pool; f takes the longest free
        self.assertEqual(slots, {b"a": 0, b"b": 1, b"c": 2, b"d": 0, b"e": 0, b"f": 2})
        self.assertEqual(found.refused, [])

    def test_a_start_that_is_guessed_waits_for_its_pool(self):
        """Of those that did not end well the start is by the clock, and may be early."""
        text = b"pool p\n  depth = 1\nrule r\n  command = r\n  pool = p\n" + b"".join(
            b"build %c: r\n" % it for it in b"abcd")
        found = self.events(text, [(b"a", 0, 5), (b"b", 4, 7, "fail"), (b"c", 6, 8, "fail"), (b"d", 8, 9)], failures=9)
        self.assertEqual(found[1:], ["start a 0", "finish a 105", "start b 1", "fail b 107", "start c 2", "fail c 108",
                                     "start d 3", "finish d 109"])
        self.assertEqual(self.found.times[1:], [0, 5, 5, 7, 7, 8, 8, 9])
        found = self.events(text, [(b"a", 0, 5), (b"b", 4, 9, "abort")], interrupted=True)
        self.assertEqual(found[1:], ["start a 0", "finish a 105", "start b 1", "interrupt", "abort b 109"])

    def test_a_start_that_is_guessed_waits_for_a_job(self):
        runs = [(b"a", 0, 5), (b"b", 4, 9, "fail"), (b"c", 9, 12)]
        for jobs, first in ((1, ["finish a 105", "start b 1"]), (2, ["start b 1", "finish a 105"])):
            found = self.events(FOUR, runs, failures=9, side_by_side=jobs)
            self.assertEqual(found[1:6], ["start a 0", *first, "fail b 109", "start c 2"])

    def test_each_event_has_its_time(self):
        self.events(FOUR, [(b"a", 0, 5), (b"b", 0, 9, "abort"), (b"c", 6, 9)], touches=[(7, b"s", 90), (None, b"t", 3)],
                    interrupted=True)
        self.assertEqual([WORDS[type(it)] for it in self.found.events],
                         "plan start start finish start touch finish interrupt abort touch".split())
        self.assertEqual(self.found.times, [0, 0, 0, 5, 6, 7, 9, 9, 9, None])

    def test_touches_stand_where_they_came(self):
        found = self.events(FOUR, [(b"a", 0, 5), (b"b", 0, 9), (b"c", 6, 9)], touches=[(7, b"s", 90), (None, b"t", 3)])
        self.assertEqual(found[4:6], ["start c 2", "touch s 90"])
        self.assertEqual(found[-1], "touch t 3")

    def test_a_start_that_rebug_refuses_is_kept_and_told(self):
        self.manifest = manifest(b"rule r\n  command = r\nbuild a: r s\n")
        build = Build(self.manifest, 1, {b"s": 1, b"a": 2}, {b"a": (2, b"r")})
        found = sequence(build, [], [EdgeRun(self.manifest.producer[b"a"], "finish", 0, 1, [3])], [], 1)
        self.assertEqual([refusal for _, refusal in found.refused], [(66,), (67,)])
        self.assertEqual(len(found.events), 3)


class Outputs(unittest.TestCase):
    """What Ninja writes, read in parts of every length."""

    MANIFEST = (b"rule make\n  command = cc $out\n  description = MAKE $out\nrule plain\n  command = $out\n"
                b"rule two\n  command = cc $in_newline\nrule talk\n  command = talk $out\n  pool = console\n"
                b"build x: make\nbuild y | o/z: make\nbuild me: plain\nbuild w: plain\nbuild l: two x y\n"
                b"build t: talk\n")
    SAID = (b"\x1e0.004\x1f[1/3] MAKE x\n\x1e1.250\x1f[2/3] MAKE y\nFAILED: y o/z \ncc y\nFAILED: [code=3] me\nme\n"
            b"\x1e2.000\x1f[3/3] w\n\x1b[31mFAILED: [code=-9] \x1b[0mw \nw\n"
            b"ninja: build stopped: interrupted by user.\n")

    def said(self, text, size=1000, is_smart=False, keeps_all=False):
        """What was handed on, and what was found."""
        shown = []
        found = Said(manifest(self.MANIFEST), b"[%f/%t] ", shown.append, is_smart, keeps_all)
        for at in range(0, len(text), size):
            found.take(text[at : at + size])
        found.end()
        return b"".join(shown), found

    def failed(self, text, **how):
        """The failures, each as output, time and what was written, None where that is not known."""
        return [(it.edge.name, it.time, it.written and it.written.text) for it in self.said(text, **how)[1].failed]

    def test_marks_go_and_failures_stay(self):
        for size in (1, 2, 3, 7, 1000):
            text, found = self.said(self.SAID, size)
            self.assertNotIn(b"\x1e", text)
            self.assertEqual(text, re.sub(b"\x1e.....\x1f", b"", self.SAID))
            self.assertEqual([(it.edge.name, it.code, it.time, it.written) for it in found.failed],
                             [(b"y", None, 1250, Written(b"FAILED: [code=3] me\nme\n")),
                              (b"w", -9, 2000, Written(b""))])
            self.assertEqual(found.stopped, b"interrupted by user.")

    def test_marks_go_where_the_clock_was_set_back(self):
        text = b"\x1e0.004\x1f[1/3] w\n\x1e-3599.020\x1f[2/3] me\n"
        for size in (1, 1000):
            self.assertEqual(self.said(text, size)[0], b"[1/3] w\n[2/3] me\n")

    def test_other_control_bytes_stay(self):
        self.assertEqual(self.said(b"a\x1eb\x1f\n\x1e")[0], b"a\x1eb\x1f\n\x1e")

    def test_a_line_that_a_command_writes_is_no_failure(self):
        for status in (b"MAKE x\n", b"MAKE x\nx\n", b"talk t\n", b"no status of it\n"):
            self.assertEqual(self.failed(b"\x1e0.001\x1f[1/3] " + status + b"FAILED: y o/z \ncc y\nx\n"), [])
        self.assertEqual(self.failed(b"FAILED: w \nw\n\x1e0.001\x1f[1/3] w\n"), [])

    def test_a_ninja_that_a_command_runs_ends_nothing(self):
        text = (b"\x1e5.000\x1f[2/3] w\nFAILED: w \nw\n\x1e0.010\x1f[1/1] w\nFAILED: w \nw\ninner\n"
                b"ninja: build stopped: subcommand failed.\nouter")
        inner = (b"[1/1] w\nFAILED: w \nw\ninner\nninja: build stopped: subcommand failed.\nouter")
        self.assertEqual(self.failed(text + b"\x1e5.000\x1f[3/3] MAKE x\n"), [(b"w", 5000, inner)])
        self.assertEqual(self.failed(text + b"\nninja: build stopped: subcommand failed.\n"),
                         [(b"w", 5000, inner + b"\n")])

    def test_lines_of_a_command_of_several(self):
        begin = b"\x1e0.001\x1f[1/3] cc x\ny\n"
        self.assertEqual(self.failed(begin + b"FAILED: l \ncc x\ny\nit\n\x1e0.002\x1f[2/3] w\n"), [(b"l", 1, b"it\n")])
        # the line before had no end, so Ninja writes one
        self.assertEqual(self.failed(begin + b"\nFAILED: l \ncc x\ny\nit\n"), [(b"l", 1, b"it\n")])
        self.assertEqual(self.failed(begin + b"\n\nFAILED: l \ncc x\ny\nit\n"), [])

    def test_what_ninja_says_at_the_end_is_its_own(self):
        metrics = b"metric       \tcount \tavg (us)  \ttotal (ms)\nStartEdge    \t1     \t8.0\n"
        begin = b"\x1e0.001\x1f[1/1] w\nFAILED: w \nw\nit\n"
        for end in (b"", b"ninja: build stopped: no.\n", metrics, b"ninja: build stopped: no.\n" + metrics):
            self.assertEqual(self.failed(begin + end), [(b"w", 1, b"it\n")])

    def test_on_a_terminal(self):
        text = (b"\r\x1e0.001\x1f[1/3] MAKE y\x1b[K\n\x1b[31mFAILED: \x1b[0my o/z \ncc y\n\x1b[1mbold\x1b[0m"
                b"\r\x1e0.002\x1f[2/3] w\x1b[K\r\x1e0.003\x1f[3/3] MA...w\x1b[K\nFAILED: w \nw\nit\n")
        for size in (1, 5, 1000):
            self.assertEqual(self.failed(text, size=size, is_smart=True),
                             [(b"y", 1, b"\x1b[1mbold\x1b[0m"), (b"w", 3, b"it\n")])

    def test_the_console(self):
        """Ninja writes nothing while a command of the console pool runs, and no status line when it has ended."""
        text = b"\x1e0.001\x1f[1/3] talk t\nmine\nFAILED: w \nw\nFAILED: [code=2] t \ntalk t\n"
        self.assertEqual(self.failed(text), [(b"t", None, None)])
        both = (b"\x1e0.001\x1f[1/3] talk t\nmine\n\x1e0.002\x1f[2/3] w\nFAILED: w \nw\nit\nFAILED: t \ntalk t\n"
                b"ninja: build stopped: subcommand failed.\n")
        self.assertEqual(self.failed(both), [(b"w", 2, b"it\n"), (b"t", None, None)])

    def test_when_a_command_of_the_console_failed(self):
        """When its line came, which on a busy machine is late; and between the status lines before and behind it."""
        text = b"\x1e0.001\x1f[1/3] talk t\nmine\nFAILED: t \ntalk t\n"
        for behind, came, due in ((b"\x1e0.005\x1f[2/3] w\n", (0, 3, 9), [1, 3, 5]), (b"", (0, 3, 9), [1, 3, 9])):
            (found,) = self.said(text + behind)[1].failed
            self.assertEqual([replace(found, came=it * MILLISECOND).milliseconds(0) for it in came], due)
            self.assertEqual(found.began, 1)
        text = text.replace(b"FAILED", b"\x1e0.003\x1f[2/3] MAKE x\nFAILED")
        (found,) = self.said(text)[1].failed
        self.assertEqual((found.began, found.since, found.until), (1, 3, None))

    def test_what_is_too_long_is_counted(self):
        for more in (0, 1, 3_000_000):
            text = b"x" * (MOST_WRITTEN + more)
            said = b"\x1e0.000\x1f[0/3] talk t\n\x1e0.001\x1f[1/3] w\nFAILED: w \nw\n" + text
            for behind in (b"", b"\x1e0.002\x1f[2/3] MAKE x\n"):
                (found,) = self.said(said + behind, size=65_536)[1].failed
                self.assertEqual((found.written.text, found.written.left_out), (text[:MOST_WRITTEN], more))
            found = self.said(said + b"\nFAILED: t \ntalk t\nninja: build stopped: no.\n", size=65_536)[1].failed
            self.assertEqual([(it.edge.name, it.written and it.written.left_out) for it in found],
                             [(b"w", more + 1), (b"t", None)])

    def test_a_line_with_another_command_is_no_failure(self):
        self.assertEqual(self.failed(b"\x1e0.001\x1f[1/3] MAKE y\nFAILED: y o/z \ncc other\nit\n"), [])

    def test_many_lines_that_look_like_failures_are_read_in_time(self):
        text = b"\x1e0.001\x1f[1/3] MAKE y\nx\n" + b"FAILED: t \nFAILED: w \n" * 200_000
        begun = time.process_time()
        self.assertEqual(self.failed(text, size=65_536), [])
        self.assertLess(time.process_time() - begun, 10)

    def test_what_finished_commands_wrote(self):
        text = (b"\x1e0.001\x1f[1/5] MAKE x\nof x\x1e0.002\x1f[2/5] MAKE y\n\nFAILED: y o/z \ncc y\nno\n"
                b"\x1e0.002\x1f[3/5] me\n\x1e0.002\x1f[4/5] w\nno end\x1e0.004\x1f[5/5] cc x\ny\n\n\nof l\n")
        found = self.said(text, keeps_all=True)[1]
        edges = manifest(self.MANIFEST).producer
        ends = ((b"x", 1), (b"me", 2), (b"w", 2), (b"l", 4))
        runs = [EdgeRun(edges[name], "finish", 0, end, []) for name, end in ends]
        of_finished(found, runs)
        self.assertEqual([it.written and it.written.text for it in runs], [b"of x", None, b"no end", b"\nof l\n"])

    def test_the_lines_of_the_file(self):
        events = [Plan(), Start(b"a", 0), Fail(b"a", [0]), Start(b"b c", 0), Finish(b"b c", [1]), Fail(b"d", [0]),
                  Fail(b"e", [0])]
        written = {b"a": Written(b"x: no\n", 7), b"b c": Written(b""), b"e": Written(b"y" * 9)}
        lines = list(output_lines(events, range(7), written))
        self.assertEqual(lines, [b"failed a 3 7 x:\\sno\\n", b"finished b\\sc 5 0 \\0", b"failed e 7 0 yyyyyyyyy"])
        events = [Fail(b"%d" % it, [0]) for it in range(400)]
        written = {it.output: Written(b"z" * MOST_WRITTEN, it is events[0]) for it in events}
        lines = [it.split(b" ") for it in output_lines(events, range(400), written)]
        self.assertEqual([len(it[4]) for it in lines], [MOST_WRITTEN] * 256 + [2] * 144)
        self.assertEqual([int(it[3]) for it in lines], [1] + [0] * 255 + [MOST_WRITTEN] * 144)


class Words(unittest.TestCase):
    def test_targets_and_options_may_be_mixed(self):
        found = read_words(["a", "-j8", "-f", "x.ninja", "b", "-k", "0", "-v", "--", "-c"])
        self.assertEqual((found.targets, found.jobs, found.manifest), ([b"a", b"b", b"-c"], 8, b"x.ninja"))
        self.assertGreater(found.failures, 1 << 30)

    def test_words_that_run_no_build_are_refused(self):
        for words in (["-t", "clean"], ["-n"], ["-vn"], ["-C", "x"], ["--quiet"], ["--version"]):
            with self.assertRaises(BadWords):
                read_words(words)


MILLISECOND = 1_000_000


class Whole(unittest.TestCase):
    """A recording from stored snapshots, and what is written of it."""

    TEXT = (b"rule cc\n  command = cc $in\n  depfile = $out.d\n  deps = gcc\nrule ld\n  command = ld $in\n"
            b"build a.o: cc a.c\nbuild b.o: cc b.c\nbuild app: ld a.o b.o\ninclude /far/away.ninja\n")

    def setUp(self):
        contents = {b"build.ninja": self.TEXT, b"/far/away.ninja": b"default app\n"}
        self.manifest = Manifest(b"build.ninja", contents.__getitem__)
        self.begin = 1_000_000 * MILLISECOND
        at = lambda time: self.begin + time * MILLISECOND
        old = [LogEntry(0, 9, 7, b"a.o", murmur_hash(b"cc a.c"))]
        hashes = {it.name: murmur_hash(it.ninja_command) for it in self.manifest.edges}
        new = [LogEntry(2, 40, at(39), b"b.o", hashes[b"b.o"]), LogEntry(1, 60, at(59), b"a.o", hashes[b"a.o"])]
        before = {b"a.c": at(-5), b"b.c": 5, b"a.o": 7, b"b.o": 0, b"app": 0}
        after = {**before, b"a.o": at(59), b"b.o": at(39), b"x.h": 4, b"made.h": at(20), b"app": 0}
        deps = {b"a.o": (at(59), [b"a.c", b"x.h"]), b"b.o": (at(39), [b"b.c", b"made.h"])}
        ran = Ran(1, self.begin, failed=[Failed(self.manifest.producer[b"app"], None, 90, 0)], said_stopped=True,
                  children=[Child([b"/bin/sh", b"-c", b"ld a.o b.o"], at(65))])
        self.found = record(NINJA_1_11, "nowhere", self.manifest, read_words([]), 2,
                            Snapshot(before, BuildLog(5, old), {b"a.o": (7, [b"a.c"])}, {}),
                            Snapshot(after, BuildLog(5, old + new), deps, {}), ran)

    def test_opening_has_stamps_records_and_headers_that_were_there(self):
        lines = [it.decode() for it in opening(self.found)]
        self.assertEqual(lines, ["jobs 2", f"stamp a.c {self.begin - 5 * MILLISECOND}", "stamp a.o 7", "stamp b.c 5",
                                 "stamp x.h 4",
                                 "built a.o 7 cc\\sa.c", "deps a.o 7 a.c"])

    def test_events_are_those_of_the_log_and_the_failure(self):
        at = lambda time: self.begin + time * MILLISECOND
        self.assertEqual([command(it).decode() for it in self.found.found.events], [
            "plan", "start a.o 0", "start b.o 1", f"touch made.h {at(20)}", f"finish b.o {at(39)} list b.c made.h",
            f"finish a.o {at(59)} list a.c x.h", "start app 0", "fail app 0"])
        self.assertEqual(self.found.found.refused, [])

    def test_a_change_is_no_later_than_the_end_of_a_command_whose_output_is_as_new(self):
        """Both stamps are of one tick of the disk's clock, by which Ninja began 11 milliseconds before it did."""
        at = lambda time: self.begin + time * MILLISECOND
        found = manifest(b"rule r\n  command = r\nbuild a: r s\nbuild b: r a m\nbuild c: r b\n")
        new = [LogEntry(1, 20, at(10), b"a", 1), LogEntry(20, 60, at(50), b"b", 1), LogEntry(60, 90, at(75), b"c", 1)]
        before = {b"s": at(-40), b"m": at(-40), b"a": 0, b"b": 0, b"c": 0}
        after = {**before, b"m": at(50), b"a": at(10), b"b": at(50), b"c": at(75)}
        it = record(NINJA_1_11, "nowhere", found, read_words([]), 1, Snapshot(before, BuildLog(5, []), {}, {}),
                    Snapshot(after, BuildLog(5, new), {}, {}), Ran(0, at(-30)))
        self.assertEqual([command(one).decode() for one in it.found.events][3:7],
                         ["start b 0", f"touch m {at(50)}", f"finish b {at(50)}", "start c 0"])

    def written(self, folder, with_lanes):
        with HeldFolder.at(folder) as room:
            return write_recording(self.found, room, with_lanes, "/nowhere/rebug", folder)

    def test_lanes_have_a_job_each_and_the_plan_stands_in_the_script(self):
        with tempfile.TemporaryDirectory() as folder:
            self.written(folder, True)
            room = pathlib.Path(folder)
            version, *lines = (room / "trace").read_text().split("\n")
            said = [" ".join(it.split(" ")[:2]) for it in lines[lines.index("lane 0"):-1]]
            # in the order of time: lane 0 is named again where it goes on
            self.assertEqual((version, said), ("rebug-trace 2", [
                "lane 0", "start a.o", "lane 1", "start b.o", "touch made.h", "finish b.o", "lane 0", "finish a.o",
                "start app", "fail app"]))
            self.assertEqual((room / "script").read_text(), "plan\nrun\nkept\nmarks\n")
            self.assertIn("--workers", (room / "replay").read_text())

    def test_lanes_are_opened_in_rising_number(self):
        lines = commands([Start(b"a", 1), Start(b"b", 3), Pass(b"c")], [[], [0, 2], [], [1], []])
        self.assertEqual([it.decode() for it in lines], [
            "lane 0", "lane 1", "start a 1", "lane 2", "lane 3", "start b 3", "lane 1", "pass c", "lane 4"])

    def test_files_from_outside_get_a_name_inside(self):
        with tempfile.TemporaryDirectory() as folder:
            names = self.written(folder, False)
            self.assertEqual(names, [b"build.ninja", b"outside/1.ninja"])
            self.assertTrue((pathlib.Path(folder) / "build.ninja").read_bytes().endswith(b"\ninclude "
                                                                                         b"outside/1.ninja\n"))

    def test_what_rebug_said_is_told_in_words(self):
        answers = ("ok", "refused 66", "ok", "ok", "refused 67", "refused 70 6", "ok", "ok")
        report = "".join(f"{at} 0 {it}\n" for at, it in enumerate(answers, 1)) + "mark 0 a.o wanted\n"
        status, said = self.checked(f"cat <<'E'\n{report}E\n")
        self.assertEqual(status, 1)
        self.assertEqual(said[-2], "rebug accepted 5 of 8 commands, and refused 3")
        self.assertIn("refused 66: start a.o 0", said[0])
        self.assertIn("an output is older than an input", said[5])

    def test_a_report_without_refusals_is_accepted(self):
        report = "".join(f"{at} 0 ok\n" for at in range(1, 9))
        self.assertEqual(self.checked(f"printf '{report}'\n"), (0, ["rebug accepted every command: 8 of 8"]))

    def test_a_report_that_ends_early_is_not_accepted(self):
        status, said = self.checked("printf '1 0 ok\\n'\n")
        self.assertEqual((status, said[0]), (1, "rebug accepted 1 of 8 commands, and refused 0"))

    def test_a_fault_is_told(self):
        status, said = self.checked("echo fault trace 2 101; exit 1\n")
        self.assertEqual((status, said[1]), (1, "  fault trace 2 101"))

    def test_nothing_of_the_recording_is_run(self):
        with tempfile.TemporaryDirectory() as folder:
            room = pathlib.Path(folder)
            self.written(folder, False)
            text = (room / "replay").read_text()
            for text in (f"touch {folder}/run\n", text.replace("program=", "touch run\nprogram=", 1)):
                (room / "replay").write_text(text)
                check(folder, "/bin/true", [].append)
                self.assertFalse((room / "run").exists())

    def checked(self, stand_in):
        """What `check` gives and says where rebug is a script."""
        with tempfile.TemporaryDirectory() as folder:
            self.written(folder, False)
            program = pathlib.Path(folder) / "program"
            program.write_text("#!/bin/sh\n" + stand_in)
            program.chmod(0o755)
            said = []
            return check(folder, str(program), said.append), said


class Replays(unittest.TestCase):
    """The words that a recording's `replay` runs rebug with, and those that are taken from the `replay` of others."""

    def text(self, *names, with_lanes=False):
        return replay_text(list(names), [b"plan", b"run", b"kept", b"marks"], with_lanes, "/nowhere/rebug")

    def test_no_file_of_a_manifest_is_an_option(self):
        for names in (["build.ninja", "-rf.ninja", "--workers"], ["-x.ninja", "--migrate"],
                      ["a b", "it's\nso \n@FILES@"]):
            with self.subTest(names=names), tempfile.TemporaryDirectory() as folder:
                room = pathlib.Path(folder)
                (room / "rebug").write_text('#!/bin/sh\nprintf "%s\\0" "$@"\n')
                (room / "rebug").chmod(0o755)
                (room / "replay").write_text(self.text(*names))
                said = subprocess.run(["sh", room / "replay"], env={**os.environ, "REBUG": str(room / "rebug")},
                                      capture_output=True, text=True, check=True).stdout.split("\0")[:-1]
                manifest, _, others = " ".join(said).partition(" --trace trace --script script -- ")
                self.assertIn(manifest, (f"--manifest={names[0]}", f"--manifest {names[0]}"))
                self.assertEqual(others, " ".join(names[1:]))
                self.assertEqual(words_of_replay(self.text(*names)), [
                    f"--manifest={names[0]}", "--trace", "trace", "--script", "script", "--", *names[1:]])

    def test_a_run_of_lanes_is_one_with_workers(self):
        self.assertEqual(words_of_replay(self.text("b", "r", with_lanes=True))[-3:], ["--workers", "--", "r"])

    def test_words_of_earlier_versions_are_taken(self):
        words = "--manifest b --trace trace --script script --workers r 's t'"
        self.assertEqual(words_of_replay(f"#!/bin/sh\n# What runs without words:\n# rebug {words}\n"), [
            "--manifest=b", "--trace", "trace", "--script", "script", "--workers", "--", "r", "s t"])

    def test_words_that_no_recorder_writes_are_not(self):
        for words in ("record build out", "--manifest b --trace trace --script /etc/passwd",
                      "--manifest b --trace trace --script script --migrate",
                      "--manifest b --trace trace --script script -- ../../x",
                      "--manifest /dev/zero --trace trace --script script",
                      "--manifest ../b --trace trace --script script", "--manifest", "", "'"):
            with self.subTest(words=words):
                self.assertIsNone(words_of_replay(f"#!/bin/sh\n# What runs without words:\n# rebug {words}\n"))
        self.assertIsNone(words_of_replay("#!/bin/sh\ntouch here\n"))


class Names(unittest.TestCase):
    """The names that the manifest's files have in a recording."""

    def test_what_is_outside_or_in_the_way_gets_another(self):
        paths = [b"/abs.ninja", b"../up.ninja", b"trace", b"replay/x", b".new/a", b".moving", b".old",
                 b"outside/1.ninja", b"\xff.ninja", b"sub/trace", b".newer"]
        text = b"".join(b"include %b\n" % it for it in paths)
        contents = {b"build.ninja": text, **dict.fromkeys(paths, b"")}
        names = names_of_files(Manifest(b"build.ninja", contents.__getitem__))
        self.assertEqual(names, {b"build.ninja": b"build.ninja", **{it: b"outside/%d.ninja" % at for at, it in
                                                                    enumerate(paths[:9], 1)},
                                 b"sub/trace": b"sub/trace", b".newer": b".newer"})


if __name__ == "__main__":
    unittest.main()
