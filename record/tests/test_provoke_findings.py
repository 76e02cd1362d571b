"""What `rebug provoke` does with each kind of finding, and beside other findings: clashes in both orders, files that no
line declares, several races at one time, generated manifests, records of Ninja's."""

import os
import pathlib
import pty
import re
import struct
import subprocess
import tempfile
import unittest

from builds import read_terminal
from provoked import GEN, USE, Made, WithProjects
from recorder.depslog import DepsLog, paths_of, without_records
from recorder.manifest import Manifest
from recorder.provoke.orders import Graph, Known, Order, Statements, together
from test_provoked import LACKING

CLASH = "rule both\n  command = {} $out > $out; cat $out {} common.txt\nbuild a.txt: both\nbuild b.txt: both\n"
"""Two commands that leave one file."""


@unittest.skipIf(LACKING, LACKING)
class EachKind(WithProjects):
    def test_what_is_no_matter_of_order_is_said_to_be_none(self):
        it = self.made(GEN + USE, ["v.h"], "unlisted n.c m.o m.o\nrace v.h v.h m.o\nundeclared v.in v.h m.o\n"
                                           "unlisted v.in m.o m.o\nunstable v.in v.h m.o")
        before = it.everything()
        status, said = it.provoke("--all")
        self.assertEqual((status, said.splitlines()[-2:]), (4, [
            "1 of 1 races were made to happen",
            "not tried, since no order of the commands changes them: 1 undeclared, 2 unlisted, 1 unstable"]), said)
        status, said = it.provoke("4")
        self.assertEqual((status, said), (2, "rebug provoke: 4 is no matter of order (unlisted v.in): no order of the "
                                             "commands changes it\n"))
        status, said = it.provoke("6")
        self.assertEqual((status, said), (2, "rebug provoke: there is no race 6: the recording has 5\n"))
        self.assertEqual(it.provoke("2")[0], 4)
        self.assertEqual(it.everything(), before)

    def test_a_clash_is_tried_in_both_orders(self):
        a, b = "a.txt (build.ninja:18)", "b.txt (build.ninja:19)"
        for text, lines, due in (
                (CLASH.format("echo", ">"), ["built", "other bytes: common.txt"], "each order gives other bytes"),
                (CLASH.format("echo", ">>"), ["built", "other bytes: common.txt"], "each order gives other bytes"),
                (CLASH.format("echo same; :", ">"), ["built"], "no difference seen"),
                (CLASH.format("! grep -qs a.txt common.txt && echo", ">"),
                 ["failed, status 1", "b.txt failed, and wrote\n"], "it fails in one order"),
                (CLASH.format("[ ! -e no ] && echo", ">"), ["failed, status 1", "both orders fail"],
                 "nothing can be told")):
            with self.subTest(text=text):
                it = self.made(text, ["b.txt"], "clash common.txt a.txt b.txt", own=["--", "a.txt"])
                (it.build / "no").write_text("")
                self.observe(it, {"a.txt": ["a.txt", "common.txt"], "b.txt": ["b.txt", "common.txt"]})
                said = self.keeps_all(it, due, [])
                self.assertIn(f"clash common.txt: {a} writes it, and so does {b}\n", said)
                self.assertIn("b.txt first (build.ninja:18: build a.txt: ... || b.txt): ", said)
                self.assertIn("a.txt first (build.ninja:19: build b.txt: ... || a.txt): ", said)
                for line in lines:
                    self.assertIn(line, said)

    def observe(self, it: Made, writes: dict[str, list[str]]) -> None:
        """Has the recording an observation in which commands leave these files."""
        paths = list(dict.fromkeys(path for its in writes.values() for path in its))
        lines = ["rebug-observed 1", "by test", *(f"path {path}" for path in paths)]
        for edge, its in writes.items():
            lines += [f"edge {edge}", "writes " + " ".join(map(str, sorted(map(paths.index, its))))]
        (it.recording / "observed").write_text("".join(line + "\n" for line in lines))

    def test_a_clash_that_an_order_mends(self):
        for line in ("a.txt: both || b.txt", "b.txt: both || a.txt"):
            text = CLASH.format("echo", ">").replace(line[:11], line)
            it = self.made(text, [], "clash common.txt a.txt b.txt")
            said = self.keeps_all(it, "it is mended: one of the two waits for the other, so there is one order", [])
            self.assertIn("refused as a cycle", said)

    def test_the_order_of_an_undeclared_file_stands_at_an_output_of_its_maker(self):
        text = ("rule both\n  command = cp v.in x.h && touch $out\nbuild gen.stamp: both v.in\nbuild m.o: use m.c\n"
                "  reads = x.h\n")
        it = self.made(text, ["gen.stamp"], "race x.h gen.stamp m.o")
        self.observe(it, {"gen.stamp": ["gen.stamp", "x.h"], "m.o": ["m.o"]})
        said = self.keeps_all(it, "it fails so", [])
        self.assertIn("mended (build.ninja:19: build m.o: ... || gen.stamp): built\n", said)
        self.assertIn("x.h: No such file", said)

    def test_where_the_mend_fails_and_the_race_does_not(self):
        text = ("rule away\n  command = rm -f n.c && touch $out\nrule keep\n  command = cp n.c $out\n"
                "build a.txt: away\nbuild m.o: keep\n")
        it = self.made(text, ["m.o"], "race n.c a.txt m.o", own=["--", "m.o"])
        said = self.keeps_all(it, "it fails with the mend, and not so", [])
        self.assertIn("the user first (build.ninja:20: build a.txt: ... || m.o): built\n", said)

    def test_a_source_that_an_earlier_build_has_changed(self):
        text = ("rule edit\n  command = echo 2 > v.in && touch $out\nbuild edited: edit\nbuild m.o: use m.c v.in\n"
                "  reads = v.in\n")
        it = self.made(text, ["edited"], "race v.in edited m.o")
        self.observe(it, {"edited": ["edited", "v.in"], "m.o": ["m.o"]})
        said = self.keeps_all(it, "nothing can be told", [])
        self.assertIn("a command changes v.in in place, and an earlier build has done so", said)
        (it.build / "v.in").write_text("#define V 1\n")
        for name in ("edited", "m.o"):
            (it.build / name).unlink()
        self.keeps_all(it, "it gives other bytes so", [])

    def test_what_another_command_changed_in_place_is_made_anew(self):
        text = ("rule make\n  command = echo library > $out\n"
                "rule strip\n  command = echo stripped >> lib && touch $out\n"
                "build lib: make\nbuild strip.stamp: strip lib\nbuild app: link lib\n")
        it = self.made(text, ["strip.stamp"], "race lib strip.stamp app")
        self.observe(it, {"lib": ["lib"], "strip.stamp": ["strip.stamp", "lib"], "app": ["app"]})
        said = self.keeps_all(it, "it gives other bytes so", [])
        self.assertIn("other bytes: app\n", said)


@unittest.skipIf(LACKING, LACKING)
class BesideOthers(WithProjects):
    TWO = "build v.h: gen v.in\nbuild w.h: gen v.in\nbuild m.o: use m.c\n  reads = v.h w.h\nbuild app: link m.o\n"

    def test_the_mends_of_other_races_stand_in_each_trial(self):
        """Without the mend of w.h the mended build of v.h fails as well."""
        it = self.made(self.TWO, ["v.h", "w.h"])
        before = it.everything()
        for number, here, other in (("1", "v.h", "w.h"), ("2", "w.h", "v.h")):
            status, said = it.provoke(number)
            self.assertEqual((status, said.splitlines()[-1]), (4, "it fails so"), said)
            self.assertIn("beside the orders that mend other findings: 1\n", said)
            self.assertEqual((f"{here}: No such file" in said, f"{other}: No such file" in said), (True, False), said)
            self.assertIn(f"build m.o: ... || {here}): built\n", said)
        self.assertEqual(it.everything(), before)

    def test_mends_that_cannot_stand_together(self):
        """Of a.txt, b.txt and c.txt each reads what the one before it leaves: two of the three mends can stand."""
        text = "rule nolist\n  command = { cat $in $reads 2>/dev/null || echo without; } > $out\n"
        text += "".join(f"build {it}.txt: nolist {it}.c\n  reads = {other}.txt\n" for it, other in ("ac", "ba", "cb"))
        it = self.made(text, [], "race c.txt c.txt a.txt\nrace a.txt a.txt b.txt\nrace b.txt b.txt c.txt",
                       files={f"{name}.c": "x\n" for name in "abc"})
        before = it.everything()
        status, said = it.provoke("--all")
        self.assertEqual((status, said.splitlines()[-1]), (4, "3 of 3 races were made to happen"), said)
        self.assertIn("beside the orders that mend other findings: 1\n", said)
        self.assertEqual(it.everything(), before)

    def test_orders_that_can_stand_together(self):
        text = b"rule r\n  command = r\n" + b"".join(b"build %b: r\n" % it for it in (b"a", b"b", b"c", b"d|d2"))
        text = text.replace(b"d|d2", b"d | d2")
        manifest = Manifest(b"build.ninja", lambda _: text)
        edge = manifest.producer.__getitem__
        order = lambda later, first: Order(edge(later), edge(first))
        graphs = [Graph(Known(manifest)), Graph(Known(manifest))]
        graphs[0].add(order(b"a", b"b"))
        graphs[1].add(order(b"b", b"a"))
        found = together([order(b"b", b"c"), order(b"c", b"a"), order(b"c", b"d"), order(b"c", b"d")], graphs)
        self.assertEqual([(it.later.name, it.first.name) for it in found], [(b"b", b"c"), (b"c", b"d")])
        files = Statements(manifest).with_orders([*found, Order(edge(b"c"), edge(b"b"), b"b"),
                                                  Order(edge(b"a"), edge(b"d"), b"d2")])
        self.assertEqual(files, {b"build.ninja": text.replace(b"a: r", b"a: r || d2").replace(b"b: r", b"b: r || c")
                                 .replace(b"c: r", b"c: r || d b")})

    def test_only_what_the_order_is_about_is_run_anew(self):
        """Twenty objects whose headers Ninja has in its records, and a race of what links them: none is built anew."""
        count = "echo $out >> ../elsewhere/runs; "
        text = ("rule many\n  command = " + count + "cp $in $out; echo \"$out: $in k.h\" > $out.d\n  depfile = $out.d\n"
                "  deps = gcc\nrule plain2\n  command = " + count + "cp $in $out; echo \"$out: $in k.h\" > $out.d\n"
                "  depfile = $out.d\n"
                "rule app\n  command = " + count + "cat $in v.h > $out && echo \"$out: v.h\" > $out.d\n"
                "  depfile = $out.d\n  deps = gcc\nbuild v.h: gen v.in\nbuild k.h: gen v.in\n"
                + "".join(f"build o{it}: many m.c || k.h\nbuild p{it}: plain2 m.c || k.h\n" for it in range(20))
                + "build app: app " + " ".join(f"o{it} p{it}" for it in range(20)) + "\n")
        it = self.made(text, ["v.h"])
        runs = it.elsewhere / "runs"
        self.assertEqual(len(runs.read_text().split()), 41)
        runs.write_text("")
        status, said = it.provoke()
        self.assertEqual((status, said.splitlines()[-1]), (4, "it fails so"), said)
        self.assertEqual(set(runs.read_text().split()), {"app"})

    def test_a_generated_manifest_is_not_made_anew(self):
        """As gn has it: build.ninja is an output whose depfile stays there, and names many files."""
        text = ("rule gn\n  command = exit 9\nbuild build.ninja: gn\n  generator = 1\n  depfile = build.ninja.d\n"
                "subninja toolchain.ninja\n")
        part = ("rule gen\n  command = cp $in $out\nrule use\n  command = cat $in v.h > $out && echo \"$out: $in v.h\""
                " > $out.d\n  depfile = $out.d\n  deps = gcc\n" + GEN + "build m.o: use m.c\n")
        it = self.made(text, ["v.h"], files={"toolchain.ninja": part, "args.gn": "x\n",
                                             "build.ninja.d": "build.ninja: args.gn ../src/BUILD.gn\n",
                                             "../src/BUILD.gn": "x\n"})
        said = self.keeps_all(it, "it fails so", [])
        self.assertIn("mended (toolchain.ninja:8: build m.o: ... || v.h): built\n", said)


@unittest.skipIf(LACKING, LACKING)
class HowFarItIs(WithProjects):
    def test_a_line_a_second_at_a_terminal(self):
        text = "rule late\n  command = sleep 2.5; cp $in $out\n" + GEN.replace(": gen", ": late") + USE
        it = self.made(text, ["v.h"])
        outer, inner = pty.openpty()
        done = subprocess.Popen(it.words(), stdin=subprocess.DEVNULL, stdout=subprocess.DEVNULL, stderr=inner)
        os.close(inner)
        said = b""
        while data := read_terminal(outer):
            said += data
        os.close(outer)
        self.assertEqual(done.wait(), 4)
        lines = [it for it in said.decode().split("\r\x1b[K") if re.search(r"mended \.\. .*[0-9] s$", it)]
        self.assertGreaterEqual(len(lines), 2, said)
        self.assertTrue(all(it.startswith("rebug provoke: race 1 of 1: mended .. ") for it in lines), lines)


class Records(unittest.TestCase):
    """A deps log in which some outputs list nothing."""

    def log(self, version: int, *records: bytes) -> bytes:
        return b"# ninjadeps\n" + struct.pack("<I", version) + b"".join(records)

    def path(self, number: int, name: bytes) -> bytes:
        name += b"\0" * (-len(name) % 4)
        return struct.pack("<I", len(name) + 4) + name + struct.pack("<I", number ^ 0xFFFFFFFF)

    def listing(self, version: int, output: int, stamp: int, *paths: int) -> bytes:
        body = struct.pack("<I" + ("Q" if version == 4 else "I"), output, stamp)
        body += struct.pack(f"<{len(paths)}I", *paths)
        return struct.pack("<I", len(body) | 1 << 31) + body

    def read(self, content: bytes) -> dict[bytes, tuple[int, list[bytes]]]:
        with tempfile.TemporaryDirectory() as folder:
            path = pathlib.Path(folder) / "log"
            path.write_bytes(content)
            log = DepsLog(str(path))
            return {output: (stamp, list(paths_of(listing))) for output, (stamp, listing) in log.places.items()}

    def test_of_both_versions(self):
        for version in (3, 4):
            log = self.log(version, self.path(0, b"m.o"), self.path(1, b"v.h"), self.listing(version, 0, 7, 1),
                           self.path(2, b"./n.o"), self.listing(version, 2, 8, 1))
            self.assertEqual(self.read(log), {b"m.o": (7, [b"v.h"]), b"n.o": (8, [b"v.h"])})
            self.assertEqual(self.read(without_records(log, {b"n.o"})), {b"m.o": (7, [b"v.h"]), b"n.o": (0, [])})
            self.assertEqual(self.read(without_records(log + b"\x07", {b"m.o"})),
                             {b"m.o": (0, []), b"n.o": (8, [b"v.h"])})
            self.assertEqual(without_records(log, {b"x"}), log)

    def test_of_none(self):
        for log in (b"", b"# ninjadeps\n", self.log(9, self.path(0, b"m.o")), b"other"):
            self.assertEqual(without_records(log, {b"m.o"}), log)


if __name__ == "__main__":
    unittest.main()
