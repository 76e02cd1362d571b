"""Orders in blocks that run side by side, and orders that are recorded, by real Ninja."""

from __future__ import annotations

import os
import subprocess
import unittest

from recorder.observed.observers import chosen
from shuffled import statement
from test_shuffle import DIFFERS, HIDDEN, LACKING, SOFT, SOUND, Case

PROGRAM = os.environ.get("REBUG_ASK_PROGRAM")
UNOBSERVED = LACKING or chosen(None)[1]


def commands(names: str) -> str:
    return "".join(statement(name, f"touch {name}") for name in names)


class Blocks(Case):
    def test_pairs_of_one_block_are_left(self):
        """Of a to f each order has three blocks of two: three pairs of fifteen stand neither way in it."""
        found = self.same(self.made(commands("abcdef")), "--runs", "2", "--blocks", "2")
        self.assertEqual((found.end["pairs"], found.end["left"]), (15, 3))
        self.assertEqual(self.same(self.made(commands("abcdef")), "--blocks", "2").end["left"], 0)

    def test_a_block_of_all_shows_no_pair(self):
        found = self.same(self.made(commands("abc")), "--runs", "2", "--blocks", "3")
        self.assertEqual((found.end["pairs"], found.end["left"]), (3, 3))

    def test_a_pair_of_two_blocks_is_named(self):
        self.differs(self.made(SOFT + commands("cdef")), ("a", "b"), "--blocks", "2")

    def test_what_waits_within_a_block_still_does(self):
        self.same(self.made(SOUND + statement("k", "cat m.o > k", "m.o")), "--blocks", "3")

    def test_commands_that_overlap_in_a_block(self):
        """One after the other they leave the same. In order 2, d c b a, the lock is taken as b looks."""
        look = "sleep 0.5; mkdir lock 2>/dev/null && { echo free > b; rmdir lock; } || echo no > b"
        it = self.made(statement("a", "mkdir lock; sleep 2; rmdir lock; touch a") + statement("b", look)
                       + commands("cd"))
        self.same(it, "--runs", "2")
        found = self.answer(it, "--blocks", "2", "--runs", "2")
        self.assertEqual((found.status, found.pair, found.difference["paths"]), (DIFFERS, None, ["b"]), found.objects)
        self.assertEqual([them["output"] for them in found.difference["beside"]], ["a"])
        self.assertIn("one command after the other, it leaves the same", it.told("--blocks", "2", "--runs", "2")[1])


@unittest.skipIf(UNOBSERVED, UNOBSERVED)
class Recorded(Case):
    def recorded(self, text: str, *words: str):
        it = self.made(text)
        out = it.room.parent / f"{it.room.name}-out"
        self.addCleanup(subprocess.run, ["rm", "-rf", out])
        found = self.answer(it, out, "--observe", *words)
        return it, out, found

    def test_each_order_leaves_a_recording_of_the_manifest_as_it_is(self):
        it, out, found = self.recorded(SOUND + SOFT)
        self.assertEqual(found.status, DIFFERS, found.objects)
        for number in (them["number"] for them in found.of("order")):
            folder = out / f"recording-{number}"
            self.assertEqual((folder / "build.ninja").read_text(), (it.build / "build.ninja").read_text())
            self.assertTrue((folder / "observed").stat().st_size)
            lines = (folder / "trace").read_text().splitlines()
            started = [line.split()[1] for line in lines if line.startswith("start ")]
            self.assertEqual(started, (out / f"order-{number}").read_text().split())

    def test_an_order_that_fails_is_recorded_too(self):
        _, out, found = self.recorded(HIDDEN)
        self.assertEqual(found.status, DIFFERS)
        self.assertIn("fail m.o", (out / "recording-2/trace").read_text())

    @unittest.skipUnless(PROGRAM, "REBUG_ASK_PROGRAM names no program")
    def test_races_names_the_pair_in_each_recording(self):
        _, out, _ = self.recorded(HIDDEN)
        for number in (1, 2):
            done = subprocess.run([PROGRAM, "races", out / f"recording-{number}"], capture_output=True, text=True)
            self.assertIn("v.h made by v.h (build.ninja:3)", done.stdout, done)
            self.assertRegex(done.stdout, r"mend: build\.ninja:5: build m\.o: \.\.\. \|\|? v\.h")

    def test_what_cannot_be_recorded_is_said_before_anything_runs(self):
        it = self.made("rule d\n  command = touch $out\nbuild a: d || dd\n  dyndep = dd\nbuild dd: d\n")
        out = it.room.parent / f"{it.room.name}-out"
        before = it.everything()
        status, text = it.told(out, "--observe")
        self.assertEqual((status, text.count("\n"), out.exists()), (2, 1, False), text)
        self.assertIn("dyndep files add to these. Nothing has run", text)
        self.assertEqual(it.everything(), before)


if __name__ == "__main__":
    unittest.main()
