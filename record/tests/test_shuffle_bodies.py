"""What `rebug shuffle` finds and counts, beside wrong ways to do so: each check fails with a body that is bad."""

from __future__ import annotations

import contextlib
import os
import pathlib
import tempfile
import unittest
import unittest.mock
from collections.abc import Callable, Sequence
from dataclasses import replace

from recorder.ninja import found_ninja
from recorder.shuffle import judging, places, rooms
from recorder.shuffle.commands import Commands
from recorder.shuffle.judging import Judge, Outcome, Report
from recorder.shuffle.orders import blocks_of
from recorder.shuffle.patching import with_orders
from recorder.shuffle.places import prepared
from recorder.shuffle.running import Ran, Task
from recorder.shuffle.side_by_side import Bench
from recorder.shuffle.words import read_words
from shuffled import Shuffled, statement
from test_shuffle import HIDDEN, LACKING, SOFT, SOUND, Case

Check = Callable[[], None]


def body(owner: object, name: str, bad: object) -> contextlib.AbstractContextManager[object]:
    """A function in place of another one."""
    return unittest.mock.patch.object(owner, name, bad)


def judged(it: Shuffled, *words: str) -> Report:
    """What comes of the build, in this process."""
    options = read_words([str(it.build), *words])
    ninja = os.fsencode(found_ninja().program)
    build = prepared(os.fsencode(it.build), ninja, options.for_ninja, dict(os.environ))
    return Judge(options, build, Bench(build.place, options.side_by_side), lambda _: None).judge()


def pairs(report: Report) -> list[tuple[bytes, bytes]]:
    """The pairs that are named."""
    return [(it.maker.name, it.user.name) for it in report.findings if it.maker and it.user]


@unittest.skipIf(LACKING, LACKING)
class Bodies(Case):
    def fails_with(self, check: Check, *bodies: contextlib.AbstractContextManager[object]) -> None:
        """The check passes, and fails with each bad body."""
        check()
        for it in bodies:
            with it, self.assertRaises(AssertionError):
                check()

    def test_a_chain_goes_from_command_to_command(self) -> None:
        """A statement that waits for a name waits for nobody, where the name does. Ninja has its own order then."""
        it = self.made(HIDDEN + "build nobody: phony\n")

        def check() -> None:
            self.assertEqual(pairs(judged(it)), [(b"v.h", b"m.o")])

        def by_a_name(commands: Commands, order: Sequence[int]) -> dict[bytes, bytes]:
            return with_orders(commands.manifest, {commands.edges[node].number: b"nobody" for node in order[1:]})

        self.fails_with(check, body(judging, "chained", by_a_name))

    def test_each_run_has_temporaries_of_its_own(self) -> None:
        """The first of two runs that share a folder leaves a file there, and the second one finds it."""
        shared = tempfile.TemporaryDirectory(prefix="rebug-shared-")
        self.addCleanup(shared.cleanup)
        file = pathlib.Path(shared.name, "file")
        look = f"test -e {file} && echo seen > a || echo new > a; touch {file}"
        it = self.made(statement("a", look) + statement("b", "touch b"))

        def check() -> None:
            report = judged(it)
            self.assertEqual((report.findings, report.unsteady, file.exists()), ([], [], False))

        def only(folders: Sequence[bytes], _: object) -> list[rooms.Layer]:
            return rooms._layers_over(folders, [])

        both = contextlib.ExitStack()
        both.enter_context(body(places, "layers_of_room", only))
        both.enter_context(body(rooms, "_have_all_read_only", lambda: None))
        with both, self.assertRaises(AssertionError):
            check()
        file.unlink(missing_ok=True)
        check()

    def test_what_is_unsteady_is_no_difference(self) -> None:
        it = self.made(SOUND + statement("t", "date +%N > t"))

        def check() -> None:
            report = judged(it)
            self.assertEqual((report.findings, report.unsteady), ([], [os.fsencode(it.build / "t")]))

        self.fails_with(check, body(Judge, "_note_unsteady", lambda its, one, other: None))

    def test_what_a_later_command_mends_is_no_difference(self) -> None:
        """Two commands write into one file, and the last command writes it anew."""
        it = self.made(statement("a", "echo a >> log; touch a") + statement("b", "echo b >> log; touch b")
                       + statement("c", "echo c > log; touch c", "a b"))
        whole = Judge._task

        def without_the_last(its: Judge, order: Sequence[int] | None = None, *how: int, **more: object) -> Task:
            task, is_own = whole(its, order, *how, **more), order is None or list(order) == sorted(order)
            return task if is_own else replace(task, targets=(its.commands.first_output(order[-2]),))

        self.fails_with(lambda: self.assertEqual(judged(it).findings, []), body(Judge, "_task", without_the_last))

    def test_a_pair_that_never_ran_is_left(self) -> None:
        """In the opposite order the first command fails."""
        it = self.made("".join(statement(name, f"touch {name}") for name in "abc") + statement("z", "cat a > z"))

        def check() -> None:
            report = judged(it, "--runs", "2", "--budget", "4")
            self.assertEqual((report.unordered, report.left), (6, 6))

        def all_of(its: Judge, order: list[int], ran: Ran, size: int) -> list[list[int]]:
            return [list(block) for block in blocks_of(order, size)]

        self.fails_with(check, body(Judge, "_blocks", all_of))

    def test_pairs_of_an_order_that_ninja_refuses_are_left(self) -> None:
        """The dyndep file has m.o wait for v.h, which was not read. So an order has m.o before v.h."""
        text = (statement("dd", "printf 'ninja_dyndep_version = 1\\nbuild m.o: dyndep | v.h\\n' > dd")
                + statement("v.h", "echo 1 > v.h") + "build m.o: r || dd\n  dyndep = dd\n  c = cat v.h > m.o\n")
        it = self.made(text)

        def check() -> None:
            report = judged(it)
            self.assertIn(False, [them.is_possible for them in report.outcomes])
            self.assertEqual((report.findings, report.unordered, report.left), ([], 2, 1))

        def is_run(ran: Ran) -> bool:
            return False

        with body(judging, "read_dyndep", lambda manifest, contents: {}):
            self.fails_with(check, body(judging, "_is_refused", is_run))

    def test_both_builds_of_a_difference_are_repeated(self) -> None:
        """What changes each second may be the same in two builds of one order, and others in the next build."""
        it = self.made(SOUND + statement("t", "echo 1 > t"))
        whole, turns = Judge._others, []

        def with_a_flaw(its: Judge, own: Outcome, again: Ran | None) -> list[Outcome]:
            """The first order has other bytes once."""
            found = whole(its, own, again)
            turns.append(found[0])
            found[0].ran.changed[os.fsencode(it.build / "t")] = "file 644 0"
            return found

        def once(its: Judge, own: Outcome, outcomes: list[Outcome]) -> judging.Finding | None:
            differ = [them for them in outcomes if them is not own and its._differs(own.ran, them.ran)]
            return its._finding(own, differ[0], []) if differ else None

        with body(Judge, "_others", with_a_flaw):
            self.fails_with(lambda: self.assertEqual(judged(it).findings, []), body(Judge, "_first_finding", once))
        self.assertEqual(len(turns), 2)

    def test_the_mend_keeps_the_own_order(self) -> None:
        """With the pair the other way round the mend does not mend."""
        it = self.made(SOFT)

        def check() -> None:
            (found,) = judged(it).findings
            self.assertEqual((found.is_mended, found.left), (True, []))

        whole = judging.walked

        def turned(*how: object) -> judging.Pair | None:
            found = whole(*how)
            return found and judging.Pair(found.second, found.first)

        self.fails_with(check, body(judging, "walked", turned))


if __name__ == "__main__":
    unittest.main()
