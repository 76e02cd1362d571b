"""Summaries whose findings the program gives, and counts that it makes: they are those of Python."""

from __future__ import annotations

import json
import os
import pathlib
import shutil
import subprocess
import sys
import tempfile
import unittest
import unittest.mock

import builds
import many_builds
from recorder.flakes import counting
from recorder.flakes.counting import counted
from recorder.flakes.main import _partial
from recorder.flakes.reading import Summaries
from recorder.flakes.telling import lines_of
from recorder.summary.packed import Run, packed, unpacked
from shuffled import RULES, statement

TOP = pathlib.Path(__file__).resolve().parents[2]
sys.path.append(str(TOP / "tests"))
from json_schema import misfits  # noqa: E402

SUMMARY, EXAMPLES = builds.RECORDER.parent / "rebug-summary", TOP / "examples/flaky"
SEEDS, asked_program, tallies_of = range(40), counting.good_of, counting.tallies_of


def program() -> str:
    return os.environ.get("REBUG_ASK_PROGRAM") or str(TOP / "crates/rebug_ask/out/rebug_ask")


@unittest.skipUnless(os.access(program(), os.X_OK), f"the program is not built: there is no {program()}")
class Asked(unittest.TestCase):
    def setUp(self) -> None:
        self.room = pathlib.Path(tempfile.mkdtemp(prefix="rebug-summaries-"))
        self.addCleanup(shutil.rmtree, self.room)

    def lines(self, recording: pathlib.Path) -> dict[str, list[dict]]:
        ran = subprocess.run([sys.executable, SUMMARY, recording, "--rebug", program()], capture_output=True, text=True,
                             stdin=subprocess.DEVNULL)
        self.assertEqual((ran.returncode, ran.stderr), (0, ""))
        self.assertEqual(misfits(ran.stdout.encode(), "summary"), [])
        found: dict[str, list[dict]] = {}
        for it in map(json.loads, ran.stdout.splitlines()):
            found.setdefault(it["rebug"], []).append(it)
        return found

    def test_findings_and_how_they_fell(self) -> None:
        for name, fell in (("passed", "before"), ("failed", "at once"), ("observed", "read")):
            found = self.lines(EXAMPLES / name)
            (finding,) = found["finding"]
            self.assertEqual((finding["id"], finding["path"], finding["maker"], finding["user"], finding["mend"]),
                             ("a8a4fcf42eb58d0f", "version.h", 0, 5, "build.ninja:19: build main.o: ... || version.h"))
            self.assertEqual(found["build"][0]["findings"], {"a8a4fcf42eb58d0f": fell})

    def recorded(self, text: str, *words: str) -> dict[str, list[dict]]:
        """The summary of a build of a manifest with one job, which Ninja begins in the order of its statements."""
        folder = self.room / "build"
        folder.mkdir()
        (folder / "build.ninja").write_text(RULES + text)
        ran = subprocess.run([sys.executable, builds.RECORDER, folder, self.room / "out", *words, "-j", "1"],
                             capture_output=True, stdin=subprocess.DEVNULL)
        self.assertTrue((self.room / "out/trace").is_file(), ran.stderr)
        return self.lines(self.room / "out")

    def test_a_user_that_missed_what_its_maker_makes(self) -> None:
        found = self.recorded(statement("user", "cat gen 2> /dev/null; echo > user")
                              + statement("gen", "echo 1 > gen"), "--observe", "--contents")
        (finding,) = found["finding"]
        self.assertEqual((finding["finding"], finding["path"], found["names"][0]["names"][finding["maker"]]),
                         ("race", "gen", "gen"))
        (build,) = found["build"]
        self.assertEqual(build["findings"], {finding["id"]: "missed"})
        self.assertIn("left", build)

    def test_two_commands_that_leave_one_file(self) -> None:
        """`races` has no user that looked, so their times say how the two fell."""
        found = self.recorded(statement("a", "echo a > a; echo a > log") + statement("b", "echo b > b; echo b > log"),
                              "--observe")
        (finding,) = found["finding"]
        self.assertEqual((finding["finding"], finding["path"]), ("clash", "log"))
        self.assertEqual(list(found["build"][0]["findings"].values()), ["before"])

    def test_counts_are_those_of_python(self) -> None:
        """Of builds that Ninja stopped, of some that went on, of some in which commands were up to date, and of one
        whose runs are no runs."""
        for make in (many_builds.race, many_builds.lock, many_builds.gone, many_builds.two_culprits):
            path = self.room / make.__name__
            path.write_text("".join(map(self.changed, SEEDS, map(make().build, SEEDS))))
            for is_partial in (False, True):
                own, others = (self.sums(path, it, is_partial) for it in ("/nowhere", program()))
                self.assertEqual(own, others)
                self.assertIn(" failed in ", own)

    def changed(self, seed: int, text: str) -> str:
        """The summary with other words in some builds."""
        *more, last = text.splitlines()
        build = json.loads(last)
        runs = unpacked(build["runs"], len(json.loads(more[0])["names"]))
        if seed % 4 == 1:
            build["nothing"] = False
            runs = [it for it in runs if it.command % 5 or str(it.command) in build["failed"]]
        if seed % 4 == 2 and build["failed"]:
            late = next(it for it in range(18) if it not in {run.command for run in runs})
            runs.append(Run(late, max(it.ended or 0 for it in runs) + 5, None))
        build["runs"] = packed(runs) if seed != 3 else "AAAA"
        return "\n".join([*more, json.dumps(build)]) + "\n"

    def sums(self, path: pathlib.Path, asked: str, is_partial: bool) -> str:
        """Sums and words. Of sums all passing builds are asked, and of words the orders that are printed."""
        summaries, answers = Summaries(), []
        summaries.read([str(path)])
        with unittest.mock.patch("recorder.flakes.proved.asking_program", lambda: asked), unittest.mock.patch.object(
                counting, "good_of", lambda *words: answers.append(asked_program(*words)) or answers[-1]), \
                unittest.mock.patch.object(counting, "tallies_of",
                                           lambda *words: answers.extend(tallies_of(*words)) or answers):
            them = counted(summaries, [], is_partial)
        self.assertEqual({it is not None for it in answers}, set() if asked == "/nowhere" else {True})
        return "\n".join([*_partial(them), *lines_of(them)])


if __name__ == "__main__":
    unittest.main()
