"""Which commands of two builds left other bytes from the same, by recordings that are written here and by builds that a
real Ninja ran."""

from __future__ import annotations

import os
import pathlib
import random
import shutil
import tempfile
import unittest
import unittest.mock
from collections.abc import Sequence

import builds
import contents_1
import contents_planted
from causes_recordings import Causes, Command, Recording, answered, sha, told
from observing import refusal
from recorder.causes import judging
from reuse_builds import Reuse

LIBC, INDEX = "/usr/lib/libc.so", "/etc/ld.so.cache"
PAIRS = 60
LOOKS = {"n01_date.o": "a date or a time", "n03_gzip.gz": "a time in seconds since 1970",
         "n08_uuid.txt": "a random name (UUID)", "n14_version.h": "a time in seconds since 1970, in digits",
         "n15_mktemp.txt": "the name of a temporary file"}
# First causes that differ in each two builds. The others do so by chance: the order of processes and of a folder.
SURE = {"n01_date.o", "n02_ar.a", "n03_gzip.gz", "n04_tar.tar", "n06_py.pyc", "n07_set.txt", "n08_uuid.txt",
        "n09_pid.txt", "n11_lto.o", "n14_version.h", "n15_mktemp.txt", "n17_log.txt"}
VERDICTS = {"first": "first cause", "propagated": "propagated", "absorbed": "absorbed", "unknown": "not certain"}


def chain(number: str) -> list[Command]:
    """`number` takes a number from nowhere, `copy` copies it, `app` has that, and `size` has how long it is."""
    return [
        Command("number", read={"gen.py": "gen"}, left={"number": f"number {number}"}, missing=["local.py"]),
        Command("copy", read={"number": f"number {number}"}, left={"copy": f"copy {number}"}),
        Command("app", read={"copy": f"copy {number}", LIBC: "libc"}, left={"app": f"app {number}"}),
        Command("size", read={"number": f"number {number}"}, left={"size": "8"}),
        Command("other", read={"in": "in"}, left={"other": "other"}, line="cp in other"),
    ]


class Written(unittest.TestCase):
    def setUp(self) -> None:
        self.room = pathlib.Path(tempfile.mkdtemp(prefix="rebug-causes-"))
        self.addCleanup(shutil.rmtree, self.room)
        self.addCleanup(os.chdir, os.getcwd())
        os.chdir(self.room)

    def pair(self, one: Sequence[Command] | Recording, other: Sequence[Command] | Recording) -> None:
        """Writes two recordings."""
        for name, it in (("one", one), ("two", other)):
            shutil.rmtree(self.room / name, ignore_errors=True)
            (it if isinstance(it, Recording) else Recording(list(it))).write(self.room / name)

    def answer(self, *words: object) -> Causes:
        return answered("one", "two", *words)

    def words(self, *words: object, status: int = 4) -> list[str]:
        found, lines = told("one", "two", *words)
        self.assertEqual(found, status)
        return lines

    def kinds(self, one: Sequence[Command] | Recording, other: Sequence[Command] | Recording,
              *words: str) -> dict[str, str]:
        """The kinds of the commands of two recordings."""
        self.pair(one, other)
        return self.answer(*words).kinds()


class Verdicts(Written):
    def test_a_first_cause_what_follows_from_it_and_what_does_not(self):
        self.pair(chain("1"), chain("2"))
        self.assertEqual(self.words(), [
            "5 commands ran in both builds, one (A) and two (B); 1 met the same and left the same",
            "other bytes from the same (first causes: these commands are not deterministic): 1 command",
            "  number (build.ninja:3): 2 looks, all answered alike; left otherwise: number",
            "    2 commands behind it left other bytes for it",
            "other bytes from other bytes, below what they follow from: 2 commands",
            "  number (build.ninja:3)",
            "    copy (build.ninja:5): number differs",
            "      app (build.ninja:7): copy differs",
            "the same bytes from other bytes: 1 command",
            "  size (build.ninja:9): number differs"])
        found = self.answer()
        self.assertEqual((found.status, found.kinds()), (4, {"number": "first cause", "copy": "propagated",
                                                             "app": "propagated", "size": "absorbed"}))
        self.assertEqual([(it["behind"], it["depth"], it["followers"]) for it in found.commands.values()],
                         [(None, 0, 2), ("number", 1, 1), ("copy", 2, 0), ("number", None, 0)])
        self.assertEqual(found.commands["number"]["left"], [{
            "path": "number", "before": sha("number 1"), "now": sha("number 2"), "bytes": None, "no_bytes": None}])
        self.assertEqual(found.more, [{
            "kind": "causes", "one": "one", "other": "two", "commands": 5, "one_alone": 0, "other_alone": 0,
            "other_folder": False, "same": 1, "first": 1, "surroundings": 0, "command": 0, "uncertain": 0,
            "propagated": 2, "absorbed": 1}])

    def test_the_same_build_twice(self):
        self.pair(chain("1"), chain("1"))
        self.assertEqual(self.words(status=0), [
            "5 commands ran in both builds, one (A) and two (B); 5 met the same and left the same"])
        self.assertEqual((self.answer().status, self.answer().kinds()), (0, {}))

    def test_a_build_that_absorbs_all(self):
        self.assertEqual(self.kinds([Command("a", read={"s": "1"}, left={"a": "a"})],
                                    [Command("a", read={"s": "2"}, left={"a": "a"})]), {"a": "absorbed"})
        self.assertEqual(self.answer().status, 0)

    def test_the_chain_back_to_the_first_cause(self):
        self.pair(chain("1"), chain("2"))
        self.assertEqual(self.words("--why", "app"), [
            "app (build.ninja:7) left other bytes, since it met others: copy",
            "copy (build.ninja:5) left other bytes, since it met others: number",
            "number (build.ninja:3) left other bytes, and all that it met was the same: it is a first cause"])
        found = self.answer("--why", "app").more
        self.assertEqual([(it["kind"], it["output"], it["verdict"]) for it in found], [
            ("link", "app", "propagated"), ("link", "copy", "propagated"), ("link", "number", "first cause")])
        self.assertEqual(self.words("--why", "other", status=0), [
            "other (build.ninja:11) left the same bytes in both builds"])
        self.assertEqual(self.words("--why", "size", status=0)[0],
                         "size (build.ninja:9) left the same bytes in both builds, and met others: number")

    def test_an_output_that_no_statement_names(self):
        one, two = ([Command("a", left={"a": "a", "log": it})] for it in "12")
        self.pair(one, two)
        self.assertEqual(self.answer().left("a"), ["log"])
        self.assertEqual(self.words("--why", "log")[0],
                         "a (build.ninja:3) left other bytes, and all that it met was the same: it is a first cause")

    def test_a_source_that_differs(self):
        one, two = ([Command("a", read={"src": it}, left={"a": it})] for it in "12")
        self.pair(one, two)
        self.assertEqual(self.words()[1:], [
            "other bytes from other bytes, below what they follow from: 1 command",
            "  src, which no command left otherwise before",
            "    a (build.ninja:3): src differs"])
        self.assertEqual(self.words("--why", "a"), [
            "a (build.ninja:3) left other bytes, since it met others: src",
            "src: no command that ran in both builds left it otherwise before"])
        self.assertEqual([it.get("path") for it in self.answer("--why", "a").more], [None, "src"])
        self.assertEqual(self.answer().commands["a"]["source"], "src")

    def test_answers_that_agree_and_answers_that_do_not(self):
        """A miss that became a file; what is only there; an output of which it is only asked whether it is there."""
        def a(number: str, **looks: object) -> list[Command]:
            return [Command("a", left={"a": number}, **looks)]
        for one, other, due in (
                (a("1", missing=["h"]), a("2", read={"h": "2"}), "propagated"),
                (a("1", missing=["h"]), a("2", there=["h"]), "propagated"),
                (a("1", there=["h"]), a("2", read={"h": "2"}), "first cause"),
                (a("1", missing=["a"]), a("2", there=["a"]), "first cause"),
                (a("1", missing=["a"]), a("2", read={"a": "1"}), "propagated"),
                (a("1", read={"x": "1"}), a("2", read={"y": "1"}), "first cause"),
                (a("1", missing=["h"], there=["g"]), a("1", read={"h": "2"}, there=["g"]), "absorbed")):
            self.assertEqual(self.kinds(one, other), {"a": due}, (one, other))

    def test_another_command_line(self):
        one, two = ([Command("a", left={"a": it}, line=f"make {it}"), Command("b", read={"a": it}, left={"b": it})]
                    for it in "12")
        self.assertEqual(self.kinds(one, two), {"a": "other command", "b": "propagated"})
        self.assertEqual(self.words()[1:3], ["other bytes by another command line: 1 command",
                                             "  a (build.ninja:3): left otherwise: a"])
        self.assertEqual(self.answer().commands["b"]["behind"], "a")

    def test_what_is_not_certain_is_no_first_cause(self):
        for doubt, said in (({"unsure": ["src"]}, "uncertain bytes"), ({"flags": ["cut"]}, "not observed whole"),
                            ({"unsettled": ["b"]}, "uncertain outputs")):
            read = {} if "unsure" in doubt else {"src": "s"}
            one = [Command("a", read=read, left={"a": "1"}, **doubt)]
            for pair in ((one, [Command("a", read={"src": "s"}, left={"a": "2"})]),
                         ([Command("a", read={"src": "s"}, left={"a": "2"})], one)):
                self.assertEqual(self.kinds(*pair), {"a": "not certain"})
                self.assertEqual(self.answer().commands["a"]["doubt"], said)
                self.assertEqual(self.answer().status, 5)

    def test_a_doubt_at_a_place_where_only_one_looked(self):
        self.assertEqual(self.kinds([Command("a", unsure=["x"], left={"a": "1"})], [Command("a", left={"a": "2"})]),
                         {"a": "first cause"})

    def test_what_is_unsure_explains_nothing(self):
        """Something was there, and it is not certain what: that is no difference from nothing."""
        self.assertEqual(self.kinds([Command("a", unsure=["x"], left={"a": "1"})],
                                    [Command("a", missing=["x"], left={"a": "2"})]), {"a": "not certain"})

    def test_a_command_that_failed_and_one_that_was_not_observed(self):
        one = [Command("a", left={"a": "1"}, has_failed=True), Command("b", read={"a": "1"}, left={"b": "1"})]
        two = [Command("a", left={"a": "2"}), Command("b", read={"a": "2"}, left={"b": "2"})]
        self.assertEqual(self.kinds(one, two), {"a": "not certain", "b": "propagated"})
        self.assertEqual((self.answer().commands["a"]["doubt"], self.answer().commands["b"]["behind"]), ("failed", "a"))
        self.pair(two, two)
        trace = self.room / "two/trace"
        trace.write_text(trace.read_text() + "start c 0\nfinish c 9\n")
        for name in ("one", "two"):
            manifest = self.room / name / "build.ninja"
            manifest.write_text(manifest.read_text() + "build c: r\n")
        self.assertEqual((self.answer().end["one_alone"], self.answer().end["other_alone"]), (0, 1))
        self.assertEqual(self.words(status=0)[1], "  1 command ran in B alone")
        shutil.copy(trace, self.room / "one/trace")
        self.assertEqual({name: it["doubt"] for name, it in self.answer().commands.items()}, {"c": "not observed"})

    def test_a_maker_comes_before(self):
        """In recordings by hand two commands can each meet what the other left."""
        one, two = ([Command("a", read={"b": it}, left={"a": it}), Command("b", read={"a": it}, left={"b": it})]
                    for it in "12")
        self.assertEqual(self.kinds(one, two), {"a": "propagated", "b": "propagated"})
        found = self.answer().commands
        self.assertEqual([(it["behind"], it["source"], it["depth"]) for it in found.values()],
                         [(None, "b", 1), ("a", None, 2)])

    def test_names_in_a_folder_that_a_command_put_there(self):
        """A listing follows from the command that left a file of another name."""
        one, two = ([Command("a", left={"a": "a", f"d/tmp{it}": "x"}),
                     Command("b", names={"d": it}, left={"b": it})] for it in "12")
        self.pair(one, two)
        found = self.answer()
        self.assertEqual((found.kinds(), found.differs("b"), found.commands["b"]["behind"]),
                         ({"a": "first cause", "b": "propagated"}, ["d/"], "a"))


class Recordings(Written):
    """What is said of two recordings as a whole, and verdicts that depend on it."""

    def test_another_folder(self):
        """Paths and command lines are compared without the folders; what is left may be the folder's name."""
        its = []
        for top in ("/home/me/one", "/home/me/another"):
            commands = [Command("a", read={f"{top}/a.c": "a"}, left={"a": "a"}, line=f"cc {top}/a.c"),
                        Command("f", read={f"{top}/a.c": "a"}, left={"f": top}, line=f"cc -g {top}/a.c"),
                        Command("g", read={"f": top}, left={"g": top})]
            its.append(Recording(commands, build=f"{top}/build", source=top))
        self.assertEqual(self.kinds(*its), {"f": "other surroundings", "g": "propagated"})
        self.assertTrue(self.answer().end["other_folder"])
        self.assertEqual(self.words()[1:4], [
            "  the builds stood in two folders: paths below these are compared without them",
            "other bytes from the same, in another folder: 1 command",
            "  f (build.ninja:5): 1 look, all answered alike; left otherwise: f"])
        self.assertEqual(self.words("--why", "g")[1], "f (build.ninja:5) left other bytes, and all that it met was the "
                                                      "same, but it ran in another folder")

    def test_another_environment(self):
        one = Recording(chain("1"), environment={"LANG": "C", "PWD": "/a", "X": "1"})
        two = Recording(chain("2"), environment={"LANG": "de", "PWD": "/b", "Y": "1"})
        self.assertEqual(self.kinds(one, two)["number"], "other surroundings")
        self.assertEqual(self.answer().more[0], {"kind": "environment", "others": ["LANG", "X", "Y"]})
        self.assertEqual(self.words()[1:3], ["  the environment of B has other values of LANG, X, Y",
                                             "other bytes from the same, in another environment: 1 command"])
        for words in (("--any-environment",), ("--without", "LANG", "--without", "X", "--without", "Y")):
            self.assertEqual(self.answer(*words).kinds()["number"], "first cause")
        self.assertEqual(self.answer("--without", "LANG").more[0]["others"], ["X", "Y"])

    def test_environments_that_cannot_be_compared(self):
        one, two = (Recording(chain(it), environment={"LANG": "C"}, key=it * 16) for it in "12")
        self.assertEqual(self.kinds(one, two)["number"], "other surroundings")
        self.assertEqual(self.answer().more[0], {"kind": "environment", "others": None})
        self.assertEqual(self.words()[1], "  the environments cannot be compared: the recordings have two keys")
        self.assertEqual(self.answer("--any-environment").kinds()["number"], "first cause")

    def test_a_source_that_changed_while_the_build_ran(self):
        self.pair(Recording(chain("1"), moved=["gen.py"]), chain("1"))
        self.assertEqual(self.words(status=0)[1:], ["  gen.py changed while A was built, and no command changed it"])
        self.assertEqual(self.answer().more[0], {"kind": "moved", "recording": "one", "path": "gen.py"})

    def test_a_place_of_the_system_that_explains_nothing(self):
        one, two = ([Command("n", read={INDEX: it}, left={"n": it}),
                     *(Command(f"s{n}", read={INDEX: it}, left={f"s{n}": "s"}) for n in range(5))] for it in "12")
        self.assertEqual(self.kinds(one, two), {"n": "first cause"})
        self.assertEqual(self.answer().more[0], {"kind": "assumed", "path": INDEX, "commands": 5})
        self.assertEqual(self.answer().commands["n"]["assumed"], [INDEX])
        self.assertEqual(self.words()[1:], [
            f"  assumed: {INDEX} makes no difference: it differs, and 5 commands met it and left the same bytes",
            "other bytes from the same (first causes: these commands are not deterministic): 1 command",
            f"  n (build.ninja:3): 1 look, all answered alike but for what is assumed of {INDEX}; left otherwise: n"])
        with unittest.mock.patch.object(judging, "ASIDE_FROM", 1 << 30):  # a bad body: such a file explains all away
            self.assertEqual(self.answer().of("first cause"), set())

    def test_four_commands_are_too_few_to_set_a_place_aside(self):
        one, two = ([Command("n", read={INDEX: it}, left={"n": it}),
                     *(Command(f"s{n}", read={INDEX: it}, left={f"s{n}": "s"}) for n in range(4))] for it in "12")
        self.assertEqual(self.kinds(one, two),
                         {"n": "propagated", **dict.fromkeys([f"s{n}" for n in range(4)], "absorbed")})
        self.assertEqual(self.answer().commands["n"]["source"], INDEX)

    def test_a_file_of_the_project_is_never_set_aside(self):
        for path in ("/home/me/project/h", "h"):
            one, two = ([Command(f"s{n}", read={path: it}, left={f"s{n}": "s"}) for n in range(9)] for it in "12")
            self.assertEqual(set(self.kinds(one, two).values()), {"absorbed"})

    def test_a_cache_is_neither_input_nor_output(self):
        cache, its = "/home/me/.cache/ccache", []
        for number in "12":
            commands = [Command("a", read={f"{cache}/x": number}, left={"a": number, f"{cache}/y": number}),
                        Command("b.pyc", left={"b.pyc": number}),
                        Command("c", read={"src": "s"}, left={"c": "c", f"{cache}/z": number})]
            its.append(Recording(commands, filters=f"{cache}\n*.pyc\n"))
        self.assertEqual(self.kinds(*its), {"a": "first cause", "b.pyc": "first cause"})
        for it in its:
            it.filters = ""
        self.assertEqual(self.kinds(*its), {"a": "propagated", "b.pyc": "first cause", "c": "first cause"})

    def test_at_most_a_screen_of_words(self):
        one, two = ([Command(f"n{n}", left={f"n{n}": it}) for n in range(100)]
                    + [Command(f"p{n}", read={f"n{n}": it}, left={f"p{n}": it}) for n in range(100)]
                    + [Command(f"d{n}", read={f"n{n}": it}, left={f"d{n}": "d"}) for n in range(100)] for it in "12")
        self.pair(one, two)
        found = self.words()
        self.assertLessEqual(len(found), 80)
        self.assertEqual(found.count("  and 92 more (--all prints them)"), 2)
        self.assertIn("  and 84 more (--all prints them)", found)
        whole = self.words("--all")
        self.assertEqual((len(whole), sum("more" in it for it in whole)), (504, 0))

    def test_very_many_places(self):
        one, two = ([Command("a", read={f"i{n}": it for n in range(40)}, left={f"o{n}": it for n in range(30)})]
                    for it in "12")
        self.pair(one, two)
        found = self.answer().commands["a"]
        self.assertEqual([len(found["left"]), found["more_left"], len(found["differs"]), found["more_differs"]],
                         [16, 14, 16, 24])

    def test_a_chain_of_a_thousand(self):
        one, two = ([Command("c0", left={"c0": it}),
                     *(Command(f"c{n}", read={f"c{n - 1}": it}, left={f"c{n}": it}) for n in range(1, 1_000))]
                    for it in "12")
        self.pair(one, two)
        found = self.answer()
        self.assertEqual((found.commands["c0"]["followers"], found.commands["c999"]["depth"]), (999, 999))
        self.assertEqual(len(self.words("--why", "c999")), 1_000)


class Bytes(Written):
    """Which bytes differ, where folders with the files are named."""

    def file(self, one: bytes, two: bytes, *, build: Sequence[str] = ("/b", "/b")) -> dict:
        """What is said of a file that a first cause left."""
        its = []
        for name, data, folder in zip(("one", "two"), (one, two), build):
            files = self.room / f"files-{name}"
            files.mkdir(exist_ok=True)
            (files / "a").write_bytes(data)
            its.append(Recording([Command("a", left={"a": data.decode("latin-1")})], build=folder, source=folder))
        self.pair(*its)
        self.end(1_796_000_000)
        found = self.answer("--files", "files-one", "files-two").commands["a"]["left"]
        self.assertEqual(len(found), 1)
        return found[0]

    def end(self, seconds: int) -> None:
        """Has both builds end at a time."""
        for name in ("one", "two"):
            trace = self.room / name / "trace"
            trace.write_text(trace.read_text().replace("finish a 9", f"finish a {seconds}000000000"))

    def test_what_differences_look_like(self):
        seconds = 1_795_900_000
        for one, two, due in (
                (b"built Nov 29 05:36:16\n", b"built Nov 29 05:36:29\n", "a date or a time"),
                (b"b\na\n", b"a\nb\n", "the same lines in another order"),
                (b"abc", b"cab", "the same bytes in another order"),
                (b"at 0x5604153aa2a0", b"at 0x5567655fa2a0", "an address in memory"),
                (b"in /tmp/tmp.WlJoO", b"in /tmp/tmp.UTZsl", "the name of a temporary file"),
                (b"5ea3b4bf-8139-44e0-90b4-884e5278f8d9", b"9feb048a-9742-4924-a033-3472125c5fd6",
                 "a random name (UUID)"),
                (b"V %d" % seconds, b"V %d" % (seconds + 10), "a time in seconds since 1970, in digits"),
                (b"15302734725 ", b"15302734736 ", "a time in seconds since 1970, in digits"),
                (b"\x1f\x8b" + seconds.to_bytes(4, "little"), b"\x1f\x8b" + (seconds + 10).to_bytes(4, "little"),
                 "a time in seconds since 1970"),
                (b"abc", b"abd", None)):
            found = self.file(one, two)
            self.assertEqual((found["bytes"] or found)["looks"], due, (one, two, found))

    def test_where_the_first_one_is(self):
        found = self.file(b"same, then 1\n", b"same, then 22\n")
        self.assertEqual(found["bytes"], {"at": 11, "count": 3, "sizes": [13, 14], "texts": ["same, then 1",
                                                                                            "same, then 22"],
                                          "looks": None})
        self.assertEqual(self.words("--files", "files-one", "files-two")[3],
                         "    a: 3 of 13 and 14 bytes differ, the first at 11: same, then 1 / same, then 22")
        found = self.file(b"\0\1\2\3\4\5", b"\0\1\2\3\7\5")
        self.assertEqual(found["bytes"]["texts"], ["00 01 02 03 04 05", "00 01 02 03 07 05"])
        self.assertEqual(self.file(b"abc", b"ab")["bytes"]["at"], 2)

    def test_a_folder_s_name(self):
        self.assertEqual(self.file(b"in /home/x", b"in /home/y", build=("/home/x", "/home/y"))["bytes"]["looks"],
                         "the name of a folder of the project")

    def test_files_that_are_not_those_of_the_build(self):
        self.file(b"1", b"2")
        files = self.room / "files-two/a"
        words = ("--files", "files-one", "files-two")

        def said() -> str:
            found = self.answer(*words).commands["a"]["left"][0]
            self.assertIsNone(found["bytes"])
            return found["no_bytes"]
        files.write_text("3")
        self.assertEqual(said(), "that of files-two is not the one that the build left")
        files.unlink()
        self.assertEqual(said(), "files-two does not have it")
        files.symlink_to("/etc/passwd")
        self.assertIn("it is a link, and not a file", said())
        files.unlink()
        os.mkfifo(files)
        self.assertIn("it is a pipe, and not a file", said())
        self.assertEqual(self.words(*words)[3], "    a: a: it is a pipe, and not a file")

    def test_places_elsewhere_are_not_opened(self):
        one, two = ([Command("a", left={"/etc/passwd": it, "../x": it})] for it in "12")
        self.pair(one, two)
        for name in ("files-one", "files-two"):
            (self.room / name).mkdir()
        found = self.answer("--files", "files-one", "files-two").commands["a"]["left"]
        self.assertEqual({it["no_bytes"] for it in found}, {"it is not below the build folder"})

    def test_a_file_that_one_build_left_alone(self):
        self.pair([Command("a", left={"a": "a", "b": "b"})], [Command("a", left={"a": "a"})])
        found = self.answer("--files", ".", ".").commands["a"]["left"]
        self.assertEqual([(it["path"], it["before"], it["now"], it["no_bytes"]) for it in found],
                         [("b", sha("b"), None, "it is not a file in both builds")])


class ByChance(Written):
    """Recordings by chance, held to a comparison by the page of the format (contents_1)."""

    @staticmethod
    def command(chance: random.Random, number: int) -> Command:
        """A command that meets some of a few places."""
        own = f"c{number}"
        places = [*(f"p{it}" for it in range(6)), *(f"/etc/s{it}" for it in range(3)),
                  *(f"c{it}" for it in range(number + 1))]
        chance.shuffle(places)
        found = Command(own, left={own: chance.choice("ab")})
        for place in places[: chance.randint(0, 6)]:
            how = chance.choices(("read", "there", "missing", "unsure"), (10, 4, 4, 1))[0]
            if how == "read":
                found.read[place] = chance.choice("abb")
            elif how != "unsure" or place != own:
                getattr(found, how).append(place)
        if chance.random() < 0.05:
            found.flags.append("cut")
        if chance.random() < 0.05:
            found.unsettled.append("u")
        if chance.random() < 0.2:
            found.left[f"x{chance.randint(0, 3)}"] = chance.choice("ab")
        return found

    def test_recordings_by_chance(self):
        seen = set[str]()
        for seed in range(PAIRS):
            chance = random.Random(seed)
            one = [self.command(chance, it) for it in range(chance.randint(1, 14))]
            two = [self.command(chance, it) if chance.random() < 0.5 else one[it] for it in range(len(one))]
            self.pair(one, two)
            read = [contents_1.read(self.room / name) for name in ("one", "two")]
            due = {output.decode(): VERDICTS[it] for output, it in contents_1.classes(*read).items() if it != "same"}
            found = self.answer()
            unsettled = {it.output for its in (one, two) for it in its if it.unsettled}
            self.assertEqual({name: it for name, it in found.kinds().items() if name not in unsettled},
                             {name: it for name, it in due.items() if name not in unsettled}, seed)
            self.assertEqual({it["path"].encode() for it in found.more if it["kind"] == "assumed"},
                             contents_1.set_aside(*read), seed)
            self.check_tree(found)
            seen.update(due.values())
        self.assertEqual(seen, set(VERDICTS.values()))

    def check_tree(self, found: Causes) -> None:
        """Each propagated command stands one deeper than what it follows from, which left a place otherwise that it
        met otherwise, or may have."""
        for it in found.commands.values():
            if it["kind"] == "propagated":
                behind = found.commands.get(it["behind"] or "")
                self.assertEqual(it["depth"], 1 if behind is None else behind["depth"] + 1)
                self.assertTrue(behind or it["source"] in [one["path"] for one in it["differs"]], it)
                if behind and behind["doubt"] is None:
                    self.assertTrue({one["path"] for one in it["differs"]} & {one["path"] for one in behind["left"]})


class Planted(unittest.TestCase):
    """A project of known kinds of commands, built and recorded twice."""

    def test_17_first_causes_and_25_others(self):
        refused = refusal("own") or builds.missing_tools("gcc", "ar", "gzip", "tar", "xargs", "bash", "python3")
        if refused:
            self.skipTest(refused)
        it = Reuse("", {})
        self.addCleanup(it.remove)
        for name, jobs in (("first", "1"), ("second", "4")):
            shutil.rmtree(it.build)
            contents_planted.make(it.build)
            it.build_as(name, "-j", jobs)
        files = [it.room / f"files-{name}" for name in ("first", "second")]
        found = answered(it.room / "first", it.room / "second", "--files", *files)
        first, names = found.of("first cause"), set(contents_planted.COMMANDS)
        self.assertLessEqual(first, {name for name in names if name.startswith("n")}, found.kinds())
        self.assertLessEqual(SURE, first)
        self.assertEqual(found.of("propagated"), {name for name in names if name.startswith("p")})
        self.assertEqual(found.of("absorbed"), {contents_planted.ABSORBED})
        self.assertEqual((found.status, found.more[-1]["commands"]), (4, len(names)))
        left = {path for name in (*first, *found.of("propagated")) for path in found.left(name)}
        self.assertEqual(left & names, names - it.same_files("first", "second"))
        looks = {name: (found.commands[name]["left"][0]["bytes"] or {}).get("looks") for name in LOOKS}
        self.assertEqual(looks, LOOKS)
        chain = answered(it.room / "first", it.room / "second", "--why", "p4_sums.txt").more
        self.assertEqual((chain[0]["output"], chain[0]["verdict"]), ("p4_sums.txt", "propagated"))
        self.assertEqual(chain[-1]["verdict"], "first cause")


if __name__ == "__main__":
    unittest.main()
