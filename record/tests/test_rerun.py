"""Commands that are run again on their recorded inputs: what each leaves, and what it lacks."""

from __future__ import annotations

import os
import pathlib
import shutil
import socket
import stat
import subprocess
import tempfile
import unittest
import uuid

import builds
import contents_planted
from observing import refusal
from recorder.provoke.copies import Refused
from recorder.shuffle.rooms import layers_of_empty_room
from rerun_builds import Rerun
from shuffled import statement

TOOLS = pathlib.Path(__file__).resolve().parent / "programs/another_date"
RANDOM = "cat /proc/sys/kernel/random/uuid"


def why_not() -> str | None:
    """Why this machine cannot run these tests."""
    try:
        layers_of_empty_room([os.fsencode(os.path.realpath(tempfile.gettempdir()))], os.environ)
    except Refused as why:
        return str(why)
    return refusal("own")


REFUSED = why_not()


class Case(unittest.TestCase):
    def setUp(self):
        if REFUSED:
            self.skipTest(REFUSED)

    def made(self, text: str, files: dict[str, str] | None = None, is_recorded: bool = True, **how: str) -> Rerun:
        it = Rerun(text, files, **how)
        self.addCleanup(it.remove)
        if is_recorded:
            it.record()
        return it


class Results(Case):
    def test_the_same_bytes_and_other_bytes(self):
        it = self.made(statement("same", "cat in > same", "in") + statement("random", f"{RANDOM} > random")
                       + statement("both", "cat same random > both", "same random")
                       + statement("side", "echo x > side; mkdir -p d; " + RANDOM + " > d/more"),
                       {"build/in": "in\n"})
        before = it.everything()
        found = it.rerun()
        self.assertEqual(found.results(), {"same": "same", "random": "other bytes", "both": "same",
                                           "side": "other bytes"})
        self.assertEqual((found.status, found.commands["random"]["steady"], found.commands["random"]["paths"],
                          found.commands["side"]["paths"]), (4, False, ["random"], ["d/more"]))
        self.assertEqual({it: found.end[it] for it in ("commands", "same", "other_bytes", "not_run")},
                         {"commands": 4, "same": 2, "other_bytes": 2, "not_run": 0})
        self.assertEqual(it.everything(), before)

    def test_words(self):
        it = self.made(statement("same", "cat in > same", "in") + statement("random", f"{RANDOM} > random"),
                       {"build/in": "in\n"})
        status, said = it.told()
        lines = said.splitlines()
        self.assertEqual((status, len(lines)), (4, 3), said)
        self.assertEqual(lines[0], "other bytes: random (build.ninja:5) leaves other bytes, and others in the next run")
        self.assertRegex(lines[1], r"\A  random: from byte \d+ on recorded `.{1,32}`, now `.{1,32}`\Z")
        self.assertEqual(lines[2], "2 of 2 commands were run again, each in a room that has its inputs and nothing "
                                   "else of the project: 1 left the same bytes, 1 left other bytes")
        self.assertEqual(it.told("same")[0], 0)

    def test_a_room_has_the_inputs_alone(self):
        """No command of this build reads `other`, so each finds no such file when it is run again."""
        it = self.made(statement("list", "cat in > list; sleep 0", "in"), {"build/in": "in\n", "build/other": "o\n"})
        (it.build / "build.ninja").write_text((it.build / "build.ninja").read_text())
        self.assertEqual(it.rerun().results(), {"list": "same"})

    def test_what_was_not_observed_is_named(self):
        it = self.made(statement("a", "cat in hidden > a", "in"), {"build/in": "in\n", "build/hidden": "h\n",
                                                                   "build/z": "z\n", "build/b": "b\n"})
        it.forget("a", "hidden")
        before = it.everything()
        found = it.rerun()
        self.assertEqual((found.status, found.results(), found.commands["a"]["needed"]),
                         (4, {"a": "needs more"}, ["hidden"]))
        self.assertEqual(it.everything(), before)
        self.assertIn("  it needs hidden, which it was not seen to read\n", it.told()[1])

    def test_two_files_that_were_not_observed(self):
        files = {f"build/{name}": name for name in "bcdefghij"}
        it = self.made(statement("a", "cat c h > a"), files)
        for name in "ch":
            it.forget("a", name)
        self.assertEqual(sorted(it.rerun().commands["a"]["needed"]), ["c", "h"])

    def test_a_server_outside_of_the_room(self):
        """A socket is no file: the command fails also where all of the project is there."""
        name = f"\0rebug-{uuid.uuid4()}"
        code = "import socket, sys; s = socket.socket(socket.AF_UNIX); s.connect(chr(0) + sys.argv[1])"
        with socket.socket(socket.AF_UNIX) as server:
            server.bind(name)
            server.listen()
            it = self.made(statement("a", f"python3 -c '{code}' {name[1:]} && echo good > a"))
            found = it.rerun()
        self.assertEqual((found.status, found.results()), (4, {"a": "fails"}), found)
        self.assertTrue(any(it.startswith("socket") for it in found.commands["a"]["flags"]), found.commands)

    def test_files_are_found_through_links(self):
        it = self.made(statement("a", "cat link/in ../src/l > a", "../src/in"), is_recorded=False,
                       files={"src/in": "in\n"})
        (it.build / "link").symlink_to("../src")
        (it.room / "src/l").symlink_to("in")
        it.record()
        self.assertEqual(it.rerun("--folder").results(), {"a": "same"})

    def test_what_is_left_may_be_a_link_or_a_program(self):
        it = self.made(statement("a", "ln -s in a; echo x > b; chmod +x b", "in"), {"build/in": "in\n"})
        self.assertEqual(it.rerun().results(), {"a": "same"})
        it = self.made(statement("a", "echo x > a; read -r n < /proc/sys/kernel/random/uuid; ln -s $n l"))
        found = it.rerun()
        self.assertEqual(found.results(), {"a": "other bytes"})
        self.assertIn("l", found.commands["a"]["paths"])

    def test_a_compiler_with_a_depfile_and_a_response_file(self):
        lacking = builds.missing_tools("gcc", "ar")
        if lacking:
            self.skipTest(lacking)
        rules = ("rule cc\n  command = gcc -MD -MF $out.d -c $in -o $out\n  deps = gcc\n  depfile = $out.d\n"
                 "rule ar\n  command = rm -f $out; ar qcD $out @$out.rsp\n  rspfile = $out.rsp\n"
                 "  rspfile_content = $in\nrule gen\n  command = echo '#define N 3' > $out\n")
        text = "build o/v.h: gen\nbuild o/m.o: cc m.c || o/v.h\nbuild lib.a: ar o/m.o\n"
        it = self.made(text, {"build/m.c": '#include "o/v.h"\nint n(void) { return N; }\n'}, rules=rules)
        found = it.rerun("--stamps", "--user")
        self.assertEqual((found.status, found.results(), found.end["varied"]),
                         (0, {"o/v.h": "same", "o/m.o": "same", "lib.a": "same"}, 0), found)

    def test_what_a_command_does_elsewhere_is_gone(self):
        name = f"rebug-rerun-{uuid.uuid4()}"
        it = self.made(statement("a", f"echo x > a; echo x > /tmp/{name}; echo x > $HOME/{name}; rm /tmp/{name}"
                                      f" $HOME/{name}; test ! -e keep || echo x > /tmp/{name}"))
        self.assertEqual(it.rerun().status, 0)
        self.assertFalse(os.path.exists(f"/tmp/{name}"))
        self.assertFalse(os.path.exists(os.path.expanduser(f"~/{name}")))


class Variations(Case):
    def test_stamps_folder_and_user(self):
        it = self.made(statement("stamp", "stat -c %Y in > stamp", "in") + statement("folder", "pwd > folder")
                       + statement("user", "echo by $USER $LOGNAME > user; id -u >> user")
                       + statement("none", "cat in > none", "in"), {"build/in": "in\n"})
        before = it.everything()
        found = it.rerun("--stamps", "--folder", "--user")
        self.assertEqual(set(found.results().values()), {"same"})
        self.assertEqual({name: [its["variation"] for its in it["varied"]] for name, it in found.commands.items()},
                         {"stamp": ["stamps"], "folder": ["folder"], "user": ["user"], "none": []})
        self.assertEqual((found.status, found.end["varied"], found.end["runs"]), (4, 3, 16))
        self.assertEqual(it.everything(), before)

    def test_a_command_that_names_its_folder(self):
        it = self.made(statement("a", "cat @ROOM@/build/in > @ROOM@/build/a", "in")
                       + statement("b", "echo @ROOM@/build/in > b"), {"build/in": "in\n"})
        found = it.rerun("--folder")
        self.assertEqual({name: bool(it["varied"]) for name, it in found.commands.items()}, {"a": False, "b": True})

    def test_a_date(self):
        """By a program `faketime` of this test, which notes its words in the environment."""
        if f"{TOOLS}/".startswith(os.path.realpath(tempfile.gettempdir()) + "/") or f"{TOOLS}/".startswith("/tmp/"):
            self.skipTest("the tests stand in a folder of temporaries, which is empty in a room")
        it = self.made(statement("a", "echo at ${SHOWN_DATE-now} > a") + statement("b", "echo b > b"))
        found = it.rerun("--date", env={**os.environ, "PATH": f"{TOOLS}{os.pathsep}{os.environ['PATH']}"})
        self.assertEqual({name: [its["variation"] for its in it["varied"]] for name, it in found.commands.items()},
                         {"a": ["date"], "b": []})

    def test_a_date_without_a_program_for_it(self):
        it = self.made(statement("a", "echo a > a"))
        tools = it.room / "tools"
        tools.mkdir()
        found = it.rerun("--date", env={**os.environ, "PATH": str(tools)})
        self.assertEqual((found.status, found.said.count("\n"), "no faketime" in found.said), (2, 1, True), found.said)


class NotRun(Case):
    def not_run(self, it: Rerun, output: str, why: str, *words: str, status: int = 5) -> None:
        before = it.everything()
        found = it.rerun(*words)
        self.assertEqual((found.status, found.commands[output]["result"]), (status, "not run"), found)
        self.assertIn(why, found.commands[output]["why"])
        self.assertEqual(it.everything(), before)

    def test_inputs_that_are_others_or_gone(self):
        it = self.made(statement("a", "cat in > a", "in") + statement("b", "cat in2 > b", "in2"),
                       {"build/in": "in\n", "build/in2": "in\n"})
        (it.build / "in").write_text("other\n")
        self.not_run(it, "a", "in has other bytes now than it read")
        self.assertEqual(it.rerun("b").status, 0)
        (it.build / "in").unlink()
        self.not_run(it, "a", "in, which it read, is not there any more")

    def test_inputs_that_are_not_certain(self):
        """The present bytes are taken. Where the command leaves the same by these, nothing else is to be known."""
        it = self.made(statement("a", "cat in > a", "in"), {"build/in": "in\n"})
        it.doubt("a", "in")
        self.assertEqual(it.rerun().results(), {"a": "same"})
        (it.build / "in").write_text("other\n")
        found = it.rerun()
        self.assertEqual((found.status, found.commands["a"]["result"], found.commands["a"]["why"]),
                         (5, "unknown", "it is not certain what it met at in"))

    def test_inputs_that_have_no_place(self):
        it = self.made(statement("a", "cat in > a; cat d/in >> a"), {"build/in": "in\n", "build/d/in": "d\n"})
        shutil.rmtree(it.build / "d")
        (it.build / "d").write_text("")
        self.not_run(it, "a", "d/in, which it read, is not there any more")

    def test_names_that_are_others(self):
        it = self.made(statement("a", "ls d | LC_ALL=C sort > a"), {"build/d/one": ""})
        self.assertEqual(it.rerun().status, 0)
        (it.build / "d/two").write_text("")
        self.not_run(it, "a", "the names in d, which it read, are others now")

    def test_a_file_that_is_changed_in_place(self):
        it = self.made(statement("a", "echo more >> log; echo a > a"), {"build/log": "log\n"})
        self.not_run(it, "a", "it changes log in place")

    def test_a_command_that_failed(self):
        it = self.made(statement("a", "echo a > a; false") + statement("b", "echo b > b"), is_recorded=False)
        self.assertEqual(it.record("-k", "0"), 1)
        self.not_run(it, "a", "it did not end well when it was recorded")
        self.assertEqual(it.rerun("b").status, 0)

    def test_a_command_that_is_another_one_now(self):
        it = self.made(statement("a", "echo a > a"))
        (it.build / "build.ninja").write_text((it.build / "build.ninja").read_text().replace("echo a", "echo b"))
        self.not_run(it, "a", "the manifest in the build folder has another command now")

    def test_a_command_that_did_not_run(self):
        it = self.made(statement("a", "echo a > a") + statement("b", "echo b > b"), is_recorded=False)
        it.record("a")
        self.not_run(it, "b", "the recording does not have it", "b")

    def test_a_command_that_takes_too_long(self):
        it = self.made(statement("a", "test -e in && cat in > a || sleep 1000"), {"build/in": ""})
        it.forget("a", "in")
        found = it.rerun("--limit", "1")
        self.assertEqual((found.status, found.commands["a"]["status"]), (4, None), found)
        self.assertEqual(found.commands["a"]["needed"], ["in"])


class Planted(Case):
    """A project of commands of known kinds. Named are those whose bytes are others whatever the moment is."""

    def test_kinds_of_commands(self):
        lacking = builds.missing_tools("gcc", "ar", "gzip", "tar", "xargs", "bash", "python3")
        if lacking:
            self.skipTest(lacking)
        it = self.made("", is_recorded=False)
        shutil.rmtree(it.build)
        contents_planted.make(it.build)
        self.assertEqual(it.record("-j", "2"), 0)
        before = it.everything()
        found = it.rerun("--stamps")
        self.assertEqual(it.everything(), before)
        others = {name for name, result in found.results().items() if result != "same"}
        by_stamps = {name for name, its in found.commands.items() if its["varied"]}
        self.assertLessEqual({"n07_set.txt", "n08_uuid.txt", "n09_pid.txt", "n11_lto.o", "n15_mktemp.txt",
                              "n17_log.txt", "p5_both.txt"}, others)
        self.assertEqual(by_stamps, {"n03_gzip.gz", "n04_tar.tar", "n05_zip.zip", "n06_py.pyc"})
        self.assertEqual({name for name in others if not name.startswith("n")}, {"p5_both.txt"})
        self.assertEqual(found.end["not_run"], 0)


class Outside(Case):
    def test_a_folder_without_a_write_permission(self):
        """Modes of inputs are kept, and a folder of the sources is never written."""
        it = self.made(statement("a", "cat ../src/in > a; stat -c %a ../src/in >> a", "../src/in"),
                       {"src/in": "in\n"}, is_recorded=False)
        (it.room / "src/in").chmod(0o444)
        it.record()
        self.assertEqual(stat.S_IMODE((it.room / "src/in").stat().st_mode), 0o444)
        self.assertEqual(it.rerun().results(), {"a": "same"})

    def test_the_environment_is_named_where_it_is_another(self):
        it = self.made(statement("a", "echo $REBUG_TEST_VALUE > a"))
        found = it.rerun(env={**os.environ, "REBUG_TEST_VALUE": "1"})
        self.assertEqual((found.status, found.commands["a"]["result"]), (4, "other bytes"))
        self.assertIn("REBUG_TEST_VALUE", found.end["environment"])

    def test_an_example_as_it_is_recorded(self):
        lacking = builds.missing_tools("cc")
        if lacking:
            self.skipTest(lacking)
        it = self.made("", is_recorded=False)
        shutil.rmtree(it.build)
        project = pathlib.Path(__file__).resolve().parents[2] / "examples/flaky/project"
        subprocess.run(["cp", "-r", project, it.build], check=True)
        self.assertEqual(it.record("-j", "1"), 0)
        found = it.rerun("--stamps", "--user")
        self.assertEqual((found.status, found.end["same"], found.end["commands"]), (0, 7, 7), found)


if __name__ == "__main__":
    unittest.main()
