"""Nothing of a user's is lost by `rebug provoke`: what stands in the folders, beside them and above them is afterwards
what stood there, with its names, bytes, stamps and inodes. So it is whatever the race is at, whoever left something
there, and wherever a call is killed."""

import contextlib
import json
import os
import pathlib
import re
import shutil
import signal
import subprocess
import sys
import tempfile
import unittest
from typing import Callable, Iterator
from unittest import mock

from builds import RECORDER, missing_tools
from observing import refusal
from provoked import GEN, NOBODY, PROVOKE, STAND_IN, USE, Made, WithProjects, everything, python_for_all
from recorder.fields import canonical
from recorder.manifest import Manifest
from recorder.provoke import in_place
from recorder.provoke.answering import STATUSES
from recorder.provoke.in_place import OWN, Blocked, put_back
from recorder.provoke.leaving import may_go
from recorder.provoke.places import Tops
from recorder.provoke.races import Observed
from test_provoked import LACKING

TOP = pathlib.Path(__file__).resolve().parents[2]
PROJECTS = TOP / "tests/planted"
IN_EACH_WAY: tuple[list[str], ...] = ([], ["--in-place"])
STRANGER = 54321
OURS = OWN.decode()


@unittest.skipIf(LACKING, LACKING)
class LeftByOthers(WithProjects):
    """What stands in a folder above the build is not looked at, and a name of rebug's is no proof of who left it."""

    def project(self) -> Made:
        it = self.made(GEN + USE, ["v.h"])
        (it.room / "letters").mkdir()
        (it.room / "letters/to_mother").write_text("dear mother\n")
        return it

    def leave_above(self, it: Made) -> None:
        """What an earlier rebug would have taken for its own."""
        (it.room / ".rebug-aside").mkdir()
        (it.room / ".rebug-aside/letters").write_text("not yours\n")
        (it.room / ".rebug-moving").symlink_to(it.room / "letters")
        (it.room / OURS).mkdir(mode=0o700)
        (it.room / OURS / "state").write_text("{}\n")

    def test_folders_above_the_build_are_not_looked_at(self):
        for more in IN_EACH_WAY:
            it = self.project()
            self.leave_above(it)
            self.keeps_all(it, "it fails so", more)

    @unittest.skipIf(os.geteuid(), "only root can become two users")
    def test_a_stranger_leaves_it_in_a_folder_that_all_may_write(self):
        python = python_for_all()
        if python is None:
            self.skipTest("nobody cannot run Python here")
        for more in IN_EACH_WAY:
            with self.subTest(more=more):
                it = self.project()
                subprocess.run(["chown", "-R", f"{NOBODY}:{NOBODY}", it.build, it.source, it.recording, it.elsewhere,
                                it.room / "letters"], check=True)
                self.leave_above(it)
                for name in (".rebug-aside", ".rebug-aside/letters", ".rebug-moving", OURS, f"{OURS}/state"):
                    os.lchown(it.room / name, STRANGER, STRANGER)
                it.room.chmod(0o1777)
                self.keeps_all(it, "it fails so", more, python=python, user=NOBODY, group=NOBODY, extra_groups=[])

    @unittest.skipIf(os.geteuid(), "only root can become two users")
    def test_in_place_in_a_folder_of_another_user(self):
        python = python_for_all()
        if python is None:
            self.skipTest("nobody cannot run Python here")
        it = self.project()
        it.build.chmod(0o777)
        before = everything(it.room)
        status, said = it.provoke("--in-place", python=python, user=NOBODY, group=NOBODY, extra_groups=[])
        self.assertEqual((status, said.count("\n")), (2, 1), said)
        self.assertIn(f"{it.build} belongs to the user 0, who alone can give it its stamps back", said)
        self.assertEqual(everything(it.room), before)

    def refused(self, it: Made, said: str, **how: object) -> None:
        """In each way, by one sentence, and nothing is changed."""
        before = everything(it.room)
        for more in IN_EACH_WAY:
            status, text = it.provoke(*more, **how)
            self.assertEqual((status, text.count("\n"), said in text), (2, 1, True), text)
            self.assertIn(str(it.build / OURS), text)
            self.assertEqual(everything(it.room), before)

    def test_a_name_of_ours_that_is_no_folder_of_ours(self):
        for make, said in (
                (lambda path, it: path.symlink_to(it.room / "letters"), "it is no folder"),
                (lambda path, it: path.write_text("x"), "it is no folder"),
                (lambda path, it: os.mkfifo(path), "it is no folder"),
                (lambda path, it: path.mkdir(mode=0o755), "others may look into it"),
                (lambda path, it: self.folder(path, {"m.c": "mine\n"}), "no whole state file"),
                (lambda path, it: self.folder(path, {"0/m.c": "mine\n"}), "no whole state file"),
                (lambda path, it: self.folder(path, {"state": "", "0/m.c": "mine\n"}), "no whole state file")):
            it = self.project()
            make(it.build / OURS, it)
            self.refused(it, said)

    @unittest.skipIf(os.geteuid(), "only root can become another user")
    def test_a_folder_of_another_user(self):
        it = self.project()
        self.folder(it.build / OURS, {"0/m.c": "mine\n"})
        os.chown(it.build / OURS, STRANGER, STRANGER)
        self.refused(it, f"it is the folder of the user {STRANGER}")

    def folder(self, path: pathlib.Path, files: dict[str, str]) -> None:
        path.mkdir(mode=0o700)
        for name, text in files.items():
            (path / name).parent.mkdir(exist_ok=True)
            (path / name).write_text(text)

    def test_a_state_file_of_another_folder_is_not_believed(self):
        """A true one, of a call that was killed, and copied with all that it holds: the folder is another."""
        it = self.project()
        killed_at(it.build, 40)
        self.assertTrue((it.build / OURS / "state").exists())
        other = self.project()
        subprocess.run(["cp", "-a", it.build / OURS, other.build / OURS], check=True)
        self.refused(other, "is about another build folder")

    def test_a_state_file_that_was_changed_is_not_believed(self):
        for change, said in (
                (lambda state: state.update(user=STRANGER), "is another user's"),
                (lambda state: state["folders"][0]["moved"]["m.c"].update(inode=1), "neither there nor in its place"),
                (lambda state: state["asides"][0].update(inode=1), "is another one than a call made"),
                (lambda state: state["folders"][0]["identity"].update(device=1), "is another folder"),
                (lambda state: state["folders"][0].update(path="/"), "is another folder"),
                (lambda state: state["folders"][0]["moved"].update({"../m.c": {"device": 1, "inode": 1}}),
                 "cannot be read"),
                (lambda state: state.update(process={"number": os.getpid(), "began": _began(), "system": _system()}),
                 "is still at work"),
                (lambda state: state.pop("folders"), "cannot be read")):
            it = self.project()
            killed_at(it.build, 40)
            path = it.build / OURS / "state"
            head, text, end = path.read_text().split("\n", 2)
            state = json.loads(text)
            change(state)
            path.write_text("\n".join((head, json.dumps(state), end)))
            self.refused(it, said)


def _began() -> str:
    return pathlib.Path("/proc/self/stat").read_text().rpartition(")")[2].split()[19]


def _system() -> str:
    return pathlib.Path("/proc/sys/kernel/random/boot_id").read_text().strip()


@unittest.skipIf(LACKING, LACKING)
class AtEachPlace(WithProjects):
    """A trial takes away no folder and no source, wherever the race is."""

    LISTS = "rule lists\n  command = cat *.in > $out\nbuild b.in: gen v.src\nbuild list.txt: lists\n"
    PARTS = ("rule parts\n  command = test -f parts/one.txt && ls parts > $out\nbuild parts/gen.txt: gen v.in\n"
             "build list.txt: parts\n")
    DIFFERS, FAILS, SAME = "it gives other bytes so", "it fails so", "no difference seen"

    def test_at_the_build_folder_itself(self):
        for more in IN_EACH_WAY:
            with self.subTest(more=more):
                it = self.made(self.LISTS, ["b.in"], "race . b.in list.txt",
                               files={"v.src": "v\n", "a.in": "a\n", ".git/config": "[core]\n", "sub/x": "x\n"})
                self.keeps_all(it, self.DIFFERS, more)

    def test_at_a_folder_of_sources(self):
        for more in IN_EACH_WAY:
            with self.subTest(more=more):
                it = self.made(self.PARTS, ["parts/gen.txt"], "race parts parts/gen.txt list.txt",
                               files={"parts/one.txt": "1\n", "parts/two.txt": "2\n"})
                said = self.keeps_all(it, self.DIFFERS, more)
                self.assertNotIn("failed", said)

    def test_at_a_source_by_each_of_its_names(self):
        for name in ("m.c", "{build}/m.c", "{build}/../build/m.c", "sub/../m.c", "../{room}/build/m.c"):
            for more in IN_EACH_WAY:
                with self.subTest(name=name, more=more):
                    it = self.made(GEN + USE.replace("v.h", "n.c") + "build x: phony sub/x\n", ["v.h"],
                                   files={"sub/x": "x\n"})
                    name = name.format(build=it.build, room=f"../{it.room.name}")
                    (it.recording / "told").write_text(f"race {name} v.h m.o\n")
                    self.keeps_all(it, self.SAME, more)

    def test_at_an_absolute_path_elsewhere(self):
        for more in IN_EACH_WAY:
            with self.subTest(more=more):
                it = self.made(GEN + USE.replace("= v.h", "= $$PWD/../elsewhere/x"), ["v.h"],
                               files={"../elsewhere/x": "x\n"})
                (it.recording / "told").write_text(f"race {it.elsewhere}/x v.h m.o\n")
                self.keeps_all(it, self.SAME, more)

    def test_at_links(self):
        """A link that is an output goes; what it leads to stays, and so does a link that nobody makes."""
        link = "rule link\n  command = ln -sfn m.c $out\n"
        for text, first, told, due in (
                (link + "build v.h: link v.in\n" + USE, ["v.h"], "race v.h v.h m.o", self.FAILS),
                (GEN + USE.replace("= v.h", "= l.c"), ["v.h"], "race l.c v.h m.o", self.SAME),
                (GEN + USE.replace("= v.h", "= sub/x"), ["v.h"], "race sub v.h m.o", self.SAME)):
            for more in IN_EACH_WAY:
                with self.subTest(told=told, more=more):
                    it = self.made(text.replace("rule link", "rule makes_link").replace(": link", ": makes_link"),
                                   first, told, links={"l.c": "m.c", "sub": "../elsewhere"},
                                   files={"../elsewhere/x": "x\n"})
                    self.keeps_all(it, due, more)

    def test_an_output_that_is_a_folder_stays(self):
        text = "rule folder\n  command = mkdir -p $out && cp v.in $out/x\nbuild made: folder\n" \
               + USE.replace("= v.h", "= made/x")
        for more in IN_EACH_WAY:
            it = self.made(text, ["made"], "race made made m.o")
            self.keeps_all(it, self.SAME, more)

    def test_what_may_go(self):
        """By names of one place, by links, and by what was observed."""
        text = (b"rule r\n  command = c\nbuild v.h v2.h: r v.in\nbuild m.o: r m.c\n  depfile = m.d\n"
                b"build o.o: r ../src/s.c\nbuild headers: phony v.h v2.h\nbuild mixed: phony v.h m.c\n"
                b"build build.ninja: r gen.py\n  depfile = b.d\n  generator = 1\n")
        observed = Observed.read(b"\n".join([
            b"rebug-observed 1", b"by test", *(b"path " + it for it in (
                b"v.h", b"alone", b"both", b"m.c", b"edited", b"src/s.c", b"build.ninja", b".", b"o.o", b"m.o")),
            b"edge v.h", b"writes 0-8", b"edits 4", b"edge m.o", b"writes 2 9", b"edge o.o", b"writes 8", b""]))
        with tempfile.TemporaryDirectory() as room:
            build = pathlib.Path(os.path.realpath(room)) / "build"
            build.mkdir()
            (build / "src").symlink_to("../src")
            (build.parent / "src").mkdir()
            manifest = Manifest(b"build.ninja", lambda _: text)
            edge = manifest.producer.__getitem__
            found = may_go(os.fsencode(build), manifest, observed, [edge(b"v.h")])
            self.assertEqual(sorted(found), [b"alone", b"headers", b"v.h", b"v2.h"])
            found = may_go(os.fsencode(build), manifest, observed, [], [edge(b"m.o"), edge(b"build.ninja")])
            self.assertEqual(sorted(found), [b"m.d"])

    def test_places_below_folders(self):
        with tempfile.TemporaryDirectory() as room:
            top = pathlib.Path(os.path.realpath(room))
            (top / "build/sub").mkdir(parents=True)
            (top / "other").mkdir()
            (top / "build/out").symlink_to("../other")
            for it in ("build/sub/x", "other/y", "z"):
                (top / it).write_text(it)
            tops = Tops(os.fsencode(top / "build"), [os.fsencode(top / "build")])
            for path in (b".", b"sub", b"..", b"../z", b"out/y", b"no/x", b"sub/..", os.fsencode(top / "z"), b"sub/x/y",
                         b""):
                self.assertFalse(tops.take_away(path), path)
            before = everything(top)
            for path in (b"out/y", b"../z", os.fsencode(top / "z"), b"no/x"):
                with self.assertRaises(OSError):
                    tops.write(path, b"other\n")
            self.assertEqual(everything(top), before)
            self.assertEqual((tops.take_away(b"sub/../sub/x"), tops.take_away(b"out")), (True, True))
            self.assertEqual(os.listdir(top / "build"), ["sub"])
            self.assertEqual(os.listdir(top / "other"), ["y"])


STEPS = ("os.mkdir", "os.rename", "os.unlink", "os.rmdir", "os.utime", "os.open", "os.fchmod", "os.chmod",
         "recorder.provoke.in_place.move_to_free_name", "recorder.provoke.in_place.take_all_away",
         "recorder.provoke.in_place.subprocess.run")


@contextlib.contextmanager
def killed_in(step: int) -> Iterator[None]:
    """Ends this process by SIGKILL in front of the step of this number: a call of one of the functions that change
    something."""
    count = 0

    def counted(done: Callable) -> Callable:
        def called(*words, **more):
            nonlocal count
            count += 1
            if count == step:
                os.kill(os.getpid(), signal.SIGKILL)
            return done(*words, **more)
        return called

    with contextlib.ExitStack() as held:
        for name in STEPS:
            module, _, function = name.rpartition(".")
            owner = os if module == "os" else in_place.subprocess if module.endswith("subprocess") else in_place
            held.enter_context(mock.patch.object(owner, function, counted(getattr(owner, function))))
        yield


def in_child(work: Callable[[], object]) -> bool:
    """Does the work in a process of its own; whether that ended by itself."""
    child = os.fork()
    if not child:
        try:
            work()
            os._exit(0)
        finally:
            os._exit(1)
    status = os.waitstatus_to_exitcode(os.waitpid(child, 0)[1])
    assert status in (0, -signal.SIGKILL), status
    return status == 0


def trial(build: pathlib.Path) -> None:
    """What commands do in a trial."""
    (build / "m.c").unlink()
    (build / "v.in").write_text("changed by the trial\n")
    (build / "sub/deep/made").write_text("made by the trial\n")
    (build / "made").mkdir()
    (build / "made/x").write_text("x\n")


def killed_at(build: pathlib.Path, step: int, folders: tuple[pathlib.Path, ...] = ()) -> bool:
    """A trial in the folders themselves, in one process, which is killed at the step. Whether it ended before."""
    (build / "sub/deep").mkdir(parents=True, exist_ok=True)

    def alone(work: Callable[[], None], at_end: Callable[[], None], meanwhile: Callable[[], None],
              before: Callable[[], None]) -> None:
        before()
        meanwhile()
        work()
        at_end()

    def work() -> None:
        real = os.fsencode(os.path.realpath(build))
        with killed_in(step), mock.patch.object(in_place, "in_process", alone):
            in_place.in_place(real, [os.fsencode(os.path.realpath(it)) for it in folders] or [real],
                              lambda: trial(build))

    return in_child(work)


def killed_at_fork(build: pathlib.Path, is_before: bool) -> bool:
    """A trial in the folder itself, whose call is killed in front of its first fork, or right behind it. Whether it
    ended by itself."""
    (build / "sub/deep").mkdir(parents=True, exist_ok=True)
    real, fork = os.fsencode(os.path.realpath(build)), os.fork

    def killing() -> int:
        if is_before:
            os.kill(os.getpid(), signal.SIGKILL)
        me = os.getpid()
        child = fork()
        if child and me == first:
            os.kill(me, signal.SIGKILL)
        return child

    first = -1

    def work() -> None:
        nonlocal first
        first = os.getpid()
        with mock.patch.object(os, "fork", killing):
            in_place.in_place(real, [real], lambda: trial(build))

    return in_child(work)


class KilledAtEachStep(unittest.TestCase):
    """All that could put things back is killed: the next call does."""

    MOST_STEPS = 1_000

    def setUp(self):
        self.room = pathlib.Path(tempfile.mkdtemp(prefix="rebug-keeps-"))
        self.addCleanup(shutil.rmtree, self.room, ignore_errors=True)
        # a kill loses nothing that the system has not written out yet, and a busy disk takes a second for each call
        no_waiting = mock.patch.object(os, "fsync", lambda _: None)
        no_waiting.start()
        self.addCleanup(no_waiting.stop)

    def project(self) -> pathlib.Path:
        """A build folder below the folder of the sources, with another folder on the way."""
        shutil.rmtree(self.room / "src", ignore_errors=True)
        build = self.room / "src/out/build"
        build.mkdir(parents=True)
        for name, text in {"m.c": "m\n", "v.in": "1\n", "sub/deep/x": "x\n", "../other/y": "y\n", "../../s.c": "s\n",
                           "../../.git/HEAD": "ref\n"}.items():
            (build / name).parent.mkdir(parents=True, exist_ok=True)
            (build / name).write_text(text)
        (build / "link").symlink_to("m.c")
        os.link(build / "m.c", build / "hard")
        (build / "sub").chmod(0o750)
        for it in (build, build.parent, build.parent.parent):
            os.utime(it, (5, 5))
        return build

    def same(self, before: dict[str, tuple], build: pathlib.Path, with_own_stamp: bool = True) -> None:
        """Everything is there. A kill between the moment in which the folder of ours is made or goes and the next call
        of the system loses the stamp of the build folder: `with_own_stamp` is false where it may have been there."""
        after = everything(self.room / "src")
        if not with_own_stamp:
            before, after = ({**it, str(build): it[str(build)][:4] + it[str(build)][5:]} for it in (before, after))
        self.assertEqual(after, before)

    def is_bare(self, build: pathlib.Path) -> bool:
        return not (build / OURS).exists() or not any((build / OURS).iterdir())

    def test_once(self):
        for folders in ((), ("src",)):
            step, is_over = 0, False
            while not is_over:
                step += 1
                self.assertLess(step, self.MOST_STEPS)
                build = self.project()
                before = everything(self.room / "src")
                is_over = killed_at(build, step, tuple(self.room / it for it in folders))
                is_bare = self.is_bare(build)
                put_back(os.fsencode(os.path.realpath(build)))
                with self.subTest(step=step, folders=folders):
                    self.same(before, build, is_over or not is_bare)
            self.assertGreater(step, 40)

    def test_beside_the_process_that_puts_back(self):
        """The call is killed in front of the start of that process, and right behind it: nothing of ours is left once
        that process has ended."""
        for is_before in (True, False):
            build = self.project()
            before = everything(self.room / "src")
            reader, writer = os.pipe()
            self.assertFalse(killed_at_fork(build, is_before))
            os.close(writer)
            os.read(reader, 1)  # the last process that has the writing end is gone
            os.close(reader)
            with self.subTest(is_before=is_before):
                self.assertFalse((build / OURS).exists())
                self.same(before, build, with_own_stamp=is_before)

    def test_twice(self):
        """The call that puts things back is killed, too, at each of its steps."""
        for first in (25, 40, 55):
            step, is_over = 0, False
            while not is_over:
                step += 1
                build = self.project()
                before = everything(self.room / "src")
                self.assertFalse(killed_at(build, first))
                was_bare = self.is_bare(build)  # by the depth of this folder, the first kill may have lost the stamp
                real = os.fsencode(os.path.realpath(build))

                def work(step=step, real=real) -> None:
                    with killed_in(step):
                        put_back(real)

                is_over = in_child(work)
                is_bare = self.is_bare(build)
                put_back(real)
                with self.subTest(first=first, step=step):
                    self.same(before, build, not was_bare and (is_over or not is_bare))

    def test_what_the_user_changed_since_is_kept(self):
        """After a kill the user works on in the copy: nothing of that is taken away, and a sentence names it."""
        build = self.project()
        step = self.step_of_the_trial(build)
        for change in (lambda: (build / "sub/deep/x").write_text("the user's\n"),
                       lambda: (build / "new").write_text("the user's\n")):
            build = self.project()
            killed_at(build, step)
            self.assertTrue((build / OURS / "working").exists())
            os.utime(build / OURS / "alive", (os.stat(build / OURS / "alive").st_mtime - 60,) * 2)
            change()
            (build / OURS).chmod(0o700)  # it can be looked into from then on
            before = everything(self.room / "src")
            with self.assertRaises(Blocked) as caught:
                put_back(os.fsencode(os.path.realpath(build)))
            self.assertIn("was changed after the call that moved it had been ended", str(caught.exception))
            self.assertEqual(everything(self.room / "src"), before)

    def step_of_the_trial(self, build: pathlib.Path) -> int:
        """A step that comes after the copies are in their places."""
        for step in range(1, self.MOST_STEPS):
            build = self.project()
            if killed_at(build, step):
                break
            if (build / "made/x").exists():
                return step
        raise AssertionError("no step comes after the trial")

    def test_a_place_that_the_user_has_taken_is_not_overwritten(self):
        build = self.project()
        for step in range(20, self.MOST_STEPS):
            build = self.project()
            killed_at(build, step)
            if (build / OURS / "0/m.c").exists() and not (build / OURS / "working").exists():
                break
        (build / "m.c").write_text("the user's\n")
        with self.assertRaises(Blocked) as caught:
            put_back(os.fsencode(os.path.realpath(build)))
        self.assertIn("m.c is in the place of what was moved", str(caught.exception))
        self.assertEqual((build / "m.c").read_text(), "the user's\n")
        (build / "m.c").unlink()
        put_back(os.fsencode(os.path.realpath(build)))
        self.assertEqual((build / "m.c").read_text(), "m\n")


SOURCES_STAMP = 1_000_000_000
"""The stamp of all files and folders of a project before it is built, in seconds."""
KINDS = {"clash": "clash", "undeclared": "undeclared", "foreign": "undeclared", "unlisted": "unlisted", "own": "own"}
TOLD = {"g24_daemon_writes_late": ["race late.txt slow.txt use.txt"], "g23_date_in_output": [],
        "g32_new_subfolder_found": ["race gen/sub gen.stamp list.txt"]}
"""Races in place of those that are due: a suspect of a failed build, none, and an output of the command that is due."""
FAILS, DIFFERS, CLASHES, SAME = ("it fails so", "it gives other bytes so", "each order gives other bytes",
                                 "no difference seen")
ANSWERS = {
    "c01_cmake_generated_headers": [FAILS, FAILS],
    "f01_script_reads_generated": [DIFFERS],
    "f02_undeclared_header": [SAME],
    "f03_two_writers": [CLASHES],
    "f04_edit_of_source": [DIFFERS],
    "f05_glob_of_a_folder": [DIFFERS],
    "f06_test_data": [DIFFERS],
    "f08_same_temporary": [SAME],
    "f09_strip_in_place": [DIFFERS],
    "f12_missing_input": [],
    "f15_equal_commands": [SAME],
    "g01_header_behind_two_phonies": [FAILS],
    "g03_stage_and_tar": [DIFFERS, DIFFERS],
    "g04_ar_r_from_two": [CLASHES],
    "g05_test_reads_anothers_result": [FAILS],
    "g07_tool_signed_in_place": [FAILS],
    "g09_fixed_name_in_tmp": [SAME],
    "g10_depfile_of_two": [SAME],
    "g14_configure_stamp": [],
    "g15_dyndep": [FAILS],
    "g16_stale_file_hides": [FAILS],
    "g17_reads_its_own_last": ["no order mends it"],
    "g18_console_pool": [FAILS],
    "g20_precompiled_header": [FAILS],
    "g22_stamp_of_a_folder": [FAILS],
    "g23_date_in_output": [],
    "g24_daemon_writes_late": [FAILS],
    "g25_mkdir_without_p": [SAME],
    "g27_unpacked_twice": [SAME],
    "g28_coverage_counts": [SAME, DIFFERS],
    "g30_link_of_a_folder": [FAILS],
    "g32_new_subfolder_found": ["it fails with the mend, and not so"],
    "g35_hard_link_of_an_output": [FAILS],
    "h12_cache_folder_sound": [],
    "s01_declared": [],
    "s02_move_if_changed": [],
}
"""What is due of each finding that is a matter of order, from a clean build. Each project was built from nothing in
each order of its commands that its manifest allows: those whose statuses and bytes were the same in all of them have
SAME."""
BUILT = ("g28_coverage_counts",)
"""Projects that are tried in the folder that was built: what their compiler makes is another thing each time."""


def told_of(project: pathlib.Path, manifest: Manifest) -> list[str]:
    """The findings that are due of a planted project, as lines for the stand-in."""
    found = []
    if project.name in TOLD:
        return TOLD[project.name]
    for line in (project / "due").read_text().splitlines():
        kinds, path, *ends = line.split(" ")
        ends = [ends[-1] if it == "-" else it for it in ends]
        if len(ends) == 2 and all(canonical(it.encode()) in manifest.producer for it in ends):
            kind = KINDS.get(re.split(r"[-|]", kinds)[0], "race")
            found.append(f"{kind} {path} {ends[0]} {ends[1]}")
    return found


@unittest.skipIf(LACKING, LACKING)
@unittest.skipIf(refusal("own"), str(refusal("own")))
class OverPlanted(unittest.TestCase):
    """Each planted project, recorded with what its commands do, and each of its findings tried: in place in the folder
    that was built, and in a copy of the folder that was not."""

    def recorded(self, project: pathlib.Path, room: pathlib.Path) -> pathlib.Path | None:
        """The build folder, built and recorded; None where a tool is not there."""
        build = self.copied(project, room)
        if build is None:
            return None
        words = [sys.executable, RECORDER, build, room / "recorded", "--observe", "--observer", "own", "--", "-k", "0"]
        done = subprocess.run(words, stdin=subprocess.DEVNULL, capture_output=True, text=True)
        self.assertTrue((room / "recorded").exists(), done.stderr)
        manifest = Manifest(b"build.ninja", lambda name: (build / os.fsdecode(name)).read_bytes())
        (room / "recorded/told").write_text("".join(it + "\n" for it in told_of(project, manifest)))
        return build

    def copied(self, project: pathlib.Path, room: pathlib.Path) -> pathlib.Path | None:
        """A build folder of the project, in which nothing was built yet."""
        for it in ("src", "build"):
            shutil.rmtree(room / it, ignore_errors=True)
        shutil.copytree(project, room / "src")
        for it in (room / "src", *(room / "src").rglob("*")):  # a checkout's stamps come as its files were written
            if not it.is_symlink():
                os.utime(it, (SOURCES_STAMP, SOURCES_STAMP))
        if not (room / "src/CMakeLists.txt").exists():
            return room / "src"
        if missing_tools("cmake", "gcc"):
            return None
        subprocess.run(["cmake", "-G", "Ninja", "-S", room / "src", "-B", room / "build"], check=True,
                       capture_output=True)
        return room / "build"

    def provoked(self, build: pathlib.Path, room: pathlib.Path, *more: str) -> list[str]:
        """The answers, after which everything is there as it was."""
        before = everything(room)
        words = [sys.executable, PROVOKE, build, room / "recorded", "--all", "--rebug", STAND_IN, *more]
        done = subprocess.run(words, stdin=subprocess.DEVNULL, capture_output=True, text=True)
        self.assertIn(done.returncode, (0, 3, 4), done.stderr)
        self.assertNotIn("Traceback", done.stderr)
        self.assertEqual(everything(room), before)
        answers = [it for it in done.stdout.splitlines() if it in STATUSES]
        mended = [it for it in answers if STATUSES[it] == 4]
        self.assertEqual(done.stdout.count("  both: refused as a cycle, "), len(mended), done.stdout)
        return answers

    def test_each(self):
        for project in sorted(it for it in PROJECTS.iterdir() if it.is_dir()):
            with self.subTest(project=project.name), tempfile.TemporaryDirectory(prefix="rebug-planted-") as folder:
                room = pathlib.Path(os.path.realpath(folder))
                build = self.recorded(project, room)
                if build is not None:
                    if os.environ.get("REBUG_TESTS_WITH_ONE_NINJA") != "other":
                        self.provoked(build, room, "--in-place")
                    if project.name not in BUILT:
                        self.copied(project, room)
                    self.assertEqual(self.provoked(build, room), ANSWERS[project.name])


if __name__ == "__main__":
    unittest.main()
