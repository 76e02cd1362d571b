"""A folder to record into that came from somebody else is data: whatever stands in it, nothing outside of it is
changed, and what is not a recorder's is a sentence and status 2 before Ninja runs, with nothing changed at all."""

import os
import pathlib
import resource
import subprocess
import sys
import tempfile
import time
import unittest

import builds
from recorder.folders import BadFolder, NotInPlace, OutFolder, whole
from recorder.main import main
from recorder.regular import LONGEST
from recorder.replaying import replay_text

NOBODY = 65534
MANIFEST = "include inc/r.ninja\nrule r\n  command = touch $out\nbuild a: r\n"


# Exchanges two names, by one call of the system, until it is killed.
EXCHANGER = """
import ctypes, os, sys
libc, (first, second) = ctypes.CDLL(None), map(os.fsencode, sys.argv[1:])
while True:
    libc.renameat2(-100, first, -100, second, 2)
"""


def picture_of(room):
    """All that stands below a folder: of a file its content, of a link where it leads to, of others their kind."""
    found = {}
    for path in sorted(pathlib.Path(room).rglob("*")):
        kind = path.lstat().st_mode >> 12
        text = os.readlink(path) if path.is_symlink() else path.read_bytes() if path.is_file() else ""
        found[str(path.relative_to(room))] = (kind, text)
    return found


class FromOthers(unittest.TestCase):
    """A room with a build folder, somebody's `home` with a file in it, and `out`, which others have prepared."""

    def setUp(self):
        lacking = builds.missing_tools("ninja")
        if lacking:
            self.skipTest(lacking)
        room = tempfile.TemporaryDirectory(prefix="rebug-hostile-")
        self.addCleanup(room.cleanup)
        self.room = pathlib.Path(room.name)
        self.build, self.out, self.home = self.room / "build", self.room / "out", self.room / "home"
        (self.build / "inc").mkdir(parents=True)
        (self.build / "build.ninja").write_text(MANIFEST)
        (self.build / "inc/r.ninja").write_text("x = 1\n")
        self.home.mkdir()
        (self.home / "precious").write_text("mine")
        (self.home / "r.ninja").write_text("mine")
        self.out.mkdir()
        (self.out / "replay").write_text("")

    def record(self, *words):
        done = subprocess.run([sys.executable, builds.RECORDER, self.build, self.out, *words],
                              stdin=subprocess.DEVNULL, capture_output=True, text=True)
        return done.returncode, done.stderr

    def refused(self, *said):
        """That the folder is refused, with a line that has each text, and that nothing is changed."""
        before = picture_of(self.room)
        for words in ((), ("--", "nosuchtarget")):
            status, line = self.record(*words)
            self.assertEqual((status, line.count("\n")), (2, 1), line)
            for text in (*said, "Ninja was not run"):
                self.assertIn(text, line)
            self.assertEqual(picture_of(self.room), before)


class ReadFromOthers(FromOthers):
    """A recording of others that is read: none of its files is waited for or read without an end, and nothing in it is
    looked up through a link under a name of the recorder's."""

    ENDLESS = (os.mkfifo, lambda it: it.symlink_to("/dev/zero"), lambda it: it.mkdir(),
               lambda it: os.truncate(os.open(it, os.O_CREAT | os.O_WRONLY), LONGEST + 1))

    def test_what_is_no_file(self):
        for name in ("replay", "build.ninja", "observed"):
            for make in self.ENDLESS:
                recorded = self.room / "recorded"
                recorded.mkdir()
                for file in ("replay", "build.ninja", "trace", "script"):
                    (recorded / file).write_text(replay_text(["build.ninja"], [b"run"], False, "rebug")
                                                 if file == "replay" else "")
                (recorded / name).unlink(missing_ok=True)
                make(recorded / name)
                for words in (["rebug-record", "--check", recorded, "--rebug", "/bin/false"],
                              ["rebug-provoke", self.build, recorded, "1", "--rebug", self.program()]):
                    if name != "replay" and words[0] == "rebug-record":
                        continue
                    done = subprocess.run([sys.executable, builds.RECORDER.parent / words[0], *words[1:]],
                                          stdin=subprocess.DEVNULL, capture_output=True, text=True, timeout=300,
                                          preexec_fn=few_bytes)
                    said = (done.stdout + done.stderr).splitlines()
                    self.assertEqual((done.returncode, f"{recorded}/{name}" in said[-1]), (3, True), said)
                    self.assertLessEqual(len(said), 2, said)  # that the manifest is another one may stand before
                subprocess.run(["rm", "-rf", recorded], check=True)

    def program(self):
        """A program that finds one race."""
        edge = '{"output": "a", "file": "build.ninja", "line": 3}'
        path = self.room / "program"
        path.write_text("#!/bin/sh\ncat <<'END'\n"
                        f'{{"kind": "race", "path": "a", "maker": {edge}, "user": {edge}, "mend": "a"}}\nEND\nexit 4\n')
        path.chmod(0o755)
        return path

    def test_a_link_in_the_place_of_the_folder_that_is_moved(self):
        (self.home / "replay").write_text("theirs")
        (self.home / "trace").write_text("theirs")
        (self.out / ".moving").symlink_to(self.home)
        with whole(str(self.out)) as read:
            self.assertEqual(read, str(self.out))
        (self.home / "replay").write_text("#!/bin/sh\necho theirs is run\n")
        (self.out / "replay").write_text(replay_text(["build.ninja"], [b"run"], False, "/bin/echo"))
        done = subprocess.run(["sh", self.out / "replay"], capture_output=True, text=True)
        self.assertIn("--manifest build.ninja", done.stdout)
        self.assertNotIn("theirs", done.stdout + done.stderr)


def few_bytes():
    """Less memory than a file without an end would take."""
    resource.setrlimit(resource.RLIMIT_AS, (1 << 30, 1 << 30))


class Leftovers(FromOthers):
    """What stands under a name that recorders use for themselves."""

    def test_names_of_files_outside_that_an_earlier_version_would_have_deleted(self):
        (self.out / ".old").mkdir()
        (self.out / ".old/.added").write_bytes(b"../home/precious\0" + os.fsencode(self.home / "r.ninja"))
        self.refused("out/.old is not a part of a recording")

    def test_a_link_whose_files_an_earlier_version_would_have_moved(self):
        (self.out / ".old").symlink_to("../home")
        self.refused("out/.old is not a part of a recording")

    def test_links_in_the_place_of_the_recorders_folders(self):
        for name in (".new", ".moving"):
            for target in ("../home", self.home, "nowhere"):
                with self.subTest(name=name, target=target):
                    (self.out / name).symlink_to(target)
                    self.refused(f"out/{name} is a link, and not what a recorder leaves")
                    (self.out / name).unlink()

    def test_files_and_pipes_in_the_place_of_the_recorders_folders(self):
        for name in (".new", ".moving"):
            (self.out / name).write_text("mine")
            self.refused(f"out/{name} is a file")
            (self.out / name).unlink()
            os.mkfifo(self.out / name)
            self.refused(f"out/{name} is a pipe")
            (self.out / name).unlink()

    def test_what_no_recorder_writes_in_its_folders(self):
        for name in (".new", ".moving"):
            for make, inner, said in (
                    (lambda it: it.symlink_to("../../home"), "inc", "is a link"),
                    (lambda it: it.symlink_to("../../../home/precious"), "inc/trace", "is a link"),
                    (os.mkfifo, "trace", "is a pipe"),
                    (lambda it: it.write_text(""), ".new", "is not a name in a recording"),
                    (lambda it: it.write_text(""), ".moving", "is not a name in a recording"),
                    (lambda it: it.write_text(""), os.fsdecode(b"\xff.ninja"), "is not a name in a recording")):
                with self.subTest(name=name, inner=inner):
                    at = self.out / name / inner
                    at.parent.mkdir(parents=True)
                    (self.out / name / "aaa").write_text("first")
                    make(at)
                    self.refused(f"out/{name}/", said)
                    at.unlink()
                    (self.out / name / "aaa").unlink()
                    if at.parent != self.out / name:
                        at.parent.rmdir()
                    (self.out / name).rmdir()

    def test_a_recording_that_would_be_moved_through_a_link(self):
        (self.out / ".moving/inc").mkdir(parents=True)
        (self.out / ".moving/inc/r.ninja").write_text("theirs")
        (self.out / ".moving/replay").write_text("theirs")
        (self.out / "inc").symlink_to("../home")
        self.refused("out/inc is a link, and the recording has a folder of this name")

    def test_a_path_that_is_longer_than_any(self):
        at = self.out / ".new"
        at.mkdir()
        descriptor = os.open(at, os.O_RDONLY)
        for _ in range(20):
            os.mkdir("d" * 250, dir_fd=descriptor)
            inner = os.open("d" * 250, os.O_RDONLY, dir_fd=descriptor)
            os.close(descriptor)
            descriptor = inner
        os.close(descriptor)
        status, said = self.record()
        self.assertEqual((status, said.count("\n"), "File name too long" in said), (2, 1, True), said)
        subprocess.run(["rm", "-rf", self.out], check=True)

    def test_what_an_ended_recorder_left_goes(self):
        (self.out / ".new/inc").mkdir(parents=True)
        (self.out / ".new/inc/r.ninja").write_text("half")
        self.assertEqual(self.record()[0], 0)
        self.assertEqual((sorted(os.listdir(self.out)), (self.out / "inc/r.ninja").read_text()),
                         (["build.ninja", "inc", "names", "ninja", "output", "replay", "script", "times", "trace"],
                          "x = 1\n"))


class Links(FromOthers):
    """Links under the names of a recording's files."""

    def test_nothing_is_written_through_a_folder_that_is_a_link(self):
        (self.out / "inc").symlink_to("../home")
        self.refused("out/inc is a link, and the recording has a folder of this name")

    def test_a_link_in_the_place_of_a_file_is_replaced_itself(self):
        for name in ("trace", "script", "replay", "build.ninja"):
            (self.out / name).unlink(missing_ok=True)
            (self.out / name).symlink_to("../home/precious")
        before = picture_of(self.home)
        self.assertEqual(self.record()[0], 0)
        self.assertEqual(picture_of(self.home), before)
        self.assertFalse(any(it.is_symlink() for it in self.out.rglob("*")))

    def test_a_folder_that_the_user_names_by_a_link_is_followed(self):
        (self.room / "by").symlink_to("out")
        done = subprocess.run([sys.executable, builds.RECORDER, self.build, self.room / "by"], capture_output=True)
        self.assertEqual((done.returncode, (self.out / "trace").exists()), (0, True), done.stderr)

    def test_links_that_are_put_there_while_it_runs(self):
        """Somebody exchanges a folder of OUT, or one of the recorder's own, for a link to `home`, again and again."""
        for name in ("inc", ".new", ".moving"):
            with self.subTest(name=name):
                outcomes = self.exchanged_while_it_switches(name)
                self.assertGreater(outcomes[False], 0, outcomes)
        self.assertEqual(picture_of(self.home), {"precious": (8, b"mine"), "r.ninja": (8, b"mine")})

    def exchanged_while_it_switches(self, name):
        """How often a recording was put in place, and how often not. The kernel decides when the exchanger works. So
        where it never did while a recording was put in place, there are more of them."""
        outcomes, end = {True: 0, False: 0}, time.monotonic() + builds.LONGEST_SECONDS
        (self.room / "link").symlink_to(self.home)
        (self.out / "inc").mkdir()
        exchanger = subprocess.Popen([sys.executable, "-c", EXCHANGER, self.out / name, self.room / "link"])
        try:
            while sum(outcomes.values()) < 100 or not outcomes[False] and time.monotonic() < end:
                outcomes[self.switched()] += 1
        finally:
            exchanger.kill()
            exchanger.wait()
        for left in (self.room / "link", *(self.out / it for it in ("inc", ".new", ".moving"))):
            if left.is_symlink():
                left.unlink()
            subprocess.run(["rm", "-rf", left], check=True)
        return outcomes

    def switched(self):
        """Whether a recording was put in place; where it was not, one of the recorder's own errors says so."""
        try:
            with OutFolder(str(self.out)) as out:
                for at in (b"inc/r.ninja", b"trace", b"replay"):
                    with out.staging.create(at) as file:
                        file.write(b"theirs")
                out.switch()
        except (BadFolder, NotInPlace, OSError):
            return False
        return True


class Names(FromOthers):
    """Names of included files that are options of a program."""

    def test_a_name_that_is_an_option_is_a_file(self):
        names = ("--migrate", "-rf.ninja", "--workers")
        (self.build / "build.ninja").write_text("".join(f"include {it}\n" for it in names) + "build a: phony\n")
        for it in names:
            (self.build / it).write_text("x = 1\n")
        self.assertEqual(self.record()[0], 0)
        self.assertLessEqual(set(names), set(os.listdir(self.out)))
        said = self.room / "stand in"
        said.write_text("#!/bin/sh\nprintf '%s\\n' \"$@\"\n")
        said.chmod(0o755)
        done = subprocess.run([self.out / "replay"], env={**os.environ, "REBUG": str(said)}, capture_output=True,
                              text=True)
        self.assertEqual(done.stdout.splitlines()[-4:], ["--", *names], done)


class Rights(FromOthers):
    """Folders in which another user may not write."""

    def as_another_user(self):
        """The recorder in a child of this process, which gives up the rights of root where it has them."""
        outer, inner = os.pipe()
        child = os.fork()
        if not child:
            os.dup2(inner, 2)
            os.close(outer)
            if not os.geteuid():
                os.setuid(NOBODY)
            os._exit(main([str(self.build), str(self.out)]))
        os.close(inner)
        with open(outer) as said:
            return os.waitstatus_to_exitcode(os.waitpid(child, 0)[1]), said.read()

    def own(self, *paths, user=NOBODY):
        os.chmod(self.room, 0o755)
        for it in paths:
            if not os.geteuid():
                os.chown(it, user, -1)

    def refused(self, *said):
        before = picture_of(self.room)
        status, line = self.as_another_user()
        self.assertEqual((status, line.count("\n")), (2, 1), line)
        for text in said:
            self.assertIn(text, line)
        self.assertEqual(picture_of(self.room), before)

    def test_a_folder_of_the_recording(self):
        (self.out / "inc").mkdir(mode=0o555)
        self.own(self.out, self.build)
        self.refused(f"{self.out}/inc cannot be written: Permission denied")

    def test_what_another_users_recorder_left(self):
        for name in (".new", ".moving"):
            with self.subTest(name=name):
                (self.out / name / "inc").mkdir(parents=True)
                (self.out / name / "inc/r.ninja").write_text("theirs")
                (self.out / name / "replay").write_text("theirs")
                self.own(self.out, self.build)
                os.chmod(self.out / name, 0o555)
                self.refused(f"{self.out}/{name} cannot be written: Permission denied")
                self.own(self.out / name)
                os.chmod(self.out / name, 0o755)
                os.chmod(self.out / name / "inc", 0o555)
                self.refused(f"{self.out}/{name}/inc cannot be written: Permission denied")
                os.chmod(self.out / name / "inc", 0o755)
                subprocess.run(["rm", "-r", self.out / name], check=True)

    def test_a_folder_that_may_be_written_and_not_read(self):
        os.chmod(self.out, 0o333)
        self.own(self.build)
        before = picture_of(self.home)
        status, line = self.as_another_user()
        self.assertEqual((status, line.count("\n")), (2, 1), line)
        self.assertIn(f"{self.out} cannot be written: Permission denied", line)
        self.assertEqual(picture_of(self.home), before)


if __name__ == "__main__":
    unittest.main()
