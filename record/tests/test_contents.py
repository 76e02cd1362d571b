"""Recordings with --contents: what the digests say, held against the bytes themselves."""

import hashlib
import os
import pathlib
import resource
import shutil
import subprocess
import sys
import tempfile
import threading
import time
import unittest

import builds
import contents_1
import contents_planted
from observing import refusal

REFUSED = refusal("own")
RULE = "rule s\n  command = $c\n"


def digest(text: bytes) -> bytes:
    return hashlib.sha256(text).hexdigest().encode()


def built(commands: dict[str, str], inputs: dict[str, str] = {}) -> str:
    """A manifest of these commands by their outputs."""
    return RULE + "".join(f"build {out}: s {inputs.get(out, '')}\n  c = {it}\n" for out, it in commands.items())


class Room:
    """A folder for a build and its recordings."""

    def __init__(self, top: str | None = None) -> None:
        self.path = pathlib.Path(tempfile.mkdtemp(prefix="rebug-contents-", dir=top))
        self.build = self.path / "build"
        self.environment = {**os.environ, "XDG_CACHE_HOME": str(self.path / "cache"), "PYTHONDONTWRITEBYTECODE": "1"}
        shared = pathlib.Path(os.environ.get("XDG_CACHE_HOME", pathlib.Path.home() / ".cache")) / "rebug"
        (self.path / "cache/rebug").mkdir(parents=True)
        for it in shared.glob("observer-*"):  # built once for all
            (self.path / "cache/rebug" / it.name).symlink_to(it)

    def make(self, manifest: str, files: dict[str, str] = {}) -> None:
        self.build.mkdir()
        for name, text in {"build.ninja": manifest, **files}.items():
            (self.build / name).write_text(text)

    def record(self, name: str = "out", *words: str, own: tuple[str, ...] = (), limit: int | None = None):
        """Records the build; gives what ran."""
        line = [sys.executable, builds.RECORDER, self.build, self.path / name, "--contents", *own, "--", *words]
        limits = None if limit is None else lambda: resource.setrlimit(resource.RLIMIT_FSIZE, (limit, limit))
        return subprocess.run(line, stdin=subprocess.DEVNULL, stdout=subprocess.PIPE, stderr=subprocess.STDOUT,
                              env=self.environment, timeout=builds.LONGEST_SECONDS, preexec_fn=limits)

    def contents(self, name: str = "out", *words: str) -> contents_1.Contents:
        ran = self.record(name, *words)
        assert ran.returncode == 0, ran.stdout.decode()
        return contents_1.read(self.path / name)


class WithRoom(unittest.TestCase):
    top: str | None = None

    def setUp(self):
        if REFUSED:
            self.skipTest(REFUSED)
        self.room = Room(self.top)
        self.addCleanup(shutil.rmtree, self.room.path, ignore_errors=True)


class Planted(WithRoom):
    """Commands of known kinds, in a folder whose order depends on the order in which its files came, where there is
    one."""

    top = "/dev/shm" if os.path.isdir("/dev/shm") and os.access("/dev/shm", os.W_OK) else None

    def setUp(self):
        lacking = builds.missing_tools("gcc", "ar", "gzip", "tar", "xargs", "bash", "python3")
        if lacking:
            self.skipTest(lacking)
        super().setUp()
        self.found = []
        for name, jobs in (("a", "1"), ("b", "4")):
            shutil.rmtree(self.room.build, ignore_errors=True)
            contents_planted.make(self.room.build)
            self.found.append(self.room.contents(name, "-j", jobs))
            shutil.copytree(self.room.build, self.room.path / f"files-{name}")

    def test_first_causes_are_those_that_are_planted(self):
        one, other = self.found
        found = contents_1.classes(one, other)
        outputs = contents_planted.COMMANDS
        other_files = {os.fsencode(it) for it in outputs if self.bytes("a", it) != self.bytes("b", it)}
        other_files.add(b"n17_log.txt")  # that writes another file besides
        due = {it for it in other_files if it.startswith(b"n")}
        self.assertGreaterEqual(len(due), contents_planted.FIRST_CAUSES - 2)  # an order may come twice by chance
        self.assertEqual({it for it, word in found.items() if word == "first"}, due)
        propagated = {it for it, word in found.items() if word == "propagated"}
        self.assertEqual((propagated, len(propagated)), (other_files - due, contents_planted.PROPAGATED))
        absorbed = {it for it, word in found.items() if word == "absorbed"}
        self.assertEqual(absorbed, {os.fsencode(contents_planted.ABSORBED)})
        self.assertEqual(len(found), len(contents_planted.COMMANDS))
        self.assertNotIn("unknown", found.values())

    def test_the_files_that_differ_are_those_of_diff(self):
        ends = [contents_1.at_the_end(it) for it in self.found]
        places = {it for it in ends[0].keys() | ends[1].keys() if not it.startswith(b"/")}
        said = subprocess.run(["diff", "-rq", "--no-dereference", "files-a", "files-b"], cwd=self.room.path,
                              capture_output=True, env={**os.environ, "LC_ALL": "C"}).stdout
        due = {it.split(b" ")[1].partition(b"/")[2] for it in said.splitlines() if it.startswith(b"Files ")}
        self.assertEqual({it for it in places if ends[0].get(it) != ends[1].get(it)},
                         due - {b".ninja_log", b".ninja_deps"})
        self.assertFalse([it for it in said.splitlines() if not it.startswith(b"Files ")])

    def test_each_digest_is_of_the_file(self):
        for name, found in zip("ab", self.found):
            for path, content in contents_1.at_the_end(found).items():
                file = self.room.path / f"files-{name}" / os.fsdecode(path)
                mode = (b"x",) if file.stat().st_mode & 0o100 else ()
                self.assertEqual(content, (digest(file.read_bytes()), *mode), path)

    def bytes(self, name: str, output: str) -> bytes:
        return (self.room.path / f"files-{name}" / output).read_bytes()


class Moments(WithRoom):
    """Files that are another one soon after a command met or left them: each digest is of that moment, or there is
    none."""

    COMMANDS = {
        "f": "printf 11 > f", "f2": "printf 22 > f; printf x > f2", "g": "printf 11 > g",
        "g2": "printf 2 >> g; printf x > g2",
        "h": "printf 11 > h; (sleep 0.1; printf 22 > h) >/dev/null 2>&1 </dev/null &",
        "h2": "cat h > h2", "k": "printf 11 > k", "k2": "cat k > k2; sleep 0.1; cat k >> k2",
        "k3": "sleep 0.05; printf 22 > k; echo > k3", "t": "printf 33 > t; touch -d 2001-01-01 t",
        "t2": "printf 44 > t; touch -d 2001-01-01 t; echo > t2", "z": "printf 11 > z", "z2": "mv z zz; printf x > z2",
        "keep": "sleep 0.3; echo > keep"}
    INPUTS = {"f2": "f", "g2": "g", "h2": "h", "k2": "k", "k3": "k", "t2": "t", "z2": "z", "keep": "h2"}
    LEFT = {("f", "f"): b"11", ("f2", "f"): b"22", ("g", "g"): b"11", ("g2", "g"): b"112", ("k", "k"): b"11",
            ("k3", "k"): b"22", ("t", "t"): b"33", ("t2", "t"): b"44", ("z", "z"): b"11", ("z2", "zz"): b"11"}

    def test_no_digest_is_of_the_file_as_it_was_later(self):
        for jobs in ("1", "4"):
            with self.subTest(jobs):
                shutil.rmtree(self.room.build, ignore_errors=True)
                self.room.make(built(self.COMMANDS, self.INPUTS))
                found = self.room.contents(f"out-{jobs}", "-j", jobs)
                for (edge, path), text in self.LEFT.items():
                    command, place = found.commands[edge.encode()], path.encode()
                    if place in command.left:
                        self.assertEqual(command.left[place], (digest(text),), (edge, path))
                    else:
                        self.assertIn(place, command.unsettled, edge)
                self.assertIn(b"h", found.commands[b"h"].unsettled)
                self.assertIn(b"h", found.commands[b"h2"].unsure)

    def test_what_stays_is_certain(self):
        self.room.make(built({"a": "cat src > a", "b": "cat a > b; chmod +x b", "c": "cat b > c; ln -s c link"},
                             {"b": "a", "c": "b"}), {"src": "text"})
        found = self.room.contents("out", "-j", "2")
        content = (digest(b"text"),)
        self.assertEqual([found.commands[it].read[path] for it, path in ((b"a", b"src"), (b"b", b"a"), (b"c", b"b"))],
                         [content, content, (*content, b"x")])
        self.assertEqual(found.commands[b"c"].left, {b"c": content, b"link": (b"link", b"c")})
        self.assertFalse(any(it.unsure or it.unsettled for it in found.commands.values()))
        self.assertFalse(found.changed)

    def test_many_short_commands_are_certain(self):
        names = [f"a{it}" for it in range(150)]
        commands = {**{it: f"echo {it} > {it}" for it in names}, **{f"b{it}": f"cat {it} > b{it}" for it in names}}
        self.room.make(built(commands, {f"b{it}": it for it in names}))
        found = self.room.contents("out", "-j", "4")
        self.assertFalse([name for name, it in found.commands.items() if it.unsure or it.unsettled])
        for it in names:
            self.assertEqual(found.commands[f"b{it}".encode()].read[it.encode()], (digest(f"{it}\n".encode()),))


class Outsiders(WithRoom):
    """Somebody else changes files while the build runs."""

    def test_no_digest_of_a_file_that_flips_is_wrong(self):
        """Each command copies the file: what it met is what it left."""
        names = [f"c{it}" for it in range(60)]
        self.room.make(built({it: f"cat src > {it}" for it in names}), {"src": "0" * 4096})
        is_over = threading.Event()
        flipper = threading.Thread(target=self.flip, args=(is_over,))
        flipper.start()
        try:
            found = self.room.contents("out", "-j", "3")
        finally:
            is_over.set()
            flipper.join()
        for name in names:
            command = found.commands[name.encode()]
            met, left = command.read.get(b"src"), command.left.get(name.encode())
            if left is not None:
                self.assertEqual(left, (digest((self.room.build / name).read_bytes()),))
            if met is not None and left is not None:
                self.assertEqual(met, left, name)
            self.assertTrue(met or b"src" in command.unsure, name)
        self.assertIn(b"src", found.changed)

    def flip(self, is_over: threading.Event) -> None:
        source, number = self.room.build / "src", 0
        while not is_over.is_set():
            number += 1
            text = f"{number % 10}" * 4096
            if number % 3:
                source.write_text(text)
            else:
                other = self.room.path / "other"
                other.write_text(text)
                other.replace(source)
            time.sleep(0.005 * (number % 4))

    def test_a_source_that_is_saved_between_two_readers(self):
        wait = "while ! test -e saved; do sleep 0.05; done"
        self.room.make(built({"a": "cat src > a", "b": wait, "c": "cat src > c"}, {"b": "a", "c": "b"}), {"src": "old"})
        saver = threading.Thread(target=self.save)
        saver.start()
        found = self.room.contents("out", "-j", "1")
        saver.join()
        self.assertEqual(found.changed - {b"saved"}, {b"src"})
        self.assertEqual(found.commands[b"c"].read[b"src"], (digest(b"new"),))
        self.assertNotEqual(found.commands[b"a"].read.get(b"src"), (digest(b"new"),))

    def save(self) -> None:
        builds.wait_for(self.room.build / "a")
        time.sleep(0.2)
        (self.room.build / "src").write_text("new")
        (self.room.build / "saved").touch()


class Hard(WithRoom):
    """Files that cannot be read, and very many."""

    def test_pipes_devices_and_what_nobody_may_read(self):
        self.room.make(built({"a": "mkfifo pipe; (cat pipe > a & echo x > pipe; wait)", "b": "head -c 3 /dev/zero > b",
                              "c": "echo x > c; chmod 0 c", "d": "mkfifo left; echo > d",
                              "e": "echo x > gone; rm gone; echo > e"}))
        found = self.room.contents("out", "-j", "2")
        self.assertNotIn(b"pipe", found.commands[b"a"].left)
        self.assertIn(b"left", found.commands[b"d"].unsettled)
        self.assertEqual(found.commands[b"b"].left[b"b"], (digest(b"\0\0\0"),))
        self.assertNotIn(b"gone", found.commands[b"e"].left)
        if os.geteuid():
            self.assertIn(b"c", found.commands[b"c"].unsettled)

    def test_ten_thousand_files(self):
        self.room.make(built({"a": "mkdir d; for i in `seq 10000`; do echo $$i > d/$$i; done; echo > a",
                              "b": "cat d/* > b"}, {"b": "a"}))
        found = self.room.contents("out", "-j", "2")
        made = {path: it for path, it in found.commands[b"a"].left.items() if path.startswith(b"d/")}
        self.assertEqual(made, {b"d/%d" % it: (digest(b"%d\n" % it),) for it in range(1, 10_001)})
        self.assertLessEqual(made.items(), found.commands[b"b"].read.items())
        self.assertIn(b"d/", found.commands[b"b"].read)

    def test_a_file_that_cannot_be_written_is_a_sentence(self):
        self.room.make(built({"a": "cat *.h > a"}), {f"a{it}.h": "x" for it in range(400)})
        ran = self.room.record(limit=24_000)
        self.assertEqual(ran.returncode, 3, ran.stdout)
        self.assertIn(b"the recording could not be written (File too large)", ran.stdout)
        self.assertFalse((self.room.path / "out/contents").exists())

    def test_a_recorder_that_is_killed_leaves_the_next_one_alone(self):
        self.room.make(built({"a": "touch begun; while ! test -e go; do sleep 0.1; done; echo 1 > a", "b": "cat a > b"},
                             {"b": "a"}))
        line = [sys.executable, builds.RECORDER, self.room.build, self.room.path / "out", "--contents"]
        nothing = subprocess.DEVNULL
        recorder = subprocess.Popen(line, stdin=nothing, stdout=nothing, stderr=nothing, env=self.room.environment)
        builds.wait_for(self.room.build / "begun")
        recorder.kill()
        recorder.wait()
        (self.room.build / "go").touch()
        made = self.room.build / "a"  # the command goes on; Ninja, whose output nobody reads any more, may not
        builds.wait_until(lambda: made.exists() and made.read_text() == "1\n", "the command did not go on")
        found = self.room.contents()
        self.assertEqual(found.commands[b"b"].read[b"a"], (digest(b"1\n"),))

    def test_a_later_recording_without_contents_takes_them_away(self):
        self.room.make(built({"a": "echo > a"}))
        self.room.contents()
        line = [sys.executable, builds.RECORDER, self.room.build, self.room.path / "out"]
        subprocess.run(line, capture_output=True, check=True, env=self.room.environment)
        self.assertFalse((self.room.path / "out/contents").exists())


class Environments(WithRoom):
    def test_digests_are_keyed_and_equal_for_equal_values(self):
        self.room.make(built({"a": "echo > a"}))
        heads = []
        for value in ("one", "one", "two"):
            self.room.environment["PLANTED"] = value
            heads.append(self.room.contents().head)
        environments = [dict(it["environ"]) for it in heads]
        first, second, third = (it[b"PLANTED"] for it in environments)
        self.assertEqual((first, len(first)), (second, 16))
        self.assertNotEqual(first, third)
        self.assertEqual(heads[0]["key"], heads[2]["key"])
        self.assertEqual((self.room.path / "cache/rebug/environment-key").stat().st_mode & 0o777, 0o600)
        (self.room.path / "cache/rebug/environment-key").unlink()
        other = self.room.contents().head
        self.assertNotEqual(other["key"], heads[0]["key"])
        self.assertNotEqual(dict(other["environ"])[b"PLANTED"], third)


class Words(WithRoom):
    def test_words_that_do_not_go_together(self):
        self.room.make(built({"a": "echo > a"}))
        for own, said in ((("--observer", "strace"), b"--contents goes with --observer own alone"),
                          (("--from-logs",), b"--contents does not go with --from-logs")):
            ran = self.room.record(own=own)
            self.assertEqual(ran.returncode, 2, ran.stdout)
            self.assertIn(said, ran.stdout)


if __name__ == "__main__":
    unittest.main()
