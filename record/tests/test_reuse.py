"""Which commands of builds that a real Ninja ran an earlier recording would have served, and which an early cutoff
would have saved."""

from __future__ import annotations

import os
import random
import shutil
import socket
import subprocess
import unittest
import unittest.mock

import builds
import contents_planted
from observing import refusal
from recorder.actions.files import Files
from recorder.reuse import judging, recording
from recorder.reuse.beside import Without
from recorder.reuse.judging import Judge
from recorder.reuse.recording import Recording
from recorder.reuse.shared import THERE
from rerun_builds import environment
from reuse_builds import Reuse, answered
from shuffled import RULES, statement

RULE_OF = "rule {0}\n  command = $c\n"
COPY = 'cmp -s "$1.new" "$1" && rm "$1.new" || mv "$1.new" "$1"\n'
SEEDS = range(6)


class Case(unittest.TestCase):
    def setUp(self):
        refused = refusal("own")
        if refused:
            self.skipTest(refused)

    def made(self, text: str, files: dict[str, str] | None = None, rules: str = RULES) -> Reuse:
        it = Reuse(text, files, rules)
        self.addCleanup(it.remove)
        return it


def verdict_of(it: Reuse, output: str, new: str, old: str) -> str:
    """The verdict of a command in this process, where a test can put a bad body in the place of a function."""
    judge = Judge(*(Recording(Files(str(it.room / name))) if name == new else [Recording(Files(str(it.room / name)))]
                    for name in (new, old)), Without())
    return next(case.verdict.value for case in judge.cases() if case.edge.name == output.encode())


class Served(Case):
    def test_a_touch_a_comment_and_a_change(self):
        """A compiler that drops comments, and a linker."""
        it = self.made("".join(statement(f"{name}.o", f"grep -v '#' {name}.c h > {name}.o", f"{name}.c h")
                               for name in "ab") + statement("app", "cat a.o b.o > app", "a.o b.o"),
                       {"build/a.c": "a\n", "build/b.c": "b\n", "build/h": "h\n"})
        it.build_as("first")
        (it.build / "h").touch()
        it.build_as("touched")
        it.write("h", "# more\nh\n")
        it.build_as("comment")
        it.write("a.c", "other\n")
        it.build_as("change")
        found = it.reuse("touched", "first")
        self.assertEqual((found.status, found.said, found.of("served")), (4, "", {"a.o", "b.o", "app"}))
        self.assertEqual(found.saved(), {"app"})
        found = it.reuse("comment", "first", "touched")
        self.assertEqual((found.of("served"), found.of("same bytes")), ({"app"}, {"a.o", "b.o"}))
        self.assertEqual((found.saved(), found.others("a.o")), ({"app"}, ["h"]))
        self.assertEqual(found.reasons(), dict.fromkeys(("a.o", "b.o"), "other answers"))
        self.assertEqual(found.rules["r"], {
            "kind": "rule", "rule": "r", "makers": 2, "commands": 1, "mend": "restat and copy if different",
            "milliseconds": found.commands["app"]["milliseconds"],
            "first": {"output": "a.o", "file": "build.ninja", "line": 3}})
        found = it.reuse("change", "first", "touched", "comment")
        self.assertEqual((found.verdicts(), found.saved()), ({"a.o": "had to run", "app": "had to run"}, set()))
        self.assertEqual(found.others("app"), ["a.o"])
        for new, old in (("touched", "first"), ("comment", "touched")):
            self.assertLessEqual({"a.o", "b.o", "app"}, it.same_files(new, old))

    def test_words(self):
        it = self.made(statement("a", "grep -v '#' in > a", "in") + statement("b", "cat a > b", "a"),
                       {"build/in": "in\n"})
        it.build_as("first")
        it.write("in", "# more\nin\n")
        it.build_as("second")
        status, said = it.told("second", "first")
        lines = said.splitlines()
        self.assertEqual(status, 4)
        time = r"\(\d+\.\d s\)"
        due = [r"2 commands ran, \d+\.\d s in all",
               rf"1 command {time} would have been served: earlier runs met the same",
               rf"  rule r: 1 command {time}, as b \(build.ninja:5\)",
               rf"1 command {time} met something else, and left what was there before",
               rf"  rule r: 1 command {time}, as a \(build.ninja:3\)", "0 commands had to run",
               "why these were not served:", "  1 command met something else at in",
               rf"1 command {time} would not have run with an early cutoff",
               rf"  rule r: 1 command {time} behind 1 of its own, as a \(build.ninja:3\)",
               "    mend: restat = 1, and a copy if different"]
        self.assertEqual(len(lines), len(due), lines)
        for line, form in zip(lines, due):
            self.assertRegex(line, rf"\A{form}\Z")

    def test_a_miss_that_became_a_file(self):
        """A header that comes into an earlier search folder."""
        it = self.made(statement("a", "{ cat one/h 2> /dev/null || cat two/h; } > a; cat in > /dev/null", "in"),
                       {"build/two/h": "h\n", "build/in": "in\n"})
        it.build_as("first")
        it.write("one/h", "other\n")
        (it.build / "in").touch()
        it.build_as("second")
        found = it.reuse("second", "first")
        self.assertEqual((found.status, found.verdicts()), (0, {"a": "had to run"}))
        self.assertEqual(found.others("a")[-1], "one/h")
        self.assertEqual({one["before"] for one in found.commands["a"]["others"]}, {"missing"})
        self.assertEqual(verdict_of(it, "a", "second", "first"), "had to run")
        marks = dict.fromkeys((b"there", b"missing"), THERE)
        with unittest.mock.patch.multiple(recording, MISSING=THERE, _MARKS=marks):  # a bad body: a miss says nothing
            self.assertEqual(verdict_of(it, "a", "second", "first"), "served")

    def test_names_in_a_folder(self):
        it = self.made(statement("a", "ls d | wc -l > a; cat in > /dev/null", "in"),
                       {"build/d/x": "", "build/d/y": "", "build/in": "in\n"})
        it.build_as("first")
        (it.build / "in").touch()
        it.build_as("touched")
        self.assertEqual(it.reuse("touched", "first").of("served"), {"a"})
        (it.build / "d/x").rename(it.build / "d/z")
        (it.build / "in").touch()
        it.build_as("renamed")
        found = it.reuse("renamed", "first")
        self.assertEqual((found.verdicts(), found.others("a")), ({"a": "same bytes"}, ["d/"]))

    def test_kinds_and_modes(self):
        """A file that is gone, one that may be run now, and one that becomes a link."""
        it = self.made(statement("a", "test -e x; cat in > a", "in") + statement("b", "cat y > b", "in y")
                       + statement("c", "cat z > c", "in z"),
                       {"build/x": "", "build/y": "y\n", "build/z": "z\n", "build/in": "in\n"})
        it.build_as("first")
        (it.build / "x").unlink()
        (it.build / "y").chmod(0o755)
        (it.build / "z").rename(it.build / "z2")
        (it.build / "z").symlink_to("z2")
        (it.build / "in").touch()
        it.build_as("second")
        found = it.reuse("second", "first")
        self.assertEqual({name: found.others(name) for name in "abc"}, {"a": ["x"], "b": ["y"], "c": ["z"]})
        self.assertEqual(found.of("same bytes"), {"a", "b", "c"})

    def test_an_own_old_output(self):
        """Whether an output was there before is no input, and its bytes are one where they were read."""
        it = self.made(statement("a", "rm -f a; cat in > a", "in") + statement("b", "test -e b; cat in > b", "in")
                       + statement("c", "cat c 2> /dev/null; cat in > c", "in")
                       + statement("l", "ln -sf in l", "in"), {"build/in": "in\n"})
        it.build_as("first")
        (it.build / "in").touch()
        it.build_as("second")
        found = it.reuse("second", "first")
        self.assertEqual((found.of("served"), found.verdicts()["c"] != "served"), ({"a", "b", "l"}, True), found)

    def test_the_environment(self):
        it = self.made(statement("a", "echo $LOGNAME$OTHER > a; cat in > /dev/null", "in"), {"build/in": "in\n"})
        names = []
        for name, more in (("x", {}), ("y", {}), ("z", {"OTHER": "1"}), ("shell", {"SHLVL": "9", "_": "/x"})):
            (it.build / "in").touch()
            it.build_as(name, env=environment(**more))
            names.append(name)
        self.assertEqual(it.reuse("y", "x").verdicts(), {"a": "served"})
        self.assertEqual(it.reuse("shell", "x").verdicts(), {"a": "served"})
        found = it.reuse("z", "x", "y")
        self.assertEqual((found.status, found.reasons()), (0, {"a": "another environment"}))
        self.assertEqual([(one["kind"], one["others"]) for one in found.more], [("environment", ["OTHER"])] * 2)
        self.assertIn(f"  the environment of {it.room / 'x'} has other values of OTHER\n", it.told("z", "x")[1])
        for words in (["--without", "OTHER"], ["--any-environment"], ["--without", "X", "--without", "OTHER"]):
            found = it.reuse("z", "x", *words)
            self.assertEqual((found.of("served"), found.commands["a"]["left_same"], found.end["other_bytes"]),
                             ({"a"}, False, 1))
        self.assertIn("1 of these left other bytes this time, so they are not deterministic: a (build.ninja:3)",
                      it.told("z", "x", "--without", "OTHER")[1])
        contents = (it.out / "contents").read_bytes()
        key = next(line for line in contents.splitlines() if line.startswith(b"key "))
        it.rewrite(contents=contents[: contents.rindex(b"end ")].replace(key, b"key 0000"))
        found = it.reuse("shell", "x")
        self.assertEqual((found.status, found.reasons()), (5, {"a": "environments of two keys"}))
        self.assertEqual(it.reuse("shell", "x", "--any-environment").of("served"), {"a"})

    def test_another_command_line_and_another_response_file(self):
        rules = RULES + "rule s\n  command = cat $out.rsp > $out\n  rspfile = $out.rsp\n  rspfile_content = $text\n"
        text = statement("a", "cat in > a", "in") + "build b: s in\n  text = {0}\nbuild n: s in\n  text = {1}\n"
        it = self.made(text.format("x", "y"), {"build/in": "in\n"}, rules=rules)
        it.build_as("first")
        it.write("build.ninja", rules + text.format("x", "z").replace("cat in > a", "cat  in > a"))
        (it.build / "in").touch()
        it.build_as("second")
        found = it.reuse("second", "first")
        self.assertEqual(found.verdicts(), {"a": "same bytes", "b": "served", "n": "had to run"})
        self.assertEqual(found.reasons(), dict.fromkeys("an", "another command line"))

    def test_recordings_of_two_branches(self):
        """A branch and back: the bytes are those of the first recording, and not those that stood there."""
        it = self.made(statement("a", "cat in > a", "in") + statement("b", "cat a > b", "a"), {"build/in": "1\n"})
        for name, text in (("first", "1\n"), ("second", "2\n"), ("third", "1\n")):
            it.write("in", text)
            it.build_as(name)
        found = it.reuse("third", "second", "first")
        self.assertEqual((found.of("served"), found.saved()), ({"a", "b"}, set()))
        self.assertEqual({one["recording"] for one in found.commands.values()}, {str(it.room / "first")})
        self.assertEqual(it.reuse("third", "second").of("had to run"), {"a", "b"})
        self.assertEqual(it.reuse("second", "third", "first").of("had to run"), {"a", "b"})

    def test_a_new_command(self):
        it = self.made(statement("a", "cat in > a", "in"), {"build/in": "in\n"})
        it.build_as("first")
        with open(it.build / "build.ninja", "a") as file:
            file.write(statement("b", "cat in > b", "in"))
        it.build_as("second")
        found = it.reuse("second", "first")
        self.assertEqual((found.status, found.reasons()), (0, {"b": "no earlier run"}))

    def test_names_by_chance(self):
        """mktemp takes another name each time, and the law goes by places at which both looked."""
        it = self.made(statement("a", "t=$(mktemp); sort in > $t; cat $t > a; rm $t", "in"), {"build/in": "in\n"})
        it.build_as("first")
        (it.build / "in").touch()
        it.build_as("second")
        self.assertEqual(it.reuse("second", "first").verdicts(), {"a": "served"})

    def test_another_folder(self):
        """Paths are compared without the folders' names. What has the name in its bytes is named."""
        it = self.made(statement("a", "cat in > a", "in") + statement("b", "pwd > b; cat in > /dev/null", "in")
                       + statement("c", "cat @ROOM@/build/in @ROOM@/src/s > c", "in @ROOM@/src/s")
                       + statement("d", "echo @ROOM@ > d", "in"), {"build/in": "in\n", "src/s": "s\n"})
        it.build_as("first")
        other = Reuse("", {})
        self.addCleanup(other.remove)
        for name in ("build", "src"):
            shutil.rmtree(other.room / name)
            shutil.copytree(it.room / name, other.room / name)
        other.clean()
        manifest = (other.build / "build.ninja").read_text()
        other.write("build.ninja", manifest.replace(str(it.room), str(other.room)))
        other.build_as("second")
        found = answered(it.words(other.room / "second", "first", "--json"))
        self.assertEqual((found.of("served"), found.reasons()), ({"a", "b", "c"}, {"d": "another command line"}))
        self.assertEqual({name for name, one in found.commands.items() if one["left_same"] is False}, {"b"})

    def test_a_folder_s_name_within_a_path(self):
        """Only a path that begins with the folder is one of the project."""
        it = self.made(statement("a", "cat in > a; : /x@ROOM@/build/in", "in"), {"build/in": "in\n"})
        it.build_as("first")
        other = Reuse("", {})
        self.addCleanup(other.remove)
        other.write("in", "in\n")
        text = (it.build / "build.ninja").read_text()
        other.write("build.ninja", text.replace(str(it.room), str(other.room)))
        other.build_as("second")
        found = answered(it.words(other.room / "second", "first", "--json"))
        self.assertEqual(found.reasons(), {"a": "another command line"})


class NotJudged(Case):
    def twice(self, text: str = "", *words: str, own: tuple[str, ...] = (), status: int = 0) -> Reuse:
        it = self.made(text or statement("a", "cat in > a", "in") + statement("b", "cat in > b", "in"),
                       {"build/in": "in\n"})
        it.build_as("first", own=own)
        (it.build / "in").touch()
        it.build_as("second", *words, status=status)
        return it

    def test_commands_that_were_not_observed_whole(self):
        it = self.twice()
        self.assertEqual(it.reuse("second", "first").of("served"), {"a", "b"})
        observed = (it.out / "observed").read_bytes()
        flags = b"\nedge b\nflag socket connect distcc 127.0.0.1:3632\nflag late openat sh x\n"
        it.rewrite(observed[: observed.rindex(b"end ")].replace(b"\nedge b\n", flags))
        for new, old in (("second", "first"), ("first", "second")):
            found = it.reuse(new, old)
            self.assertEqual((found.status, found.of("served"), found.reasons(), found.commands["b"]["flags"]),
                             (4, {"a"}, {"b": "not observed whole"}, ["late", "socket"]))
        self.assertRegex(it.told("second", "first")[1],
                         r"\n  1 command \(\d+\.\d s\) not observed whole \(late, socket\): b \(build.ninja:5\)\n")

    def test_bytes_that_are_not_certain(self):
        it = self.twice()
        it.doubt("b", "in")
        for new, old in (("second", "first"), ("first", "second")):
            found = it.reuse(new, old)
            self.assertEqual((found.of("served"), found.reasons()), ({"a"}, {"b": "uncertain bytes"}))
        self.assertIn("not certain which bytes they met: b (build.ninja:5)\n", it.told("second", "first")[1])

    def test_a_file_that_a_command_changes_in_place(self):
        it = self.twice(statement("a", "cat in >> a", "in"))
        self.assertEqual(it.reuse("second", "first").of("served"), set())

    def test_a_recording_without_contents(self):
        it = self.twice(own=("--observe",))
        found = it.reuse("second", "first")
        self.assertEqual((found.status, found.reasons()), (5, dict.fromkeys("ab", "no contents")))
        self.assertIn("run before in a recording without contents: a (build.ninja:3)", it.told("second", "first")[1])
        found = it.reuse("first", "second")
        self.assertEqual((found.status, found.commands), (2, {}))
        self.assertIn("has no contents: record the build with --contents\n", found.said)

    def test_commands_that_were_not_observed(self):
        it = self.twice()
        observed, contents = ((it.out / name).read_bytes() for name in ("observed", "contents"))
        at = observed.index(b"\nedge b\n") + 1
        its = contents.index(b"\nedge 1\n") + 1
        it.rewrite(observed[:at], contents[:its])
        for new, old in (("second", "first"), ("first", "second")):
            found = it.reuse(new, old)
            self.assertEqual((found.of("served"), found.reasons()), ({"a"}, {"b": "not observed"}))

    def test_commands_that_fail(self):
        """A cache keeps no failure, and says nothing of one."""
        it = self.twice(statement("a", "cat in > a; test ! -e no", "in") + statement("b", "cat in > b", "in"))
        it.write("no", "")
        (it.build / "in").touch()
        it.build_as("third", "-k", "0", status=1)
        found = it.reuse("third", "second")
        self.assertEqual((found.of("served"), found.reasons()), ({"b"}, {"a": "failed"}))
        found = it.reuse("second", "third")
        self.assertEqual((found.of("served"), found.reasons()), ({"b"}, {"a": "no earlier run"}))

    def test_a_socket(self):
        """A command that asks a server is not judged, with the flag's name."""
        room = self.made("", {})
        server = socket.socket(socket.AF_INET)
        self.addCleanup(server.close)
        server.bind(("127.0.0.1", 0))
        server.listen(8)
        ask = f"import socket; socket.create_connection(('127.0.0.1', {server.getsockname()[1]})).close()"
        it = self.twice(statement("a", f'python3 -c "{ask}"; cat in > a', "in"))
        self.assertEqual((it.reuse("second", "first").commands["a"]["flags"], room.kept), (["socket"], []))


class Places(Case):
    def system(self, readers: int, is_program: bool = False) -> Reuse:
        """Commands that read a file outside of the project, which is another one in the second build; the last one
        copies it."""
        use = "../elsewhere/index" if is_program else "cat ../elsewhere/index"
        it = self.made("".join(statement(f"o{n}", f"{use} > /dev/null; cat in > o{n}", "in") for n in range(readers))
                       + statement("copy", "cat ../elsewhere/index in > copy", "in"),
                       {"build/in": "in\n", "elsewhere/index": "#!/bin/sh\n: 1\n"})
        (it.room / "elsewhere/index").chmod(0o755 if is_program else 0o644)
        it.build_as("first")
        (it.room / "elsewhere/index").write_text("#!/bin/sh\n: 2\n")
        (it.build / "in").touch()
        it.build_as("second")
        return it

    def test_a_place_of_the_system_that_differs_for_all(self):
        """It explains nothing where at least five commands left the same all the same, and that is printed."""
        it = self.system(5)
        index = str(it.room / "elsewhere/index")
        found = it.reuse("second", "first")
        self.assertEqual((found.of("served"), found.of("had to run")), ({f"o{n}" for n in range(5)}, {"copy"}))
        self.assertEqual(found.more, [{"kind": "assumed", "path": index, "commands": 5,
                                       "recording": str(it.room / "first")}])
        self.assertEqual((found.commands["o0"]["assumed"], found.others("copy")), ([index], [index]))
        self.assertIn(f"assumed: {index} makes no difference: it is not as in {it.room / 'first'}, and 5 commands met "
                      f"it and left the same bytes\n", it.told("second", "first")[1])
        self.assertEqual(verdict_of(it, "o0", "second", "first"), "served")
        with unittest.mock.patch.object(judging, "ASIDE_FROM", 1 << 30):  # a bad body: such a file explains all away
            self.assertEqual(verdict_of(it, "o0", "second", "first"), "same bytes")

    def test_four_commands_are_not_enough_and_no_program_is_set_aside(self):
        for it in (self.system(4), self.system(6, is_program=True)):
            found = it.reuse("second", "first")
            self.assertEqual((found.of("served"), found.more), (set(), []))
            self.assertNotIn("assumed", it.told("second", "first")[1])

    def test_a_place_that_a_command_leaves_is_never_set_aside(self):
        it = self.made(statement("made", "cat in > ../elsewhere/index; cp in made", "in")
                       + "".join(statement(f"o{n}", f"cat ../elsewhere/index > /dev/null; cat x > o{n}", "made x")
                                 for n in range(6)), {"build/in": "1\n", "build/x": "x\n"})
        it.build_as("first")
        it.write("in", "2\n")
        it.build_as("second")
        found = it.reuse("second", "first")
        self.assertEqual((found.of("served"), found.of("same bytes"), found.more),
                         (set(), {f"o{n}" for n in range(6)}, []))

    def test_a_cache(self):
        """A cache's folder is neither input nor output, and a filter never hides a declared output."""
        it = self.made(statement("a", "cat store/x > /dev/null 2>&1; mkdir -p store; ls store > /dev/null; "
                                      "date +%N > store/x; cat in > a", "in")
                       + statement("store/b", "cat in > store/b", "in") + statement("c", "cat store/b > c", "store/b"),
                       {"build/in": "in\n"})
        for name in ("first", "second"):
            it.build_as(name, "-j", "1")
            with open(it.out / "filters", "a") as file:
                file.write("store\n")
            (it.build / "in").touch()
        it.write("in", "other\n")
        it.build_as("third", "-j", "1")
        shutil.copy(it.room / "second/filters", it.out)
        found = it.reuse("second", "first")
        self.assertEqual((found.of("served"), found.commands["a"]["left_same"]), ({"a", "store/b", "c"}, True), found)
        self.assertEqual(it.reuse("third", "second").others("c"), ["store/b"])
        with unittest.mock.patch.object(Recording, "_is_hidden", lambda *_: False):  # a bad body: a cache is an input
            self.assertNotEqual(verdict_of(it, "a", "second", "first"), "served")


class Planted(Case):
    def test_commands_of_known_kinds(self):
        """All planted commands once more, from nothing: first causes are served and left other bytes, commands that
        only follow had to run, and all others are served and left the same."""
        lacking = builds.missing_tools("gcc", "ar", "gzip", "tar", "xargs", "bash", "python3")
        if lacking:
            self.skipTest(lacking)
        it = self.made("", {})
        for name, jobs in (("first", "1"), ("second", "4")):
            shutil.rmtree(it.build)
            contents_planted.make(it.build)
            it.build_as(name, "-j", jobs)
        found = it.reuse("second", "first")
        others = set(contents_planted.COMMANDS) - it.same_files("second", "first")
        first = {name for name in others if name.startswith("n")} | {"n17_log.txt"}  # that writes another file besides
        self.assertEqual({name for name, one in found.commands.items() if one["left_same"] is False}, first)
        self.assertEqual(found.of("had to run"), others - first)
        self.assertEqual(found.of("same bytes"), {contents_planted.ABSORBED})
        self.assertEqual(found.of("not judged"), set(), found.reasons())
        self.assertEqual(len(found.commands), len(contents_planted.COMMANDS))


class Cutoff(Case):
    def mended(self, it: Reuse, was: str, manifest: str, *tools: str) -> int:
        """How many commands a real Ninja runs in the folder as it was before the last build, but for what `new` says of
        sources, with a manifest and tools that are mended."""
        folder = it.room / "again"
        shutil.rmtree(folder, ignore_errors=True)
        subprocess.run(["cp", "-a", str(it.room / was), str(folder)], check=True)
        (folder / "build.ninja").write_text(manifest)
        for name in tools:
            (folder / name).write_text((it.build / name).read_text() + COPY)
        done = subprocess.run(["ninja", "-v"], cwd=folder, check=True, capture_output=True, text=True).stdout
        return sum(line.startswith("[") for line in done.splitlines())

    def test_a_command_that_leaves_its_output_as_it_is(self):
        """It lacks `restat = 1` alone; with that a real Ninja runs it, and nothing else."""
        command = "cut -c1 in > gen.new; cmp -s gen.new gen && rm gen.new || mv gen.new gen"
        rules = RULE_OF.format("gen") + RULE_OF.format("use")
        text = f"build gen: gen in\n  c = {command}\nbuild a: use gen\n  c = cat gen > a\n" \
               "build b: use a\n  c = cat a > b\n"
        it = self.made(text, {"build/in": "1a\n"}, rules=rules)
        it.build_as("first")
        it.write("in", "1b\n")
        subprocess.run(["cp", "-a", str(it.build), str(it.room / "before")], check=True)
        it.build_as("second")
        found = it.reuse("second", "first")
        self.assertEqual((found.of("served"), found.saved()), ({"a", "b"}, {"a", "b"}))
        self.assertEqual((found.rules["gen"]["mend"], found.rules["gen"]["commands"], list(found.rules)),
                         ("restat", 2, ["gen"]))
        self.assertIn("\n    mend: restat = 1\n", it.told("second", "first")[1] + "\n")
        ran = self.mended(it, "before", (rules + text).replace("rule gen\n", "rule gen\n  restat = 1\n"))
        self.assertEqual(ran, 3 - len(found.saved()))

    def test_a_command_that_has_restat_and_writes(self):
        rules = RULE_OF.format("gen") + "  restat = 1\n" + RULE_OF.format("use")
        it = self.made("build gen: gen in\n  c = cut -c1 in > gen\nbuild g: phony gen\n"
                       "build a: use g\n  c = cat gen > a\n", {"build/in": "1a\n"}, rules=rules)
        it.build_as("first")
        it.write("in", "1b\n")
        it.build_as("second")
        found = it.reuse("second", "first")
        self.assertEqual((found.saved(), found.rules["gen"]["mend"]), ({"a"}, "copy if different"))
        self.assertIn("\n    mend: a copy if different, beside restat = 1\n", it.told("second", "first")[1])

    def test_what_no_cutoff_saves(self):
        """A command with a reason of its own, one behind other bytes, and one that waits for an order alone."""
        text = statement("same", "cut -c1 in > same", "in") + statement("other", "cat in > other", "in") \
            + statement("own", "cat same s > own", "same s") \
            + statement("behind", "cat same other > behind", "same other") \
            + statement("gone", "cat same > gone", "same") + statement("order", "cat s > order", "s || same")
        it = self.made(text, {"build/in": "1a\n", "build/s": "s\n"})
        it.build_as("first")
        it.write("in", "1b\n")
        (it.build / "s").touch()
        (it.build / "gone").unlink()
        it.build_as("second")
        found = it.reuse("second", "first")
        self.assertEqual((set(found.commands), found.saved()),
                         ({"same", "other", "own", "behind", "gone", "order"}, set()))
        self.assertEqual(found.of("served"), {"own", "gone", "order"})

    def test_a_cutoff_that_would_leave_a_file_stale(self):
        """A command reads what it does not declare: without a new input it would not run."""
        it = self.made(statement("gen", "cut -c1 in > gen", "in") + statement("a", "cat gen hidden > a", "gen"),
                       {"build/in": "1a\n", "build/hidden": "1\n"})
        it.build_as("first")
        it.write("in", "1b\n")
        it.write("hidden", "2\n")
        it.build_as("second")
        found = it.reuse("second", "first")
        self.assertEqual((found.saved(), found.end["stale"], found.of("had to run")), (set(), 1, {"a"}))
        self.assertIn("  1 command would not have run either, and would then be stale", it.told("second", "first")[1])

    def test_several_rules_together(self):
        rules = "".join(map(RULE_OF.format, ("one", "two", "use")))
        it = self.made("build x: one in\n  c = cut -c1 in > x\nbuild y: two in\n  c = cut -c1 in > y\n"
                       "build a: use x\n  c = cat x > a\nbuild b: use x y\n  c = cat x y > b\n", {"build/in": "1a\n"},
                       rules=rules)
        it.build_as("first")
        it.write("in", "1b\n")
        it.build_as("second")
        found = it.reuse("second", "first")
        self.assertEqual((found.saved(), found.end["several"]["commands"]), ({"a", "b"}, 1))
        self.assertEqual({name: one["commands"] for name, one in found.rules.items()}, {"one": 1, "two": 0})
        self.assertIn("by several rules together: b (build.ninja:13)\n", it.told("second", "first")[1])

    def test_a_build_in_between_that_was_not_recorded(self):
        """What stood there is not what the recording left, and nothing is said of it."""
        it = self.made(statement("gen", "cut -c1 in > gen", "in") + statement("a", "cat gen > a", "gen"),
                       {"build/in": "1a\n"})
        it.build_as("first")
        it.write("in", "2b\n")
        it.ninja()
        it.write("in", "1b\n")
        it.build_as("second")
        found = it.reuse("second", "first")
        self.assertEqual((found.of("served"), found.of("same bytes"), found.saved()), ({"a"}, {"gen"}, set()))

    def test_builds_by_chance(self):
        """With all rules mended a real Ninja runs the commands that ran, without those that are saved."""
        for seed in SEEDS:
            chance = random.Random(seed)
            edges = []
            for number in range(12):
                known = [f"s{it}" for it in range(4)] + [f"o{it}" for it in range(number)]
                edges.append((chance.sample(known, min(len(known), chance.randint(1, 3))), chance.choice((1, 2, 9))))
            text = "".join(f"build o{number}: r {' '.join(inputs)}\n  width = {width}\n"
                           for number, (inputs, width) in enumerate(edges))
            rules = "rule r\n  command = sh tool $out $width $in\n"
            it = self.made(text, {f"build/s{number}": f"{number}abcdefgh\n" for number in range(4)}, rules=rules)
            it.write("tool", 'o="$1"; w="$2"; shift 2; cat "$@" | cut -c1-$w > "$o.new"; set -- "$o"\n')
            tool = (it.build / "tool").read_text()
            it.write("tool", tool + 'mv "$1.new" "$1"\n')
            it.build_as("first")
            for number in chance.sample(range(4), 2):
                at = chance.choice((1, 2, 7))
                line = (it.build / f"s{number}").read_text()
                it.write(f"s{number}", line[:at] + chance.choice(("x", line[at])) + line[at + 1 :])
            subprocess.run(["cp", "-a", str(it.build), str(it.room / "before")], check=True)
            it.build_as("second")
            found = it.reuse("second", "first")
            it.write("tool", tool)
            ran = self.mended(it, "before", rules + "  restat = 1\n" + text, "tool")
            self.assertEqual(len(found.commands) - len(found.saved()), ran, (seed, found.verdicts(), found.saved()))
            same = it.same_files("second", "first")
            self.assertLessEqual(found.of("served") | found.saved() | found.of("same bytes"), same, seed)
            self.assertFalse(found.of("had to run") & same, seed)
            self.assertEqual(found.of("not judged"), set())


if __name__ == "__main__":
    unittest.main()
