"""Mends in the files of CMake, Meson and GN: by real generators where they are there, with a stand-in for the program
that tells races."""

from __future__ import annotations

import concurrent.futures
import json
import os
import pathlib
import shutil
import signal
import subprocess
import sys
import tempfile
import time
import unittest

import builds
from builds import missing_tools
from mended import MEND, PROJECTS, Made, Project, Result, mends_in, tried
from recorder.generator.applying import NotWritten, write_all
from recorder.generator.edits import Edit, How, NoPlace, edited
from recorder.generator.words import BadWords, HelpWanted, Options, read_words
from test_provoked import why_no_copy

sys.path.insert(0, str(pathlib.Path(__file__).resolve().parents[2] / "tests"))
from json_schema import kinds_of, misfits  # noqa: E402

LACKING = missing_tools("ninja", "cc") or why_no_copy()
# The projects that no edit mends, or not all of which it does.
LEFT = {"c08-external-project", "m12-private-header", "n09-later-folder-meson", "g01-deps-and-a-template"}
AT_ONCE = 3


class Words(unittest.TestCase):
    def test_what_each_word_asks_for(self):
        self.assertEqual(read_words(["b", "r"]), Options("b", "r"))
        self.assertEqual(read_words(["b", "--json", "r", "3", "--apply", "1", "3"]),
                         Options("b", "r", [1, 3], apply=True, json=True))
        self.assertEqual(read_words(["b", "r", "--rebug", "p"]), Options("b", "r", rebug="p"))
        with self.assertRaises(HelpWanted) as caught:
            read_words(["-h"])
        self.assertIn("exit status:", str(caught.exception))

    def test_words_that_are_not_taken_are_named(self):
        for words, said in ((["b"], "wants a build folder and a recording"), ([], "wants a build folder"),
                            (["b", "r", "0"], "from 1"), (["b", "r", "x"], "from 1"),
                            (["b", "r", "9" * 5000], "from 1"), (["b", "r", "--appl"], "--appl is not a word")):
            with self.subTest(words=words[:3]), self.assertRaises(BadWords) as caught:
                read_words(words)
            self.assertIn(said, str(caught.exception))

    def test_the_launcher_hands_its_words_on(self):
        launcher = MEND.parent.parent / "rebug"
        done = [subprocess.run([*words, "--help"], capture_output=True, text=True) for words in
                ([launcher, "mend"], [launcher, "help", "mend"], [sys.executable, MEND])]
        self.assertEqual({(it.returncode, it.stdout[:23]) for it in done}, {(0, "usage: rebug mend BUILD")})


class Edits(unittest.TestCase):
    """What becomes of a text."""

    def hold(self, name: str, before: str, after: str, *edits: Edit) -> None:
        self.assertEqual(edited({name: before}, edits), {name: after})

    def of_cmake(self, before: str, after: str, *edits: tuple) -> None:
        self.hold("L", before, after, *(Edit("L", *it[:3], **it[3]) for it in edits))

    def of_meson(self, before: str, after: str, *edits: tuple) -> None:
        self.hold("m", before, after, *(Edit("m", *it[:3], **it[3]) for it in edits))

    def test_a_line_behind_a_call(self):
        self.of_cmake("if(A)\n  add(x\n    y)\nendif()", "if(A)\n  add(x\n    y)\n  new()\nendif()",
                      (2, How.AFTER, "new()", {"end": 3}))
        self.of_cmake("add(x)", "add(x)\nnew()\n", (1, How.AFTER, "new()", {"end": 1}))
        self.of_cmake("add(x)\r\nb()\r\n", "add(x)\r\nnew()\r\nb()\r\n", (1, How.AFTER, "new()", {"end": 1}))
        self.of_cmake("a()\n", "a()\nx()\ny()\n", (1, How.AT_END, "x()", {}), (1, How.AT_END, "y()", {}))

    def test_words_before_the_end_of_a_command(self):
        words = (1, How.WORDS, "D x", {"call": "add"})
        self.of_cmake('ADD(a ")" # )\n b)\n', "ADD(a \")\" # )\n b\n D x)\n", words)
        self.of_cmake("add(a)\n", "add(a D x)\n", words)
        self.of_cmake("add(\n  a # no\n)\n", "add(\n  a # no\n  D x\n)\n", words)

    def test_an_argument_of_meson(self):
        source = (1, How.SOURCE, "v", {"call": "exe"})
        self.of_meson("exe('a,b', 'c')\n", "exe('a,b', v, 'c')\n", source)
        self.of_meson("exe('a', # x, y\n  c)\n", "exe('a', v, # x, y\n  c)\n", source)

    def test_a_keyword_of_meson(self):
        key = (1, How.KEYWORD, "v", {"call": "t", "key": "depends"})
        other = (1, How.KEYWORD, "w", {"call": "t", "key": "depends"})
        self.of_meson("t('a')\n", "t('a', depends: v)\n", key)
        self.of_meson("t('a')\n", "t('a', depends: [v, w])\n", key, other)
        self.of_meson("t('a', depends: [])\n", "t('a', depends: [v])\n", key)
        self.of_meson("t('a', depends: [x, y])\n", "t('a', depends: [v, w, x, y])\n", key, other)
        self.of_meson("t('a', depends: x + y)\n", "t('a', depends: [v, x + y])\n", key)
        self.of_meson("t('a',\n  k: [b,\n      c], # no\n)\n",
                      "t('a',\n  k: [b,\n      c],\n  depends: v, # no\n)\n", key)

    def test_a_declaration_that_gets_a_name_and_goes_up(self):
        self.of_meson("a()\nt('x',\n  1)\nb()\n", "v = t('x',\n  1)\na(v)\nb()\n".replace("a(v)", "a()"),
                      (2, How.NAME, "v", {"call": "t"}), (2, How.MOVE, "", {"end": 3, "to": 1}))

    def test_deps_of_gn(self):
        deps = Edit("g", 1, How.DEPS, '":v"')
        self.hold("g", 'x("a") {\n  s = 1\n}\n', 'x("a") {\n  s = 1\n  deps = [ ":v" ]\n}\n', deps)
        self.hold("g", 'x("a") {\n  deps = [ ":b" ]\n}\n', 'x("a") {\n  deps = [ ":b" ]\n  deps += [ ":v" ]\n}\n', deps)
        self.hold("g", 'x("a") { }\n', 'x("a") {  deps = [ ":v" ] }\n', deps)

    def test_what_has_no_place_is_said(self):
        for name, text, edit in (("L", "add(a) add(b)\n", Edit("L", 1, How.WORDS, "x", call="add")),
                                 ("m", "x = t('a')\n", Edit("m", 1, How.NAME, "v", call="t")),
                                 ("m", "t()\n", Edit("m", 1, How.SOURCE, "v", call="t")),
                                 ("m", "a()\nt('a')", Edit("m", 2, How.MOVE, end=2, to=1)),
                                 ("g", 'x("a") {\n  if (b) {\n    deps = []\n  }\n}\n', Edit("g", 1, How.DEPS, '":v"')),
                                 ("g", "x(1)\n", Edit("g", 1, How.DEPS, '":v"'))):
            with self.subTest(text=text), self.assertRaises(NoPlace):
                edited({name: text}, [edit])


class Applying(unittest.TestCase):
    """Files are written only where they are as they were read, with a copy beside."""

    def setUp(self) -> None:
        self.room = pathlib.Path(os.path.realpath(tempfile.mkdtemp(prefix="rebug-mend-")))
        self.addCleanup(shutil.rmtree, self.room, True)
        self.file, self.other = self.room / "a", self.room / "b"
        self.file.write_bytes(b"old\xff\r\n")
        self.other.write_text("old b\n")
        self.old = {str(self.file): "old\udcff\r\n", str(self.other): "old b\n"}
        self.new = {str(self.file): "new\udcff\r\n", str(self.other): "new b\n"}

    def names(self) -> list[str]:
        return sorted(it.name for it in self.room.iterdir())

    def test_each_has_a_copy_beside_it(self):
        self.file.chmod(0o640)
        (self.room / "a.before-mend").write_text("mine")
        written = write_all(self.old, self.new)
        self.assertEqual([os.path.basename(it.copy) for it in written], ["a.before-mend-2", "b.before-mend"])
        self.assertEqual((self.file.read_bytes(), self.file.stat().st_mode & 0o777), (b"new\xff\r\n", 0o640))
        self.assertEqual((self.room / "a.before-mend-2").read_bytes(), b"old\xff\r\n")
        self.assertEqual((self.room / "a.before-mend").read_text(), "mine")
        self.assertEqual(self.names(), ["a", "a.before-mend", "a.before-mend-2", "b", "b.before-mend"])

    def test_where_one_was_changed_none_is_written(self):
        for change in (lambda: self.other.write_text("else"), self.other.unlink, lambda: self.other.mkdir()):
            change()
            with self.assertRaisesRegex(NotWritten, "nothing was written"):
                write_all(self.old, self.new)
            self.assertEqual(self.file.read_bytes(), b"old\xff\r\n")
            self.assertEqual([it for it in self.names() if it != "b"], ["a"])

    def test_a_link_is_written_where_it_leads(self):
        (self.room / "in").mkdir()
        self.file.rename(self.room / "in/real")
        self.file.symlink_to("in/real")
        write_all(self.old, {str(self.file): "new"})
        self.assertEqual((self.file.is_symlink(), (self.room / "in/real").read_text()), (True, "new"))

    def test_a_name_that_is_taken_is_not_written_over(self):
        (self.room / "a.rebug-new").write_text("mine")
        with self.assertRaisesRegex(NotWritten, "a cannot be written: File exists; nothing was written"):
            write_all(self.old, self.new)
        self.assertEqual((self.room / "a.rebug-new").read_text(), "mine")


@unittest.skipIf(LACKING, LACKING or "")
class Projects(unittest.TestCase):
    """Each project's flake is mended by the edit that is due: in the answer, and in the next build."""

    results: dict[str, Result] = {}

    @classmethod
    def setUpClass(cls) -> None:
        keep = builds.recordings() / "mends"
        chosen = {name: it for name, it in PROJECTS.items() if not missing_tools(it.tool)}
        with concurrent.futures.ThreadPoolExecutor(AT_ONCE) as pool:
            running = {name: pool.submit(tried, name, it, keep) for name, it in chosen.items()}
        cls.results = {name: it.result() for name, it in running.items()}

    def each(self, begin: str) -> list[Result]:
        found = [it for name, it in self.results.items() if name.startswith(begin)]
        if not found:
            tools = {it.tool for name, it in PROJECTS.items() if name.startswith(begin)}
            self.skipTest(missing_tools(*tools) or "")
        return found

    def test_the_edit_is_the_one_that_is_due(self):
        for it in self.each(""):
            with self.subTest(project=it.name):
                self.assertEqual(sorted(it.lines), sorted(PROJECTS[it.name].due), it.answer)
                self.assertEqual(it.status, 4 if it.name in LEFT else 0)

    def test_nothing_is_changed_before_it_is_to_be_applied(self):
        for it in self.each(""):
            with self.subTest(project=it.name):
                self.assertTrue(it.is_unchanged)

    def mended(self, begin: str) -> list[str]:
        return [it.name for it in self.each(begin) if it.built_again == 0 and not it.races_after]

    def test_all_of_cmake_are_mended(self):
        self.assertEqual(self.mended("c"), [it for it in PROJECTS if it.startswith("c")])

    def test_all_of_meson_but_one_are_mended(self):
        self.assertEqual(self.mended("m"), [it for it in PROJECTS if it.startswith("m") and it not in LEFT])

    def test_what_no_edit_mends_says_why_and_what_to_do(self):
        for it in self.each(""):
            if it.name in LEFT:
                self.assertRegex(it.answer, r"\n  no edit: .+\n  in general: .+\n")


@unittest.skipIf(LACKING or missing_tools("cmake"), LACKING or missing_tools("cmake") or "")
class Answers(unittest.TestCase):
    """One project of CMake, asked in several ways."""

    @classmethod
    def setUpClass(cls) -> None:
        cls.made = Made("c02-other-dir", PROJECTS["c02-other-dir"])
        cls.made.configure()
        cls.made.record("before")

    @classmethod
    def tearDownClass(cls) -> None:
        cls.made.remove()

    def told(self, *objects: object) -> pathlib.Path:
        """A program that tells these objects of each recording."""
        text = "".join(f"{json.dumps(it)}\n" for it in objects)
        return self.program(f"#!/bin/sh\ncat <<'END'\n{text}END\nexit 4\n")

    def program(self, text: str) -> pathlib.Path:
        """A program of this text, outside of the project."""
        path = pathlib.Path(tempfile.mkdtemp(prefix="rebug-mend-")) / "program"
        self.addCleanup(shutil.rmtree, path.parent, True)
        path.write_text(text)
        path.chmod(0o755)
        return path

    def race(self, **more: object) -> dict[str, object]:
        return {"kind": "race", "number": 1, "path": "gen/v.h", "maker": {"output": "gen/v.h"}, "declare": None,
                "user": {"output": "src/CMakeFiles/core.dir/core.c.o"}, "mend": "gen/v.h", "list": None, **more}

    def test_words_and_patch(self):
        status, said = self.made.mend()
        self.assertEqual((status, said), (0, """\
race gen/v.h [1]
  made by gen/v.h: custom command gen/v.h (of headers), gen/CMakeLists.txt:1
  used by src/CMakeFiles/core.dir/core.c.o: a compile of core, src/CMakeLists.txt:2
  mend, tried: src/CMakeLists.txt:4: add_dependencies(core headers)
--- src/CMakeLists.txt
+++ src/CMakeLists.txt
@@ -2,5 +2,6 @@
 add_library(core STATIC
   core.c
 )
+add_dependencies(core headers)
 add_executable(app main.c)
 target_link_libraries(app core)
1 mend for 1 finding; 4 pairs of commands have an order that had none
"""))

    def test_objects_are_what_the_schema_says(self):
        status, said = self.made.mend("--json", program=self.told(
            self.race(), self.race(number=2, kind="own"), self.race(number=3, maker={"output": "gone"})))
        found = [json.loads(it) for it in said.splitlines()]
        self.assertEqual((status, [it["kind"] for it in found]), (4, ["mend", "left", "left", "patch", "sum"]))
        self.assertEqual(misfits(said.encode(), "mend"), [])
        self.assertEqual(kinds_of("mend"), {it["kind"] for it in found} | {"mended", "written"})

    def test_numbers_choose(self):
        program = self.told(self.race(), self.race(number=2, kind="own"))
        self.assertEqual(self.made.mend("1", program=program)[0], 0)
        self.assertEqual(self.made.mend("2", program=program)[0], 4)
        status, said = self.made.mend("7", program=program)
        self.assertEqual((status, said), (2, "rebug mend: there is no finding 7 that an edit could be for: the "
                                             "recording has 1, 2\n"))

    def test_what_is_mended_already_is_said(self):
        text = (self.made.top / "src/CMakeLists.txt").read_text()
        self.addCleanup((self.made.top / "src/CMakeLists.txt").write_text, text)
        status, said = self.made.mend("--apply", "--json")
        written = [it for it in map(json.loads, said.splitlines()) if it["kind"] == "written"]
        self.assertEqual(written, [{"kind": "written", "file": "src/CMakeLists.txt",
                                    "copy": "src/CMakeLists.txt.before-mend"}])
        self.assertEqual((self.made.top / "src/CMakeLists.txt.before-mend").read_text(), text)
        self.assertIn("mended already", self.made.mend()[1])
        self.assertEqual(misfits((said + self.made.mend("--json")[1]).encode(), "mend"), [])
        (self.made.top / "src/CMakeLists.txt.before-mend").unlink()

    def test_names_of_a_recording_run_nothing(self):
        bad = ['x) execute_process(COMMAND touch "@/ran") #', "${CMAKE_COMMAND}", "$ENV{HOME}", 'a"b', "a;b", "a\nb",
               "a\\", "[[x]]", "$<1:x>"]
        for name in bad:
            shown = name.replace("@", str(self.made.top)).replace("\\", "\\\\").replace(" ", "\\s").replace("\n", "\\n")
            (self.made.top / "b" / name.split("/")[0]).write_text("")
            self.addCleanup((self.made.top / "b" / name.split("/")[0]).unlink)
            before = self.made.everything()
            for more in ({"list": shown}, {"declare": shown}, {"path": shown}):
                kinds = [self.race(kind="unlisted", maker=None, mend=None, **more), self.race(number=2, **more),
                         self.race(number=3, kind="undeclared", mend=None, **more)]
                program = self.told(*kinds)
                with self.subTest(name=name, more=[*more]):
                    status, said = self.made.mend("--json", program=program)
                    self.assertIn(status, (0, 4), said)
                    self.assertEqual([*self.made.everything()], [*before])
                    for it in map(json.loads, said.splitlines()):
                        for edit in it.get("edits", ()):
                            self.assertEqual(edit["text"], "add_dependencies(core headers)")

    def test_a_file_outside_of_the_build_folder_is_no_output(self):
        status, said = self.made.mend(program=self.told(self.race(
            kind="undeclared", mend=None, maker={"output": "gen/v.h"}, declare=str(self.made.top / "src/core.c"))))
        self.assertEqual(status, 4)
        self.assertIn("`ninja -t clean` would take it away", said)

    def test_a_file_that_the_makers_line_lacks_is_named_there(self):
        status, said = self.made.mend(program=self.told(self.race(kind="undeclared", mend=None, declare="gen/w.h")))
        self.assertEqual((status, mends_in(said)), (0, ["gen/CMakeLists.txt:1: BYPRODUCTS "
                                                        "${CMAKE_CURRENT_BINARY_DIR}/w.h in add_custom_command"]))

    def test_of_two_commands_that_make_one_file_both_places_are_told(self):
        edges = {"first": {"output": "gen/v.h"}, "other": {"output": "src/libcore.a"}}
        status, said = self.made.mend(program=self.told({"kind": "clash", "number": 1, "path": "x", **edges}))
        self.assertEqual(status, 4)
        self.assertIn("give core (src/CMakeLists.txt:2) another output, by a name of its own, and have who reads it "
                      "name that; the other one is gen/v.h (gen/CMakeLists.txt:1)", said)

    def test_a_use_that_the_scanner_of_modules_misses_is_no_edit(self):
        one = {"output": "src/CMakeFiles/core.dir/core.c.o"}
        status, said = self.made.mend(program=self.told(
            self.race(path="src/core.mod", maker=one, user=one, mend=one["output"], dyndep="src/CXX.dd")))
        self.assertEqual(status, 4)
        self.assertIn("no edit: two compiles of core, which CMake orders by what its scanner sees\n", said)

    def test_letters_that_a_terminal_would_take_for_more_are_shown(self):
        said = self.made.mend(program=self.told(self.race(path="\\x1b[31mx", maker={"output": "\\x1b]0;x\\x07"})))[1]
        self.assertNotIn("\x1b", said)

    def test_bad_input_is_said(self):
        for words, status, said in (
                (["nowhere", "before"], 2, "nowhere is no folder"), (["b", "nowhere"], 2, "there is no recording"),
                (["src", "before"], 3, "cannot read .*src/build.ninja"), (["b", "src"], 1, "")):
            with self.subTest(words=words):
                got = self.made.run(sys.executable, MEND, *words, "--rebug", self.program("#!/bin/sh\nexit 1\n"))
                self.assertEqual(got[0], status)
                self.assertRegex(got[1], rf"\A(rebug mend: .*{said}.*\n)?\Z")
        for text, said in (("[", "not understood"), ('{"kind": "race"}\n[]', "not understood"),
                           ('{"kind": "race", "number": 1, "path": 1}', "not understood"),
                           ("[" * 100_000, "not understood")):
            with self.subTest(text=text[:30]):
                got = self.made.mend(program=self.program(f"#!/bin/sh\ncat <<'END'\n{text}\nEND\n"))
                self.assertEqual((got[0], said in got[1]), (3, True), got[1])
        self.assertEqual(self.made.mend(program="/nowhere")[0], 2)

    def test_sources_that_the_generator_refuses_are_said(self):
        path = self.made.top / "src/CMakeLists.txt"
        text = path.read_text()
        self.addCleanup(path.write_text, text)
        path.write_text(text + "no_such_command()\n")
        status, said = self.made.mend()
        self.assertEqual(status, 3)
        self.assertRegex(said, r"\Arebug mend: CMake refuses the sources in .* as they are: .*no_such_command.*\n\Z")

    def test_a_manifest_of_no_generator_has_another_word(self):
        with tempfile.TemporaryDirectory() as room:
            (pathlib.Path(room) / "build.ninja").write_text("rule r\n  command = r\nbuild a: r\n")
            done = subprocess.run([sys.executable, MEND, room, room], capture_output=True, text=True)
            self.assertEqual(done.returncode, 2)
            self.assertRegex(done.stderr, r"\Arebug mend: no generator that is known here .*`rebug races --mend")

    def test_many_findings_cost_no_more_than_their_number(self):
        begin = time.monotonic()
        program = self.told(*(self.race(number=place + 1, path=f"gen/{place}") for place in range(5_000)))
        status, said = self.made.mend(program=program)
        self.assertEqual(status, 0)
        self.assertIn("of 5000 findings the first 1000 are mended", said)
        self.assertLess(time.monotonic() - begin, builds.LONGEST_SECONDS)

    def test_a_signal_at_any_moment_leaves_all_as_it_was(self):
        before = self.made.everything()
        with tempfile.TemporaryDirectory() as room:
            asked = pathlib.Path(room) / "asked"
            program = self.program(f"#!/bin/sh\n: > {asked}\ncat <<'END'\n{json.dumps(self.race())}\nEND\nexit 4\n")
            for place, number in enumerate((signal.SIGINT, signal.SIGTERM, signal.SIGKILL) * 2):
                asked.unlink(missing_ok=True)
                process = subprocess.Popen([sys.executable, MEND, "b", "before", "--rebug", program], cwd=self.made.top,
                                           env=self.made.environment, stdout=subprocess.PIPE, stderr=subprocess.STDOUT)
                builds.wait_until(asked.exists, "the program was not asked")
                time.sleep(0.1 * place)
                process.send_signal(number)
                said = process.communicate(timeout=builds.LONGEST_SECONDS)[0]
                self.assertIn(process.returncode, (0, 128 + number, -number), said)
                self.assertEqual(self.made.everything(), before)


@unittest.skipIf(LACKING, LACKING or "")
class Folders(unittest.TestCase):
    """Where build and sources stand, and generators that are called in another way."""

    def made(self, name: str, tool: str) -> Made:
        lacking = missing_tools(tool)
        if lacking:
            self.skipTest(lacking)
        it = Made(name, PROJECTS[name])
        self.addCleanup(it.remove)
        return it

    def test_a_build_in_the_folder_of_the_sources(self):
        it = self.made("c02-other-dir", "cmake")
        for words in (["cmake", "-G", "Ninja", "."], ["cmake", "."], ["ninja", "gen/v.h"],
                      [sys.executable, builds.RECORDER, "--observe", ".", "before"]):
            self.assertEqual(it.run(*words)[0], 0)
        (it.top / "program").write_text("#!/bin/sh\ncat <<'END'\n" + json.dumps(
            {"kind": "race", "number": 1, "path": "gen/v.h", "maker": {"output": "gen/v.h"}, "mend": "gen/v.h",
             "user": {"output": "src/CMakeFiles/core.dir/core.c.o"}}) + "\nEND\n")
        (it.top / "program").chmod(0o755)
        status, said = it.run(sys.executable, MEND, ".", "before", "--rebug", it.top / "program", "--apply")
        self.assertEqual((status, mends_in(said)), (0, ["src/CMakeLists.txt:4: add_dependencies(core headers)"]))
        self.assertIn("add_dependencies(core headers)\n", (it.top / "src/CMakeLists.txt").read_text())

    def test_a_meson_that_cannot_be_listened_to(self):
        it = self.made("m02-subdir-no-variable", "meson")
        it.configure()
        it.record("before")
        (it.top / "its-meson").write_text("#!/bin/sh\nexec meson \"$@\"\n")
        (it.top / "its-meson").chmod(0o755)
        path = it.top / "b/build.ninja"
        path.write_text(path.read_text().replace(f"{shutil.which('meson')} --internal",
                                                 f"{it.top}/its-meson --internal"))
        status, said = it.mend()
        self.assertEqual((status, mends_in(said)), (0, PROJECTS[it.name].due), said)


if __name__ == "__main__":
    unittest.main()
