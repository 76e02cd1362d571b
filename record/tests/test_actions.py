"""What commands met and do not declare, and their input roots, of builds that a real Ninja ran."""

from __future__ import annotations

import shutil
import unittest

import builds
from actions_builds import Actions, digest_of
from observing import refusal
from shuffled import statement

TOOL = "#!/bin/sh\ncat in > $1\n"
LIBRARY = {"build/lib/libx.so.1.2": "library\n", "build/in": "in\n"}


class Case(unittest.TestCase):
    def setUp(self):
        refused = refusal("own")
        if refused:
            self.skipTest(refused)

    def made(self, text: str, files: dict[str, str] | None = None, is_recorded: bool = True, **how: str) -> Actions:
        it = Actions(text, files, **how)
        self.addCleanup(it.remove)
        if is_recorded:
            it.record()
        return it


class Undeclared(Case):
    def test_a_tool_that_reads_what_nobody_names(self):
        it = self.made(statement("gen.h", "cat table > gen.h", "table") + statement("a", "sh tool.sh a", "tool.sh")
                       + statement("b", "cat gen.h in > b", "in") + statement("c", "cat in > c", "in"),
                       {"build/table": "t\n", "build/in": "in\n", "build/tool.sh": TOOL})
        found = it.actions()
        self.assertEqual((found.status, found.said, found.all_undeclared()), (4, "", {"a": ["in"], "b": ["gen.h"]}))
        (of_a,), (of_b,) = (found.actions[name]["undeclared"] for name in "ab")
        self.assertEqual(of_a, {"path": "in", "how": "read", "named": False, "maker": None, "names": None})
        self.assertEqual((of_b["maker"], of_b["named"]),
                         ({"output": "gen.h", "file": "build.ninja", "line": 3}, True))
        self.assertEqual(found.end, {"kind": "actions", "commands": 4, "undeclared": 2, "flagged": 0, "unobserved": 0})
        self.assertEqual([it.actions(name).status for name in ("c", "a")], [0, 4])

    def test_words(self):
        it = self.made(statement("gen.h", "cat table > gen.h", "table")
                       + statement("a", "cat gen.h > a; test -e table; ls d > a2") + statement("b", "cat gen.h > b"),
                       {"build/table": "t\n", "build/d/x": "x\n"}, is_recorded=False)
        it.record("-j", "1")
        status, said = it.told()
        lines = said.splitlines()
        self.assertEqual((status, lines[:7]), (4, [
            "2 of 3 commands met files of the project that they do not declare",
            "a (build.ninja:5) met 3 that it does not declare",
            "  asked for table; its command names it",
            "  read gen.h, which gen.h (build.ninja:3) makes; its command names it",
            "  read the names in d: 1, and 0 by what it declares",
            "b (build.ninja:7) met 1 that it does not declare",
            "  read gen.h, which gen.h (build.ninja:3) makes; its command names it"]), said)
        size = r"1 file \(2 bytes\) of the project, \d+ files \([\d,]+ bytes\) of the system\Z"
        self.assertRegex(lines[7], r"\Amedian input root: \w+(\.h)? \(build\.ninja:\d\): " + size)
        self.assertRegex(lines[8], r"\Agreatest input root: a \(build\.ninja:5\): "
                                   r"1 file \(2 bytes\) and 1 of unknown size of the project, ")
        self.assertEqual(len(lines), 9, said)

    def test_what_statements_and_lists_declare(self):
        """Implicit and order-only inputs, what a phony statement stands for, and a depfile."""
        rules = "rule r\n  command = $c\nrule d\n  command = $c\n  depfile = d.d\n"
        it = self.made("build a: r i | j || k\n  c = cat i j k > a\nbuild g: phony h l\nbuild h: phony m\n"
                       "build b: r || g\n  c = cat l m > b\n"
                       "build d: d i\n  c = cat i n > d && echo d: i n > d.d\n",
                       {f"build/{name}": name for name in "ijklmn"}, rules=rules)
        found = it.actions()
        self.assertEqual((found.status, found.all_undeclared(), list(found.actions)), (0, {}, ["a", "b", "d"]), found)
        self.assertIn("0 of 3 commands met files of the project that they do not declare\n", it.told()[1])

    def test_a_list_of_the_deps_log(self):
        if lacking := builds.missing_tools("gcc"):
            self.skipTest(lacking)
        rules = "rule cc\n  command = gcc -MD -MF $out.d -c $in -o $out\n  deps = gcc\n  depfile = $out.d\n"
        it = self.made("build m.o: cc m.c\n", {"build/m.c": '#include "v.h"\n', "build/v.h": "int n;\n"}, rules=rules)
        found = it.actions()
        self.assertEqual((found.status, set(found.files("m.o"))), (0, {"m.c", "v.h"}), found)
        self.assertEqual(found.files("m.o")["v.h"]["digest"], digest_of(b"int n;\n"))

    def test_a_library_behind_a_link(self):
        """The name that a statement has leads to the library; who has no such name met the links and the library."""
        it = self.made(statement("a", "cat lib/libx.so > a", "lib/libx.so") + statement("b", "cat lib/libx.so > b")
                       + statement("c", "cat lib/libx.so > c", "lib/libx.so.1.2")
                       + statement("d", "cat library/libx.so.1.2 > d", "library/libx.so.1.2"), LIBRARY,
                       is_recorded=False)
        for name, target in (("lib/libx.so", "libx.so.1"), ("lib/libx.so.1", "libx.so.1.2"), ("library", "lib")):
            (it.build / name).symlink_to(target)
        it.record()
        found = it.actions()
        links = {"lib/libx.so": "link", "lib/libx.so.1": "link"}
        self.assertEqual({name: found.undeclared(name) for name in "abcd"},
                         {"a": {}, "b": {**links, "lib/libx.so.1.2": "read"}, "c": links, "d": {}})
        self.assertEqual(found.links("a"), {"lib/libx.so": "libx.so.1", "lib/libx.so.1": "libx.so.1.2"})
        self.assertEqual(found.links("d"), {"library": "lib"})
        self.assertEqual(set(found.files("b")), {"lib/libx.so.1.2"})

    def test_a_listing(self):
        """The names in a folder are declared where the command declares a file below each, and no others."""
        files = {"build/d/x": "", "build/d/y/z": "", "build/e/x": ""}
        it = self.made(statement("a", "ls d > a", "d/x d/y/z") + statement("b", "ls d > b", "d/x")
                       + statement("c", "mkdir f; echo x > f/x; ls f > c"), files)
        found = it.actions()
        self.assertEqual((found.all_undeclared(), found.undeclared("b")), ({"b": ["d"]}, {"d": "listed"}))
        self.assertEqual(found.actions["b"]["undeclared"][0]["names"], 2)
        self.assertIn("  read the names in d: 2, and 1 by what it declares\n", it.told("b")[1])

    def test_an_output_from_an_earlier_build(self):
        """What a command leaves itself is an input where it read it, or changed it in place."""
        it = self.made(statement("a", "cat in > n; cmp -s n a || cp n a", "in") + statement("b", "cat in >> b", "in")
                       + statement("c", "rm -f c; cat in > c", "in"), {"build/in": "in\n"}, is_recorded=False)
        it.ninja()
        (it.build / "in").write_text("other\n")
        it.record()
        found = it.actions()
        self.assertEqual((found.undeclared("a"), found.undeclared("b"), found.undeclared("c")),
                         ({"a": "read", "n": "edited"} if "n" in found.undeclared("a") else {"a": "read"},
                          {"b": "edited"}, {}))
        self.assertIn("  changed b in place, which it left there itself before; its command names it\n", it.told()[1])

    def test_what_filters_name_is_no_input(self):
        it = self.made(statement("a", "cat x.pyc __pycache__/y > a"),
                       {"build/x.pyc": "x", "build/__pycache__/y": "y"})
        found = it.actions()
        self.assertEqual((found.status, found.files("a")), (0, {}))
        (it.out / "filters").write_text("# none\n")
        self.assertEqual(set(it.actions().undeclared("a")), {"x.pyc", "__pycache__/y"})
        (it.out / "filters").write_text("x*c\n__pyc*he__/y\n/etc\n")
        self.assertEqual(it.actions().status, 0)

    def test_commands_that_failed_and_that_were_not_observed_whole(self):
        """A command that speaks to a socket may have met more, and a sentence says so."""
        it = self.made(statement("a", "cat in > a; false", "in") + statement("b", "cat in > b", "in"),
                       {"build/in": "in\n"}, is_recorded=False)
        it.record("-k", "0")
        found = it.actions()
        self.assertEqual([found.actions[name]["failed"] for name in "ab"], [True, False])
        observed = (it.out / "observed").read_bytes()
        it.rewrite(observed[: observed.rindex(b"end ")].replace(b"\nedge b\n", b"\nedge b\nflag socket bind a @x\n"))
        self.assertEqual(it.actions().end["flagged"], 1)
        self.assertIn("1 command may have met more, since not all was observed: b (build.ninja:5)\n", it.told()[1])


class Roots(Case):
    def test_what_an_action_has(self):
        rules = "rule r\n  command = $c\nrule s\n  command = $c\n  rspfile = $out.rsp\n  rspfile_content = $in x\n"
        it = self.made(statement("a", "./tool.sh a; ln -s in l; chmod +x a", "tool.sh in")
                       + "build s.o: s in\n  c = cat s.o.rsp > s.o\n",
                       {"build/in": "in\n", "build/tool.sh": TOOL}, is_recorded=False, rules=rules)
        (it.build / "tool.sh").chmod(0o755)
        it.record()
        found = it.actions()
        self.assertEqual(found.files("a"), {
            "in": {"path": "in", "digest": digest_of(b"in\n"), "size_bytes": 3, "is_executable": False},
            "tool.sh": {"path": "tool.sh", "digest": digest_of(TOOL.encode()), "size_bytes": len(TOOL),
                        "is_executable": True}})
        self.assertEqual(found.files("a", "outputs"), {
            "a": {"path": "a", "digest": digest_of(b"in\n"), "size_bytes": 3, "is_executable": True}})
        self.assertEqual(found.links("a", "outputs"), {"l": "in"})
        self.assertEqual((found.actions["a"]["output_paths"], found.actions["a"]["arguments"]),
                         (["a"], ["/bin/sh", "-c", "./tool.sh\\sa;\\sln\\s-s\\sin\\sl;\\schmod\\s+x\\sa"]))
        self.assertEqual(found.files("s.o")["s.o.rsp"]["digest"], digest_of(b"in x"))
        self.assertTrue(all(it["path"].startswith("/") for it in found.actions["a"]["system"]["files"]))
        self.assertEqual(found.build["build"], str(it.build))
        self.assertIn("PATH", [it["name"] for it in found.build["environment"]])

    def test_nothing_outside_of_the_recording_counts(self):
        """The recording alone answers: the files are others, and then the project is gone."""
        it = self.made(statement("a", "cat in more > a", "in"), {"build/in": "in\n", "build/more": "more\n"})
        before = it.actions()
        (it.build / "in").write_text("others\n")
        self.assertEqual(it.actions(), before)
        shutil.rmtree(it.build)
        self.assertEqual(it.actions(), before)
        self.assertEqual(before.files("a")["in"]["size_bytes"], 3)

    def test_bytes_that_are_not_certain_have_no_size(self):
        it = self.made(statement("a", "cat in > a", "in"), {"build/in": "in\n"})
        it.doubt("a", "in")
        self.assertEqual(it.actions().files("a"), {
            "in": {"path": "in", "digest": None, "size_bytes": None, "is_executable": None}})
        self.assertIn(": 0 files (0 bytes) and 1 of unknown size of the project, ", it.told()[1])


if __name__ == "__main__":
    unittest.main()
