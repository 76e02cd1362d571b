"""What docs/NINJA.md tells of differences, as builds and manifests that can be run."""

from __future__ import annotations

import pathlib
import shutil
import subprocess
from dataclasses import dataclass

import builds
from builds import Chain
from versions import since

COPY = "rule cp\n  command = cp $in $out\n"
LIST = "rule dep\n  command = touch $out && echo '$out: $list' > $out.d\n  depfile = $out.d\n  deps = gcc\n"


class Difference(Chain):
    """A build folder in which Ninja runs a few times before the run that is recorded."""

    def __init__(self, name):
        super().__init__(f"differences/{name}")

    def ninja(self, *words):
        subprocess.run(["ninja", *words], cwd=self.build, stdin=subprocess.DEVNULL, capture_output=True)
        builds.wait_for_another_stamp()

    def touch(self, path):
        self.write(path, (self.build / path).read_bytes())

    def recorded(self, *targets, status=0):
        self.record("recorded", *targets, status=status)
        return self.folder


def failed_command_that_left_its_output():
    it = Difference("failed_command_that_left_its_output")
    it.write("build.ninja", "rule two\n  command = cat $in > $out && ! grep -q bad $in\nbuild o: two s\n")
    it.write("s", "good")
    it.ninja()
    it.write("s", "bad")
    it.ninja()
    return it.recorded(status=1)


def failed_restat_command_that_left_its_output():
    it = Difference("failed_restat_command_that_left_its_output")
    it.write("build.ninja", "rule two\n  command = cat $in > $out && ! grep -q bad $in\n  restat = 1\nbuild o: two s\n")
    it.write("s", "good")
    it.ninja()
    it.write("s", "bad")
    it.ninja()
    it.write("s", "good again")
    it.touch("o")
    return it.recorded()


def failed_post_build_step():
    it = Difference("failed_post_build_step")
    it.write("src/CMakeLists.txt", "cmake_minimum_required(VERSION 3.13)\nproject(o C)\nadd_executable(o o.c)\n"
             "add_custom_command(TARGET o POST_BUILD COMMAND test ! -e ${CMAKE_SOURCE_DIR}/stop)\n")
    it.write("src/o.c", "int main(void) { return 0; }\n")
    subprocess.run(["cmake", "-G", "Ninja", "-S", it.build / "src", "-B", it.build], check=True, capture_output=True)
    it.ninja()
    it.write("src/o.c", "int main(void) { return 1; }\n")
    it.write("src/stop", "")
    it.ninja()
    (it.build / "src/stop").unlink()
    return it.recorded()


def input_and_output_touched():
    it = Difference("input_and_output_touched")
    it.write("build.ninja", COPY + "build o: cp s\n")
    it.write("s", "s")
    it.ninja()
    it.touch("s")
    it.touch("o")
    return it.recorded()


def restat_behind_a_phony_edge():
    it = Difference("restat_behind_a_phony_edge")
    it.write("build.ninja", COPY + "rule keep\n  command = test -e $out || echo 1 > $out\n  restat = 1\n"
             "build a: cp s\nbuild all: phony a\nbuild o: keep all\n")
    it.write("s", "1")
    it.ninja()
    it.write("s", "2")
    it.ninja()
    return it.recorded()


def two_outputs_of_one_record():
    it = Difference("two_outputs_of_one_record")
    it.write("build.ninja", "rule two\n  command = touch x; sleep .02; touch s; sleep .02; touch y\n  restat = 1\n"
             "build x y: two s\n")
    it.write("s", "1")
    it.ninja()
    return it.recorded()


def old_list_with_a_missing_header():
    it = Difference("old_list_with_a_missing_header")
    it.write("build.ninja", COPY + LIST + "build g: cp s\nbuild o: dep t\n  list = g\n")
    it.write("s", "s")
    it.write("t", "t")
    it.ninja("g")
    it.ninja("o")
    it.touch("o")
    (it.build / "g").unlink()
    return it.recorded("o")


def old_list_that_leads_back():
    it = Difference("old_list_that_leads_back")
    it.write("build.ninja", COPY + LIST + "build o: dep t\n  list = p\nbuild p: cp o\n")
    it.write("t", "t")
    it.ninja("o")
    it.touch("o")
    return it.recorded("o")


def phony_edge_with_one_of_two_outputs():
    it = Difference("phony_edge_with_one_of_two_outputs")
    it.write("build.ninja", COPY + "build a b: phony\nbuild o: cp a\n")
    it.write("a", "a")
    it.ninja("o")
    return it.recorded("o")


def order_only_source_gone():
    it = Difference("order_only_source_gone")
    it.write("build.ninja", COPY + "build o: cp s || t\n")
    it.write("s", "s")
    it.write("t", "t")
    it.ninja()
    (it.build / "t").unlink()
    return it.recorded()


def missing_source_as_target():
    it = Difference("missing_source_as_target")
    it.write("build.ninja", COPY + "build o: cp s\n")
    return it.recorded("s", status=1)


def variable_of_the_file():
    it = Difference("variable_of_the_file")
    it.write("build.ninja", "command = echo wrong\n" + COPY + "build o: cp s\n")
    it.write("s", "s")
    return it.recorded()


def missing_header_that_one_target_forgives():
    it = Difference("missing_header_that_one_target_forgives")
    it.write("build.ninja", COPY + LIST + "build o: dep s\n  list = h\nbuild p: cp h\n")
    it.write("s", "s")
    it.write("h", "h")
    it.ninja("o", "p")
    (it.build / "h").unlink()
    return it.recorded("o", "p", status=1)


def depfile_without_deps():
    it = Difference("depfile_without_deps")
    it.write("build.ninja", "rule cc\n  command = cp $in $out && echo '$out: $in h' > $out.d\n  depfile = $out.d\n"
             "build o: cc s\n")
    it.write("s", "s")
    it.write("h", "h")
    it.ninja()
    it.write("h", "h again")
    return it.recorded()


def missing_header_that_another_edge_has_as_a_source():
    it = Difference("missing_header_that_another_edge_has_as_a_source")
    it.write("build.ninja", COPY + LIST + "build o: dep s\n  list = h\nbuild p: cp h\n")
    it.write("s", "s")
    it.write("h", "h")
    it.ninja("o", "p")
    (it.build / "h").unlink()
    return it.recorded("o", status=1 if since((1, 12)) else 0)


def input_written_while_its_user_ran():
    it = Difference("input_written_while_its_user_ran")
    it.write("build.ninja", "rule copy\n  command = sleep .05; cat $in > $out; touch s; sleep .05; touch $out\n"
             "build o: copy s\n")
    it.write("s", "s")
    it.ninja()
    return it.recorded()


# what records it -> the reason that rebug gives, where the opening has the stamp of the log
OLDER = {
    "failed_command_that_left_its_output": "why o older o s",
    "failed_restat_command_that_left_its_output": "why o older o s",
    "failed_post_build_step": "why o older o CMakeFiles/o.dir/o.c.o",
    "input_and_output_touched": "why o older o s",
    **({"input_written_while_its_user_ran": "why o older o s"} if since((1, 12)) else {}),
}
NEEDS = {"failed_post_build_step": ("ninja", "cmake", "cc")}


@dataclass(frozen=True)
class Row:
    """What is seen of a build: the numbers of rebug's first refusal, the first event that Ninja ran, and whether the
    recorder says that the rules differ (it does not where both refuse)."""

    refusal: tuple | None = None
    event: str | None = "start o 0"
    is_told: bool = True


# what records it, what is seen of it, and what is seen of it from Ninja 1.12 on where that is something else
ROWS = (
    (failed_command_that_left_its_output, Row()),
    (failed_restat_command_that_left_its_output, Row()),
    (failed_post_build_step, Row()),
    (input_and_output_touched, Row()),
    (restat_behind_a_phony_edge, Row(), Row(event=None)),
    (two_outputs_of_one_record, Row(event=None)),
    (old_list_with_a_missing_header, Row((68, 1))),
    (old_list_that_leads_back, Row((53, 0))),
    (phony_edge_with_one_of_two_outputs, Row((69,))),
    (order_only_source_gone, Row((52, 1, 0), event=None)),
    (missing_source_as_target, Row(event=None)),
    (missing_header_that_one_target_forgives, Row((52, 0, 1)), Row((52, 0, 1), event=None, is_told=False)),
    (missing_header_that_another_edge_has_as_a_source, Row(), Row(event=None)),
    (depfile_without_deps, Row()),
    (variable_of_the_file, Row()),
    (input_written_while_its_user_ran, Row(event=None), Row()),
)
# name -> (what records it, what is seen of it with the Ninja on the PATH)
BUILDS = {make.__name__: (make, rows[-1] if since((1, 12)) else rows[0]) for make, *rows in ROWS}


def lacking(name):
    """A sentence that says which tools the difference wants and this machine has not, or None."""
    return builds.missing_tools(*NEEDS.get(name, ("ninja",)))


def made(name):
    """The folder of the recorded difference, which is made where it is not there yet."""
    folder = builds.recordings() / "differences" / name
    if (folder / "recorded.expected").exists():
        return folder
    shutil.rmtree(folder, ignore_errors=True)
    return BUILDS[name][0]()


RULE = "rule r\n  command = touch $out\n"
POOL = RULE + "build o: r\n  pool = p\n"
RAN = "[1/1] "
TAKEN = "1 1 ok"

# name -> (manifest, what Ninja says, what rebug reports of it and of a plan)
LINES = {
    "empty line in a block": ("rule r\n  command = touch $out\n\n  description = d\nbuild o: r\n", "unexpected indent",
                              TAKEN),
    "empty command": ("rule r\n  command =\nbuild o: r\n", "expected 'command =' line", TAKEN),
    "rspfile alone": (RULE + "  rspfile = x\nbuild o: r\n", "need to be both specified", TAKEN),
    "no last line end": (RULE + "build o: r", "unexpected EOF", TAKEN),
    "default above": (RULE + "default o\nbuild o: r\n", "unknown target 'o'", TAKEN),
    "default of an unknown path": (RULE + "build o: r\ndefault x\n", "unknown target 'x'", "1 1 refused 51 0"),
    "empty depth": ("pool p\n  depth =\n" + RULE + "build o: r\n", RAN, "fault manifest build.ninja 1 19"),
    "blank in a depth": ("pool p\n  depth = 1 \n" + RULE + "build o: r\n", RAN, "fault manifest build.ninja 1 19"),
    "letter in a depth": ("pool p\n  depth = 3x\n" + RULE + "build o: r\n", RAN, "fault manifest build.ninja 1 19"),
    "large depth": ("pool p\n  depth = 1000001\n" + RULE + "build o: r\n", RAN, "fault manifest build.ninja 1 19"),
    "dollar in a keyword": (RULE + "bu$\nild o: r\n", "expected '='", TAKEN),
    "dollar alone": (RULE + "$\nbuild o: r\n", "lexing error", TAKEN),
    "dyndep": (RULE + "build o: r || d\n  dyndep = d\nbuild d: r\n", "[1/2] ", "fault manifest build.ninja 3 22"),
    "output twice": (RULE + "build o o: r\n",
                     "o is defined as an output multiple times" if since((1, 12)) else "multiple rules generate o",
                     TAKEN),
    "phony edge of itself": (RULE + "build a b: phony a\nbuild o: r a\n", "dependency cycle: a -> a", TAKEN),
    "dots above the root": ("rule r\n  command = : $out\nbuild /../x: r\n", "[1/1] : /../x", TAKEN),
    "phony edge alone": ("build a: phony a\n", "could not determine root nodes", TAKEN),
    "pool below its use": (POOL + "pool p\n  depth = 1\n", "unknown pool name", TAKEN),
    "pool set later": (RULE + "  pool = $x\nx =\npool p\n  depth = 1\nbuild o: r\nx = p\n", RAN, TAKEN),
    "cycle elsewhere": (RULE + "build o: r\nbuild x: r y\nbuild y: r x\ndefault o\n", RAN, "fault graph 41 x"),
    "deps without depfile": (RULE + "  deps = gcc\nbuild o: r\n", "makes no sense", TAKEN),
    "other deps": (RULE + "  deps = foo\n  depfile = x\nbuild o: r\n", "unknown deps type", TAKEN),
    "required version": ("ninja_required_version = 99\n" + RULE + "build o: r\n", "incompatible with build file",
                         TAKEN),
    "rule variable twice": ("rule r\n  command = echo $description $description\n  description = d\nbuild o: r\n",
                            RAN if since((1, 12)) else "cycle in rule variables", TAKEN),
}


def ninja_says(manifest, folder):
    """What Ninja writes of a manifest in a folder of its own."""
    (pathlib.Path(folder) / "build.ninja").write_text(manifest)
    done = subprocess.run(["ninja", "-v"], cwd=folder, stdin=subprocess.DEVNULL, capture_output=True, text=True)
    return done.stdout + done.stderr
