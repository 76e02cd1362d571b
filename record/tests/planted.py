"""Small projects, ten with a fault that shows on some days and two without one, what their commands do, and what
`races` finds in each of their recordings.

`due` has a line for each look of a command at what another command leaves: the edge, the kinds of which one is due (by
the day: who asks first misses what who asks later reads), and the path. Other looks at what others leave are not due.
`changes` has what each command leaves, where that is more than its own outputs; a temporary that another command took
away first is left, as far as its own command knows.
"""

from __future__ import annotations

from dataclasses import dataclass, field

_RULES = """rule python
  command = $python $in $out
  description = PYTHON $out
rule shell
  command = $do
rule compile
  command = cc -I. -MD -MF $out.d -c $in -o $out
  depfile = $out.d
  deps = gcc
"""


@dataclass
class Project:
    """A project: why it is one to try, its build lines and sources, what is due, what is to be found, and the tools
    that it wants."""

    name: str
    why: str
    lines: str
    files: dict[str, str] = field(default_factory=dict)
    due: tuple[str, ...] = ()
    changes: tuple[str, ...] = ()
    found: tuple[str, ...] = ()
    tools: tuple[str, ...] = ()

    def manifest(self, python: str) -> str:
        """The manifest, whose scripts are run by this Python."""
        return f"python = {python}\n{_RULES}{self.lines}"


PROJECTS = (
    Project("script_reads_generated", "a generator reads what another generator makes, and no line says so",
            "build table.h: python gen_table.py\nbuild names.h: python gen_names.py\n",
            {"gen_table.py": "import sys\nopen(sys.argv[1], 'w').write('#define TABLE 3\\n')\n",
             "gen_names.py": "import os, sys\ntext = open('table.h').read() if os.path.exists('table.h') else ''\n"
                             "open(sys.argv[1], 'w').write('#define NAMES\\n' + text)\n"},
            ("names.h reads|misses|stats table.h",), found=("race output read|miss|stat table.h table.h names.h",)),
    Project("undeclared_header", "a header that no line makes is included by a compile that waits for nothing",
            "build gen.stamp: python gen.py\nbuild main.o: compile main.c\n",
            {"gen.py": "import sys\nopen('extra.h', 'w').write('#define X 1\\n')\nopen(sys.argv[1], 'w')\n",
             "main.c": '#if __has_include("extra.h")\n#include "extra.h"\n#endif\nint main(void) { return 0; }\n'},
            ("main.o reads|misses extra.h",), ("gen.stamp writes extra.h",),
            ("race undeclared read|miss extra.h gen.stamp main.o",), ("cc",)),
    Project("two_writers", "two commands write one file",
            "build a.txt: shell\n  do = echo a > a.txt; echo a > common.txt\n"
            "build b.txt: shell\n  do = echo b > b.txt; echo b > common.txt\n",
            changes=("a.txt writes common.txt", "b.txt writes common.txt"),
            found=("clash - - common.txt a.txt b.txt",)),
    Project("edit_of_a_source", "a command changes a source while another may read it",
            "build edited.stamp: shell\n  do = sed -i s/1/2/ version.txt; touch edited.stamp\n"
            "build copy.txt: shell version.txt\n  do = cat version.txt > copy.txt\n",
            {"version.txt": "version 1\n"}, ("copy.txt reads version.txt",), ("edited.stamp writes version.txt",),
            ("race edit|undeclared read version.txt edited.stamp copy.txt",), ("sed",)),
    Project("listing_of_a_folder", "a command lists a folder into which others write",
            "build parts/one.txt: shell\n  do = echo one > parts/one.txt\n"
            "build parts/two.txt: shell\n  do = echo two > parts/two.txt\n"
            "build list.txt: shell\n  do = ls parts > list.txt\n",
            {"parts/zero.txt": "zero\n"}, ("list.txt lists parts",),
            found=("race entry list parts parts/one.txt list.txt", "race entry list parts parts/two.txt list.txt")),
    Project("data_of_a_test", "a test is skipped where its data is not there yet",
            "build data.bin: python make_data.py\n"
            "build test.ok: shell run_test.sh\n  do = sh run_test.sh > test.log && touch test.ok\n",
            {"make_data.py": "import sys\nopen(sys.argv[1], 'w').write('data')\n",
             "run_test.sh": "if [ -f data.bin ]; then cat data.bin; else echo skipped; fi\n"},
            ("test.ok reads|misses data.bin",), ("test.ok writes test.log",),
            ("race output read|miss|stat data.bin data.bin test.ok",)),
    Project("one_temporary", "two commands have one temporary file",
            "build a.out: shell\n  do = echo a > work.tmp; cat work.tmp > a.out; rm -f work.tmp\n"
            "build b.out: shell\n  do = echo b > work.tmp; cat work.tmp > b.out; rm -f work.tmp\n",
            changes=("a.out temps|writes|deletes work.tmp", "b.out temps|writes|deletes work.tmp"),
            found=("clash|race * * work.tmp a.out b.out",)),
    Project("change_in_place", "a command changes another's output in place, and a third reads it at any time",
            "build lib.txt: shell\n  do = echo library > lib.txt\n"
            "build strip.stamp: shell lib.txt\n  do = echo stripped >> lib.txt; touch strip.stamp\n"
            "build app.txt: shell lib.txt\n  do = cat lib.txt > app.txt\n",
            due=("app.txt reads lib.txt",), changes=("strip.stamp edits lib.txt",),
            found=("race edit|another's read lib.txt strip.stamp app.txt",
                   "undeclared another's - lib.txt strip.stamp lib.txt")),
    Project("unlisted_inputs", "no race, but commands read files that no line lists: the next build does not see them "
                               "change",
            "build out.txt: python gen.py\nbuild late.h: shell\n  do = echo 1 > late.h\n"
            "build user.txt: shell | late.h\n  do = cat late.h settings.ini > user.txt\n",
            {"gen.py": "import sys, helper\nopen(sys.argv[1], 'w').write(helper.TEXT)\n",
             "helper.py": "TEXT = 'text'\n", "settings.ini": "a=1\n"},
            ("user.txt reads late.h", "out.txt reads helper.py", "user.txt reads settings.ini"),
            found=("unlisted - read helper.py - out.txt", "unlisted - read settings.ini - user.txt")),
    Project("equal_commands", "two edges have one command, and only one of them waits",
            "rule same\n  command = cat shared.txt >/dev/null 2>&1; mktemp part.XXXXXX >/dev/null\n"
            "build shared.txt: shell\n  do = sleep 1; echo s > shared.txt\n"
            "build x: same | shared.txt\nbuild y: same\n",
            due=("x reads shared.txt", "y reads|misses shared.txt"),
            found=("race output read|miss shared.txt shared.txt y",)),
    Project("declared", "sound: a generated header with its order, an archive, a link",
            "rule archive\n  command = rm -f $out && ar qc $out $in && ranlib $out\n"
            "build table.h: python gen.py\nbuild main.o: compile main.c || table.h\n"
            "build other.o: compile other.c || table.h\nbuild lib.a: archive main.o other.o\n"
            "build app: shell lib.a\n  do = cc lib.a -o app\n",
            {"gen.py": "import sys\nopen(sys.argv[1], 'w').write('#define T 1\\n')\n",
             "main.c": '#include "table.h"\nint f(void);\nint main(void) { return f() + T; }\n',
             "other.c": '#include "table.h"\nint f(void) { return T; }\n'},
            ("main.o reads table.h", "other.o reads table.h", "lib.a reads main.o", "lib.a reads other.o",
             "app reads lib.a"), tools=("cc", "ar", "ranlib")),
    Project("moved_if_changed", "sound: an output is moved into its place where it differs",
            "rule move\n  command = echo 1 > $out.tmp; cmp -s $out.tmp $out || mv $out.tmp $out\n  restat = 1\n"
            "build a.h: move\nbuild use.txt: shell a.h\n  do = cat a.h > use.txt\n",
            due=("use.txt reads a.h",), changes=("a.h temps a.h.tmp",), tools=("cmp",)),
)
