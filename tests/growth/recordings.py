"""The recordings on which tests/growth/run refuses memory, and all that is asked of them. The first program has a
script with every word, and lanes on threads. The second has its words with every flag, and every question."""

from __future__ import annotations

import pathlib
import sys
from dataclasses import dataclass

sys.path.insert(0, str(pathlib.Path(__file__).resolve().parents[1]))

from observation import ended  # noqa: E402

# FOR THE FIRST PROGRAM

POOLED = """\
include rules.ninja
pool one
  depth = 1
build gen.h: make gen.in
build user.o: cc user.c || gen.h
build notes: make notes.in
  pool = one
build all: phony user.o notes
default all
"""
RULES = """\
rule make
  command = make $out
rule cc
  command = cc -c $in -o $out
  deps = gcc
  depfile = $out.d
"""
TRACE = """\
rebug-trace 2
jobs 3
target all
stamp gen.in 10
stamp user.c 11
stamp notes.in 12
built notes 5 make\\snotes
deps user.o 4 old.h
lane 0
plan
start gen.h 0
finish gen.h 20
start user.o 1
finish user.o 30 depfile user.o:\\suser.c\\sgen.h
lane 1
resize 1 2
start notes 2 0
fail notes 0
lane 0
touch user.c 40
"""
# Every word of a script, and every command. Of most kinds one is accepted, and one is refused.
SCRIPT = """\
run 0
run 3
break finish user.o
break touch user.c
break plan
run
continue
run
continue
unbreak 4
kept
marks
stamps
logs
why all
why user.o
dependents 0:3
order 1 3 8
order
undo 0:6
redo 0:6
cone 0:4
touch gen.in 60
back
touch gen.h 0
plan
continue
start gen.h 0
interrupt
abort gen.h 0
plan gen.h
continue
start gen.h 1
fail gen.h 0
unbreak 6
plan all
start gen.h 2
finish gen.h 70
clean user.o
start user.o 0
finish user.o 80
start notes 0 0
finish notes 90
pass all
resize 1 1
undo 99
stamps
"""
# The second lane waits for the first, and the script plans: there is one order of their commands.
LANES = """\
rebug-trace 1
jobs 2
stamp gen.in 10
stamp user.c 11
stamp notes.in 12
lane 0
start gen.h 0
finish gen.h 20
lane 1
start user.o 1
finish user.o 30 list gen.h
"""
SCRIPTED = {"build.ninja": POOLED, "rules.ninja": RULES, "trace": TRACE, "script": SCRIPT, "lanes": LANES,
            "run": "plan user.o\nrun\nkept\nmarks\n"}

# FOR THE SECOND PROGRAM

BUILD = """\
rule make
  command = make $out
rule cc
  command = cc $in
  deps = gcc
  depfile = $out.d
pool one
  depth = 1
build gen.h: make
build user.o: cc user.c
build notes: make
  pool = one
build stage: make | gen.h
build all: phony user.o notes stage
"""
PASSED = """\
rebug-trace 1
jobs 4
stamp user.c 10
stamp data.in 11
lane 0
plan all
start gen.h 0
finish gen.h 20
start user.o 1
finish user.o 30 list gen.h
start notes 2 0
finish notes 31
start stage 3
finish stage 32
pass all
"""
# Two races, a clash, a file that no line names, one that no list has, a command that was not observed whole, and a
# place that a filter hides.
OBSERVED = """\
rebug-observed 1
by ptrace
path gen.h
path user.c
path user.o
path log
path notes
path stage
path hidden
path data.in
path cache/x
edge gen.h
writes 0 6
edge user.o
reads 0-1
writes 2 8
edge notes server
reads 7
writes 3-4
temps 8
edge stage
reads 0 6
misses 4
writes 3 5
outside 3
"""
FAILED = """\
rebug-trace 1
jobs 4
stamp user.c 10
lane 0
plan all
start gen.h 0
start user.o 1
fail user.o 0
finish gen.h 20
start notes 2 0
interrupt
abort notes 0
"""
OUTPUT = "rebug-output 1\nfailed user.o 4 0 user.c:1:10:\\sfatal\\serror:\\sgen.h:\\sNo\\ssuch\\sfile\n"
# Nothing is wrong here.
CERTAIN = "rule make\n  command = make $out\nbuild gen.h: make\nbuild all: phony gen.h\n"
CERTAIN_TRACE = "rebug-trace 1\njobs 1\nlane 0\nplan all\nstart gen.h 0\nfinish gen.h 20\npass all\n"
CERTAIN_OBSERVED = ended("""\
rebug-observed 2
by ptrace 6.1 x86-64
path .
path gen.h 0
edge gen.h
folder 0
left 1
""")


def times(events: int) -> str:
    """The file `times` of so many events, a millisecond each."""
    return "rebug-times 1\n" + "".join(f"0:{place} {place}\n" for place in range(1, events + 1))


# One command after the other, with nothing between two, so that Ninja's rules give the recorded end. An order of it can
# be left out.
TIMED = BUILD.replace("build stage: make | gen.h", "build stage: make || gen.h")
AFTER_EACH_OTHER = "rebug-times 1\n" + "".join(f"0:{place} {(place - 1) // 2 * 100}\n" for place in range(1, 11))


RECORDINGS = {
    "timed": {"build.ninja": TIMED, "trace": PASSED, "times": AFTER_EACH_OTHER, "orders": "stage gen.h\n"},
    "scripted": SCRIPTED,
    "observed": {"build.ninja": BUILD, "trace": PASSED, "observed": OBSERVED, "filters": "cache\n", "times": times(10),
                 "names": "rebug-names 1\nlink.h gen.h\n", "output": "rebug-output 1\n",
                 "known": "rebug-baseline 1\n8b3a8a8c4a29cdc0 race gen.h gen.h user.o\n"},
    "failed": {"build.ninja": BUILD, "trace": FAILED, "output": OUTPUT, "times": times(8)},
    "certain": {"build.ninja": CERTAIN, "trace": CERTAIN_TRACE, "observed": CERTAIN_OBSERVED, "filters": "cache\n",
                "trusted": "rebug-trust 1\nuring c * it copies its own files\n"},
}

# Every question of the prompt.
LOOKS = """\
next

next 2
until user.o
run
races
races all
who user.o
who reads gen.h
who writes log
edge user.o
edge *o*
edges
edges o
reads gen.h
makes gen.h
rebuilds user.c
slowest 2
critical
with user.o
"""
RESTS = """\
run
why user.o
what start user.o
needs stage
needs stage all
needs stage observed
dependents 2
would cone 2
order 1 2 3 4 5 6 7 8 9 10
kept
history all
marks
marks user.o
stamps
stamps gen.h
logs
logs user.o
help
help needs
"""
CHANGES = """\
break finish user.o
run
continue
run
without notes
undo stage
redo 10
back
cone 4
fail gen.h 0
touch user.c 99
plan user.o
start user.o 0
finish user.o 100 depfile user.o:\\suser.c
resize 1 2
start gen.h 0
interrupt
abort gen.h 0
clean gen.h
pass all
unbreak 1
quit
"""
QUESTIONS = {"looks": LOOKS, "rests": RESTS, "changes": CHANGES}


@dataclass(frozen=True)
class Part:
    """What a program is asked: its words, its status, what it reads from standard input, and the file that it is to
    write."""

    program: str
    words: tuple[str, ...]
    status: int = 0
    said: str = ""
    writes: str = ""
    is_on_threads: bool = False


def scripted(*words: str, trace: str = "trace", script: str = "script", is_on_threads: bool = False) -> Part:
    """A call of the first program."""
    files = ("--manifest", "build.ninja", "--trace", trace, "--script", script)
    return Part("rebug", (*words, *files, "rules.ninja"), is_on_threads=is_on_threads)


def asked(*words: str, said: str = "", writes: str = "") -> Part:
    """A call of the second program that finds nothing."""
    return Part("rebug_ask", words, said=said, writes=writes)


def found(*words: str, writes: str = "") -> Part:
    """A call of the second program that finds something."""
    return Part("rebug_ask", words, 4, writes=writes)


# The recording in whose folder each part is asked, and the part.
PARTS: dict[str, tuple[str, Part]] = {
    "a script": ("scripted", scripted()),
    "lanes on threads": ("scripted", scripted("--workers", trace="lanes", script="run", is_on_threads=True)),
    "a migration": ("scripted", scripted("--migrate", trace="lanes")),
    "help of scripts": ("scripted", Part("rebug", ("--help",))),
    "races": ("observed", found("races", ".", "--all")),
    "races as JSON": ("observed", found("races", ".", "--json")),
    "races for GitHub": ("observed", found("races", ".", "--format", "github")),
    "races as SARIF": ("observed", found("races", ".", "--format", "sarif")),
    "races as JUnit": ("observed", found("races", ".", "--format", "junit")),
    "a mend": ("observed", found("races", ".", "--mend")),
    "a witness": ("observed", asked("races", ".", "--witness", "1")),
    "a provoking patch": ("observed", asked("races", ".", "--provoke", "1")),
    "a baseline": ("observed", asked("races", ".", "--filters", "filters", "--write-baseline", "new", writes="new")),
    "races beside a baseline": ("observed", found("races", ".", "--baseline", "known")),
    "a failed build": ("failed", found("races", ".", "--all")),
    "a failed build as JSON": ("failed", found("races", ".", "--json")),
    "no certificate": ("observed", found("certify", ".", "--filters", "filters", "--baseline", "known")),
    "no certificate as JSON": ("observed", found("certify", ".", "--json")),
    "a certificate": ("certain", asked("certify", ".")),
    "a strict certificate": ("certain", asked("certify", ".", "--all", "--strict", "--trust", "trusted")),
    "a certificate as SARIF": ("certain", asked("certify", ".", "--format", "sarif", "--write-baseline", "new",
                                                writes="new")),
    "a replay": ("observed", asked("replay", ".")),
    **{f"{name} at the prompt": ("observed", asked("ask", ".", said=said)) for name, said in QUESTIONS.items()},
    **{f"{name} as JSON": ("observed", asked("ask", ".", "--json", said=said)) for name, said in QUESTIONS.items()},
    "a picture": ("observed", asked("picture", ".", "--event", "4")),
    "a page": ("observed", asked("picture", ".", "--html")),
    "a picture in a file": ("observed", asked("picture", ".", "drawn.svg", writes="drawn.svg")),
    "a timeline": ("observed", asked("timeline", ".")),
    "a schedule": ("timed", asked("schedule", ".", "-j", "1,3", "--faster", "gen.h=2", "--pool", "one=2", "--without",
                                  "orders")),
    "a schedule as JSON": ("timed", asked("schedule", ".", "--json")),
    "no schedule": ("observed", found("schedule", ".")),
    "orders": ("observed", asked("shuffle", ".", "--list", "--runs", "3")),
    "orders as JSON": ("observed", asked("shuffle", ".", "--list", "--json")),
    "a comparison": ("observed", found("compare", "--all", ".", "../failed")),
    "a comparison as JSON": ("observed", found("compare", "--json", ".", "../failed")),
    "help": ("observed", asked("help", "races")),
}
