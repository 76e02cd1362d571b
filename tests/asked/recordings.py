"""The recordings that tests/asked/run asks about beside those of the repository, and lines that get every answer."""

import os

from observation import ended

# Lines that get answers of every kind, whatever stands in names.
MANY = b"""help
slowest
help edge
help edgs

next 2

until main.o
what 1
who main.o
who lib/main.o
who app
who reads version.h
who reads none.h
who writes app
who writes none.h
needs app
run
needs main.o
needs main.o all
needs main.o observed
dependents 1
would cone main.o
why main.o
why app
with main.o
edge main.o
edge 1
edge 12 all
edge "\x1b[31m a"
edges
edges *.o all
edges no
reads version.h
reads none.h
makes app
makes version.in
makes none.h
rebuilds version.in
rebuilds
rebuilds none.h app
slowest
slowest 2
critical
critical all
races
races all
why *.o
needs start *.o all
edge *.x
order 1
order 3 2
kept
marks
marks main.o
stamps
stamps main.c
logs
logs main.o
undo finish main.o
undo 99
start "\\x1b[31m a" 0
start main.o 0
touch "\\xff \\x00" 5
dependents "\\xff \\x00"
break start app
cone main.o
redo main.o
without main.o
run
next
continue
"open
what is this
resize 0 1
back
"""


# A build that was observed: m.o reads v.h, of which its line says nothing; t.o asked for v.h in vain; u.o names it.
SEEN = {
    "build.ninja": """rule c
  command = c
build v.h: c v.in
build m.o: c m.c
build t.o: c t.c || v.h
build u.o: c u.c | v.h
build all: phony m.o t.o u.o
default all
""",
    "trace": """rebug-trace 1
jobs 4
stamp m.c 1
stamp t.c 1
stamp u.c 1
stamp v.in 1
lane 0
plan all
start v.h 0
finish v.h 5
start m.o 1
start t.o 2
finish m.o 6
finish t.o 7
start u.o 3
finish u.o 8
pass all
""",
    "observed": """rebug-observed 1
by ptrace
path v.h
path v.in
path m.c
path w.h
edge v.h
reads 1
writes 0
edge m.o
reads 0 2
stats 3
edge t.o
misses 0 3
temps 3
edge u.o
reads 0
deletes 3
""",
}


# Recordings with what those of the repository lack: findings of every kind that an observation shows, what stands in
# the way of a certificate, a recording that was not replayed whole, and another name of an output.
FOUND = {
    "found": {
        "build.ninja": """rule c
  command = c
build gen.h: c gen.in
build a.o: c a.c
build b.o: c b.c || gen.h
build all: c a.o b.o
build last: c all
""",
        "trace": """rebug-trace 1
jobs 4
stamp a.c 1
stamp b.c 1
stamp gen.in 1
lane 0
plan last
start gen.h 0
start a.o 1
finish gen.h 5
finish a.o 6
start b.o 0
finish b.o 7
start all 0
finish all 8
""",
        "observed": """rebug-observed 1
by ptrace
path gen.h
path log
path a.c
path a.o
path b.o
path all
path left
path extra.h
edge gen.h
reads 4
writes 0-1 6
edge a.o cut
reads 0 2 7
writes 1 3
edge b.o
reads 6
writes 4
edge all
reads 3-4
writes 2 5
edits 2
""",
    },
    "part": {
        "build.ninja": "rule c\n  command = c\nbuild a: c i\nbuild b: c i\n",
        "trace": "rebug-trace 1\njobs 2\nstamp i 1\nlane 0\nplan\nstart a 0\nstart a 1\n",
        "observed": "rebug-observed 1\nby ptrace\n",
    },
    "flagged": {
        "build.ninja": "rule c\n  command = c\nbuild a: c i\nbuild b: c i\n",
        "trace": "rebug-trace 1\njobs 2\nstamp i 1\nlane 0\nplan\nstart a 0\nfinish a 2\nstart b 0\nfinish b 3\n",
        "observed": ended("rebug-observed 2\nby ptrace 6.1 x86-64\npath .\npath a 0\npath b 0\nedge a\n"
                          "flag uring io_uring_setup c \\0\nleft 1\nedge b\nflag socket connect c 10.0.0.1:80\nleft 2\n"),
        "trusted": "rebug-trust 1\nuring c * it copies its own files\n",
    },
    "named": {
        "build.ninja": "rule c\n  command = c\n  deps = gcc\nbuild v.h: c i\nbuild m.o: c i\n",
        "trace": "rebug-trace 1\njobs 1\nstamp i 1\nlane 0\nplan\nstart v.h 0\nfinish v.h 2\nstart m.o 0\n"
                 "finish m.o 3 list /b/v.h\n",
        "names": "rebug-names 1\n/b/v.h v.h\n",
    },
}


# Outputs whose names read as the number of an event, as a kind of events, and as a word behind events.
NAMED = {
    "build.ninja": "rule c\n  command = c\nbuild 12: c i\nbuild start: c i\nbuild all: c i\n",
    "trace": "rebug-trace 1\njobs 3\nstamp i 1\nlane 0\nplan\nstart 12 0\nfinish 12 2\nstart start 1\nfinish start 3\n"
             "start all 2\nfinish all 4\n",
}


# Names as CMake writes them: sources and headers are absolute, what is made is not.
FAR_BUILD = """rule c
  command = c
  depfile = $out.d
  deps = gcc
build lib/a.o: c /work/p/src/a.c | /work/p/tools/a.c || gen/out.h
build gen/out.h: c /work/p/out.in
"""
FAR_SOURCES = ("/work/p/src/a.c", "/work/p/tools/a.c", "/work/p/out.in", "/work/p/src/x.h", "/usr/include/lib/x.h",
               "/work/x.h", "/w/xx.h", "/opt/q/src/x.h")


def recorded(folder, without=(), files=SEEN):
    """A recording in a folder of its own: these files without some."""
    os.makedirs(folder)
    for name, text in files.items():
        if name not in without:
            with open(f"{folder}/{name}", "w", encoding="ascii") as file:
                file.write(text)
    return folder


def long_recording(folder, edges):
    """The recording of a build of so many edges, in a folder of its own."""
    outputs = [f"o{number}" for number in range(edges)]
    lines = ["rebug-trace 1", "jobs 1", "stamp i 1", "lane 0", "plan"]
    for number, output in enumerate(outputs):
        lines += [f"start {output} 0", f"finish {output} {number + 2}"]
    os.makedirs(folder)
    with open(f"{folder}/build.ninja", "w", encoding="ascii") as file:
        file.write("rule c\n  command = c $out\n" + "".join(f"build {output}: c i\n" for output in outputs))
    with open(f"{folder}/trace", "w", encoding="ascii") as file:
        file.write("\n".join(lines) + "\n")
    return folder


def far_recording(folder):
    """The recording of a build with such names, in a folder of its own."""
    lines = ["rebug-trace 1", "jobs 1", *(f"stamp {name} 1" for name in FAR_SOURCES), "lane 0", "plan",
             "start gen/out.h 0", "finish gen/out.h 2", "start lib/a.o 0",
             f"finish lib/a.o 3 list {' '.join(FAR_SOURCES[3:])} gen/out.h"]
    os.makedirs(folder)
    with open(f"{folder}/build.ninja", "w", encoding="ascii") as file:
        file.write(FAR_BUILD)
    with open(f"{folder}/trace", "w", encoding="ascii") as file:
        file.write("\n".join(lines) + "\n")
    return folder
