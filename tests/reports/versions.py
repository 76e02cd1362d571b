"""What is told of traces of both versions, and what a trace is in version 2."""

from rows import FAULT, POOLS, Row, WELL

TWO_COMPILES = """\
rule cc
  command = cc -c $in -o $out
build a.o: cc a.c
build b.o: cc b.c
"""

ROWS = {
    "named again": Row(
        manifest=POOLS,
        trace="""\
rebug-trace 2
jobs 2
lane 0
plan x y z t
lane 1
start x 0 0
lane 0
resize 1 2
lane 1
start y 1 1
""",
        script="run\n",
        report="""\
1 0 ok
2 1 ok
3 0 ok
4 1 ok
""",
    ),
    "named again in version one": Row(
        manifest=POOLS,
        trace="""\
rebug-trace 1
jobs 2
lane 0
plan x y z t
lane 1
start x 0 0
lane 0
resize 1 2
lane 1
start y 1 1
""",
        script="run\n",
        report="fault trace 7 102\n",
        status=FAULT,
    ),
    "version three": Row(
        manifest=POOLS,
        trace="""\
rebug-trace 3
jobs 2
lane 0
plan x y z t
lane 1
start x 0 0
lane 0
resize 1 2
lane 1
start y 1 1
""",
        script="run\n",
        report="fault trace 1 104\n",
        status=FAULT,
    ),
    "version with a zero": Row(
        manifest="",
        trace="rebug-trace 02\n",
        script="",
        report="fault trace 1 104\n",
        status=FAULT,
    ),
    "no first line": Row(
        manifest="",
        trace="",
        script="",
        report="fault trace 1 104\n",
        status=FAULT,
    ),
    "resize in version one": Row(
        manifest="",
        trace="""\
rebug-trace 1
lane 0
resize 01 2
""",
        script="",
        report="fault trace 3 100\n",
        status=FAULT,
    ),
    "resize of no number": Row(
        manifest="",
        trace="""\
rebug-trace 2
lane 0
resize 01 2
""",
        script="",
        report="fault trace 3 101\n",
        status=FAULT,
    ),
    "lane past the next": Row(
        manifest="",
        trace="""\
rebug-trace 2
lane 0
lane 2
lane 1
""",
        script="",
        report="fault trace 3 102\n",
        status=FAULT,
    ),
    "opening behind a lane": Row(
        manifest="",
        trace="""\
rebug-trace 2
lane 0
stamp a 1
lane 0
""",
        script="",
        report="fault trace 3 100\n",
        status=FAULT,
    ),
    "lane by lane": Row(
        manifest=TWO_COMPILES,
        trace="""\
rebug-trace 1
jobs 2
stamp a.c 1
stamp b.c 1
lane 0
plan
start a.o 0
finish a.o 2
lane 1
break finish a.o
start b.o 1
undo 0:2
""",
        script="""\
run
continue
run
undo 1:2
kept
""",
        report="""\
1 0 ok
2 1 ok
3 0 ok
4 1 ok
5 0 ok break 2
6 2 ok
7 1 refused 82 5
8 2 ok
kept 1 plan
kept 3 start a.o 0
kept 5 finish a.o 2
""",
    ),
    "in the order of time": Row(
        manifest=TWO_COMPILES,
        trace="""\
rebug-trace 2
jobs 2
stamp a.c 1
stamp b.c 1
lane 0
plan
lane 1
break finish a.o
lane 0
start a.o 0

lane 1
start b.o 1
lane 0
finish a.o 2
lane 1
undo 0:2
""",
        script="""\
run
continue
run
undo 1:2
kept
""",
        report="""\
1 0 ok
2 1 ok
3 0 ok
4 1 ok
5 0 ok break 2
6 2 ok
7 1 refused 82 5
8 2 ok
kept 1 plan
kept 3 start a.o 0
kept 5 finish a.o 2
""",
    ),
}

# Each trace with what is written where it is to be in version 2, and the status.
MIGRATED = (
    ("rebug-trace 1", "rebug-trace 2", WELL),
    ("rebug-trace 1\n", "rebug-trace 2\n", WELL),
    (
        "rebug-trace 1\n\njobs 2\nlane 0\n\ntouch a\\sb 1\n\n\nlane 1\ntouch b 2",
        "rebug-trace 2\n\njobs 2\nlane 0\n\ntouch a\\sb 1\n\n\nlane 1\ntouch b 2",
        WELL,
    ),
    ("rebug-trace 2\nlane 0\nlane 1\nlane 0\nresize 1 2", "rebug-trace 2\nlane 0\nlane 1\nlane 0\nresize 1 2", WELL),
    ("", "fault trace 1 104\n", FAULT),
    ("rebug-trace 1\r\n", "fault trace 1 104\n", FAULT),
    ("rebug-trace 1\nlane 0\nlane 0\n", "fault trace 3 102\n", FAULT),
    ("rebug-trace 1\nstamp a 1\nstamp a 1\n", "fault trace 3 103\n", FAULT),
    ("rebug-trace 1\nlane 0\ntouch a\r 1\n", "fault trace 3 100\n", FAULT),
)
