"""What is told of the events of a history, and of those taken back, put again and compared in another order."""

from rows import COMPILES, POOLS, Row

ROWS = {
    "empty": Row(
        manifest="",
        trace="rebug-trace 1",
        script="kept",
        report="",
        on_threads=True,
    ),
    "order": Row(
        manifest=COMPILES,
        trace="""\
rebug-trace 1
jobs 2
stamp a.c 10
stamp b.c 20
lane 0
plan app
start a.o 0
start b.o 1
finish a.o 100
finish b.o 110
""",
        script="""\
run
order 1 3 2 5 4
order 1 2 4 3
order 1 4 2 3 5
""",
        report="""\
1 0 ok
2 0 ok
3 0 ok
4 0 ok
5 0 ok
order same
order differ
order refused 4 67
""",
    ),
    "order resize": Row(
        manifest=POOLS,
        trace="""\
rebug-trace 1
jobs 2
lane 0
plan x y z t
start x 0 0
start z 1
""",
        script="""\
run
resize 1 2
order 1 2 4 3
order 1 4 2 3
order 1 2
""",
        report="""\
1 0 ok
2 0 ok
3 0 ok
4 1 ok
order same
order pair 2 4
order differ
""",
    ),
    "overtaken": Row(
        manifest=COMPILES,
        trace="""\
rebug-trace 1
lane 0
touch a.c 11
undo 1
touch a.c 12
redo 1
redo 2
""",
        script="run\n",
        report="""\
1 0 ok
2 0 ok
3 0 ok
4 0 refused 85 3
5 0 refused 80
""",
        on_threads=True,
    ),
    "touches": Row(
        manifest=COMPILES,
        trace="""\
rebug-trace 1
stamp a.c 10
lane 0
touch a.c 11
touch b.c 21
touch a.c 12
""",
        script="""\
run
undo 1
undo 2
stamps
redo 2
back
stamps
""",
        report="""\
1 0 ok
2 0 ok
3 0 ok
4 1 refused 82 3
5 1 ok
stamp a.c 12
6 1 ok
7 1 ok
stamp a.c 11
stamp b.c 21
""",
        on_threads=True,
    ),
    "kept": Row(
        manifest="",
        trace="""\
rebug-trace 1
lane 0
touch b 1
touch a\\sb 2
touch b 0
""",
        script="""\
run 2
kept
back
run
kept
stamps
run
undo 7
""",
        report="""\
1 0 ok
2 0 ok
kept 1 touch b 1
kept 2 touch a\\sb 2
3 1 ok
4 0 ok
kept 1 touch b 1
kept 4 touch b 0
5 1 refused 80
""",
    ),
    "undo out of order": Row(
        manifest=COMPILES,
        trace="""\
rebug-trace 1
jobs 2
stamp a.c 10
stamp b.c 20
lane 0
plan app
start a.o 0
start b.o 1
finish a.o 100
finish b.o 110
""",
        script="""\
run
undo 4
marks
logs
redo 4
marks
""",
        report="""\
1 0 ok
2 0 ok
3 0 ok
4 0 ok
5 0 ok
6 1 ok
mark 0 a.o running 0 - 10
mark 1 b.o done 0
mark 2 app wanted
job 0 0
built b.o 110 cc\\s-c\\sb.c\\s-o\\sb.o
7 1 ok
mark 0 a.o done 0
mark 1 b.o done 0
mark 2 app wanted
""",
        on_threads=True,
    ),
    "nearest dependent": Row(
        manifest=COMPILES,
        trace="""\
rebug-trace 1
jobs 2
stamp a.c 10
stamp b.c 20
lane 0
plan app
start a.o 0
start b.o 1
finish a.o 100
finish b.o 110
start app 0
""",
        script="""\
run
undo 4
undo 1
dependents 2
""",
        report="""\
1 0 ok
2 0 ok
3 0 ok
4 0 ok
5 0 ok
6 0 ok
7 1 refused 82 6
8 1 refused 82 2
dependents 2 4 6
""",
        on_threads=True,
    ),
    "cone": Row(
        manifest=COMPILES,
        trace="""\
rebug-trace 1
jobs 2
stamp a.c 10
stamp b.c 20
lane 0
plan app
start a.o 0
start b.o 1
finish a.o 100
finish b.o 110
start app 0
""",
        script="""\
run
cone 3
kept
""",
        report="""\
1 0 ok
2 0 ok
3 0 ok
4 0 ok
5 0 ok
6 0 ok
7 1 cone 3
kept 1 plan app
kept 2 start a.o 0
kept 4 finish a.o 100
""",
        on_threads=True,
    ),
    "redo in order": Row(
        manifest=COMPILES,
        trace="""\
rebug-trace 1
jobs 2
stamp a.c 10
stamp b.c 20
lane 0
plan app
start a.o 0
start b.o 1
finish a.o 100
finish b.o 110
""",
        script="""\
run
undo 5
undo 3
redo 5
redo 3
redo 5
redo 5
""",
        report="""\
1 0 ok
2 0 ok
3 0 ok
4 0 ok
5 0 ok
6 1 ok
7 1 ok
8 1 refused 84 67
9 1 ok
10 1 ok
11 1 refused 83
""",
    ),
}

# A run with its lanes on threads alone: all that the lane has is said at once, so `run 1` takes one of the answers that
# are there.
ON_THREADS = {
    "later runs": Row(
        manifest="",
        trace="""\
rebug-trace 1
lane 0
touch b 1
touch a\\sb 2
touch b 0
""",
        script="""\
touch c 4
run 1
kept
run
undo 0:2
run 7
stamps
""",
        report="""\
1 1 ok
2 0 ok
3 0 ok
4 0 ok
kept 1 touch c 4
kept 2 touch b 1
kept 3 touch a\\sb 2
kept 4 touch b 0
5 1 ok
stamp c 4
""",
    ),
}
