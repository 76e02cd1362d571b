"""What is told of lanes in turn, of breaks, and of pools that get another depth."""

from rows import COMPILES, POOLS, Row

THREE_LANES = """\
rebug-trace 1
jobs 2
stamp a.c 10
stamp b.c 20
lane 0
plan app
start a.o 0
finish a.o 100
lane 1
lane 2
touch c 1
start b.o 1
"""

# A lane that meets its own break, and undoes what met it.
PAUSED = """\
rebug-trace 1
jobs 2
stamp a.c 10
stamp b.c 20
lane 0
plan app
break finish a.o
start a.o 0
start b.o 1
finish a.o 100
finish b.o 110
undo 5
"""

ROWS = {
    "break pause label": Row(
        manifest=COMPILES,
        trace="""\
rebug-trace 1
jobs 2
stamp a.c 10
stamp b.c 20
lane 0
plan app
start a.o 0
finish a.o 100
lane 1
break finish a.o
start b.o 1
finish b.o 110
""",
        script="""\
run
run 1
undo 5
continue
finish b.o 110
""",
        report="""\
1 0 ok
2 1 ok
3 0 ok
4 1 ok
5 0 ok break 2
6 1 refused 92
7 2 ok
8 2 ok
9 2 ok
""",
    ),
    "turns go on": Row(
        manifest=COMPILES,
        trace=THREE_LANES,
        script="""\
run 0
run 3
undo 0:2
run 1
run
run
undo 3:2
""",
        report="""\
1 0 ok
2 2 ok
3 0 ok
4 3 ok
5 2 ok
6 0 refused 67
7 3 refused 80
""",
    ),
    "dependents by label": Row(
        manifest=COMPILES,
        trace=THREE_LANES,
        script="""\
run
dependents 0:1
undo 2:1
dependents 2:1
dependents 3:1
dependents 1:1
dependents 0:0
dependents 9
dependents 9:1
""",
        report="""\
1 0 ok
2 2 ok
3 0 ok
4 2 ok
5 0 ok
dependents 1 2 3 4 5
6 3 ok
refused 81
refused 80
refused 80
refused 80
refused 80
refused 80
""",
    ),
    "stall in turn": Row(
        manifest=COMPILES,
        trace="""\
rebug-trace 1
jobs 2
stamp a.c 10
stamp b.c 20
lane 0
plan app
lane 1
start app 0
""",
        script="run\n",
        report="""\
1 0 ok
2 1 refused 68 0
""",
    ),
    "undo of the others": Row(
        manifest=COMPILES,
        trace="""\
rebug-trace 1
jobs 2
stamp a.c 10
stamp b.c 20
lane 0
touch a.c 11
undo 1:1
lane 1
touch b.c 21
undo 0:1
""",
        script="""\
run
kept
stamps
""",
        report="""\
1 0 ok
2 1 ok
3 0 ok
4 1 ok
stamp a.c 10
stamp b.c 20
""",
    ),
    "least break": Row(
        manifest=COMPILES,
        trace="""\
rebug-trace 1
stamp a.c 10
""",
        script="""\
break touch a.c
break touch ./a.c
touch b.c 1
touch a.c 2
unbreak 1
unbreak 1
continue
touch a.c 3
break start a.c
stamps
""",
        report="""\
1 0 ok
2 0 ok
3 0 ok
4 0 ok break 1
5 0 ok
6 0 refused 93
7 0 ok
8 0 ok break 2
9 0 refused 60
stamp a.c 3
stamp b.c 1
""",
    ),
    "resize": Row(
        manifest=POOLS,
        trace="""\
rebug-trace 1
jobs 2
lane 0
plan x y z t
start x 0 0
""",
        script="""\
run
resize 1 2
start y 1 1
resize 1 1
undo 3
resize 2 3
undo 2
finish y 6
resize 1 1
undo 9
back
marks
""",
        report="""\
1 0 ok
2 0 ok
3 1 ok
4 1 ok
5 1 refused 78 1 1
6 1 refused 82 4
7 1 refused 79
8 1 refused 82 3
9 1 ok
10 1 ok
11 1 refused 82 10
12 1 ok
mark 0 x running 0 0 0
mark 1 y done 0
mark 2 z wanted
mark 3 t wanted
job 0 0
slot 1 0 0
depth 1 2
""",
    ),
    "resizes of two pools": Row(
        manifest=POOLS,
        trace="""\
rebug-trace 1
lane 0
plan x
""",
        script="""\
run
resize 1 2
resize 0 1
resize 1 1
interrupt
kept
marks
undo 2
undo 4
undo 2
marks
""",
        report="""\
1 0 ok
2 1 ok
3 1 ok
4 1 ok
5 1 ok
kept 1 plan x
kept 2 resize 1 2
kept 3 resize 0 1
kept 4 resize 1 1
kept 5 interrupt
mark 0 x wanted
depth 0 1
depth 1 1
halted
6 1 refused 82 4
7 1 ok
8 1 ok
mark 0 x wanted
depth 0 1
halted
""",
    ),
    "growing reads no slot": Row(
        manifest=POOLS,
        trace="""\
rebug-trace 1
lane 0
plan x
start x 0 0
finish x 5
""",
        script="""\
run
resize 1 3
resize 1 2
undo 3
redo 3
""",
        report="""\
1 0 ok
2 0 ok
3 0 ok
4 1 ok
5 1 ok
6 1 ok
7 1 ok
""",
    ),
    "clean reads no depth": Row(
        manifest="""\
pool one
  depth = 1
rule gen
  command = gen
  restat = 1
rule cp
  command = cp $in $out
  pool = one
build p: gen s
build u: cp p
""",
        trace="""\
rebug-trace 1
stamp s 50
stamp p 10
stamp u 20
built p 10 gen
built u 20 cp\\sp\\su
lane 0
plan u
start p 0
finish p 10
""",
        script="""\
run
resize 1 2
clean u
dependents 4
undo 4
""",
        report="""\
1 0 ok
2 0 ok
3 0 ok
4 1 ok
5 1 ok
dependents 4
6 1 ok
""",
    ),
    # Lane 1 has a break, an event, and a command that is refused, since the break has paused the desk.
    "a label names an accepted event": Row(
        manifest=COMPILES,
        trace="""\
rebug-trace 1
jobs 2
stamp a.c 10
stamp b.c 20
lane 0
plan app
start a.o 0
finish a.o 100
lane 1
break finish a.o
start b.o 1
finish b.o 110
""",
        script="""\
run
run 1
kept
dependents 0:3
dependents 1:1
dependents 1:2
dependents 1:3
dependents 3:1
touch a.c 11
unbreak 2
unbreak 2
""",
        report="""\
1 0 ok
2 1 ok
3 0 ok
4 1 ok
5 0 ok break 2
6 1 refused 92
kept 1 plan app
kept 3 start a.o 0
kept 4 start b.o 1
kept 5 finish a.o 100
dependents 5
refused 80
dependents 4
refused 80
refused 80
7 2 refused 92
8 2 ok
9 2 refused 93
""",
    ),
    "redone by number what was undone by label": Row(
        manifest=COMPILES,
        trace="""\
rebug-trace 1
jobs 2
stamp a.c 10
stamp b.c 20
lane 0
plan app
start a.o 0
start b.o 1
finish a.o 100
finish b.o 110
""",
        script="""\
run
undo 0:5
undo 3
redo 5
redo 3
redo 5
redo 5
""",
        report="""\
1 0 ok
2 0 ok
3 0 ok
4 0 ok
5 0 ok
6 1 ok
7 1 ok
8 1 refused 84 67
9 1 ok
10 1 ok
11 1 refused 83
""",
    ),
    "a break that stands no more, and a cone": Row(
        manifest=COMPILES,
        trace="""\
rebug-trace 1
jobs 2
stamp a.c 10
stamp b.c 20
lane 0
plan app
start a.o 0
finish a.o 100
""",
        script="""\
run 2
break finish a.o
unbreak 3
run
cone 2
back
unbreak 3
""",
        report="""\
1 0 ok
2 0 ok
3 1 ok
4 1 ok
5 0 ok
6 1 cone 2
7 1 ok
8 1 refused 93
""",
    ),
    # On threads the desk is closed once its lane has said all, and goes on as it was: paused, with its break.
    "a paused desk goes on": Row(
        manifest=COMPILES,
        trace=PAUSED,
        script="""\
run
run
kept
marks
stamps
logs
touch c 1
unbreak 2
unbreak 2
continue
redo 5
logs
""",
        report="""\
1 0 ok
2 0 ok
3 0 ok
4 0 ok
5 0 ok break 2
6 0 refused 92
7 0 ok
kept 1 plan app
kept 3 start a.o 0
kept 4 start b.o 1
mark 0 a.o running 0 - 10
mark 1 b.o running 1 - 20
mark 2 app wanted
job 0 0
job 1 1
stamp a.c 10
stamp b.c 20
8 1 refused 92
9 1 ok
10 1 refused 93
11 1 ok
12 1 ok
built a.o 100 cc\\s-c\\sa.c\\s-o\\sa.o
""",
        on_threads=True,
    ),
    "a desk goes back to its opening": Row(
        manifest=COMPILES,
        trace=PAUSED,
        script="""\
run
run
back
back
back
back
marks
stamps
logs
""",
        report="""\
1 0 ok
2 0 ok
3 0 ok
4 0 ok
5 0 ok break 2
6 0 refused 92
7 0 ok
8 1 ok
9 1 ok
10 1 ok
11 1 refused 86
stamp a.c 10
stamp b.c 20
""",
        on_threads=True,
    ),
}
