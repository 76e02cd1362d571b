"""What is told of builds: their marks, stamps and logs, why an edge is to run, and what is refused."""

from rows import COMPILES, POOLS, Row

ROWS = {
    "plan refused": Row(
        manifest=COMPILES,
        trace="""\
rebug-trace 1
stamp a.c 10
lane 0
plan nothing.x
plan app
""",
        script="""\
run
kept
""",
        report="""\
1 0 refused 51 0
2 0 refused 52 0 1
""",
        on_threads=True,
    ),
    "marks stamps logs": Row(
        manifest=COMPILES,
        trace="""\
rebug-trace 1
jobs 2
stamp a.c 10
stamp b.c 20
lane 0
plan app
start a.o 0
start b.o 1
finish a.o 100
finish b.o 110
start app 0
""",
        script="""\
run
marks
stamps
logs
""",
        report="""\
1 0 ok
2 0 ok
3 0 ok
4 0 ok
5 0 ok
6 0 ok
mark 0 a.o done 0
mark 1 b.o done 0
mark 2 app running 0 - 110
job 0 2
stamp a.c 10
stamp a.o 100
stamp b.c 20
stamp b.o 110
built a.o 100 cc\\s-c\\sa.c\\s-o\\sa.o
built b.o 110 cc\\s-c\\sb.c\\s-o\\sb.o
""",
        on_threads=True,
    ),
    "why chain": Row(
        manifest=COMPILES,
        trace="""\
rebug-trace 1
stamp a.c 10
stamp b.c 20
stamp b.o 110
stamp app 120
built b.o 110 cc\\s-c\\sb.c\\s-o\\sb.o
built app 120 ld\\sa.o\\sb.o\\s-o\\sapp
lane 0
plan app
""",
        script="""\
run
why app
""",
        report="""\
1 0 ok
why app via a.o
why a.o missing a.o
why a.o older a.o a.c
why a.o no-record a.o
""",
        on_threads=True,
    ),
    "touches conflict": Row(
        manifest=COMPILES,
        trace="""\
rebug-trace 1
jobs 2
stamp a.c 10
stamp b.c 20
lane 0
plan app
touch a.c 10
start a.o 0
undo 2
""",
        script="run\n",
        report="""\
1 0 ok
2 0 ok
3 0 ok
4 0 refused 82 3
""",
    ),
    "interrupt reads": Row(
        manifest=COMPILES,
        trace="""\
rebug-trace 1
jobs 2
stamp a.c 10
stamp b.c 20
lane 0
plan app
start a.o 0
interrupt
undo 2
""",
        script="run\n",
        report="""\
1 0 ok
2 0 ok
3 0 ok
4 0 refused 82 3
""",
    ),
    "restat per output": Row(
        manifest="""\
rule gen
  command = gen
  restat = 1
rule cp
  command = cp $in $out
build p q: gen s
build u: cp p
build v: cp q
""",
        trace="""\
rebug-trace 1
stamp s 50
stamp p 10
stamp q 10
stamp u 20
stamp v 20
built p 10 gen
built q 10 gen
built u 20 cp\\sp\\su
built v 20 cp\\sq\\sv
lane 0
plan
start p 0
finish q 60,10
start v 0
clean u
clean v
start u 0
""",
        script="""\
run
logs
""",
        report="""\
1 0 ok
2 0 ok
3 0 ok
4 0 refused 69
5 0 refused 70 4
6 0 ok
7 0 ok
built p 60 gen
built q 50 gen
built u 20 cp\\sp\\su
built v 20 cp\\sq\\sv
""",
    ),
    "through phony": Row(
        manifest="""\
rule gen
  command = gen $out
rule cc
  command = cc $in $out
build g.h: gen
build grp: phony || g.h
build x.o: cc x.c || grp
""",
        trace="""\
rebug-trace 1
jobs 2
stamp x.c 5
lane 0
plan x.o
start x.o 1
start g.h 0
start x.o 1
finish g.h 7
start x.o 1
pass grp
start x.o 1
""",
        script="""\
run
marks
""",
        report="""\
1 0 ok
2 0 refused 68 1
3 0 ok
4 0 refused 68 1
5 0 ok
6 0 refused 68 1
7 0 ok
8 0 ok
mark 0 g.h done 0
mark 1 grp done -
mark 2 x.o running 1 - 5
job 1 2
""",
    ),
    "pools": Row(
        manifest=POOLS,
        trace="""\
rebug-trace 1
jobs 2
lane 0
plan x y z t
start x 0 0
start y 1 0
start y 1 1
start y 1
start z 1 0
start z 2
start z 0
start z 1
finish x 5
start t 0 0
start y 0 0
""",
        script="run\n",
        report="""\
1 0 ok
2 0 ok
3 0 refused 74 0
4 0 refused 73
5 0 refused 73
6 0 refused 73
7 0 refused 71
8 0 refused 72 0
9 0 ok
10 0 ok
11 0 ok
12 0 refused 72 3
""",
    ),
    "interrupt abort": Row(
        manifest=COMPILES,
        trace="""\
rebug-trace 1
jobs 2
stamp a.c 10
stamp b.c 20
lane 0
plan app
start a.o 0
plan app
abort a.o 0
fail a.o 1,2
interrupt
start b.o 1
interrupt
abort a.o 0
finish a.o 3
plan app
""",
        script="run\n",
        report="""\
1 0 ok
2 0 ok
3 0 refused 50 0
4 0 refused 64
5 0 refused 75 1
6 0 ok
7 0 refused 63
8 0 refused 65
9 0 ok
10 0 refused 67
11 0 ok
""",
        on_threads=True,
    ),
    "redo reads the present": Row(
        manifest=COMPILES,
        trace="""\
rebug-trace 1
jobs 2
stamp a.c 10
stamp b.c 20
lane 0
plan app
touch a.c 11
start a.o 0
""",
        script="""\
run
undo 3
undo 2
redo 3
marks
""",
        report="""\
1 0 ok
2 0 ok
3 0 ok
4 1 ok
5 1 ok
6 1 ok
mark 0 a.o running 0 - 10
mark 1 b.o wanted
mark 2 app wanted
job 0 0
""",
    ),
    "response file": Row(
        manifest="""\
rule r
  command = r @$out.rsp
  rspfile = $out.rsp
  rspfile_content = $in
build o: r a$ b it's
""",
        trace="""\
rebug-trace 1
stamp a\\sb 1
stamp it's 1
stamp o 5
built o 5 r\\s@o.rsp;rspfile=x
lane 0
plan o
start o 0
finish o 6
""",
        script="""\
run 1
why o
run
logs
""",
        report="""\
1 0 ok
why o command o
2 0 ok
3 0 ok
built o 6 r\\s@o.rsp;rspfile='a\\sb'\\s'it'\\\\''s'
""",
    ),
    "response file of a generator": Row(
        manifest="""\
rule r
  command = r @$out.rsp
  rspfile = $out.rsp
  rspfile_content = $in
  generator = 1
build o: r a$ b it's
""",
        trace="""\
rebug-trace 1
stamp a\\sb 1
stamp it's 1
stamp o 5
built o 5 r\\s@o.rsp;rspfile=x
lane 0
plan o
start o 0
finish o 6
""",
        script="""\
run 1
why o
""",
        report="""\
1 0 ok
why o nothing
""",
    ),
    "validation": Row(
        manifest="""\
rule r
  command = r $in
build x: r a |@ v
build v: r b
default x
""",
        trace="""\
rebug-trace 1
stamp a 1
stamp b 1
lane 0
plan
start x 0
""",
        script="""\
run
marks
""",
        report="""\
1 0 ok
2 0 ok
mark 0 x running 0 - 1
mark 1 v wanted
job 0 0
""",
    ),
    "depfile": Row(
        manifest="""\
rule cc
  command = cc $in
  depfile = $out.d
  deps = gcc
build a.o: cc a.c
""",
        trace="""\
rebug-trace 1
stamp a.c 10
stamp h.h 5
lane 0
plan a.o
start a.o 0
finish a.o 100 depfile b.o:\\sx
finish a.o 100 depfile a.o:\\sa.c\\sh.h
touch h.h 0
plan a.o
""",
        script="""\
run
why a.o
logs
""",
        report="""\
1 0 ok
2 0 ok
3 0 refused 77 31 0
4 0 ok
5 0 ok
6 0 ok
why a.o missing-dep h.h
built a.o 100 cc\\sa.c
deps a.o 100 a.c h.h
""",
    ),
    "old deps": Row(
        manifest="""\
rule cc
  command = cc $in
  depfile = $out.d
  deps = gcc
build a.o: cc a.c
""",
        trace="""\
rebug-trace 1
stamp a.c 10
stamp h.h 5
stamp a.o 100
built a.o 100 cc\\sa.c
deps a.o 50 a.c h.h
lane 0
plan a.o
""",
        script="""\
run
why a.o
""",
        report="""\
1 0 ok
why a.o deps-old
""",
    ),
    "listed twice": Row(
        manifest="""\
rule cc
  command = cc $in
  deps = gcc
build a.o: cc a.c
build b.o: cc b.c
""",
        trace="""\
rebug-trace 1
stamp a.c 10
stamp b.c 10
stamp h.h 5
lane 0
plan
start a.o 0
finish a.o 100 list h.h ./h.h a.c h.h
start b.o 0
finish b.o 101 list h.h b.c
""",
        script="""\
run
logs
""",
        report="""\
1 0 ok
2 0 ok
3 0 ok
4 0 ok
5 0 ok
built a.o 100 cc\\sa.c
built b.o 101 cc\\sb.c
deps a.o 100 h.h a.c
deps b.o 101 h.h b.c
""",
    ),
    "list without deps": Row(
        manifest=COMPILES,
        trace="""\
rebug-trace 1
jobs 2
stamp a.c 10
stamp b.c 20
lane 0
plan app
start a.o 0
finish a.o 100 list h.h
""",
        script="run\n",
        report="""\
1 0 ok
2 0 ok
3 0 refused 76
""",
    ),
}
