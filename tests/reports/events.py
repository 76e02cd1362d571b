"""Each refusal once, and what each kind of event leaves, on one small build and on one with pools."""

from rows import Begin

# Two objects and a program, a phony alias, a generator under restat, a pool of one slot, a source that is not there.
# Edges: 0 a.o, 1 b.o, 2 app, 3 all, 4 v.h, 5 x and y, 6 z, 7 lone, 8 n, 9 w.
BUILD = """\
pool one
  depth = 1
rule cc
  command = cc
  deps = gcc
  depfile = d
rule ld
  command = ld
rule gen
  command = gen
  restat = 1
rule p
  command = p
  pool = one
build a.o: cc a.c || v.h
build b.o: cc b.c
build app: ld a.o b.o
build all: phony app
build v.h: gen v.in
build x y: p
build z: p
build lone: ld none.c
build n: gen v.h
build w: phony b.o
"""

# Pools of depth 1, none, 1,024 and one more, numbered from 1, since `console` is 0. Edges: 0 x, 1 y, 2 z in the first
# pool, 3 w in the third, 4 t in `console`.
POOLS = """\
pool one
  depth = 1
pool any
  depth = 0
pool most
  depth = 1024
pool past
  depth = 1025
rule p
  command = p
  pool = one
build x: p
build y: p
build z: p
build w: p
  pool = most
build t: p
  pool = console
"""

SOURCES = Begin(BUILD, "jobs 2\nstamp a.c 10\nstamp b.c 20\nstamp v.in 30\n")
# One job, where v.h is older than its source, and n was built after it.
GENERATED = Begin(BUILD, "stamp v.in 30\nstamp v.h 20\nstamp n 25\nbuilt n 25 gen\n")
POOLED = Begin(POOLS, "jobs 2\n")
ALL_ARE_WANTED = "".join(f"mark {edge} {output} wanted\n" for edge, output in enumerate("xyzwt"))

ROWS = {
    "plans that are refused": SOURCES.said(
        "plan nowhere; plan lone; plan b.o; start b.o 1; plan app",
        "refused 51 0; refused 52 0 7; ok; ok; refused 50 1",
    ),
    "a record that leads back is a cycle": SOURCES.said(
        "plan b.o; start b.o 0; finish b.o 40 list b.c app; plan app",
        "ok; ok; ok; refused 53 1",
    ),
    "starts that are refused": SOURCES.said(
        "start a.c 0; start all 0; start b.o 0; plan app; start app 0",
        "refused 60; refused 61; refused 66; ok; refused 68 0",
    ),
    "no such job, and no pool": SOURCES.said("plan b.o; start b.o 2; start b.o 0 0", "ok; refused 71; refused 73"),
    "slots of a pool": SOURCES.said("plan z; start z 0; start z 0 1", "ok; refused 73; refused 73"),
    "jobs and slots that are taken": SOURCES.said(
        "plan x z; start x 0 0; start z 0 0; start z 1 0",
        "ok; ok; refused 72 5; refused 74 5",
    ),
    "no such pool, one without slots, and one of too many": POOLED.said(
        "plan; resize 5 1; resize 2 1; resize 4 1",
        "ok; refused 79; refused 79; refused 79",
    ),
    # Those of `console`, of the deepest pool that can have another depth, and the greatest.
    "depths are from 1 to 1,024": POOLED.said(
        "plan; resize 1 0; resize 1 1025; resize 0 2; resize 3 1; resize 1 1024",
        "ok; refused 79; refused 79; ok; ok; ok",
    ),
    "the least slot that is lost and held is named": POOLED.said(
        "plan; resize 1 5; start x 0 3; start y 1 1; resize 1 1; resize 1 2",
        "ok; ok; ok; ok; refused 78 1 1; refused 78 3 0",
    ),
    # It may stay, grow, and lose slots that are free.
    "a depth that is none is told before slots that are held": POOLED.said(
        "plan; resize 1 2; start x 0 1; resize 1 0; resize 1 2; resize 1 9; resize 1 2",
        "ok; ok; ok; refused 79; ok; ok; ok",
    ),
    "a start asks the present depth": POOLED.said(
        "plan; start x 0 1; resize 1 2; start x 0 2; start x 0 1; resize 3 1; start w 1 1",
        "ok; refused 73; ok; refused 73; ok; ok; refused 73",
    ),
    "a plan leaves depths as they are": POOLED.said(
        "plan; resize 1 2; plan x; start x 0 1",
        "ok; ok; ok; ok",
    ),
    "a resize writes the depth": POOLED.said("plan; resize 1 4", "ok; ok", "marks", f"{ALL_ARE_WANTED}depth 1 4\n"),
    "a resize writes the depth that the pool has": POOLED.said(
        "plan; resize 1 1", "ok; ok", "marks", f"{ALL_ARE_WANTED}depth 1 1\n"
    ),
    "finishes that are refused": SOURCES.said(
        "finish x 40,41; plan x; start y 0 0; finish x 40; finish x 40,41 depfile x:",
        "refused 67; ok; ok; refused 75 2; refused 76",
    ),
    "a depfile with a fault": SOURCES.said(
        "plan b.o; start b.o 0; finish b.o 40 depfile b.o:\\nc.o:\\sb.c",
        "ok; ok; refused 77 31 5",
    ),
    "an interrupt comes once": SOURCES.said(
        "plan b.o; start b.o 0; abort b.o 0; interrupt; interrupt",
        "ok; ok; refused 64; ok; refused 65",
    ),
    "nothing starts after an interrupt": SOURCES.said("plan b.o; interrupt; start b.o 0", "ok; ok; refused 63"),
    "cleans and passes that are refused": SOURCES.said(
        "pass b.o; plan all; clean b.o; pass b.o; pass all",
        "refused 66; ok; refused 70 1; refused 62; refused 68 0",
    ),
    "what restat left alone makes nothing dirty": GENERATED.said(
        "plan n; start v.h 0; finish v.h 20; start n 0; clean n",
        "ok; ok; ok; refused 69; ok",
        "marks",
        "mark 4 v.h done -\nmark 8 n clean\n",
    ),
    "a plan marks all edges": GENERATED.said("plan n", "ok", "marks", "mark 4 v.h wanted\nmark 8 n wanted\n"),
    # Under restat the record of what was left alone has the stamp that its command had seen.
    "a finish keeps what it saw": GENERATED.said(
        "plan v.h; start v.h 0; finish v.h 20",
        "ok; ok; ok",
        "marks; stamps; logs",
        "mark 4 v.h done -\nstamp n 25\nstamp v.h 20\nstamp v.in 30\nbuilt n 25 gen\nbuilt v.h 30 gen\n",
    ),
    "a start holds its job and its slot": SOURCES.said(
        "plan x; start y 1 0",
        "ok; ok",
        "marks",
        "mark 5 x running 1 0 0\njob 1 5\nslot 1 0 5\n",
    ),
    "a finish leaves stamps and records": SOURCES.said(
        "plan b.o; start b.o 0; finish b.o 40 list b.c h b.c",
        "ok; ok; ok",
        "marks; stamps; logs",
        "mark 1 b.o done 0\nstamp a.c 10\nstamp b.c 20\nstamp b.o 40\nstamp v.in 30\n"
        "built b.o 40 cc\ndeps b.o 40 b.c h\n",
    ),
    "a fail leaves no record": SOURCES.said(
        "plan x; start x 0 0; fail x 0,41",
        "ok; ok; ok",
        "marks; stamps; logs",
        "mark 5 x failed\nstamp a.c 10\nstamp b.c 20\nstamp v.in 30\nstamp y 41\n",
    ),
    "an abort frees the job": SOURCES.said(
        "plan b.o; start b.o 0; interrupt; abort b.o 7",
        "ok; ok; ok; ok",
        "marks; stamps; logs",
        "mark 1 b.o stopped\nhalted\nstamp a.c 10\nstamp b.c 20\nstamp b.o 7\nstamp v.in 30\n",
    ),
    "a touch writes one stamp": SOURCES.said("touch a.c 0", "ok", "marks; stamps", "stamp b.c 20\nstamp v.in 30\n"),
    "an interrupt writes one cell": SOURCES.said(
        "interrupt", "ok", "marks; stamps", "halted\nstamp a.c 10\nstamp b.c 20\nstamp v.in 30\n"
    ),
    "a pass hands on what was rebuilt": SOURCES.said(
        "plan w; start b.o 0; finish b.o 40; pass w",
        "ok; ok; ok; ok",
        "marks",
        "mark 1 b.o done 0\nmark 9 w done 0\n",
    ),
}
