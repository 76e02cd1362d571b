"""What plans mark and are refused for, and why an edge is to run."""

from rows import COMPILES, Begin

# An output with a validation.
VALIDATED = "rule r\n  command = r $in\nbuild x: r a |@ v\nbuild v: r b\ndefault x\n"
# A group of generated headers, before which an object is not built.
GENERATED = """\
rule gen
  command = gen $out
rule cc
  command = cc $in $out
build g.h: gen
build grp: phony || g.h
build x.o: cc x.c || grp
"""
# An object that keeps deps, a header that is made from it, what is built from that one, and what is built from neither.
LISTED = """\
rule cc
  command = cc
  deps = gcc
  depfile = d
rule gen
  command = gen
build app: gen b.h
build a.o: cc a.c
build b.h: gen a.o
build lone: gen a.c
"""

VALIDATES = Begin(VALIDATED, "stamp a 1\nstamp b 1\n")
LISTS_A_HEADER = Begin(LISTED, "stamp a.c 1\ndeps a.o 1 b.h\n")
LISTS_A_MISSING_FILE = Begin(LISTED, "stamp a.c 1\ndeps a.o 1 h.h\n")
ONE_SOURCE = Begin(COMPILES, "stamp a.c 10\n")
BOTH_SOURCES = Begin(COMPILES, "jobs 2\nstamp a.c 10\nstamp b.c 20\n")
# After the object a.o was deleted.
WITHOUT_AN_OBJECT = Begin(
    COMPILES,
    "stamp a.c 10\nstamp b.c 20\nstamp b.o 110\nstamp app 120\n"
    "built b.o 110 cc\\s-c\\sb.c\\s-o\\sb.o\nbuilt app 120 ld\\sa.o\\sb.o\\s-o\\sapp\n",
)

PLANS = {
    "what is missing and what waits for it is wanted": WITHOUT_AN_OBJECT.said(
        "plan app", "ok", "marks", "mark 0 a.o wanted\nmark 2 app wanted\n"
    ),
    "what is there is idle": WITHOUT_AN_OBJECT.said("plan b.o", "ok", "marks; why b.o", "why b.o nothing\n"),
    "a validation is reached": VALIDATES.said("plan", "ok", "marks", "mark 0 x wanted\nmark 1 v wanted\n"),
    "a validation alone": VALIDATES.said("plan v", "ok", "marks", "mark 1 v wanted\n"),
    "an order-only group is a way through": Begin(GENERATED, "stamp x.c 5\n").said(
        "plan x.o", "ok", "marks", "mark 0 g.h wanted\nmark 1 grp through\nmark 2 x.o wanted\n"
    ),
    "a cycle through a deps record is named by its least edge": LISTS_A_HEADER.said("plan app", "refused 53 1"),
    "a cycle that no target needs": LISTS_A_HEADER.said("plan lone", "ok", "marks", "mark 3 lone wanted\n"),
    "an input that only deps list may be missing": LISTS_A_MISSING_FILE.said(
        "plan a.o", "ok", "marks", "mark 1 a.o wanted\n"
    ),
    "an input of a build line may not": Begin(LISTED, "deps a.o 1 h.h\n").said("plan app", "refused 52 0 1"),
    "an unknown target": ONE_SOURCE.said("plan nothing.x", "refused 51 0"),
    "a missing source": ONE_SOURCE.said("plan app", "refused 52 0 1"),
    "a source that is missing is a target": ONE_SOURCE.said("plan b.c", "ok", "marks", ""),
    "a running command is refused first": BOTH_SOURCES.said(
        "plan b.o; start b.o 0; plan nothing.x", "ok; ok; refused 50 1"
    ),
}

# An object that keeps deps.
OBJECT = "rule cc\n  command = cc $in\n  deps = gcc\n  depfile = $out.d\nbuild a.o: cc a.c\n"
TWICE = "rule r\n  command = r $in\nbuild m: r a\nbuild x: r m m\n"
RESTATED = "rule r\n  command = r $in\n  restat = 1\nbuild x: r a\n"
ORDERED = "rule r\n  command = r $in\nbuild x: r || a\n"
# A chain of three phony edges behind an edge that runs.
CHAIN = Begin(
    "rule r\n  command = r $in\nbuild p: phony a\nbuild q: phony p\nbuild s: phony | q\nbuild x: r s\n",
    "stamp a 30\nstamp x 20\nbuilt x 20 r\\ss\n",
)
# A group of which one file counts and one is order-only.
GROUP = "rule r\n  command = r $in\nbuild grp: phony g || h\nbuild x: r a | grp\n"
BARE = Begin("build x y: phony\nbuild z: phony w\n", "stamp y 3\nstamp w 1\n")
RUNGS = 40


def ladder() -> str:
    """An edge that runs and a ladder of phony edges, each with two inputs that are the next."""
    rungs = (f"build p{rung}: phony p{rung + 1} p{rung + 1}\n" for rung in range(RUNGS))
    return "rule r\n  command = r\nbuild x: r p0\n" + "".join(rungs)


def unplanned(output: str) -> str:
    """What is shown of an edge that a plan found no reason for: no mark, and nothing to tell."""
    return f"why {output} nothing\n"


REASONS = {
    "a missing object": Begin(COMPILES, "stamp a.c 10\nstamp b.c 20\nstamp b.o 110\nstamp app 120\n").said(
        "plan a.o", "ok", "why a.o", "why a.o missing a.o\nwhy a.o older a.o a.c\nwhy a.o no-record a.o\n"
    ),
    "a phony edge without inputs": BARE.said("plan x", "ok", "marks; why x", "mark 0 x wanted\nwhy x missing x\n"),
    "a phony edge with an input": BARE.said("plan z", "ok", "marks; why z", unplanned("z")),
    "deps without a record": Begin(OBJECT, "stamp a.c 10\nstamp h.h 5\n").said(
        "plan a.o",
        "ok",
        "why a.o",
        "why a.o missing a.o\nwhy a.o no-deps\nwhy a.o older a.o a.c\nwhy a.o no-record a.o\n",
    ),
    "deps that were listed before the object": Begin(
        OBJECT, "stamp a.c 10\nstamp h.h 5\nstamp a.o 100\nbuilt a.o 100 cc\\sa.c\ndeps a.o 50 a.c h.h\n"
    ).said("plan a.o", "ok", "why a.o", "why a.o deps-old\n"),
    "a listed header is missing": Begin(
        OBJECT, "stamp a.c 10\nstamp a.o 100\nbuilt a.o 100 cc\\sa.c\ndeps a.o 100 a.c h.h\n"
    ).said("plan a.o", "ok", "why a.o", "why a.o missing-dep h.h\n"),
    "an input that stands twice is newest once": Begin(
        TWICE, "stamp a 1\nstamp m 9\nstamp x 5\nbuilt m 9 r\\sa\nbuilt x 5 r\\sm\\sm\n"
    ).said("plan x", "ok", "marks; why x", "mark 1 x wanted\nwhy x older x m\n"),
    "an input that stands twice is rebuilt twice": Begin(
        TWICE, "stamp a 1\nstamp m 5\nstamp x 9\nbuilt x 9 r\\sm\\sm\n"
    ).said(
        "plan x; start m 0; finish m 5",
        "ok; ok; ok",
        "marks; why x",
        "mark 0 m done 0\nmark 1 x wanted\nwhy x rebuilt m\nwhy x rebuilt m\n",
    ),
    "restat takes the greater stamp, the record's": Begin(
        RESTATED, "stamp a 30\nstamp x 20\nbuilt x 40 r\\sa\n"
    ).said("plan x", "ok", "marks; why x", unplanned("x")),
    "restat takes the greater stamp, the file's": Begin(RESTATED, "stamp a 15\nstamp x 20\nbuilt x 10 r\\sa\n").said(
        "plan x", "ok", "marks; why x", unplanned("x")
    ),
    "restat where both are older": Begin(RESTATED, "stamp a 30\nstamp x 20\nbuilt x 10 r\\sa\n").said(
        "plan x", "ok", "marks; why x", "mark 0 x wanted\nwhy x older x a\n"
    ),
    "order-only inputs are no reason": Begin(ORDERED, "stamp a 30\nstamp x 20\nbuilt x 20 r\\s\n").said(
        "plan x", "ok", "marks; why x", unplanned("x")
    ),
    "a stamp shows through a chain of phony edges": CHAIN.said(
        "plan x",
        "ok",
        "marks; why p; why q; why s; why x",
        f"mark 3 x wanted\n{unplanned('p')}{unplanned('q')}{unplanned('s')}why x older x s\n",
    ),
    "what a phony edge has order-only does not show": Begin(
        GROUP, "stamp a 10\nstamp g 15\nstamp h 30\nstamp x 20\nbuilt x 20 r\\sa\n"
    ).said("plan x", "ok", "marks; why x", unplanned("x")),
    "what a phony edge has shows": Begin(
        GROUP, "stamp a 10\nstamp g 30\nstamp h 15\nstamp x 20\nbuilt x 20 r\\sa\n"
    ).said("plan x", "ok", "marks; why x", "mark 1 x wanted\nwhy x older x grp\n"),
    "a ladder is walked rung by rung": Begin(
        ladder(), f"stamp p{RUNGS} 30\nstamp x 20\nbuilt x 20 r\n"
    ).said("plan x", "ok", "marks; why x", "mark 0 x wanted\nwhy x older x p0\n"),
}

ROWS = PLANS | REASONS
