"""What another order of the kept events makes: the same history, a pair that stands the other way round, or a history
of other events (docs/USE.md, `order`)."""

from rows import COMPILES, Begin

NO_EDGE = Begin("", "jobs 2\n")
TWO_OBJECTS = Begin(COMPILES, "jobs 2\nstamp a.c 10\nstamp b.c 20\n")
# Two commands of a pool of one slot, which has the number 1.
TWO_LINKS = Begin(
    """\
pool link
  depth = 1
rule ld
  command = ld $out
  pool = link
build a: ld
build b: ld
""",
    "jobs 2\n",
)

ROWS = {
    "a touch is matched with the second one there, which equals it, and not with the first": NO_EDGE.said(
        "touch a 1; touch a 2; touch a 1", "ok; ok; ok", "order 1 3 2", "order pair 2 3\n"
    ),
    "neighbours are exchanged": NO_EDGE.said(
        "touch a 1; touch b 2; touch a 1", "ok; ok; ok", "order 2 1 3; order 2 3 1", "order same\norder same\n"
    ),
    # In the other list the pair of b comes first.
    "the least first number counts": NO_EDGE.said(
        "touch a 1; touch b 1; touch b 2; touch a 2", "ok; ok; ok; ok", "order 3 2 4 1", "order pair 1 4\n"
    ),
    "then the least second one": NO_EDGE.said(
        "touch a 1; touch a 2; touch a 3", "ok; ok; ok", "order 3 2 1", "order pair 1 2\n"
    ),
    "events are counted with their repeats": NO_EDGE.said(
        "touch a 1; touch a 1; touch b 2", "ok; ok; ok", "order 1 3 3", "order differ\n"
    ),
    "the other has one more": NO_EDGE.said("touch a 1", "ok", "order 1 1", "order differ\n"),
    # It has the number that it was accepted with.
    "only what is kept counts": NO_EDGE.said(
        "touch a 1; touch b 3; undo 2; touch a 2",
        "ok; ok; ok; ok",
        "order 4 1; order 1 4; order 1 2 4",
        "order pair 1 4\norder same\norder differ\n",
    ),
    "two commands are exchanged": TWO_OBJECTS.said(
        "plan app; start a.o 0; start b.o 1; finish a.o 100; finish b.o 110",
        "ok; ok; ok; ok; ok",
        "order 1 3 5 2 4",
        "order same\n",
    ),
    "a plan reads and writes the whole state": TWO_OBJECTS.said(
        "touch x 1; plan app; touch y 2", "ok; ok; ok", "order 3 1 2", "order pair 2 3\n"
    ),
    "two equal resizes write one cell": TWO_LINKS.said(
        "resize 1 2; resize 1 3; resize 1 2", "ok; ok; ok", "order 1 3 2", "order pair 2 3\n"
    ),
    # Of the events that were taken back and put again, and of what they leave.
    "a redo stands at its place": NO_EDGE.said(
        "touch a 5; touch b 6; undo 1; redo 1",
        "ok; ok; ok; ok",
        "kept; order 1 2",
        "kept 1 touch a 5\nkept 2 touch b 6\norder same\n",
    ),
    "what is refused changes nothing": NO_EDGE.said(
        "touch a 5; touch a 6; undo 1; redo 2",
        "ok; ok; refused 82 2; refused 83",
        "kept; stamps",
        "kept 1 touch a 5\nkept 2 touch a 6\nstamp a 6\n",
    ),
    "an undo and a step back leave what was there before": NO_EDGE.said(
        "touch a 5; touch b 6; undo 1; back", "ok; ok; ok; ok", "kept; stamps", ""
    ),
    "an undone resize leaves the depth before it": TWO_LINKS.said(
        "resize 1 2; resize 1 1; undo 2", "ok; ok; ok", "marks; undo 1; marks", "depth 1 2\n4 1 ok\n"
    ),
    "a start in a new slot depends on the resize, and the resize on a start before it": TWO_LINKS.said(
        "plan; start a 0 0; resize 1 2; start b 1 1; undo 2; undo 3",
        "ok; ok; ok; ok; refused 82 3; refused 82 4",
    ),
}
