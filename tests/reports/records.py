"""What a trace opens with, how paths are compared, and how they stand in commands."""

from rows import FAULT, FIRST, WELL, Row

QUOTED = """\
rule cc
  command = cc -o $out $in
build o: cc it's$ a$ $$x.o ../Src_1/a+b-c.o
"""


def opening(records: str, report: str = "") -> Row:
    """Opening lines, and the stamps and logs that are due, or the fault."""
    return Row("", FIRST + records, "stamps\nlogs\n", report, FAULT if report.startswith("fault") else WELL)


ROWS = {
    "a stamp, and one of a file that is not there": opening("jobs 2\nstamp ./a.c 10\nstamp b.c 0\n", "stamp a.c 10\n"),
    "a record of the build log": opening("built a.o 10 cc\\s-c\n", "built a.o 10 cc\\s-c\n"),
    "a record of the deps log, which names a path twice": opening(
        "deps a.o 10 a.h ./a.h\n", "deps a.o 10 a.h a.h\n"
    ),
    "records of one path in both logs": opening(
        "built a.o 10 cc\ndeps a.o 10\n", "built a.o 10 cc\ndeps a.o 10\n"
    ),
    "a second stamp of a path": opening("stamp a.c 0\nstamp x/../a.c 5\n", "fault trace 3 103\n"),
    "a second record of a path in the build log": opening("built a.o 1 c\nbuilt ./a.o 1 c\n", "fault trace 3 103\n"),
    "a second record of a path in the deps log": opening("deps a.o 10 a.h\ndeps a.o 10\n", "fault trace 3 103\n"),
    "no job": opening("jobs 0\n", "fault trace 2 101\n"),
    # A slash comes behind a dash.
    "paths in the order of their bytes": opening("stamp a/b 1\nstamp a-b 2\n", "stamp a-b 2\nstamp a/b 1\n"),
    # All but safe paths stand between quotes.
    "paths in a command": Row(
        QUOTED,
        f"{FIRST}stamp it's\\sa\\s$x.o 1\nstamp ../Src_1/a+b-c.o 1\nlane 0\nplan\nstart o 0\nfinish o 5\n",
        "run\nlogs\n",
        "1 0 ok\n2 0 ok\n3 0 ok\nbuilt o 5 cc\\s-o\\so\\s'it'\\\\''s\\sa\\s$x.o'\\s../Src_1/a+b-c.o\n",
    ),
}
