"""What is told of texts with a fault."""

from rows import FAULT, Row

ROWS = {
    "bad manifest": Row(
        manifest="build x: nope\n",
        trace="",
        script="jump\n",
        report="fault manifest build.ninja 1 13\n",
        status=FAULT,
        on_threads=True,
    ),
    "two producers": Row(
        manifest="""\
rule r
  command = r
build x: r
build x: r
""",
        trace="",
        script="jump\n",
        report="fault graph 40 x\n",
        status=FAULT,
    ),
    "cycle": Row(
        manifest="""\
rule r
  command = r
build x: r y
build y: r x
""",
        trace="rebug-trace 1\n",
        script="run\n",
        report="fault graph 41 x\n",
        status=FAULT,
        on_threads=True,
    ),
    "bad script": Row(
        manifest="",
        trace="rebug-trace 1\n",
        script="jump\n",
        report="fault script 1 100\n",
        status=FAULT,
        on_threads=True,
    ),
    "lane out of turn": Row(
        manifest="",
        trace="""\
rebug-trace 1
lane 1
""",
        script="run\n",
        report="fault trace 2 102\n",
        status=FAULT,
        on_threads=True,
    ),
    "bad number": Row(
        manifest="",
        trace="""\
rebug-trace 1
stamp a 01
""",
        script="run\n",
        report="fault trace 2 101\n",
        status=FAULT,
    ),
    "double record": Row(
        manifest="",
        trace="""\
rebug-trace 1
stamp a 1
stamp ./a 2
""",
        script="run\n",
        report="fault trace 3 103\n",
        status=FAULT,
    ),
    "place of a line": Row(
        manifest="",
        trace="""\
rebug-trace 1
start x 0
""",
        script="run\n",
        report="fault trace 2 100\n",
        status=FAULT,
    ),
    "lane in a script": Row(
        manifest="",
        trace="rebug-trace 1\n",
        script="""\
run
lane 0
""",
        report="fault script 2 100\n",
        status=FAULT,
    ),
    "name of no event": Row(
        manifest="",
        trace="rebug-trace 1\n",
        script="dependents 1:\n",
        report="fault script 1 101\n",
        status=FAULT,
    ),
    "resize in a first trace": Row(
        manifest="",
        trace="""\
rebug-trace 1
lane 0
resize 1 2
""",
        script="run\n",
        report="fault trace 3 100\n",
        status=FAULT,
    ),
    "resize without a depth": Row(
        manifest="",
        trace="rebug-trace 1\n",
        script="resize 1\n",
        report="fault script 1 100\n",
        status=FAULT,
    ),
    "resize to no number": Row(
        manifest="",
        trace="rebug-trace 1\n",
        script="resize 1 02\n",
        report="fault script 1 101\n",
        status=FAULT,
    ),
}
