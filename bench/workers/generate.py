#!/usr/bin/env python3
"""Writes traces that touch files, in one lane and in many: generate.py FILES PREFIX.

PREFIX.ninja has two edges. PREFIX.one has all touches in one lane, PREFIX.eight and PREFIX.many the same touches dealt
to 8 and to 63 lanes, and PREFIX.waits two lanes, of which the second waits until the first, with all the touches, has
ended. PREFIX.run runs them.

PREFIX.crowd.ninja, PREFIX.crowd and PREFIX.crowd.run: 62 lanes that wait each for an edge of 100 inputs, the last of
which lane 0 makes once it has touched a 500th of the files, one after the other.
"""

import sys

LANES, CROWD, INPUTS = 63, 62, 100
files, prefix = int(sys.argv[1]), sys.argv[2]


def write(ending, lines):
    with open(f"{prefix}.{ending}", "w") as file:
        file.writelines(f"{line}\n" for line in lines)


def touches(first, step, end=files):
    return [f"touch f{it} {it + 1}" for it in range(first, end, step)]


def dealt(lanes):
    return [line for lane in range(lanes) for line in (f"lane {lane}", *touches(lane, lanes))]


head = ["rebug-trace 1", "jobs 2"]
write("ninja", ["rule cc", "  command = cc $in", "build a: cc s", "build b: cc a"])
write("one", [*head, "lane 0", *touches(0, 1)])
write("eight", [*head, *dealt(8)])
write("many", [*head, *dealt(LANES)])
write("waits", [*head, "stamp s 1", "lane 0", "plan b", "start a 0", *touches(0, 1), "lane 1", "start b 1"])
write("run", ["run"])

inputs = [f"i{it}" for it in range(INPUTS - 1)]
waiting = [f"w{it}" for it in range(1, CROWD + 1)]
write("crowd.ninja", ["rule cc", "  command = cc $in", "build a: cc i0",
                      *(f"build {it}: cc {' '.join(inputs)} a" for it in waiting)])
lanes = [line for lane, it in enumerate(waiting, 1)
         for line in (f"lane {lane}", f"start {it} {lane}", f"finish {it} 9")]
write("crowd", ["rebug-trace 1", f"jobs {CROWD + 1}", *(f"stamp {it} 1" for it in inputs), "lane 0", "start a 0",
                *touches(0, 1, files // 500), "finish a 5", *lanes])
write("crowd.run", [f"plan {' '.join(waiting)}", "run"])
