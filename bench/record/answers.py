#!/usr/bin/env python3
"""How much an answer holds: answers.py PROGRAM RECORDING...

For each recording: its events; the dependences (pairs of an event and a later one that depends on it), as `dependents`
lists them; and the mean size of a cone, which is an event with all that depends on it, also through others.
"""

import os
import subprocess
import sys


def dependents(program, folder):
    """Event -> the events that depend on it."""
    with open(os.path.join(folder, "trace"), "rb") as file:
        count = len(file.read().split(b"\nlane 0\n")[1].split(b"\n")) - 1
    with open(os.path.join(folder, "replay"), encoding="utf-8") as file:
        words = file.read().splitlines()[-1].split()[2:]
    words[words.index("--script") + 1] = "/dev/stdin"
    script = "run\n" + "".join(f"dependents {it}\n" for it in range(1, count + 1))
    done = subprocess.run([os.path.abspath(program), *words], cwd=folder, input=script.encode(), capture_output=True,
                          check=True)
    lines = [it.split() for it in done.stdout.decode().splitlines() if it.startswith("dependents ")]
    return {int(it[1]): [int(number) for number in it[2:]] for it in lines}


def cones(below):
    """The size of each event's cone."""
    found = {}
    for event in sorted(below, reverse=True):
        found[event] = {event}.union(*(found[it] for it in below[event]))
    return [len(it) for it in found.values()]


def main(program, folders):
    for folder in folders:
        below = dependents(program, folder)
        sizes = cones(below)
        print(f"{folder}: {len(below)} events, {sum(map(len, below.values()))} dependences, "
              f"a cone of {sum(sizes) / len(sizes):.1f} events on the average")


if __name__ == "__main__":
    main(sys.argv[1], sys.argv[2:])
