#!/usr/bin/env python3
"""Writes a recording of a generated build, in which `races` is to find races.

    generate.py EDGES HEADERS SETS RACES FOLDER [OBSERVED]

A tenth of EDGES, at most 2,000, make a header each; the others compile, and each lists HEADERS paths, of which eight
are made headers. There are SETS phony groups of eight made headers, and each compile waits for one of them, so for the
made headers that it lists. RACES of the compiles wait for no group: each of these has eight races.

With OBSERVED the recording has the file `observed` too: each command read what it lists, or what its line names, and
left its outputs. OBSERVED is `runs` where the numbers of the paths that a command read stand in few ranges, as a
recorder gives them that numbers paths as it meets them, or `apart` where no two of these numbers meet, so that each is
a word. Where OBSERVED is `deps`, there is no such file, but Ninja's deps log of the same lists (`.ninja_deps`, version
4), which `ninja -t missingdeps` reads.
"""
import os
import struct
import sys

edges, headers, sets, races = map(int, sys.argv[1:5])
folder = sys.argv[5]
observed = sys.argv[6] if len(sys.argv) > 6 else None
makers = max(8, min(2000, edges // 10))
sets = min(sets, makers)
GROUP = 8


def group(number):
    """The made headers of a group."""
    return [f"gen/g{(number + k * (1 + number % 7)) % makers}.h" for k in range(GROUP)]


os.makedirs(folder, exist_ok=True)
with open(f"{folder}/build.ninja", "w") as manifest:
    manifest.write("rule gen\n  command = gen $out\n")
    manifest.write("rule cc\n  command = cc $in -o $out\n  depfile = $out.d\n  deps = gcc\n")
    for maker in range(makers):
        manifest.write(f"build gen/g{maker}.h: gen in{maker % 50}\n")
    for number in range(sets):
        manifest.write(f"build group{number}: phony {' '.join(group(number))}\n")
    for edge in range(edges - makers):
        waits = "" if edge < races else f" || group{edge % sets}"
        manifest.write(f"build o{edge}: cc s{edge}{waits}\n")
with open(f"{folder}/trace", "w") as trace:
    trace.write("rebug-trace 1\njobs 4\n")
    for number in range(50):
        trace.write(f"stamp in{number} 5\n")
    for edge in range(edges - makers):
        trace.write(f"stamp s{edge} 5\n")
    for number in range(headers):
        trace.write(f"stamp include/deep/header{number}.h 5\n")
    trace.write("lane 0\nplan\n")
    for maker in range(makers):
        trace.write(f"start gen/g{maker}.h {maker % 4}\nfinish gen/g{maker}.h {10 + maker}\n")
    for number in range(sets):
        trace.write(f"pass group{number}\n")
    common = " ".join(f"include/deep/header{number}.h" for number in range(headers - GROUP))
    for edge in range(edges - makers):
        listed = " ".join(group(edge % sets))
        trace.write(f"start o{edge} {edge % 4}\nfinish o{edge} {10000 + edge} list {common} {listed}\n")


def ranges(numbers):
    """A set of numbers, as the file `observed` has it."""
    words, at = [], sorted(numbers)
    first = 0
    for place in range(1, len(at) + 1):
        if place == len(at) or at[place] != at[place - 1] + 1:
            words.append(str(at[first]) if first == place - 1 else f"{at[first]}-{at[place - 1]}")
            first = place
    return " ".join(words)


def write_observed(file):
    """The file `observed`: what the makers and the compiles read and left."""
    named = [f"include/deep/header{number}.h" for number in range(headers - GROUP)]
    if observed == "apart":
        named = [name for it in named for name in (it, f"{it}.other")]
    paths = {name: number for number, name in enumerate(named)}
    commands = [(f"gen/g{maker}.h", [f"in{maker % 50}"], [f"gen/g{maker}.h"]) for maker in range(makers)]
    common = [f"include/deep/header{number}.h" for number in range(headers - GROUP)]
    for edge in range(edges - makers):
        commands.append((f"o{edge}", [*common, *group(edge % sets), f"s{edge}"], [f"o{edge}"]))
    for _, reads, writes in commands:
        for name in (*reads, *writes):
            paths.setdefault(name, len(paths))
    file.write("rebug-observed 1\nby generate\n")
    file.writelines(f"path {name}\n" for name in paths)
    for output, reads, writes in commands:
        file.write(f"edge {output}\nreads {ranges({paths[name] for name in reads})}\n")
        file.write(f"writes {ranges({paths[name] for name in writes})}\n")


def write_deps(file):
    """Ninja's deps log: a record of each path, whose number counts from 0, and of each compile with what it lists."""
    paths = {}

    def number(name):
        if name not in paths:
            paths[name] = len(paths)
            padded = name.encode() + b"\0" * (-len(name) % 4)
            file.write(struct.pack("<I", len(padded) + 4) + padded + struct.pack("<I", ~paths[name] & 0xFFFFFFFF))
        return paths[name]

    file.write(b"# ninjadeps\n" + struct.pack("<I", 4))
    for edge in range(edges - makers):
        listed = [f"include/deep/header{place}.h" for place in range(headers - GROUP)] + group(edge % sets)
        numbers = [number(name) for name in (f"o{edge}", *listed)]
        words = [numbers[0], 10000 + edge, 0, *numbers[1:]]
        file.write(struct.pack(f"<I{len(words)}I", len(words) * 4 | 0x80000000, *words))


if observed == "deps":
    with open(f"{folder}/.ninja_deps", "wb") as file:
        write_deps(file)
elif observed:
    with open(f"{folder}/observed", "w") as file:
        write_observed(file)
