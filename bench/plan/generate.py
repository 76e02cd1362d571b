#!/usr/bin/env python3
"""Writes a generated build with its files and Ninja's logs, and the same state as a trace.

    generate.py KIND EDGES STATE DIR

KIND is one of
  layered  objects of a source and 19 shared headers, archives of 20 objects, programs of 20 archives
  headers  objects of a source, whose deps records list 300 headers
  ladder   phony edges in ladders of 1,000 rungs of two, each rung over both of the one below, with a command at each
           end
  group    objects behind one phony group, for which no file stands, of as many headers as there are objects
STATE is todo (sources alone) or done (all outputs of commands and their records are there).

DIR gets build.ninja, the files, .ninja_log and .ninja_deps; open.trace opens this state, plan.trace plans it as well,
and `run` is the script of both. The logs are those of the Ninja on the PATH, or of the one that NINJA names; `ninja -n`
is asked whether it has read them.
"""
import os
import struct
import subprocess
import sys
from pathlib import Path

sys.path.insert(0, str(Path(__file__).resolve().parents[2] / "record"))
from recorder.ninja import HASHES, found_ninja  # noqa: E402

SOURCE, OUTPUT = 1_000_000_000, 1_000_000_100  # seconds; a trace says 5 and 10
LISTED, SHARED, RUNGS, FAN = 300, 3_000, 1_000, 20


class Build:
    """A build: its sources, and for each edge its rule, output, explicit and implicit inputs, and the headers that its
    deps list."""

    def __init__(self, rules):
        self.rules, self.sources, self.edges = rules, {}, []

    def source(self, path):
        self.sources[path] = True
        return path

    def edge(self, rule, out, inputs, implicit=(), listed=()):
        self.edges.append((rule, out, inputs, implicit, listed))
        return out


def layered(edges):
    build = Build({"cc": "cc -O2 -Wall -c $in -o $out", "ar": "ar rcs $out $in", "ld": "cc $in -o $out"})
    objects = edges * FAN * FAN // (FAN * FAN + FAN + 1)
    level = [
        build.edge("cc", f"obj/part{n % 100}/unit{n}.o", [build.source(f"src/part{n % 100}/unit{n}.c")],
                   implicit=[build.source(f"include/header{(n * 7 + k) % SHARED}.h") for k in range(FAN - 1)])
        for n in range(objects)
    ]
    for rule, stem in (("ar", "lib/archive"), ("ld", "bin/program")):
        level = [build.edge(rule, f"{stem}{at // FAN}", level[at:at + FAN]) for at in range(0, len(level), FAN)]
    return build


def headers(edges):
    build = Build({"cc": "cc -O2 -Wall -c $in -o $out"})
    for n in range(edges):
        build.edge("cc", f"obj/part{n % 100}/unit{n}.o", [build.source(f"src/part{n % 100}/unit{n}.c")],
                   listed=[build.source(f"include/header{(n * 7 + k) % SHARED}.h") for k in range(LISTED)])
    return build


def ladder(edges):
    build = Build({"touch": "touch $out"})
    for which in range(max(1, edges // (2 * RUNGS))):
        below = [build.source(f"low/left{which}"), build.source(f"low/right{which}")]
        for rung in range(RUNGS):
            below = [build.edge("phony", f"{side}{which}.{rung}", below) for side in ("left", "right")]
        build.edge("touch", f"top/{which}", below)
    return build


def group(edges):
    build = Build({"cc": "cc -c $in -o $out"})
    build.edge("phony", "group", [build.source(f"include/header{k}.h") for k in range(edges)])
    for n in range(edges):
        build.edge("cc", f"obj/unit{n}.o", [build.source(f"src/unit{n}.c")], implicit=["group"])
    return build


def command_of(build, edge):
    rule, out, inputs = edge[:3]
    return build.rules[rule].replace("$in", " ".join(inputs)).replace("$out", out)


def write_manifest(build, folder):
    with open(folder / "build.ninja", "w") as file:
        for rule, command in build.rules.items():
            deps = "  deps = gcc\n  depfile = $out.d\n" if any(it[4] for it in build.edges[:1]) else ""
            file.write(f"rule {rule}\n  command = {command}\n{deps}")
        for rule, out, inputs, implicit, _ in build.edges:
            bar = f" | {' '.join(implicit)}" if implicit else ""
            file.write(f"build {out}: {rule} {' '.join(inputs)}{bar}\n")


def write_file(folder, path, second):
    full = folder / path
    full.parent.mkdir(parents=True, exist_ok=True)
    full.touch()
    os.utime(full, (second, second))


def write_logs(build, made, folder, version):
    hash_of = HASHES[version]
    with open(folder / ".ninja_log", "w") as log:
        log.write(f"# ninja log v{version}\n")
        for edge in made:
            log.write(f"0\t1\t{OUTPUT}000000000\t{edge[1]}\t{hash_of(command_of(build, edge).encode()):x}\n")
    ids = {}
    with open(folder / ".ninja_deps", "wb") as log:
        log.write(b"# ninjadeps\n" + struct.pack("<I", 4))

        def number(path):
            if path not in ids:
                ids[path] = len(ids)
                name = path.encode()
                name += b"\0" * (-len(name) % 4)
                log.write(struct.pack("<I", len(name) + 4) + name + struct.pack("<I", ~ids[path] & 0xFFFFFFFF))
            return ids[path]

        for edge in made:
            if edge[4]:
                numbers = [number(path) for path in (edge[1], *edge[4])]
                record = struct.pack("<IQ", numbers[0], OUTPUT * 10**9)
                record += struct.pack(f"<{len(numbers) - 1}I", *numbers[1:])
                log.write(struct.pack("<I", len(record) | 0x80000000) + record)


def write_traces(build, made, folder):
    with open(folder / "open.trace", "w") as trace:
        trace.write("rebug-trace 1\n")
        trace.writelines(f"stamp {path} 5\n" for path in build.sources)
        for edge in made:
            command = command_of(build, edge).replace(" ", "\\s")
            trace.write(f"stamp {edge[1]} 10\nbuilt {edge[1]} 10 {command}\n")
            if edge[4]:
                trace.write(f"deps {edge[1]} 10 {' '.join(edge[4])}\n")
    text = (folder / "open.trace").read_text()
    (folder / "plan.trace").write_text(text + "lane 0\nplan\n")
    (folder / "run").write_text("run\n")


def check_logs(ninja, state, folder):
    """Asks Ninja whether there is nothing to do where all is done: Ninja throws a log of another version away without a
    word."""
    said = subprocess.run([ninja, "-n"], cwd=folder, stdin=subprocess.DEVNULL, capture_output=True, text=True).stdout
    if (said == "ninja: no work to do.\n") != (state == "done"):
        sys.exit(f"generate.py: {ninja} has not read the state that was written ({state}): {said[:200]}")


def main(kind, edges, state, folder):
    ninja = found_ninja()
    build = {"layered": layered, "headers": headers, "ladder": ladder, "group": group}[kind](edges)
    folder.mkdir(parents=True)
    made = [it for it in build.edges if it[0] != "phony"] if state == "done" else []
    write_manifest(build, folder)
    for path in build.sources:
        write_file(folder, path, SOURCE)
    for edge in made:
        write_file(folder, edge[1], OUTPUT)
    write_logs(build, made, folder, ninja.log_version)
    write_traces(build, made, folder)
    check_logs(ninja.program, state, folder)


main(sys.argv[1], int(sys.argv[2]), sys.argv[3], Path(sys.argv[4]))
