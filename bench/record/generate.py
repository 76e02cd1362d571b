#!/usr/bin/env python3
"""Writes a build folder whose edges list headers, as a compiler's do: generate.py FOLDER EDGES HEADERS.

Each edge has a source of its own and finds HEADERS headers, of which there are as many again; its command writes an
empty output and copies the list, with the source in front.
"""

import pathlib
import sys


def main(folder, edges, headers):
    folder = pathlib.Path(folder)
    (folder / "include/library").mkdir(parents=True)
    (folder / "src").mkdir()
    names = [f"include/library/header_{it:04}.h" for it in range(2 * headers)]
    for it in names:
        (folder / it).write_text("")
    for it in range(16):
        listed = " ".join(names[(7 * it + 3 * at) % len(names)] for at in range(headers - 1))
        (folder / f"list{it}.d").write_text(f"@: % {listed}\n")
    command = "sed 's|@|$out|; s|%|$in|' list$list.d >$out.d && : >$out"
    lines = ["rule cc", f"  command = {command}", "  depfile = $out.d", "  deps = gcc"]
    for it in range(edges):
        (folder / f"src/file_{it:05}.c").write_text("")
        lines += [f"build out/file_{it:05}.o: cc src/file_{it:05}.c", f"  list = {it % 16}"]
    (folder / "build.ninja").write_text("\n".join(lines) + "\n")


if __name__ == "__main__":
    main(sys.argv[1], int(sys.argv[2]), int(sys.argv[3]))
