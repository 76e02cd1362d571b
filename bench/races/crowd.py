#!/usr/bin/env python3
"""Writes a recording of a generated build in which each user races with many makers.

    crowd.py MAKERS USERS LISTED FOLDER

Each of MAKERS makes a header, and each of USERS lists LISTED of them and waits for none: USERS times LISTED races.
Users that stand side by side list other headers. All makers come first, so that each user reads what is there.
"""

from __future__ import annotations

import pathlib
import sys


def main(makers: int, users: int, listed: int, folder: pathlib.Path) -> None:
    folder.mkdir(parents=True, exist_ok=True)
    manifest = ["rule gen", "  command = gen $out", "rule cc", "  command = cc $in -o $out", "  depfile = $out.d",
                "  deps = gcc"]
    manifest += [f"build gen/g{maker}.h: gen in" for maker in range(makers)]
    manifest += [f"build o{user}: cc s{user}" for user in range(users)]
    trace = ["rebug-trace 1", "jobs 4", "stamp in 5", *(f"stamp s{user} 5" for user in range(users)), "lane 0", "plan"]
    for maker in range(makers):
        trace += [f"start gen/g{maker}.h 0", f"finish gen/g{maker}.h {10 + maker}"]
    for user in range(users):
        names = " ".join(f"gen/g{(user + place) % makers}.h" for place in range(listed))
        trace += [f"start o{user} 0", f"finish o{user} {10000 + user} list {names}"]
    for name, lines in (("build.ninja", manifest), ("trace", trace)):
        (folder / name).write_text("\n".join(lines) + "\n", encoding="ascii")


if __name__ == "__main__":
    main(*map(int, sys.argv[1:4]), pathlib.Path(sys.argv[4]))
