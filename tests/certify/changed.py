"""Recordings with one change, by which something stands in the way that none of the kept recordings has."""

from __future__ import annotations

from collections.abc import Callable

from observation import ended

Files = dict[str, str]


def without_end(observed: str) -> str:
    """The lines of an observation without the last one."""
    return observed[:observed.rindex("end ")]


def without_block(files: Files, output: str) -> Files:
    """The same without what one command was seen to do."""
    kept: list[str] = []
    is_kept = True
    for line in without_end(files["observed"]).splitlines(keepends=True):
        if line.startswith(("ninja", "edge ")):
            is_kept = line != f"edge {output}\n"
        if is_kept:
            kept.append(line)
    return {**files, "observed": ended("".join(kept))}


def without_lines(text: str, *beginnings: str) -> str:
    """A text without the lines that begin so."""
    return "".join(line for line in text.splitlines(keepends=True) if not line.startswith(beginnings))


def never_begun(files: Files) -> Files:
    """The build ended before b."""
    files = without_block(files, "b")
    return {**files, "trace": without_lines(files["trace"], "start b ", "finish b ")}


def up_to_date(files: Files) -> Files:
    """b was there, as its command leaves it."""
    files = never_begun(files)
    command = r"mkdir\s-p\so\s&&\secho\sb\s>\so/b1;\stouch\sb"
    return {**files, "trace": files["trace"].replace("lane 0\n", f"stamp b 100\nbuilt b 100 {command}\nlane 0\n")}


def failed(files: Files) -> Files:
    """b failed."""
    lines = [line if not line.startswith("finish b ") else "fail b 0\n"
             for line in files["trace"].splitlines(keepends=True)]
    return {**files, "trace": "".join(lines)}


def failed_for(files: Files) -> Files:
    """b failed before a ended. Its error names what a makes, and b was seen to look for that in vain. A command that
    was observed whole and did not look for a file did not fail for want of the file."""
    trace = "rebug-trace 1\njobs 2\nlane 0\nplan\nstart a 0\nstart b 1\nfail b 0\nfinish a 100\n"
    head, block, rest = without_end(files["observed"]).partition("edge b\nfolder 0\n")
    return {**files, "trace": trace, "observed": ended(f"{head}{block}missing 3\n{rest}"),
            "output": "rebug-output 1\nfailed b 4 0 cat:\\sa:\\sNo\\ssuch\\sfile\n"}


def making_the_manifest(files: Files) -> Files:
    """b's output is the file from which the manifest is read."""
    trace, observed = files["trace"], without_end(files["observed"])
    for word in ("start", "finish"):
        trace = trace.replace(f"{word} b ", f"{word} build.ninja ")
    for line in ("edge b\n", "path b 0\n"):
        observed = observed.replace(line, line.replace(" b", " build.ninja"))
    return {**files, "build.ninja": files["build.ninja"].replace("build b: r", "build build.ninja: r"), "trace": trace,
            "observed": ended(observed)}


def unordered(files: Files) -> Files:
    """The manifest has no order of main.o and the header that it lists, and it was not seen to read the header."""
    return {**files, "build.ninja": files["build.ninja"].replace("cc main.c || table.h", "cc main.c"),
            "observed": ended(without_end(files["observed"]).replace("read 6-7\n", "read 7\n"))}


def looking_ahead(files: Files) -> Files:
    """main.o reads the program that is linked of it."""
    return {**files, "observed": ended(without_end(files["observed"]).replace("read 6-7\n", "read 6-7 14\n"))}


def changing(files: Files) -> Files:
    """The link changes a source in place that was compiled before."""
    return {**files, "observed": ended(without_end(files["observed"]).replace("left 14\n", "left 14\nedited 7\n"))}


def listing(path: str) -> Callable[[Files], Files]:
    """main.o lists one path more."""
    def changed(files: Files) -> Files:
        return {**files, "trace": files["trace"].replace(" list main.c ", f" list {path} main.c ")}

    return changed


def cut_off(files: Files) -> Files:
    return {**files, "observed": without_end(files["observed"])}


def of_version_1(files: Files) -> Files:
    return {**files, "observed": "rebug-observed 1\nby ptrace\n"}


def refused(files: Files) -> Files:
    """The trace begins a command twice, so the replay refuses one line."""
    return {**files, "trace": files["trace"].replace("start a 0\n", "start a 0\nstart a 1\n")}


CHANGES: dict[str, Callable[[Files], Files]] = {
    "the end cut off": cut_off, "as version 1": of_version_1, "b failed": failed, "b never began": never_begun,
    "b was up to date": up_to_date, "b not observed": lambda files: without_block(files, "b"),
    "b makes the manifest": making_the_manifest, "main.o unordered": unordered,
    "main.o reads app": looking_ahead, "app changes main.c": changing,
    "main.o lists app": listing("app"), "main.o lists itself": listing("main.o"),
    "b failed for want of a": failed_for, "a line refused": refused,
}
"""Each change by the name that the table has."""
