#!/usr/bin/env python3
"""What observing costs a build: observed.py [--runs N] [--jobs N,N..] [--observers NAME,NAME..] BUILD_FOLDER...

Each folder is one that Ninja builds and that `ninja -t clean` empties. For each number of jobs it is built from nothing
so many times (5) without an observer and under each one, in turn. What is told are the least and the median of the
processor time (user and system) and of the wall time, and their ratios to the plain build's. The observer is in them.
The reader, which works out the footprints while the build goes on, is counted beside: its processor time and greatest
memory. At last one recording by each observer tells the bytes of `trace` and `observed`.
"""

import argparse
import ctypes
import io
import os
import pathlib
import resource
import select
import statistics
import subprocess
import sys
import tempfile
import time
from collections.abc import Callable
from dataclasses import dataclass

HERE = pathlib.Path(__file__).resolve().parent
sys.dont_write_bytecode = True
sys.path[:0] = [str(HERE.parents[1] / "record")]

from recorder.manifest import Manifest  # noqa: E402
from recorder.observed.calls import Observer  # noqa: E402
from recorder.observed.effects import Build  # noqa: E402
from recorder.observed.log_pipe import BUFFER, LogPipe  # noqa: E402
from recorder.observed.matching import text_of  # noqa: E402
from recorder.observed.observers import OBSERVERS  # noqa: E402
from recorder.observed.places import Places  # noqa: E402

RECORDER = HERE.parents[1] / "record" / "rebug-record"
# The most that the processor time may be beside the plain build's, and of the reader its part of that and its memory.
MARKS = {"own": 1.25, "strace": 1.6}
READER_MARK, MEMORY_MARK = 0.05, 200
SUBREAPER = 36  # PR_SET_CHILD_SUBREAPER: what is nobody's child comes to this process


@dataclass
class Cost:
    """Seconds of the processor and of the clock that a build took, and those of its reader, whose memory is in MB."""

    processor: float
    wall: float
    reader: float = 0.0
    memory: int = 0


def in_child(work: Callable[[], None]) -> int:
    """Does the work in a process of its own; gives its number."""
    child = os.fork()
    if child:
        return child
    try:
        work()
        os._exit(0)
    except BaseException as why:
        print(f"{type(why).__name__}: {why}", file=sys.stderr, flush=True)
        os._exit(1)


def ended(child: int) -> resource.struct_rusage:
    """What a process and all that it waited for took."""
    _, status, usage = os.wait4(child, 0)
    if status:
        sys.exit("a build or its reader did not end well")
    return usage


def run_all(words: list[bytes], folder: pathlib.Path) -> None:
    """Runs the words in the folder, and waits for them and for what they left behind."""
    ctypes.CDLL(None).prctl(SUBREAPER, 1, 0, 0, 0)
    process = subprocess.Popen(words, cwd=folder, stdin=subprocess.DEVNULL, stdout=subprocess.DEVNULL)
    if process.wait():
        raise RuntimeError(f"the build of {folder} failed")
    while True:
        try:
            os.wait()
        except ChildProcessError:
            return


def seconds_of_reading(observer: Observer, pipe: LogPipe, folder: pathlib.Path) -> float:
    """Works out the footprints of a log to its end, as the recorder does; gives the processor time of that."""
    pipe.end()
    real = os.path.realpath(os.fsencode(folder))
    manifest = Manifest(b"build.ninja", lambda name: pathlib.Path(os.fsdecode(os.path.join(real, name))).read_bytes())
    began = time.process_time()
    build = Build({text_of(it) for it in manifest.edges if not it.phony}, real, Places(), {})
    poll = select.poll()
    poll.register(pipe.reader, select.POLLIN)
    poll.poll()
    events = observer.events(io.BufferedReader(pipe.log(), BUFFER))
    build.take_all(events)
    for _ in events:
        pass
    build.processes.finish()
    return time.process_time() - began


def write(path: pathlib.Path, number: float) -> None:
    """Writes a number for another process."""
    path.write_text(str(number))


def cost(folder: pathlib.Path, jobs: int, observer: Observer | None, room: pathlib.Path) -> Cost:
    """Builds from nothing."""
    subprocess.run(["ninja", "-t", "clean"], cwd=folder, check=True, stdout=subprocess.DEVNULL)
    words, reader = [b"ninja", b"-j%d" % jobs], None
    if observer is not None:
        pipe = LogPipe()
        reader = in_child(lambda: write(room / "took", seconds_of_reading(observer, pipe, folder)))
        words = observer.words(pipe.path, words)
        os.close(pipe.reader)
    begin = time.monotonic()
    usage = ended(in_child(lambda: run_all(words, folder)))
    found = Cost(usage.ru_utime + usage.ru_stime, time.monotonic() - begin)
    if reader is not None:
        pipe.close()
        found.memory = ended(reader).ru_maxrss // 1024
        found.reader = float((room / "took").read_text())
    return found


def table(folder: pathlib.Path, jobs: int, runs: int, observers: dict[str, Observer | None]) -> None:
    """Measures each in turn, and prints its line."""
    costs: dict[str, list[Cost]] = {name: [] for name in observers}
    with tempfile.TemporaryDirectory(prefix="rebug-bench-") as room:
        for _ in range(runs):
            for name, observer in observers.items():
                costs[name].append(cost(folder, jobs, observer, pathlib.Path(room)))
    print(f"{'/'.join(folder.parts[-2:])}, -j{jobs}, {runs} runs: processor least (ratio), median (ratio); "
          f"wall least (ratio); reader least, of the plain build's processor time, memory", flush=True)
    for name, found in costs.items():
        least, middle = min(it.processor for it in found), statistics.median(it.processor for it in found)
        wall = min(it.wall for it in found)
        plain = costs["plain"]
        base, base_middle = min(it.processor for it in plain), statistics.median(it.processor for it in plain)
        line = (f"  {name:7} {least:7.2f} ({least / base:.2f}) {middle:7.2f} ({middle / base_middle:.2f});"
                f" {wall:7.2f} ({wall / min(it.wall for it in plain):.2f})")
        if name != "plain":
            reader, memory = min(it.reader for it in found), max(it.memory for it in found)
            line += f"; {reader:5.2f} ({100 * reader / base:.1f} %), {memory} MB"
            marks = {"observer": middle / base_middle <= MARKS[name], "reader": reader <= READER_MARK * base,
                     "memory": memory <= MEMORY_MARK}
            line += "; " + ", ".join(f"{it} {'reached' if is_so else 'MISSED'}" for it, is_so in marks.items())
        print(line, flush=True)


def sizes(folder: pathlib.Path, jobs: int, name: str) -> None:
    """Records once, and prints how large what is recorded is."""
    subprocess.run(["ninja", "-t", "clean"], cwd=folder, check=True, stdout=subprocess.DEVNULL)
    with tempfile.TemporaryDirectory(prefix="rebug-bench-") as room:
        out = pathlib.Path(room) / "out"
        subprocess.run([sys.executable, RECORDER, folder, out, "--observe", "--observer", name, "--", f"-j{jobs}"],
                       check=True, capture_output=True)
        trace, observed = (out / "trace").stat().st_size, (out / "observed").stat().st_size
    print(f"  {name}: trace {trace:,} bytes, observed {observed:,} bytes ({100 * observed / trace:.1f} %)", flush=True)


def main(words: list[str]) -> int:
    parser = argparse.ArgumentParser(description=__doc__, formatter_class=argparse.RawDescriptionHelpFormatter)
    parser.add_argument("folders", nargs="+", type=pathlib.Path, metavar="BUILD_FOLDER")
    parser.add_argument("--runs", type=int, default=5)
    parser.add_argument("--jobs", type=lambda it: [int(n) for n in it.split(",")], default=[1, 4])
    parser.add_argument("--observers", type=lambda it: it.split(","), default=list(OBSERVERS))
    given = parser.parse_args(words)
    observers: dict[str, Observer | None] = {"plain": None}
    for name in given.observers:
        observers[name] = OBSERVERS[name]()
        refusal = observers[name].refusal()
        if refusal:
            sys.exit(f"{name} cannot observe here: {refusal}")
    print(f"load {os.getloadavg()[0]:.1f}, {os.cpu_count()} processors", flush=True)
    for folder in given.folders:
        for jobs in given.jobs:
            table(folder.resolve(), jobs, given.runs, observers)
        for name in given.observers:
            sizes(folder.resolve(), given.jobs[0], name)
    return 0


if __name__ == "__main__":
    sys.exit(main(sys.argv[1:]))
