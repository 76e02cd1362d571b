#!/usr/bin/env python3
"""Times what the recorder does beside Ninja: measure.py [EDGES [HEADERS]] (20,000 and 300).

Builds the generated folder once, recorded; then measures, on one processor: Ninja's own build of no work, the steps
of a recording of that, and of the recording of the whole build, from the same files, with the memory that they took.
"""

import os
import pathlib
import resource
import subprocess
import sys
import tempfile
import time

HERE = pathlib.Path(__file__).resolve().parent
sys.dont_write_bytecode = True
sys.path[:0] = [str(HERE), str(HERE.parents[1] / "record")]

import generate  # noqa: E402
from recorder.disk import Snapshot, take_snapshot  # noqa: E402
from recorder.files import write_recording  # noqa: E402
from recorder.held import HeldFolder  # noqa: E402
from recorder.logs import BuildLog  # noqa: E402
from recorder.manifest import Manifest  # noqa: E402
from recorder.ninja import found_ninja  # noqa: E402
from recorder.recording import record  # noqa: E402
from recorder.running import Ran  # noqa: E402
from recorder.words import read_words  # noqa: E402

NINJA = found_ninja()


def no_work(folder, runs=5):
    """The least that Ninja takes to find that there is nothing to do."""
    found = []
    for _ in range(runs):
        begin = time.monotonic()
        subprocess.run([NINJA.program], cwd=folder, check=True, stdout=subprocess.DEVNULL)
        found.append(time.monotonic() - begin)
    return min(found)


class Steps:
    """The steps of a recording, each with its time and with the greatest memory so far."""

    def __init__(self):
        self.began = time.monotonic()

    def least(self, step, runs=5):
        """Does the step so often, and counts the least of the times, as is done for Ninja."""
        found = []
        for run in range(runs):
            begin = time.monotonic()
            step(run)
            found.append(time.monotonic() - begin)
        self.began = time.monotonic() - min(found)

    def done(self, name):
        now = time.monotonic()
        memory = resource.getrusage(resource.RUSAGE_SELF).ru_maxrss // 1024
        print(f"  {name}: {now - self.began:.2f} s, {memory:,} MB", flush=True)
        self.began = time.monotonic()


def steps(folder, out, is_whole):
    """Records from the files as they are: nothing to do, or the whole build."""
    it, folder = Steps(), os.fsencode(folder)
    manifest = Manifest(b"build.ninja", lambda name: pathlib.Path(os.fsdecode(os.path.join(folder, name))).read_bytes())
    it.done("the manifest is read")
    after = take_snapshot(folder, manifest, NINJA)
    it.done("stamps and logs are read")
    sources = {path: 0 if path in manifest.producer else stamp for path, stamp in after.stamps.items()}
    before = Snapshot(sources, BuildLog(after.log.version, []), {}, {}) if is_whole else after
    found = record(NINJA, folder, manifest, read_words([]), None, before, after, Ran(0, 0))
    it.done("the events are worked out")

    def write(run):
        os.mkdir(f"{out}{run}")
        with HeldFolder.at(f"{out}{run}") as held:
            write_recording(found, held, False, "/nowhere/rebug", f"{out}{run}")

    it.least(write)
    it.done(f"{len(found.found.events):,} events, {os.path.getsize(f'{out}0/trace'):,} bytes are written")


def main(edges=20_000, headers=300):
    with tempfile.TemporaryDirectory(prefix="rebug-bench-") as room:
        folder = pathlib.Path(room) / "build"
        generate.main(folder, edges, headers)
        begin = time.monotonic()
        subprocess.run([NINJA.program, "--quiet"], cwd=folder, check=True)
        print(f"{edges:,} edges of {headers} headers, built in {time.monotonic() - begin:.1f} s", flush=True)
        print(f"Ninja's build of no work: {no_work(folder):.2f} s", flush=True)
        for is_whole in (False, True):
            print("a recording of the whole build:" if is_whole else "a recording of no work:", flush=True)
            child = os.fork()
            if not child:
                steps(folder, f"{room}/out{is_whole}", is_whole)
                os._exit(0)
            if os.waitpid(child, 0)[1]:
                return 1
    return 0


if __name__ == "__main__":
    sys.exit(main(*map(int, sys.argv[1:])))
