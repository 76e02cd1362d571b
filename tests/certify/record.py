#!/usr/bin/env python3
"""Records the builds of tests/unsound and tests/planted with --observe, each with one job, as tests/certify keeps them.

    tests/certify/record.py [NAME..]

A recording is one file: its files by name, as JSON. The folder in which the builds lay is named /home/me/room in it, and
the sum of its observation is that of the text with this name."""

from __future__ import annotations

import json
import os
import pathlib
import shutil
import subprocess
import sys
import tempfile
from concurrent.futures import ThreadPoolExecutor

sys.dont_write_bytecode = True
HERE = pathlib.Path(__file__).resolve().parent
TOP = HERE.parents[1]
sys.path[:0] = [str(TOP / "tests"), str(TOP / "tests/unsound")]

from attempts import ATTEMPTS, Attempt  # noqa: E402
from observation import ended  # noqa: E402

RECORDER = TOP / "record/rebug-record"
KEPT = HERE / "recordings"
ROOM = "/home/me/room"
LEFT_OUT = ("ninja", "output", "replay", "report", "script", "story", "times")
AT_ONCE = 2
LONGEST_SECONDS = 300


def summed(observed: str) -> str:
    """A text of an observation with the last line that is due, where it has one."""
    body, _, last = observed[:-1].rpartition("\n")
    return ended(f"{body}\n") if last.startswith("end ") else observed


def keep(name: str, recorded: pathlib.Path, room: pathlib.Path) -> None:
    """Keeps a recording."""
    files = {}
    for path in sorted(it for it in recorded.rglob("*") if it.is_file()):
        file = str(path.relative_to(recorded))
        if file not in LEFT_OUT:
            files[file] = path.read_bytes().decode("latin-1").replace(str(room), ROOM)
    files["observed"] = summed(files["observed"])
    KEPT.mkdir(exist_ok=True)
    (KEPT / f"{name}.json").write_text(json.dumps(files, indent=0, sort_keys=True) + "\n")


def shell(text: str, folder: pathlib.Path) -> None:
    if text:
        subprocess.run(["/bin/sh", "-c", text], cwd=folder, stdin=subprocess.DEVNULL, capture_output=True,
                       timeout=LONGEST_SECONDS, check=False)


def observe(folder: pathlib.Path, out: pathlib.Path, targets: tuple[str, ...], observer: str = "own",
            given: pathlib.Path = pathlib.Path(os.devnull)) -> None:
    words = [sys.executable, RECORDER, folder, out, "--observe", "--observer", observer, "-j", "1", "--", "-k", "0",
             *targets]
    with open(given, "rb") as file:
        ran = subprocess.run(words, stdin=file, capture_output=True, timeout=LONGEST_SECONDS, check=False,
                             env={**os.environ, "REBUG_OBSERVED_VERSION": "2", "PYTHONDONTWRITEBYTECODE": "1"})
    if not (out / "observed").exists():
        raise OSError(f"{out.name}: {ran.stderr.decode()}")


def record_attempt(room: pathlib.Path, attempt: Attempt) -> None:
    """Records the build of an attempt."""
    def placed(text: str) -> str:
        return text.replace("@ROOM@", str(room))

    folder = (pathlib.Path(placed(attempt.root)) if attempt.root else room / "w") / attempt.name
    shutil.rmtree(folder, ignore_errors=True)
    folder.mkdir(parents=True)
    for name, text in attempt.files.items():
        path = folder / name
        path.parent.mkdir(parents=True, exist_ok=True)
        path.write_text(placed(text))
        path.chmod(0o755 if text.startswith("#!") else 0o644)
    (folder / "build.ninja").write_text(placed(attempt.manifest))
    shell(placed(attempt.setup), folder)
    given = folder / attempt.standard_input if attempt.standard_input else pathlib.Path(os.devnull)
    try:
        observe(folder, room / attempt.name, attempt.targets, attempt.observer or "own", given)
    finally:
        shell(placed(attempt.cleanup), folder)
    keep(attempt.name, room / attempt.name, room)


def record_planted(room: pathlib.Path, project: pathlib.Path, manifest: str) -> None:
    """Records the build of a copy of a planted project, with this manifest of it."""
    name = project.name if manifest == "build.ninja" else f"{project.name}-mended"
    folder = room / "p" / name
    shutil.copytree(project, folder, symlinks=True, ignore=shutil.ignore_patterns("WHY", "due", "fail", "mended.ninja"))
    if (project / manifest).exists():
        shutil.copy(project / manifest, folder / "build.ninja")
    elif (folder / "CMakeLists.txt").exists():
        made = folder.with_suffix(".made")
        subprocess.run(["cmake", "-G", "Ninja", "-S", folder, "-B", made], check=True, capture_output=True)
        folder = made
    observe(folder, room / name, ())
    keep(name, room / name, room)


def main() -> int:
    wanted = set(sys.argv[1:])
    room = pathlib.Path(os.path.realpath(tempfile.mkdtemp(prefix="rebug-certify-")))
    (room / "tmpfs").mkdir()
    subprocess.run(["mount", "-t", "tmpfs", "rebug", room / "tmpfs"], check=True)
    jobs = [(it.name, record_attempt, (room, it)) for it in ATTEMPTS]
    for project in sorted((TOP / "tests/planted").iterdir()):
        if not project.is_dir():
            continue
        jobs.append((project.name, record_planted, (room, project, "build.ninja")))
        if (project / "mended.ninja").exists():
            jobs.append((f"{project.name}-mended", record_planted, (room, project, "mended.ninja")))
    failed = []

    def do(job: tuple) -> None:
        name, call, given = job
        try:
            call(*given)
        except (OSError, subprocess.SubprocessError) as error:
            failed.append(f"{name}: {error}")

    try:
        with ThreadPoolExecutor(AT_ONCE) as pool:
            list(pool.map(do, [it for it in jobs if not wanted or it[0] in wanted]))
    finally:
        subprocess.run(["umount", room / "tmpfs"], check=False)
        shutil.rmtree(room, ignore_errors=True)
    print("\n".join(failed + [f"{len(list(KEPT.glob('*.json')))} recordings"]))
    return 1 if failed else 0


if __name__ == "__main__":
    sys.exit(main())
