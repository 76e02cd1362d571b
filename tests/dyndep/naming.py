"""What answers say of paths that come from dyndep files, and a `use` that the scanner of dyndep files does not see: it
is named, provoked and mended, by real Ninja with one job and with four."""

from __future__ import annotations

import json
import pathlib
import shutil
import subprocess
import sys
from collections.abc import Iterator

HERE = pathlib.Path(__file__).resolve().parent
TOP = HERE.parent.parent
PROJECT = HERE / "hidden_use"
JOBS = (1, 4)
RACE = ("race base.mod (by modules.dd) made by base.o (build.ninja:10)\n"
        "  used by a.o (build.ninja:12), which does not wait for it [1]\n")
MEND = "    mend: build.ninja:12: build a.o: ... || base.o\n"
MENDED = ("build a.o: compile a | compile || modules.dd\n", "build a.o: compile a | compile || modules.dd base.o\n")
# Questions about the recording of the planted project with one job, and lines that the answer has.
ASKED = (
    ("edge c.o", ("  implicit: compile\n", "  implicit (by modules.dd): base.mod am.mod\n",
                  "  order-only: modules.dd\n")),
    ("edge base.o", ("  outputs: base.o\n", "  implicit outputs (by modules.dd): base.mod\n")),
    ("edge modules.dd", ("  implicit: scan\n",)),
    ("reads base.mod", ("a.o (build.ninja:12): in its list\n",
                        "c.o (build.ninja:14): an implicit input (by modules.dd), in its list\n")),
    ("reads compile", ("c.o (build.ninja:14): an implicit input\n",)),
    ("makes am.mod", ("a.o (build.ninja:12) has it as an output (by modules.dd)\n",)),
    ("makes a.o", ("a.o (build.ninja:12) has it as an output\n",)),
    ("who reads am.mod", ("c.o has it as an input (by modules.dd)\n",)),
    ("who writes am.mod", ("a.o has it as an output (by modules.dd)\n",)),
    ("rebuilds base", ("  base.o (build.ninja:10): base.o is older than base\n",
                       "  c.o (build.ninja:14): base.mod (by modules.dd) is to be made\n")),
)
# The same as JSON: the question, where a member stands in the answer, and what it is.
MEMBERS = (
    ("edge c.o", ("dyndep",), {"file": "modules.dd", "inputs": ["base.mod", "am.mod"], "outputs": []}),
    ("edge base.o", ("dyndep",), {"file": "modules.dd", "inputs": [], "outputs": ["base.mod"]}),
    ("edge modules.dd", ("dyndep",), None),
    ("reads base.mod", ("edges", 1, "dyndep"), "modules.dd"),
    ("reads base.mod", ("edges", 0, "dyndep"), None),
    ("makes am.mod", ("maker", "dyndep"), "modules.dd"),
    ("makes a.o", ("maker", "dyndep"), None),
    ("who reads am.mod", ("commands", 0, "dyndep"), "modules.dd"),
    ("who writes am.mod", ("commands", 0, "dyndep"), "modules.dd"),
)


def run(*words: object, folder: pathlib.Path | None = None, text: str = "") -> subprocess.CompletedProcess[str]:
    return subprocess.run(words, cwd=folder, input=text, capture_output=True, text=True, timeout=600, check=False)


def recorded(build: pathlib.Path, out: pathlib.Path, jobs: int) -> int:
    """Records the build of a folder with so many jobs; the status."""
    return run(sys.executable, TOP / "record/rebug-record", build, out, "--", f"-j{jobs}").returncode


def project(room: pathlib.Path, name: str) -> pathlib.Path:
    """A copy of the planted project."""
    return pathlib.Path(shutil.copytree(PROJECT, room / name))


def lacking(text: str, lines: tuple[str, ...]) -> list[str]:
    """Which of the lines a text does not have."""
    return [f"there is no {line!r} in\n{text}" for line in lines if line not in text]


def races(program: pathlib.Path, recording: pathlib.Path) -> list[str]:
    """The race is named with the dyndep file that says its path, in words and as JSON."""
    words, objects = run(program, "races", recording), run(program, "races", "--json", recording)
    found = [it for it in map(json.loads, objects.stdout.splitlines()) if it.get("path") == "base.mod"]
    due = [("modules.dd", "base.o", "a.o", "base.o")]
    named = [(it.get("dyndep"), it["maker"]["output"], it["user"]["output"], it["mend"]) for it in found]
    faults = lacking(words.stdout, (RACE, MEND))
    if (words.returncode, objects.returncode, named) != (4, 4, due):
        faults.append(f"races: {words.returncode} {objects.returncode} {named}: {words.stderr}{objects.stdout}")
    return faults


def provoked(program: pathlib.Path, room: pathlib.Path, build: pathlib.Path, recording: pathlib.Path) -> list[str]:
    """`provoke` makes the race happen, and so does the patch of `races --provoke` in each build from nothing."""
    tried = run(sys.executable, TOP / "record/rebug-provoke", "--rebug", program, build, recording, "1")
    faults = lacking(tried.stdout, ("\nit fails so\n", "cat: base.mod: No such file or directory\n"))
    if tried.returncode != 4 or "another than the one" in tried.stderr:
        faults.append(f"provoke: {tried.returncode}: {tried.stdout}{tried.stderr}")
    patch = run(program, "races", "--provoke", "1", recording)
    copy = project(room, "provoked")
    patched = run("patch", "-p0", folder=copy, text=patch.stdout)
    built = run("ninja", "-j1", folder=copy)
    if patch.returncode or patched.returncode or built.returncode == 0 or "cat: base.mod" not in built.stdout:
        faults.append(f"races --provoke: {patch.stdout}{patch.stderr}{patched.stdout}{built.stdout}")
    return faults


def mended(program: pathlib.Path, room: pathlib.Path, recording: pathlib.Path, jobs: int) -> list[str]:
    """The patch of `races --mend` changes one line of the user's own manifest, and then no race is left."""
    patch, copy = run(program, "races", "--mend", recording), project(room, "mended")
    patched = run("patch", "-p0", folder=copy, text=patch.stdout)
    due = (PROJECT / "build.ninja").read_text().replace(*MENDED)
    if patched.returncode or (copy / "build.ninja").read_text() != due:
        return [f"races --mend: {patch.stdout}{patch.stderr}{patched.stdout}"]
    status = recorded(copy, room / "again", jobs)
    said = run(program, "races", room / "again")
    if (status, said.returncode) != (0, 0):
        return [f"the mended build: {status}, races: {said.returncode}: {said.stdout}{said.stderr}"]
    return lacking(said.stdout, ("no race; 4 commands ran; ",))


def hidden_use(program: pathlib.Path, room: pathlib.Path, jobs: int) -> list[str]:
    """A `use` behind an include: with one job the build passes, and with four it fails. Each recording has the race."""
    build, recording = project(room, "build"), room / "recorded"
    status = recorded(build, recording, jobs)
    faults = [] if status == (0 if jobs == 1 else 1) else [f"the build ends with {status}"]
    return [*faults, *races(program, recording), *provoked(program, room, build, recording),
            *mended(program, room, recording, jobs)]


def asked(program: pathlib.Path, recording: pathlib.Path, question: str, *options: str) -> str:
    """The answer to a question, which stands behind the lines about the recording replayed to its end."""
    ran = run(program, "ask", *options, recording, text=f"run\n{question}\n")
    assert ran.returncode == 0, f"status {ran.returncode}: {ran.stdout}{ran.stderr}"
    return ran.stdout


def member(value: object, place: tuple[str | int, ...]) -> object:
    """What stands at a place of a value; None where an object has no member of the name."""
    for it in place:
        if isinstance(it, int):
            assert isinstance(value, list) and it < len(value), f"nothing stands at {it} of {place}, but {value}"
            value = value[it]
        else:
            assert isinstance(value, dict), f"no object stands before {it} of {place}, but {value}"
            value = value.get(it)
    return value


def faults_of_member(text: str, place: tuple[str | int, ...], due: object, misfits: object) -> Iterator[str]:
    """What is not as due in an answer as JSON, whose last line is the object of the question."""
    yield from misfits(text.encode(), "ask")
    found = member(json.loads(text.splitlines()[-1]), place)
    if found != due:
        yield f"{place} is {found}, and not {due}"


def answers(program: pathlib.Path, room: pathlib.Path, misfits: object) -> list[str]:
    """Answers name the dyndep file beside each path that the user's own line does not have."""
    recording = room / "recorded"
    if recorded(project(room, "build"), recording, 1):
        return ["the build fails"]
    faults = []
    for question, lines in ASKED:
        try:
            faults += [f"{question}: {it}" for it in lacking(asked(program, recording, question), lines)]
        except AssertionError as why:
            faults.append(f"{question}: {why}")
    for question, place, due in MEMBERS:
        try:
            text = asked(program, recording, question, "--json")
            faults += [f"{question}: {it}: {text}" for it in faults_of_member(text, place, due, misfits)]
        except AssertionError as why:
            faults.append(f"{question}: {why}")
    return faults


def cases(program: pathlib.Path, misfits: object) -> Iterator[tuple[str, object]]:
    """The tests by their names."""
    yield "what answers name", lambda room: answers(program, room, misfits)
    for jobs in JOBS:
        yield f"a hidden use, -j{jobs}", lambda room, jobs=jobs: hidden_use(program, room, jobs)
