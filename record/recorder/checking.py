"""Runs rebug on a recording and tells in words what it accepted."""

from __future__ import annotations

import os
import shutil
import stat
import subprocess
from typing import Callable, Dict, List, Optional, Tuple

from .folders import whole
from .held import HeldFolder
from .regular import read_regular
from .replaying import names_of_words, words_of_replay

# The recorded commands of each lane: the number of the line, and its text. Those of the script are of no lane.
Lanes = Dict[Optional[int], List[Tuple[int, bytes]]]

# The names of a manifest's files stand in `replay` four times: so many bytes have some hundred thousand files.
_LONGEST_REPLAY = 1 << 26
# What a refusal of a recorded command says of the recording, by its number.
MEANINGS = {
    50: "a second plan came while an edge was running",
    51: "this target stands on no build line of the manifest",
    52: "an input of a build line is missing and no edge makes it. Ninja stops at that too, but for order-only "
        "inputs of edges "
        "that are up to date",
    53: "an edge needs itself through a recorded deps list. Ninja does not look at a list that is older than its "
        "output",
    60: "no edge of the manifest has this output",
    61: "a phony edge runs no command",
    62: "this edge has a command, so it is not passed by",
    63: "the build was interrupted before this start",
    64: "an abort without an interrupt before it",
    65: "a second interrupt",
    66: "rebug's plan does not want this edge (or has settled it), and Ninja ran it",
    67: "this edge was not running: its start was refused",
    68: "an input's producer had not settled: rebug takes it to be dirty and Ninja did not run it, or the order of "
        "the trace is wrong",
    69: "rebug finds no reason to run this edge once its inputs are settled, and Ninja ran it",
    70: "rebug still has a reason to run this edge, and Ninja took it to be clean",
    71: "more jobs ran side by side than the trace's line `jobs` says",
    72: "this job was still held by another edge: the order of starts and ends could not be recorded right",
    73: "the edge's pool has no such slot",
    74: "this slot was still held by another edge: the order of starts and ends could not be recorded right",
    75: "the number of stamps is not that of the edge's outputs",
    76: "a list of headers came for an edge that keeps none",
    77: "the depfile has a fault: the second number is its number in docs/CODES.md, the third the byte",
    78: "the pool was to lose a slot that was still held: the second number is the slot, the third the edge",
    79: "no such pool, or the depth that it had or was to get is not from 1 to 1,024",
}
REASONS = {1: "an output is missing", 2: "there is no deps record", 3: "the deps record is older than the output",
           4: "an input was rebuilt",
           5: "a listed header is missing", 6: "an output is older than an input", 7: "no built record",
           8: "another command"}


def check(folder: str, program: str | None = None, say: Callable[[str], None] = print,
          launcher: str | None = None) -> int:
    """Replays the recording, says how it went, and gives the exit status: 0 where every command was accepted.

    The program is the one that is given, else the one that REBUG names, else the launcher: a recording may have been
    moved away from the one that it was made beside. Nothing of the recording is run: of its `replay` only the words are
    taken.
    """
    given = program or os.environ.get("REBUG")
    found = _found(given) if given else launcher
    if not found:
        say(f"{given} cannot be run: {'--rebug' if program else 'REBUG'} wants the program rebug")
        return 2
    with whole(folder) as room:
        if room != folder:
            say(f"the recorder was ended while it moved a recording into {folder}: that one is checked, from a copy")
        words = _words(room)
        if words is None:
            say(f"{folder} has no recording: {os.path.join(folder, 'replay')} does not tell one")
            return 3
        for name in names_of_words(words):
            if not _is_file(room, name):
                say(f"{folder} has no recording: {os.path.join(folder, name)} is no file of it")
                return 3
        # what the launcher says while it builds the program, and what rebug says of a fault, goes through to the user
        done = subprocess.run([found, *words], cwd=room, stdin=subprocess.DEVNULL, stdout=subprocess.PIPE)
        report = done.stdout.split(b"\n")
        if done.returncode or report[0].startswith(b"fault "):
            say("rebug did not replay the recording:")
            for text in done.stdout.decode("utf-8", "backslashreplace").splitlines()[-5:]:
                say("  " + text)
            say("docs/CODES.md says what each number means")
            return 1
        return _judge(room, report, say)


def _words(folder: str) -> list[str] | None:
    """The words of the recording's `replay`. A pipe or a device has none, nor has a file that is longer than a recorder
    writes."""
    try:
        with HeldFolder.at(folder) as held:
            found = held.status(b"replay")
            if found is None or not stat.S_ISREG(found.st_mode) or found.st_size > _LONGEST_REPLAY:
                return None
            with held.read(b"replay") as file:
                return words_of_replay(os.fsdecode(file.read(_LONGEST_REPLAY)))
    except OSError:
        return None


def _is_file(folder: str, name: str) -> bool:
    """Whether the folder has a file of this name, and no link on the way to it."""
    try:
        with HeldFolder.at(folder) as held:
            found = held.status(os.fsencode(name))
    except OSError:
        return False
    return found is not None and stat.S_ISREG(found.st_mode)


def _found(program: str) -> str | None:
    """The whole path of a program that is named by a path, or by a name on the PATH; None where there is none."""
    path = os.path.abspath(program)
    if os.path.isfile(path) and os.access(path, os.X_OK):
        return path
    return shutil.which(program) if os.path.basename(program) == program else None


def read_commands(folder: str) -> Lanes:
    """The recorded commands: lane -> list of (line number, text); the script's commands are those of lane None."""
    lanes: Lanes = {None: []}
    lane = None
    for number, text in enumerate(read_regular(os.path.join(folder, "trace")).split(b"\n"), 1):
        if text.startswith(b"lane "):
            lane = int(text[5:])
            lanes.setdefault(lane, [])
        elif lane is not None and text:
            lanes[lane].append((number, text))
    words = (b"plan", b"interrupt", b"abort")
    lanes[None] = [(at, text) for at, text in enumerate(read_regular(os.path.join(folder, "script")).split(b"\n"), 1)
                   if text.split(b" ")[0] in words]
    return lanes


def _judge(folder: str, report: list[bytes], say: Callable[[str], None]) -> int:
    lanes = read_commands(folder)
    count = len(lanes) - 1
    taken: dict[int | None, int] = {}
    accepted, refused = 0, []
    for text in report:
        parts = text.split(b" ")
        if len(parts) < 3 or not parts[0].isdigit() or parts[2] not in (b"ok", b"refused"):
            continue
        lane = int(parts[1]) if int(parts[1]) < count else None
        at = taken[lane] = taken.get(lane, -1) + 1
        number, command = lanes[lane][at]
        if parts[2] == b"ok":
            accepted += 1
        else:
            refused.append((lane, number, command, [int(it) for it in parts[3:]]))
    for it in refused:
        _say_refusal(*it, say)
    everything = sum(map(len, lanes.values()))
    if accepted == everything:
        say(f"rebug accepted every command: {accepted} of {everything}")
        return 0
    say(f"rebug accepted {accepted} of {everything} commands, and refused {len(refused)}")
    if refused:
        say("where one command is refused, those that stand on it are refused as well: look at the first one")
    return 1


def _say_refusal(lane: int | None, number: int, command: bytes, numbers: list[int],
                 say: Callable[[str], None]) -> None:
    where = f"trace:{number}" if lane is not None else f"script:{number}"
    shown = command.decode("utf-8", "backslashreplace")
    say(f"{where}: refused {' '.join(map(str, numbers))}: {shown[:200]}")
    meaning = MEANINGS.get(numbers[0], "see docs/CODES.md")
    if numbers[0] == 70 and len(numbers) > 1:
        meaning += f" (its first reason: {REASONS.get(numbers[1], numbers[1])})"
    if numbers[0] == 68 and len(numbers) > 1:
        meaning += f" (the input at position {numbers[1]}, counted from 0)"
    say(f"  {meaning}")
