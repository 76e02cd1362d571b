"""Runs the two programs on a case, and says what does not hold of their answers."""

from __future__ import annotations

import json
import os
import pathlib
import random
import re
import resource
import subprocess
import sys
import time
import xml.etree.ElementTree
from dataclasses import dataclass
from typing import Iterator, Protocol

from inputs import ALL_WORDS, TOP, Case

sys.path.insert(0, str(TOP / "tests"))
from json_schema import misfits  # noqa: E402

# Seconds of processor time, and kilobytes of memory: so much for any run, and so much for each byte of its files.
SECONDS, SECONDS_A_BYTE = 2.0, 40e-6
KILOBYTES, KILOBYTES_A_BYTE = 65_536, 24

# What may stand at the begin of a report's line.
REPORT_LINE = re.compile(
    rb"(?:(?:\d+|-) \d+ (?:ok(?: break \d+)?|cone \d+|refused \d+(?: \d+){0,2})"
    rb"|(?:kept|mark|job|slot|depth|stamp|built|deps|why|dependents|order|fault) .+|halted|refused \d+)$"
)
# What no terminal should get.
RAW = re.compile(rb"[^\n -\x7e]")
# The words of the second program in front of the recording, and the statuses that it may end with there.
ASKED: list[tuple[list[str], tuple[int, ...]]] = [
    (["certify"], (0, 1, 3, 4, 5)), (["certify", "--json"], (0, 1, 3, 4, 5)),
    (["certify", "--all", "--strict"], (0, 1, 3, 4, 5)),
    (["races"], (0, 1, 4, 5)), (["races", "--all"], (0, 1, 4, 5)), (["races", "--json"], (0, 1, 4, 5)),
    (["races", "--mend"], (0, 1, 4, 5)), (["races", "--witness", "1"], (0, 1, 2)),
    (["races", "--format", "github"], (0, 1, 4, 5)), (["races", "--format", "sarif"], (0, 1, 4, 5)),
    (["certify", "--format", "junit"], (0, 1, 3, 4, 5)), (["races", "--witness", "9"], (0, 1, 2)),
    (["races", "--provoke", "1"], (0, 1, 2)), (["replay"], (0, 1, 4)),
    (["ask"], (0, 1)), (["ask", "--json"], (0, 1)), (["picture"], (0, 1)), (["picture", "--html"], (0, 1)),
    (["picture", "--event", "3"], (0, 1, 2)), (["timeline"], (0, 1, 2)), (["schedule"], (0, 1, 2, 4)),
    (["schedule", "--json", "-j", "1,3"], (0, 1, 2, 4)), (["compare", "."], (0, 1)),
    (["shuffle", "--list"], (0, 1, 2)), (["shuffle", "--list", "--json", "--runs", "3"], (0, 1, 2)),
    (["compare", "--all", f"{TOP}/examples/flaky/failed"], (0, 1, 4)),
    (["compare", "--json", f"{TOP}/examples/flaky/failed"], (0, 1, 4))]
# What is asked at the prompt, with the name of an output or of another path.
QUESTIONS = [b"run", b"next", b"next 3", b"kept", b"marks", b"stamps", b"logs", b"help", b"", b"nonsense", b"who %b",
             b"why %b", b"with %b", b"what finish %b", b"needs %b all", b"dependents %b", b"would cone %b",
             b"without %b", b"until %b", b"undo start %b", b"marks %b", b"stamps %b", b"needs %b observed",
             b"who reads %b", b"who writes %b", b"undo finish %b", b"edge %b", b"edge * --all", b"edges", b"edges %b",
             b"reads %b", b"makes %b", b"rebuilds %b", b"slowest", b"critical", b"races", b"history all", b"why *",
             b"help why", b"back", b"what %b", b"what * --all", b"needs *", b"dependents * --all", b"would cone *",
             b"order %b 1", b"order 1 2 3", b"redo 2", b"redo %b", b"cone %b", b"break finish %b", b"continue",
             b"plan %b", b"start %b 0", b"touch %b 7", b"who *", b"marks *", b"with *", b"until *"]
# How standard error names a fault of a recording.
_FAULT = re.compile(rb"\(\d+, docs/CODES\.md\)")
# What it says before an answer by an observation that was cut or changed: that is no fault.
_INCOMPLETE = re.compile(rb"\A(?:rebug: [^\n]*observed:\d+: not the last line that is due: lines are missing or changed "
                         rb"\(107, docs/CODES\.md\)\n)+")
# How it names a file that the manifest includes and that is not read: a folder, say, or a file outside.
_UNREAD = re.compile(rb"\Arebug: cannot read .*, which the manifest of .* includes\nrebug: its? .*\n\Z")


@dataclass
class Answer:
    """What a program wrote, its status (None where it did not end), its processor seconds and its kilobytes."""

    out: bytes
    err: bytes
    status: int | None
    seconds: float
    kilobytes: int

    def same_as(self, other: Answer) -> bool:
        """Whether another run wrote the same."""
        return (self.out, self.err, self.status) == (other.out, other.err, other.status)


def _bound() -> None:
    resource.setrlimit(resource.RLIMIT_CORE, (0, 0))


def ask(program: str, words: list[str], folder: pathlib.Path, seconds: float, said: bytes = b"") -> Answer:
    """Runs the program in the folder, with what is said on its standard input."""
    room = folder.parent
    (room / "in").write_bytes(said)
    with open(room / "in", "rb") as into, open(room / "out", "wb+") as out, open(room / "err", "wb+") as err:
        started = subprocess.Popen([program, *words], cwd=folder, stdin=into, stdout=out, stderr=err, preexec_fn=_bound)
        end = time.monotonic() + 10 * seconds
        while True:
            pid, status, used = os.wait4(started.pid, os.WNOHANG)
            if pid:
                break
            if time.monotonic() > end:
                started.kill()
                os.wait4(started.pid, 0)
                started.returncode = -9
                return Answer(b"", b"", None, 10 * seconds, 0)
            time.sleep(0.0005)
        started.returncode = os.waitstatus_to_exitcode(status)
        out.seek(0)
        err.seek(0)
        return Answer(out.read(), err.read(), started.returncode, used.ru_utime + used.ru_stime, used.ru_maxrss)


def _bounds(case: Case, answer: Answer) -> Iterator[str]:
    """What holds of every answer."""
    if answer.status is None:
        yield f"no end within {answer.seconds:.0f} s"
        return
    if answer.out and not answer.out.endswith(b"\n"):
        yield "the last line has no end"
    if answer.err and not (answer.err.endswith(b"\n") and answer.err.startswith(b"rebug: ")):
        yield f"standard error has {answer.err[:200]!r}"
    if RAW.search(answer.err):
        yield f"standard error has a byte that no terminal should get: {answer.err[:200]!r}"
    if answer.seconds > SECONDS + SECONDS_A_BYTE * case.size():
        yield f"{answer.seconds:.2f} s of processor time for {case.size()} bytes"
    if answer.kilobytes > KILOBYTES + KILOBYTES_A_BYTE * case.size():
        yield f"{answer.kilobytes} kB of memory for {case.size()} bytes"


class Program(Protocol):
    """A program, how often it ran, and how often the files had a fault."""

    runs: int
    faults: int

    def look(self, case: Case, folder: pathlib.Path, rng: random.Random) -> Iterator[str]:
        """What does not hold of its answers to a case."""


class Rebug:
    """The first program: reports."""

    def __init__(self, path: str) -> None:
        self.path, self.runs, self.faults = path, 0, 0

    def look(self, case: Case, folder: pathlib.Path, rng: random.Random) -> Iterator[str]:
        """What does not hold of its answers to a case."""
        seconds = SECONDS + SECONDS_A_BYTE * case.size()
        first = ask(self.path, case.words(), folder, seconds)
        yield from _bounds(case, first)
        if first.status is None:
            return
        lines = first.out.split(b"\n")[:-1]
        is_fault = bool(lines) and lines[-1].startswith(b"fault ")
        self.runs, self.faults = self.runs + 1, self.faults + is_fault
        if first.status not in (0, 1) or (first.status == 1) != is_fault:
            yield f"status {first.status} with the last line {lines[-1:]}"
        odd = next((line for line in lines if not REPORT_LINE.match(line)), None)
        if odd is not None:
            yield f"no line of a report: {odd[:200]!r}"
        if not ask(self.path, case.words(), folder, seconds).same_as(first):
            yield "a second run answers otherwise"
        yield from self._on_threads(case, folder, seconds)
        yield from self._migrated(case, folder, seconds)

    def _on_threads(self, case: Case, folder: pathlib.Path, seconds: float) -> Iterator[str]:
        """One lane on a thread is answered as without threads."""
        trace = case.files["trace"]
        if trace.count(b"lane ") == 1 and b"\nlane 0\n" in trace and b"break" not in trace:
            (folder / "script").write_bytes(ALL_WORDS)
            serial = ask(self.path, case.words(), folder, seconds)
            if not ask(self.path, ["--workers", *case.words()], folder, seconds).same_as(serial):
                yield "one lane on a thread answers otherwise than without threads"
            (folder / "script").write_bytes(case.files["script"])

    def _migrated(self, case: Case, folder: pathlib.Path, seconds: float) -> Iterator[str]:
        """--migrate changes the first line of a trace, or refuses it with the line of its fault."""
        done, trace = ask(self.path, ["--migrate", *case.words()], folder, seconds), case.files["trace"]
        is_fault = done.status == 1 and re.fullmatch(rb"fault trace \d+ \d+\n", done.out)
        if not is_fault and done.out not in (trace, trace.replace(b"rebug-trace 1", b"rebug-trace 2", 1)):
            yield f"--migrate has status {done.status} and writes {done.out[:200]!r}"


class RebugAsk:
    """The second program: words about a recording."""

    def __init__(self, path: str, each_word: bool) -> None:
        self.path, self.runs, self.faults, self.each_word = path, 0, 0, each_word

    def look(self, case: Case, folder: pathlib.Path, rng: random.Random) -> Iterator[str]:
        """What does not hold of its answers to a case, by each word, or by three words that are chosen by chance."""
        seconds = SECONDS + SECONDS_A_BYTE * case.size()
        for words, statuses in ASKED if self.each_word else rng.sample(ASKED, 3):
            said = self._questions(case, rng) if words[0] == "ask" else b""
            answer = ask(self.path, [*words, "."], folder, seconds, said)
            told = _INCOMPLETE.sub(b"", answer.err)
            # The last line at the prompt was no question, or named what is not there: status 1 without a sentence.
            is_unanswered = words[0] == "ask" and answer.status == 1 and not told
            is_fault = answer.status == 1 and not is_unanswered
            self.runs, self.faults = self.runs + 1, self.faults + is_fault
            faults = [*_bounds(case, answer)]
            if answer.status is not None:
                is_unread = answer.status == 3 and _UNREAD.search(told)
                if (answer.status not in statuses and not is_unread) or is_fault != bool(_FAULT.search(told)):
                    faults.append(f"status {answer.status} and {answer.err[-200:]!r}")
                if answer.status in (0, 4, 5) or is_unanswered:
                    faults += self._form(words, answer.out, said)
                if not ask(self.path, [*words, "."], folder, seconds, said).same_as(answer):
                    faults.append("a second run answers otherwise")
            yield from (f"{' '.join(words)}: {it}" for it in faults)

    def _questions(self, case: Case, rng: random.Random) -> bytes:
        """Lines at the prompt: those of the script, and some that people ask, or each of them."""
        names = re.findall(rb"^(?:start|finish|touch) (\S+)", case.files["trace"], re.MULTILINE) or [b"app"]
        every = rng.sample(QUESTIONS, len(QUESTIONS))
        lines = every if self.each_word else rng.choices(QUESTIONS, k=rng.choice([1, 5, 30]))
        lines = [it % rng.choice(names) if b"%b" in it else it for it in lines]
        return b"\n".join([*lines, *case.files["script"].split(b"\n")[:20], b""])

    @staticmethod
    def _form(words: list[str], out: bytes, said: bytes) -> Iterator[str]:
        """What does not hold of the form of a whole answer."""
        if words[0] == "picture":
            if "--html" not in words:
                try:
                    xml.etree.ElementTree.fromstring(out)
                except xml.etree.ElementTree.ParseError as why:
                    yield f"no picture: {why}"
        elif "--json" in words:
            odd = misfits(out, "orders" if words[0] == "shuffle" else words[0])
            if odd:
                yield f"no object by the schema of docs/JSON.md: {odd[0]}"
            lines = out.splitlines()
            if words[0] == "ask" and len(lines) != 1 + said.count(b"\n") and b"quit" not in said:
                yield f"{len(lines)} answers to {said.count(bytes([10]))} lines"
        elif words[0] == "timeline":
            try:
                json.loads(out)
            except ValueError as why:
                yield f"no timeline: {why}"
        elif words[0] in ("replay", "ask", "compare") or words in (["races"], ["races", "--all"], ["certify"]):
            raw = RAW.search(out)
            if raw:
                yield f"a byte that no terminal should get: {out[max(0, raw.start() - 40) : raw.end()]!r}"
        elif "--witness" in words and not out.startswith(b"rebug-trace "):
            yield f"no trace: {out[:100]!r}"
