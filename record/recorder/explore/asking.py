"""Asks rebug about a recording: a session of the prompt, whose answers are JSON."""

from __future__ import annotations

import json
import subprocess
import tempfile
from typing import Any, Iterable, Iterator

Object = dict[str, Any]


class NotAsked(Exception):
    """A sentence that says why rebug gave no answer, empty where rebug has said it, and the status to end with."""

    def __init__(self, text: str, status: int) -> None:
        super().__init__(text)
        self.status = status


class Recording:
    """A recording, of which a program is asked."""

    def __init__(self, program: str, folder: str) -> None:
        self.program, self.folder = program, folder

    def session(self, questions: Iterable[str]) -> Iterator[Object]:
        """The object of the recording, and then that of each question. The questions go to the program by a file, so
        that neither side waits for the other. Raises NotAsked."""
        with tempfile.TemporaryFile() as file:
            count = 1
            for it in questions:
                file.write(it.encode("ascii") + b"\n")
                count += 1
            file.write(b"kept\n")  # the status is that of the last line, which is always answered
            file.seek(0)
            for it in self._answers(["ask", "--json", self.folder], file):
                if count:
                    count -= 1
                    yield it
            if count:
                raise NotAsked(f"{self.program} answers fewer questions than it was asked", 3)

    def compared(self, other: str) -> Iterator[Object]:
        """What differs from another recording. Raises NotAsked."""
        return self._answers(["compare", "--json", self.folder, other], subprocess.DEVNULL)

    def _answers(self, words: list[str], asked: Any) -> Iterator[Object]:
        try:
            ran = subprocess.Popen([self.program, *words], stdin=asked, stdout=subprocess.PIPE)
        except OSError as why:
            raise NotAsked(f"{self.program} cannot be run: {why.strerror}", 2) from why
        with ran:
            assert ran.stdout is not None
            try:
                for line in ran.stdout:
                    it = json.loads(line)
                    if not isinstance(it, dict) or "kind" not in it:
                        raise ValueError("an answer is not an object with a kind")
                    yield it
            except (ValueError, RecursionError) as why:
                ran.kill()
                raise NotAsked(f"{self.program} answers in a way that is not understood: {why}", 3) from why
            except BaseException:
                ran.kill()
                raise
        if 0 < ran.returncode < 4:
            raise NotAsked("", ran.returncode)  # it has said why
        if ran.returncode not in (0, 4):
            raise NotAsked(f"{self.program} gives no answer: it ended with {ran.returncode}", 3)
