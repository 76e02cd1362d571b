"""Reads the words that are handed to Ninja, as Ninja's own getopt does, as far as a recording needs them."""

from __future__ import annotations

import os
import re
import subprocess
from dataclasses import dataclass, field

_WITH_VALUE = "dfjklwtC"
_ALONE = "nvh"
MOST_JOBS = 1024


class BadWords(Exception):
    """Words with which there is nothing to record."""


@dataclass
class NinjaWords:
    """The words for Ninja; `targets` as they were given."""

    all: list[str]
    manifest: bytes = b"build.ninja"
    jobs: int | None = None
    failures: int = 1
    targets: list[bytes] = field(default_factory=list)


_REFUSED = {
    "t": "-t runs a tool of Ninja's and no build",
    "n": "-n runs no command, so nothing is built",
    "C": "leave -C out and name the build folder as the first word",
    "h": "for help on Ninja call it itself",
    "--help": "for help on Ninja call it itself",
    "--version": "for Ninja's version call it itself",
    "--quiet": "leave --quiet out: Ninja then does not say which commands failed",
}


def read_words(words: list[str]) -> NinjaWords:
    """Reads the words behind `--`, and refuses those with which Ninja runs no build or hides what failed."""
    found, todo, targets = NinjaWords(list(words)), list(words), []
    while todo:
        word = todo.pop(0)
        if word == "--":
            targets += todo
            break
        if word.startswith("--"):
            if word in _REFUSED:
                raise BadWords(_REFUSED[word])
        elif word.startswith("-") and len(word) > 1:
            _short(word[1:], todo, found)
        else:
            targets.append(word)
    found.targets = [os.fsencode(it) for it in targets]
    return found


def _short(letters: str, todo: list[str], found: NinjaWords) -> None:
    while letters:
        letter, letters = letters[0], letters[1:]
        if letter in _REFUSED:
            raise BadWords(_REFUSED[letter])
        if letter in _WITH_VALUE:
            value = letters or (todo.pop(0) if todo else "")
            _take(letter, value, found)
            return
        if letter not in _ALONE:
            return


def _take(letter: str, value: str, found: NinjaWords) -> None:
    if letter == "f":
        found.manifest = os.fsencode(value)
    elif letter == "j" and value.isdigit():
        found.jobs = int(value)
    elif letter == "k" and value.lstrip("-").isdigit():
        found.failures = int(value) if int(value) > 0 else 1 << 62


def number_of_jobs(ninja: str, given: int | None) -> int:
    """How many commands Ninja runs side by side, as a trace can say it."""
    if given is not None:
        return min(given, MOST_JOBS) if given else MOST_JOBS
    said = subprocess.run([ninja, "-h"], capture_output=True, stdin=subprocess.DEVNULL).stderr
    default = re.search(rb"default=(\d+) on this system", said)
    return min(int(default[1]), MOST_JOBS) if default else (os.cpu_count() or 1) + 2
