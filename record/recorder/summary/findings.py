"""What `races` finds in a recording, by the names of findings that stay, and how each fell in this build."""

from __future__ import annotations

import json
import subprocess
from collections.abc import Iterator
from dataclasses import dataclass
from typing import Any

from ..stable import finding_name
from .recording import Build

_ANSWERED = (0, 4, 5)  # the statuses of `races` with an answer
_KINDS = ("race", "clash", "suspect", "unstable")
_MOST_TEXT = 1 << 28


class NotAsked(Exception):
    """A sentence that says why `races` gave no answer."""


@dataclass(frozen=True)
class Finding:
    """A finding of this build: its stable name, kind and path, the numbers of maker and user, how it fell (`read` and
    `missed` where the user was observed, else `before`, `after` and `at once`), and the line that mends it."""

    id: str
    kind: str
    path: str
    maker: int
    user: int
    fell: str
    mend: str


def findings_of(program: str, folder: str, build: Build) -> list[Finding]:
    """The findings of a recording that have a maker and a user. Raises NotAsked."""
    try:
        asked = subprocess.run([program, "races", folder, "--json"], stdin=subprocess.DEVNULL, capture_output=True)
    except OSError as why:
        raise NotAsked(f"races cannot be asked: {why.strerror}") from why
    if asked.returncode not in _ANSWERED or len(asked.stdout) > _MOST_TEXT:
        said = asked.stderr.decode("utf-8", "backslashreplace").strip().splitlines()
        raise NotAsked(f"races has no answer: {said[-1] if said else f'it ends with status {asked.returncode}'}")
    return list(_read(asked.stdout.decode("utf-8", "replace"), build))


def _read(text: str, build: Build) -> Iterator[Finding]:
    number = {it: at for at, it in enumerate(build.names)}
    seen = set()
    for line in text.splitlines():
        try:
            it: Any = json.loads(line)
        except ValueError:
            continue
        if not isinstance(it, dict) or it.get("kind") not in _KINDS or not isinstance(it.get("id"), str):
            continue
        ends = [it.get(one) or it.get(other) for one, other in (("maker", "first"), ("user", "other"))]
        numbers = [number.get(str(end.get("output"))) if isinstance(end, dict) else None for end in ends]
        maker, user = numbers
        if maker is None or user is None:
            continue
        kind = "race" if it["kind"] == "suspect" else it["kind"]
        name = finding_name(it["id"], kind, str(it.get("path")), build.names[maker], build.names[user])
        if name in seen:
            continue
        seen.add(name)
        mend = f"{build.places[user][0]}:{build.places[user][1]}: build {build.names[user]}: ... || {it['mend']}"
        yield Finding(name, kind, str(it.get("path")), maker, user,
                      _fell(it.get("look"), maker, user, build), mend if it.get("mend") else "")


def _fell(look: object, maker: int, user: int, build: Build) -> str:
    """How the two commands fell, by what the user was observed to see, else by their times."""
    runs = {it.command: it for it in build.runs}
    first, second = runs.get(maker), runs.get(user)
    if second is None:
        return "not run"
    if look in ("read", "miss"):
        return "read" if look == "read" else "missed"
    if first is None or second.ended is not None and second.ended <= first.began:
        return "after"
    return "before" if first.ended is not None and first.ended <= second.began else "at once"
