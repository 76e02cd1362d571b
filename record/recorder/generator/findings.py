"""What `races` finds in a recording, as far as an edit of a generator's files can mend it."""

from __future__ import annotations

import json
import os
import subprocess
from dataclasses import dataclass
from typing import Any

from ..provoke.races import NotAsked, name_of

MISSING = "missing"
_ANSWERED = (0, 4, 5)  # the statuses of `races` with an answer
ORDERS = ("race", "unstable", "suspect", "cycle", MISSING)
"""The kinds of findings that are of an order between two commands."""
_KINDS = (*ORDERS, "own", "undeclared", "unlisted", "clash")


@dataclass(frozen=True)
class Finding:
    """A finding by its number: its kind, the path, and the first outputs of maker and user (of a clash: of the two
    that make the file). `mend` is what the user is to wait for. `declare` is what the maker's line is to name as its
    output, and `list` what the user's line is to name as its input. `dyndep` is the dyndep file that says the path. Of
    a file that a failed command misses, and that `races` has no race for, the number is below 0."""

    number: int
    kind: str
    path: str
    maker: str
    user: str
    mend: str = ""
    declare: str = ""
    list: str = ""
    dyndep: str = ""

    @property
    def is_order(self) -> bool:
        """Whether the user is to wait for the maker."""
        return self.kind in ORDERS and bool(self.maker)

    @property
    def shown_number(self) -> int | None:
        """The number as people know it, where there is one."""
        return self.number if self.number > 0 else None


@dataclass(frozen=True)
class Failed:
    """A command that failed, by its first output, and the lines that it printed."""

    user: str
    lines: tuple[str, ...]


def findings_of(program: str, recording: str) -> tuple[list[Finding], list[Failed]]:
    """Those of a recording, by rising numbers, and the failed commands that none of them is of. Raises NotAsked."""
    try:
        done = subprocess.run([program, "races", "--json", recording], stdin=subprocess.DEVNULL, stdout=subprocess.PIPE)
    except OSError as why:
        raise NotAsked(f"{program} cannot be run: {why.strerror}", 2) from why
    if 0 < done.returncode < 4:
        raise NotAsked("", done.returncode)  # it has said why
    if done.returncode not in _ANSWERED:
        raise NotAsked(f"{program} tells no races: it ended with {done.returncode}", 3)
    try:
        told = [json.loads(it) for it in done.stdout.splitlines()]
        found = sorted((_finding(it) for it in told if it["kind"] in _KINDS and "number" in it
                        and (it["kind"] != "suspect" or it["path"])), key=lambda it: it.number)
        failed = [Failed(_name(it["user"]["output"]), tuple(map(_name, it["lines"])))
                  for it in told if it["kind"] == "failed"]
    except (ValueError, KeyError, TypeError, AttributeError, RecursionError) as why:
        raise NotAsked(f"{program} tells races in a way that is not understood: {why}", 3) from why
    users = {it.user for it in found if it.is_order}
    return found, [it for it in failed if it.user not in users]


def _finding(it: dict[str, Any]) -> Finding:
    if it["kind"] == "clash":
        return Finding(int(it["number"]), "clash", _name(it["path"]), _name(it["first"]["output"]),
                       _name(it["other"]["output"]))
    maker = it["maker"]
    return Finding(int(it["number"]), it["kind"], _name(it["path"]), _name(maker["output"]) if maker else "",
                   _name(it["user"]["output"]), _name(it.get("mend")), _name(it.get("declare")), _name(it.get("list")),
                   _name(it.get("dyndep")))


def _name(text: str | None) -> str:
    return os.fsdecode(name_of(text)) if text else ""
