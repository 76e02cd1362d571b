"""The orders that the proved program chooses: crates/rev_orders is their one home. The program takes a recording, so the
graph becomes one, in which each node makes a file of its number. Where there is no program, or it gives no answer,
`orders.py` chooses."""

from __future__ import annotations

import json
import os
import subprocess
import tempfile
from typing import Iterator, Sequence

from .orders import Chosen, Graph

_RECORD = os.path.dirname(os.path.dirname(os.path.dirname(os.path.abspath(__file__))))
_PLACES = ("../crates/rebug_ask/out/rebug_ask", "../rebug_ask")  # of a checkout, and where rebug is installed
_FEWEST, _MOST = 2, 1000
_LONGEST_SECONDS = 600


def program() -> str | None:
    """The program that chooses orders, or None where it is not there."""
    places = (os.path.normpath(os.path.join(_RECORD, it)) for it in _PLACES)
    return next((it for it in places if os.path.isfile(it) and os.access(it, os.X_OK)), None)


def chosen_by(asked: str, graph: Graph, first: Sequence[int], most: int) -> list[Chosen] | None:
    """The first order and the next ones, at most so many; None where this program gives no answer."""
    if not _FEWEST <= most or not first:
        return None
    waited = _waited(graph)
    try:
        with tempfile.TemporaryDirectory(prefix="rebug-orders-") as folder:
            _write(folder, "build.ninja", _manifest(graph, waited))
            _write(folder, "trace", _trace(graph, waited, first))
            words = [asked, "shuffle", "--list", "--json", "--runs", str(min(most, _MOST)), folder]
            ran = subprocess.run(words, stdin=subprocess.DEVNULL, capture_output=True, timeout=_LONGEST_SECONDS)
    except (OSError, subprocess.TimeoutExpired):
        return None
    return _read(ran.stdout, graph, first) if ran.returncode == 0 else None


def _write(folder: str, name: str, lines: Iterator[str]) -> None:
    with open(os.path.join(folder, name), "w", encoding="ascii") as file:
        file.writelines(lines)


def _waited(graph: Graph) -> list[list[int]]:
    """What each node waits for, without the names that wait for nothing."""
    found: list[list[int]] = [[] for _ in graph.before]
    for node in graph.by_waits:
        found[node] = [it for it in graph.before[node] if graph.is_command[it] or found[it]]
    return found


def _manifest(graph: Graph, waited: list[list[int]]) -> Iterator[str]:
    """A build statement for each node: of a command, or phony for a name."""
    yield "rule r\n  command = r\n"
    for node, them in enumerate(waited):
        if graph.is_command[node] or them:
            rule = "r" if graph.is_command[node] else "phony"
            yield f"build {node}: {rule} {' '.join(map(str, them))}\n"


def _trace(graph: Graph, waited: list[list[int]], first: Sequence[int]) -> Iterator[str]:
    """A build that ran the commands in this order."""
    yield "rebug-trace 1\njobs 1\nlane 0\nplan\n"
    place = {node: at for at, node in enumerate(graph.by_waits)}
    passed: set[int] = set()
    for command in first:
        todo, names = [command], set()
        while todo:
            more = {it for it in waited[todo.pop()] if not graph.is_command[it]} - passed - names
            names |= more
            todo += more
        passed |= names
        for name in sorted(names, key=place.__getitem__):
            yield f"pass {name}\n"
        yield f"start {command} 0\nfinish {command} 1\n"


def _read(answer: bytes, graph: Graph, first: Sequence[int]) -> list[Chosen] | None:
    """The orders of an answer; None where it is not understood, or an order is none of this graph."""
    found = []
    try:
        for line in answer.splitlines():
            it = json.loads(line)
            if it["kind"] == "order":
                found.append(Chosen([int(output) for output in it["outputs"]], int(it["left"])))
    except (ValueError, KeyError, TypeError):
        return None
    is_sound = found and found[0].order == list(first) and all(graph.is_order(it.order) for it in found)
    return found if is_sound else None
