"""Which command that was observed is that of which edge: by its text, and of equal texts by the order of the starts."""

from __future__ import annotations

from collections import defaultdict
from typing import Any

from .flags import Flag
from .processes import Command


def text_of(edge: Any) -> bytes:
    """The text that Ninja hands to the shell for an edge: without what belongs to a response file."""
    rest = b";rspfile=" + edge.content if edge.content else b""
    return edge.ninja_command.removesuffix(rest)


Pair = tuple[Any, Command]


def match(commands: list[Command], edges: list[Any], runs: list[Any]) -> tuple[list[Pair], list[Command]]:
    """Pairs of an edge and its command in the order of the starts, and the commands of no edge.

    `runs` are the edges that the recording has as run: Ninja's log has when each of those that ended well started, and
    its output which failed. Of an edge that ran twice the last command counts.
    """
    by_text, ran = defaultdict(list), {it.edge.number: it for it in runs}
    for edge in edges:
        if not edge.phony:
            by_text[text_of(edge)].append(edge)
    groups: dict[bytes, list[Command]] = defaultdict(list)
    for command in sorted(commands, key=lambda it: it.start):
        groups[command.text].append(command)
    pairs, left = [], []
    for text, group in groups.items():
        found, rest = _pairs(group, by_text.get(text, []), ran)
        pairs += found
        left += rest
    return sorted(pairs, key=lambda it: it[1].start), left


def _pairs(group: list[Command], edges: list[Any], ran: dict[int, Any]) -> tuple[list[Pair], list[Command]]:
    """Pairs the commands of one text with the edges that have it."""
    if len(edges) <= 1:
        return [(edge, group[-1]) for edge in edges], [] if edges else group
    ended: list[Any] = []
    failed: list[Any] = []
    others: list[Any] = []
    for edge in edges:
        run = ran.get(edge.number)
        (others if run is None or run.word == "abort" else ended if run.word == "finish" else failed).append(edge)
    ended.sort(key=lambda it: ran[it.number].start)
    failed.sort(key=lambda it: ran[it.number].end)
    well = [it for it in group if it.status == 0]
    badly = sorted([it for it in group if it.status not in (0, None)], key=lambda it: it.end)
    unended = [it for it in group if it.status is None]
    is_clear = (len(well), len(badly), len(unended)) == (len(ended), len(failed), 0)
    if not is_clear:  # a command that was killed with Ninja, or a run that no log has
        well, badly, unended = [*well, *badly, *unended], [], []
        well.sort(key=lambda it: it.start)
        ended, failed, others = ended + failed + others, [], []
    pairs = [*zip(ended, well), *zip(failed, badly)]
    if not is_clear or len(failed) > 1:
        _flag(group)
    else:
        _flag_ties(zip(ended, well), ran)
    taken = {id(command) for _, command in pairs}
    return pairs, [it for it in group if id(it) not in taken]


def _flag(commands: list[Command]) -> None:
    for it in commands:
        it.flag(Flag.TWIN)


def _flag_ties(pairs: Any, ran: dict[int, Any]) -> None:
    """Two edges of one text that started in one millisecond may be exchanged."""
    at: dict[int, list[Command]] = defaultdict(list)
    for edge, command in pairs:
        at[ran[edge.number].start].append(command)
    for group in at.values():
        if len(group) > 1:
            _flag(group)
