"""What was found, in words and as JSON."""

from __future__ import annotations

import json
import os
from typing import Iterator

from ..fields import shown
from ..manifest import Edge
from ..provoke.answering import visible
from ..provoke.races import shown_name
from ..stable import name_of
from .judging import Finding, Outcome, Report
from .places import Prepared
from .states import MISSING

_MOST_NAMES, _MOST_LINES = 3, 12
_MOST_PATHS = 1000


def lines_of(report: Report, build: Prepared) -> Iterator[str]:
    """The answer in words."""
    for it in report.findings:
        yield from _lines_of_finding(it, build)
    for outcome in report.outcomes:
        if not outcome.is_possible:
            yield f"not run: {outcome.name}, which Ninja refuses: {shown(outcome.ran.fault)}"
    if report.leftovers:
        yield f"taken away before, since an earlier build left it: {_names(report.leftovers, build)}"
    if report.unsteady:
        yield (f"not compared, since it differs between two runs of one order: "
               f"{_names(report.unsteady, build, has_lines=True)}")
    if report.is_cut:
        yield f"not ended: --budget allows {_count(report.budget, 'run')}"
    yield from _lines_of_end(report)


def _lines_of_end(report: Report) -> Iterator[str]:
    stood = report.unordered - report.left
    yield (f"in {_count(report.builds, 'build')} from nothing {stood:,} of {report.unordered:,} unordered pairs of "
           f"{_count(report.commands, 'command')} stood both ways; {_count(report.left, 'pair')} left")
    what = f"{_count(len(report.findings), 'difference')} found" if report.findings else "no difference"
    yield f"{what}: status and {_count(report.compared, 'path')} compared, in {_count(report.runs, 'run')}"


def _lines_of_finding(it: Finding, build: Prepared) -> Iterator[str]:
    yield f"difference: {it.other.name} leaves something else than {it.own.name}"
    yield from _lines_of_status(it, build)
    if it.paths:
        missing = {path for path in it.paths if MISSING in (_state(it.own, path, build), _state(it.other, path, build))}
        others = [path for path in it.paths if path not in missing]
        if others:
            yield f"  other bytes: {_names(others, build)}"
        if missing:
            yield f"  there after one of them alone: {_names(sorted(missing), build)}"
    if it.causes:
        yield f"  it begins in: {_edges(it.causes)}"
    if it.beside:
        yield f"  beside it ran: {_edges(it.beside)}"
    if it.maker and it.user:
        yield f"  {_edge(it.maker)} must run before {_edge(it.user)}, which does not wait for it"
        yield f"    mend: {mend_of(it.maker, it.user)}"
        if it.is_mended and not it.left:
            yield f"    tried: with it {it.other.name} leaves the same"
        elif it.is_mended:
            yield f"    tried: with it {_edge(it.user)} is the same, and something else differs still"
        else:
            yield f"    tried: with it {it.other.name} leaves something else still"
    elif it.is_overlap:
        yield "  in the same order, one command after the other, it leaves the same: commands overlapped"
    elif it.other.order:
        yield "  which two commands it comes from was not found"
    if it.other_orders:
        yield f"  so do the orders {', '.join(map(str, it.other_orders))}"


def _lines_of_status(it: Finding, build: Prepared) -> Iterator[str]:
    own, other = it.own.ran, it.other.ran
    if other.is_late:
        yield f"  it did not end within {other.seconds:.0f} seconds, where {it.own.name} took {own.seconds:.1f}"
    elif own.is_good != other.is_good:
        yield f"  status {other.status}, and not {own.status}"
    if it.failed and own.is_good:
        name, text = it.failed
        written = text.rstrip(b"\n").split(b"\n")
        yield f"    {shown_name(name)} failed, and wrote{'' if text.strip() else ' nothing'}"
        for line in written[:_MOST_LINES] if text.strip() else ():
            yield "      " + visible(line)
        if written[_MOST_LINES:]:
            yield f"      and {len(written) - _MOST_LINES} lines more"


def mend_of(maker: Edge, user: Edge) -> str:
    return f"{shown(user.file)}:{user.line}: build {shown_name(user.name)}: ... || {shown_name(maker.name)}"


def id_of(maker: Edge, user: Edge) -> str:
    """The name of the finding: that of a race by the maker's first output."""
    return name_of((b"race", maker.name, maker.name, user.name))


def objects_of(report: Report, build: Prepared) -> Iterator[str]:
    """The answer as JSON objects."""
    for it in report.outcomes:
        yield _json(kind="order", number=it.number, name=it.name, status=it.ran.status, possible=it.is_possible,
                    late=it.ran.is_late, milliseconds=round(1000 * it.ran.seconds),
                    processor=round(1000 * it.ran.processor))
    for them in report.findings:
        yield _json(kind="difference", id=id_of(them.maker, them.user) if them.maker and them.user else None,
                    own=them.own.number, other=them.other.number,
                    statuses=[them.own.ran.status, them.other.ran.status], late=them.other.ran.is_late,
                    failed=shown_name(them.failed[0]) if them.failed else None,
                    paths=[_path(path, build) for path in them.paths[:_MOST_PATHS]], count=len(them.paths),
                    causes=[_object(edge) for edge in them.causes], beside=[_object(edge) for edge in them.beside],
                    maker=_object(them.maker) if them.maker else None, user=_object(them.user) if them.user else None,
                    mend=mend_of(them.maker, them.user) if them.maker and them.user else None,
                    mended=them.is_mended, left=[_path(path, build) for path in them.left[:_MOST_PATHS]],
                    orders=them.other_orders)
    yield _json(kind="shuffled", commands=report.commands, pairs=report.unordered, left=report.left,
                builds=report.builds, runs=report.runs, paths=report.compared,
                unsteady=[_path(path, build) for path in report.unsteady[:_MOST_PATHS]],
                leftovers=[_path(path, build) for path in report.leftovers[:_MOST_PATHS]], cut=report.is_cut,
                differences=len(report.findings))


def _json(**members: object) -> str:
    return json.dumps(members, sort_keys=True)


def _object(edge: Edge) -> dict[str, object]:
    return {"output": shown_name(edge.name), "file": shown_name(edge.file), "line": edge.line}


def _state(it: Outcome, path: bytes, build: Prepared) -> str:
    return it.ran.changed.get(path) or build.place.before.state(path)


def _path(path: bytes, build: Prepared) -> str:
    top = build.place.build + b"/"
    return shown_name(path[len(top) :] if path.startswith(top) else path)


def _names(paths: list[bytes], build: Prepared, has_lines: bool = False) -> str:
    """The first of these paths, with the statements that make them where `has_lines`."""
    more = f" and {len(paths) - _MOST_NAMES:,} more" if paths[_MOST_NAMES:] else ""
    edges = build.place.manifest.edges if has_lines else []
    lines = {path: f" ({shown(edge.file)}:{edge.line})" for edge in edges for path in build.outputs(edge)}
    return ", ".join(_path(it, build) + lines.get(it, "") for it in paths[:_MOST_NAMES]) + more


def _edge(edge: Edge) -> str:
    return f"{shown_name(edge.name)} ({shown(edge.file)}:{edge.line})"


def _edges(edges: list[Edge]) -> str:
    more = f" and {len(edges) - _MOST_NAMES:,} more" if edges[_MOST_NAMES:] else ""
    return ", ".join(map(_edge, edges[:_MOST_NAMES])) + more


def _count(number: int, what: str) -> str:
    return f"{number:,} {what}{'' if number == 1 else 's'}"
