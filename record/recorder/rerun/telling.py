"""What came of the commands, in words and as JSON."""

from __future__ import annotations

import json
from collections import Counter
from collections.abc import Iterator, Sequence

from ..fields import shown
from ..provoke.answering import visible
from ..provoke.races import shown_name
from .judging import Case, Result, Verdict
from .preparing import Prepared
from .room import Excerpt, Ran

_MOST_NAMES, _MOST_LINES, _MOST_PATHS = 3, 4, 1000

Pairs = Sequence[tuple[Case, Verdict]]


def lines_of(build: Prepared, pairs: Pairs) -> Iterator[str]:
    """The answer in words."""
    for case, it in pairs:
        if it.result is not Result.SAME:
            yield from _lines_of_case(build, case, it)
    for case, it in pairs:
        for variation, ran in it.varied:
            yield f"with other {variation.name}: {_command(case)} {_what(ran)}"
            yield from _lines_of_run(build, ran)
    if build.others_in_environment and any(it.result not in (Result.SAME, Result.NOT_RUN) for _, it in pairs):
        names = build.others_in_environment
        yield f"the environment is not that of the recording: {_some(names)}"
    yield from _lines_of_end(pairs)


def _lines_of_case(build: Prepared, case: Case, it: Verdict) -> Iterator[str]:
    name, ran = _command(case), it.ran
    if it.result is Result.NOT_RUN or ran is None:
        yield f"not run: {name}: {it.why}"
        return
    if it.result is Result.UNKNOWN:
        yield f"not known: {name} {_what(ran)}, and {it.why}"
        return
    if it.result is Result.NEEDS:
        yield f"needs more: {name} {_what(ran)}, and leaves what it left with all of the project"
        for path in it.needed:
            yield f"  it needs {build.shown(path)}, which it was not seen to read"
        if not it.needed:
            yield "  no single files of these were found: it needs a folder, or one of several files"
    elif it.result is Result.FAILS:
        yield f"fails: {name} {_what(ran)}, with all of the project as well"
    else:
        often = "the same ones in both runs" if it.is_steady else "and others in the next run"
        yield f"other bytes: {name} {_what(ran)}, {often}{': ' * bool(it.why)}{it.why}"
    yield from _lines_of_run(build, ran)
    if case.command.flags and it.result in (Result.NEEDS, Result.FAILS):
        yield f"  it was not observed whole: {shown(case.command.flags[0])}"


def _lines_of_run(build: Prepared, ran: Ran) -> Iterator[str]:
    for path, excerpt in ran.excerpts.items():
        yield f"  {build.shown(path)}: {_excerpt(excerpt)}"
    others = [it for it in ran.differing if it not in ran.excerpts]
    if ran.status == 0 and others:
        yield f"  {_some([build.shown(it) for it in others])}: {_others(ran, others)}"
    if ran.status != 0:
        for line in ran.written.rstrip(b"\n").split(b"\n")[:_MOST_LINES] if ran.written.strip() else ():
            yield "  " + visible(line)


def _others(ran: Ran, paths: list[bytes]) -> str:
    if all(it in ran.missing for it in paths):
        return "not left"
    return "other bytes" if all(it in ran.left for it in paths) else "not left, or other bytes"


def _what(ran: Ran) -> str:
    if ran.status is None:
        return "did not end in time"
    if ran.status:
        return f"ends with status {ran.status}"
    return "leaves other bytes" if not ran.missing else "does not leave all that it left"


def _excerpt(it: Excerpt) -> str:
    return f"from byte {it.at + 1} on recorded `{visible(it.recorded)}`, now `{visible(it.found)}`"


def _lines_of_end(pairs: Pairs) -> Iterator[str]:
    counts = Counter(it.result for _, it in pairs)
    ran = len(pairs) - counts[Result.NOT_RUN]
    parts = [f"{counts[Result.SAME]} left the same bytes"]
    for result, text in ((Result.OTHER, "left other bytes"), (Result.NEEDS, "needed more"), (Result.FAILS, "failed"),
                         (Result.UNKNOWN, "not known")):
        if counts[result]:
            parts.append(f"{counts[result]} {text}")
    yield (f"{ran} of {_count(len(pairs), 'command')} were run again, each in a room that has its inputs and nothing "
           f"else of the project: {', '.join(parts)}")
    varied = Counter(variation.name for _, it in pairs for variation, _ in it.varied)
    for name, count in varied.items():
        yield f"with other {name}: {count} of {counts[Result.SAME]} did not leave the same bytes"


def objects_of(build: Prepared, pairs: Pairs) -> Iterator[str]:
    """The answer as JSON objects."""
    for case, it in pairs:
        ran = it.ran
        yield _json(kind="command", output=shown_name(case.edge.name), file=shown_name(case.edge.file),
                    line=case.edge.line, result=it.result.value, why=it.why or None, status=ran.status if ran else None,
                    paths=_paths(build, ran.differing if ran else []), steady=it.is_steady,
                    needed=_paths(build, it.needed), flags=[shown_name(flag) for flag in case.command.flags],
                    varied=[{"variation": variation.name, "status": of.status, "paths": _paths(build, of.differing)}
                            for variation, of in it.varied])
    counts = Counter(it.result for _, it in pairs)
    yield _json(kind="rerun", commands=len(pairs), runs=sum(it.runs for _, it in pairs),
                varied=sum(bool(it.varied) for _, it in pairs), environment=build.others_in_environment,
                **{it.value.replace(" ", "_"): counts[it] for it in Result})


def _json(**members: object) -> str:
    return json.dumps(members, sort_keys=True)


def _paths(build: Prepared, paths: Sequence[bytes]) -> list[str]:
    return [shown_name(it.removeprefix(build.build + b"/")) for it in paths[:_MOST_PATHS]]


def _some(names: Sequence[str]) -> str:
    more = f" and {len(names) - _MOST_NAMES:,} more" if names[_MOST_NAMES:] else ""
    return ", ".join(names[:_MOST_NAMES]) + more


def _command(case: Case) -> str:
    return f"{shown_name(case.edge.name)} ({shown(case.edge.file)}:{case.edge.line})"


def _count(number: int, what: str) -> str:
    return f"{number:,} {what}{'' if number == 1 else 's'}"
