"""Findings, differences and reasons in words, as the page shows them."""

from __future__ import annotations

from typing import Any

from .asking import Object

_MATTERS = ("race", "cycle", "own", "suspect", "unstable", "clash", "undeclared", "unlisted")
_HERE = {
    "free": "the user began after the maker had ended, and nothing held it",
    "held-record": "a record of an earlier build held the user until the maker had ended",
    "held-place": "a job or a slot alone held the user until the maker had ended",
    "at-once": "both ran at one time",
    "before": "the user ended before the maker began",
    "apart": "one of the two did not run, or another plan came between",
    "failed": "the user failed",
    "running": "the maker ran when the user failed",
    "to-run": "the maker was still to run when the user failed",
    "failed-before": "the maker had failed when the user began",
}
_REASONS = {
    "missing": "{output} is missing",
    "no-deps": "there is no list of what its command read",
    "deps-old": "the list of what its command read is older than its output",
    "rebuilt": "{input} was made anew",
    "missing-dep": "{input}, which its command read, is missing",
    "older": "{output} is older than {input}",
    "no-record": "the build log has no record of {output}",
    "command": "{output} was made by another command",
}
_ENDS = (("maker", "made by"), ("user", "used by"), ("first", "left by"), ("other", "and by"))


def finding(it: Object) -> Object:
    """A finding as the page has it: its title and lines, what its command printed, and the events that began its
    commands."""
    ends = [(it[name], words) for name, words in _ENDS if it.get(name)]
    return {
        "kind": it["kind"], "id": str(it.get("id") or it.get("number") or ""), "matters": it["kind"] in _MATTERS,
        "title": _title(it), "lines": [f"{words} {_placed(end)}" for end, words in ends] + _happened(it),
        "printed": it.get("lines"), "of": it["user"]["output"] if it["kind"] == "failed" else None,
        "runs": [end["began"] for end, _ in ends],
    }


def _placed(edge: Object) -> str:
    return f"{edge['output']} ({edge['file']}:{edge['line']})"


def _title(it: Object) -> str:
    number = f" [{it['number']}]" if "number" in it else ""
    if it["kind"] == "failed":
        return f"{it['user']['output']} failed at {it['at']}"
    if it["kind"] == "not judged":
        return f"not judged: {it['user']['output']}" + ", which only collects outputs" * it["collects"]
    if it["kind"] == "left out":
        return f"left out: {it['hidden']} places by filters, {it['known'] + it['ignored']} findings by the baseline"
    if it["kind"] == "hidden":
        return f"hidden by filters: {'the entries of ' * it['entries']}{it['path']}"
    if it["kind"] == "replayed":
        return f"replayed {it['commands']} commands, {it['refused']} refused: the answer is of the others"
    of = f" of a {it['of']}" if it.get("of") in ("depfile", "rspfile") else ""
    name = it.get("path") or (it.get("user") or {}).get("output", "")
    return f"{it['kind']}{of} {name}{_by(it.get('dyndep'))}{number}"


def _by(file: str | None) -> str:
    """The dyndep file behind a path that an edge's own line does not have, where there is one."""
    return f" (by {file})" if file else ""


def _happened(it: Object) -> list[str]:
    """What happened of a finding in the recording, and what mends it."""
    lines = [f"here: {_HERE[it['here']]}"] if it.get("here") in _HERE else []
    if it.get("basis") == "observed":
        lines.append("by what was observed")
    user = it.get("user") or it.get("other")
    if it.get("declare"):
        lines.append(f"mend: {_line(it['maker'])} ... | {it['declare']}")
    if it.get("mend"):
        lines.append(f"mend: {_line(user)} ... || {it['mend']}")
    if it.get("list"):
        lines.append(f"mend: {_line(user)} ... | {it['list']}, where its list does not have it")
    if it.get("reverse"):
        lines.append(f"or: {_line(it.get('maker') or it['first'])} ... || {it['reverse']}")
    if it.get("mended_by"):
        lines.append(f"the order of [{it['mended_by']}] mends this too")
    return lines


def _line(edge: Any) -> str:
    return f"{edge['file']}:{edge['line']}: build {edge['output']}:"


def reasons(it: Object) -> Object:
    """Why an edge ran: the number of the plan, or None, what the reasons are of, and each in words."""
    lines = [one["output"] if one["input"] is None
             else f"{one['output']} waits for {one['input']}{_by(one.get('dyndep'))}" for one in it["steps"]]
    for one in it["reasons"]:
        names = {name: f"{one[name]}{_by(one.get(f'{name}_dyndep'))}" for name in ("output", "input")}
        lines.append(_REASONS.get(one["reason"], one["reason"]).format_map(names))
    return {"plan": it["plan"] and it["plan"]["number"], "of": it["last"], "lines": lines}


def difference(it: Object) -> Object:
    """A difference between two recordings: its lines, on which side its event is, and the event's number or None."""
    lines, side, event = _of_kind(it)
    return {"kind": it["kind"], "lines": lines, "side": int(side == "b"), "event": event}


def _of_kind(it: Object) -> tuple[list[str], str, int | None]:
    side = it.get("side", "a")
    if it["kind"] == "finished":
        line = f"{_placed(it['maker'])} had finished before {_placed(it['user'])} began, in recording {side} alone"
        return [line], side, it["user"]["began"]
    if it["kind"] == "inverted":
        one, other = (it[name][side] for name in ("first", "second"))
        line = " and ".join(f"{end['number']} {end['event']} {end['output']}" for end in (one, other))
        return [f"{line} depend on each other in recording {side}; in the other one they stand the other way round"], \
            side, one["number"]
    edge = it.get("a") or it["edge"]
    lines = [_placed(edge)]
    if it.get("status") is True:
        lines.append(f"a: {it['a_status']}, b: {it['b_status']}")
    if it.get("command"):
        lines += [f"a: {it['a_command']}", f"b: {it['b_command']}"]
    for name in ("outputs", "inputs", "reads"):
        for one in ("a", "b"):
            if it.get(f"{one}_{name}"):
                lines.append(f"{name} in {one} alone: {' '.join(it[f'{one}_{name}'])}")
    if it.get("flags"):
        lines.append(f"flags: {' '.join(it['flags'])}")
    if "side" in it:
        lines.append(f"in recording {side} alone")
    return lines, side, edge["began"]
