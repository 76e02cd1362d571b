"""What was counted, in words and as JSON."""

from __future__ import annotations

import json
import shlex
import time
from collections import Counter
from collections.abc import Iterator, Sequence

from ..fields import printable
from .counting import Counted
from .judging import Anchor, Culprit
from .reading import Summaries
from .sums import Failures, Occasion

_MOST_LABELS, _MOST_TIES, _MOST_FINDINGS = 5, 4, 5
_PROVOKE = "rebug provoke BUILD RECORDING N"
_FELL = ("before", "after", "at once", "read", "missed")


def lines_of(them: Sequence[Counted]) -> Iterator[str]:
    """The answer in words."""
    for it in them:
        sums = it.sums
        yield (f"manifest {it.name}: {_count(sums.builds, 'build')}, {sums.bad:,} failed; "
               f"{_count(len(it.manifest.names), 'command')}")
        for anchor in it.anchors():
            yield from map(printable, _lines_of_anchor(it, anchor))
        yield from map(printable, _lines_of_steady(it))
        yield from map(printable, _lines_of_findings(it))


def _lines_of_anchor(it: Counted, anchor: Anchor) -> Iterator[str]:
    name = it.manifest.shown(anchor.command)
    if anchor.left:
        yield f"{name} left other bytes in {anchor.bad} of {_count(anchor.bad + anchor.good, 'build')}"
    else:
        its = it.sums.commands[anchor.command]
        yield f"{name} failed in {its.failed} of {_count(its.ran, 'build')}{_when(its)}"
        yield from _lines_of_failures(it, its)
        if anchor.bad != its.failed or anchor.bad + anchor.good != its.ran:
            yield (f"  orders are counted in {anchor.bad + anchor.good} of these builds: write each sum with "
                   f"--anchor {it.manifest.names[anchor.command]}")
    for culprit in anchor.culprits:
        yield from _lines_of_culprit(it, anchor, culprit)
    if not anchor.culprits:
        yield "  no command that is not ordered with it ran in both kinds of build"


def _lines_of_failures(it: Counted, its: Failures) -> Iterator[str]:
    if its.first and its.last and its.first.labels != its.last.labels:
        yield f"  first in {_labels(its.first)}; last in {_labels(its.last)}"
    if its.texts:
        text, count = min(its.texts.items(), key=lambda pair: (-pair[1], pair[0]))
        yield f"  {text}" + (f" (and {len(its.texts) - 1} other texts)" if len(its.texts) > 1 else "")
    names = Counter(label.split("=", 1)[0] for label in it.sums.labels)
    for name in sorted(name for name, count in names.items() if count > 1):
        rows = [(its.labels[label], count, label) for label, count in it.sums.labels.items()
                if label.startswith(name + "=")]
        rows.sort(key=lambda row: (-row[0] / row[1], row[2]))
        more = f", and {len(rows) - _MOST_LABELS} more" if rows[_MOST_LABELS:] else ""
        yield "  by " + name + ": " + ", ".join(f"{label.split('=', 1)[1]} {failed} of {count}"
                                                for failed, count, label in rows[:_MOST_LABELS]) + more


def _lines_of_culprit(it: Counted, anchor: Anchor, culprit: Culprit) -> Iterator[str]:
    best, names = culprit.separation, it.manifest.names
    kinds = ("other", "same") if anchor.left else ("failing", "passing")
    told = best.property.told(names[best.command], names[anchor.command])
    word = "it separates" if culprit.is_named else "not certain"
    yield (f"  {word}: in {best.a} of {best.bad} {kinds[0]} builds {told}; in {best.c} of {best.good} {kinds[1]} ones "
           f"(chance {culprit.corrected:.1g})")
    yield f"    {it.manifest.shown(best.command)}, which is not ordered with {it.manifest.shown(anchor.command)}"
    if culprit.ties:
        yield f"    so do, as a tie: {_some(culprit.ties, names)}"
    if culprit.followers:
        yield f"    so do, since they wait for one of these: {_some(culprit.followers, names)}"
    yield from _lines_of_conflicts(culprit)
    if not culprit.is_named:
        if culprit.more is not None:
            yield f"    {_count(culprit.more, 'more build')} with the same shares would be needed"
        yield f"    try: {_shuffle(names[anchor.command])}"


def _lines_of_conflicts(culprit: Culprit) -> Iterator[str]:
    """The findings of a culprit and its anchor, what mends them, and what makes the first one happen."""
    for finding in culprit.findings[:_MOST_FINDINGS]:
        yield f"    {finding.kind} {finding.path} ({finding.id})"
        if finding.mend:
            yield f"    mend: {finding.mend}"
    if culprit.findings[_MOST_FINDINGS:]:
        yield f"    {len(culprit.findings) - _MOST_FINDINGS} more findings of these two"
    if culprit.findings:
        yield (f"    provoke: {_PROVOKE}, with the number N of {culprit.findings[0].kind} "
               f"{culprit.findings[0].path} in RECORDING")


def _some(commands: Sequence[int], names: Sequence[str]) -> str:
    """The first ones of some commands."""
    more = f" and {len(commands) - _MOST_TIES:,} more" if commands[_MOST_TIES:] else ""
    return ", ".join(names[it] for it in commands[:_MOST_TIES]) + more


def _labels(it: Occasion) -> str:
    return ", ".join(f"{name}={value}" for name, value in sorted(it.labels.items())) or "a build without labels"


def _shuffle(target: str) -> str:
    """What builds a target in other orders."""
    return f"rebug shuffle BUILD --overlap -- {shlex.quote(target)}"


def _lines_of_steady(it: Counted) -> Iterator[str]:
    """Commands that fail in each build, and those that leave other bytes in each."""
    for command, its in sorted(it.sums.commands.items()):
        if its.failed and its.failed == its.ran:
            yield (f"{it.manifest.shown(command)} failed in each of {_count(its.ran, 'build')} in which it "
                   f"ran{_when(its)}")
            yield from _lines_of_failures(it, its)
    for command in it.restless:
        yield f"{it.manifest.shown(command)} leaves other bytes in most builds, in any order (rebug rerun)"


def _lines_of_findings(it: Counted) -> Iterator[str]:
    """Findings that are of no failure: how often each fell in which way."""
    rows = []
    for name, finding in it.manifest.findings.items():
        counts = {fell: [it.sums.findings[f"{name} {kind} {fell}"] for kind in ("good", "bad")] for fell in _FELL}
        failed = it.sums.commands.get(finding.user)
        if not (failed and failed.failed) and any(map(sum, counts.values())):
            told = ", ".join(f"{fell} in {sum(both)}" for fell, both in counts.items() if sum(both))
            rows.append((finding.path, name, f"harmless so far: {finding.kind} {finding.path} ({name}): {told}"))
    for _, _, text in sorted(rows)[:_MOST_FINDINGS]:
        yield text
    if rows[_MOST_FINDINGS:]:
        yield f"harmless so far: {len(rows) - _MOST_FINDINGS} more"


def objects_of(them: Sequence[Counted]) -> Iterator[str]:
    """The answer as JSON objects."""
    for it in them:
        anchors = it.anchors()
        yield _json(kind="manifest", manifest=it.name, builds=it.sums.builds, failed=it.sums.bad,
                    commands=len(it.manifest.names), labels=dict(it.sums.labels), anchors=len(anchors))
        for command, its in sorted(it.sums.commands.items()):
            if its.failed:
                yield _json(kind="failed", manifest=it.name, output=it.manifest.names[command],
                            place=it.manifest.places[command], failed=its.failed, ran=its.ran,
                            first=_occasion(its.first), last=_occasion(its.last), labels=dict(its.labels),
                            texts=dict(its.texts))
        for anchor in anchors:
            for culprit in anchor.culprits:
                yield _culprit(it, anchor, culprit)
        for name, finding in sorted(it.manifest.findings.items()):
            yield _json(kind="finding", manifest=it.name, id=name, finding=finding.kind, path=finding.path,
                        maker=it.manifest.names[finding.maker], user=it.manifest.names[finding.user],
                        fell={f"{kind} {fell}": it.sums.findings[f"{name} {kind} {fell}"] for kind in ("good", "bad")
                              for fell in _FELL if it.sums.findings[f"{name} {kind} {fell}"]})


def _culprit(it: Counted, anchor: Anchor, culprit: Culprit) -> str:
    best, names = culprit.separation, it.manifest.names
    return _json(kind="order", manifest=it.name, anchor=names[anchor.command], what="left" if anchor.left else "failed",
                 command=names[best.command], place=it.manifest.places[best.command], state=best.property.state.value,
                 moment=best.property.moment, holds=best.property.holds, bad=[best.a, best.bad],
                 good=[best.c, best.good], chance=f"{culprit.corrected:.6e}", named=culprit.is_named,
                 ties=[names[tie] for tie in culprit.ties], followers=[names[them] for them in culprit.followers],
                 more=culprit.more, findings=[{"id": finding.id, "finding": finding.kind, "path": finding.path,
                                               "mend": finding.mend} for finding in culprit.findings],
                 provoke=_PROVOKE if culprit.findings else None,
                 shuffle=None if culprit.is_named else _shuffle(names[anchor.command]))


def faults_of(summaries: Summaries) -> Iterator[str]:
    """Sentences about what does not count."""
    faults = summaries.faults
    yield from map(printable, faults.first)
    if faults.count > len(faults.first):
        yield f"{faults.count - len(faults.first):,} more lines do not count"


def _when(its: Failures) -> str:
    if not its.first or not its.last:
        return ""
    first, last = (time.strftime("%Y-%m-%d %H:%M", time.gmtime(it.when)) for it in (its.first, its.last))
    return f", at {first}" if first == last else f", from {first} to {last}"


def _occasion(it: Occasion | None) -> dict[str, object] | None:
    return {"when": it.when, "build": it.build, "labels": it.labels} if it else None


def _json(**members: object) -> str:
    return json.dumps(members, sort_keys=True)


def _count(number: int, what: str) -> str:
    return f"{number:,} {what}{'' if number == 1 else 's'}"
