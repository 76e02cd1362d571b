"""The lines of a summary: one has the names of a manifest, one each a finding, and one the build."""

from __future__ import annotations

import base64
import hashlib
import json
from collections.abc import Iterator, Mapping, Sequence

from ..stable import text_without_folders as without_folders
from .findings import Finding
from .packed import in_order, packed, packed_numbers
from .recording import Build

VERSION = 1
_NO_DIGEST = b"\0" * 6


def lines_of(build: Build, findings: Sequence[Finding], labels: Mapping[str, str]) -> Iterator[str]:
    """The lines. Those of names and findings are the same for each build of the manifest."""
    yield _line("names", manifest=build.manifest, names=[without_folders(it) for it in build.names],
                places=[without_folders(f"{file}:{line}") for file, line in build.places], waits=build.waits)
    for it in sorted(findings, key=lambda it: it.id):
        yield _line("finding", manifest=build.manifest, id=it.id, finding=it.kind, path=without_folders(it.path),
                    maker=it.maker, user=it.user, mend=without_folders(it.mend))
    yield _build(build, findings, labels)


def _build(build: Build, findings: Sequence[Finding], labels: Mapping[str, str]) -> str:
    told: dict[str, object] = {
        "manifest": build.manifest, "when": build.when, "ninja": build.ninja, "jobs": build.jobs,
        "labels": dict(labels), "nothing": build.is_from_nothing, "runs": packed(build.runs),
        "failed": {str(number): without_folders(build.failed[number]) for number in sorted(build.failed)},
        "findings": {it.id: it.fell for it in findings}}
    if build.processor:
        told["processor"] = packed_numbers([build.processor.get(it.command, -1) for it in in_order(build.runs)])
    if build.left:
        digests = b"".join(build.left.get(it, _NO_DIGEST) for it in range(len(build.names)))
        told["left"] = base64.b64encode(digests).decode("ascii")
    text = json.dumps(told, sort_keys=True).encode()
    return _line("build", id=hashlib.sha256(text).hexdigest()[:16], **told)


def _line(word: str, **members: object) -> str:
    return json.dumps({"rebug": word, "version": VERSION, **members}, sort_keys=True, separators=(",", ":"))
