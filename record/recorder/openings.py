"""The stamps of an opening that are not those of the disk.

A command that fails after it wrote its output leaves a file that is newer than its inputs, beside an older entry of the
log. Ninja goes by the entry and builds it again; rebug has one stamp of a path, so there the opening has the entry's:
that of the output that was really built last, or from Ninja 1.12 on the time at which the command began that built it,
which is older also than an input that was written while that command ran.
"""

from __future__ import annotations

from .fields import shown
from .rules import Build

_NAMED = 5


def stamps_of_what_was_built(it, before, ninja):
    """The outputs whose log entry is older than the newest input that counts and whose file is not: path -> stamp.

    Edges whose list is older than their output are left alone: Ninja and rebug both run them, for that reason.
    """
    build = Build(it.manifest, 1, before.stamps, it.built, it.deps)
    known: dict[bytes, int] = {}
    found: dict[bytes, int] = {}
    for edge in it.manifest.edges:
        changed = [path for path in edge.outputs if path in it.built and it.built[path][0] < build.stamps.get(path, 0)]
        if changed and not edge.phony and not _has_an_old_list(build, edge):
            newest = build.newest(edge, known)
            for path in changed:
                if it.built[path][0] < newest <= build.stamps[path]:
                    found[path] = max(1, it.built[path][0])
    if found:
        names = ", ".join(shown(path) for path in list(found)[:_NAMED])
        more = " and more" if len(found) > _NAMED else ""
        since = "changed since Ninja's log has it as built, and the log's entry is older than an input" if \
            ninja.stamps_are_of_outputs else "Ninja's log has its command begin before an input changed"
        it.notes.append(f"{names}{more}: {since}, so Ninja builds it again. The opening has the stamp of the log")
    return found


def _has_an_old_list(build, edge):
    record = build.deps.get(edge.name) if edge.keeps_deps else None
    return bool(record) and record[0] < build.stamps.get(edge.name, 0)
