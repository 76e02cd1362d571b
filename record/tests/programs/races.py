#!/usr/bin/env python3
"""Stands in for a program that answers `races --json RECORDING`: by the rule of docs/RACES.md, read plainly, over lists
of the trace alone. Where the recording has a file `told`, its lines `KIND PATH MAKER USER` are the findings in place of
these: a test writes there what no list of a trace shows."""

import json
import pathlib
import sys

top = pathlib.Path(__file__).resolve().parent.parent.parent
sys.dont_write_bytecode = True
sys.path[:0] = [str(top), str(top / "tests")]

from builds import unescaped  # noqa: E402
from recorder.fields import canonical  # noqa: E402
from recorder.manifest import Manifest  # noqa: E402
from recorder.provoke.orders import waits  # noqa: E402
from recorder.provoke.races import shown_name  # noqa: E402


def makers(manifest, path):
    """The first commands that the path stands for."""
    found = manifest.producer.get(path)
    if found is None or not found.phony:
        return [found] if found else []
    return [it for below in found.inputs for it in makers(manifest, below)]


def told(manifest, text):
    """The races that a test wants to have told."""
    edge = manifest.producer.__getitem__
    rows = [it.split(" ") for it in text.splitlines()]
    return [(kind, path.encode(), edge(maker.encode()), edge(user.encode())) for kind, path, maker, user in rows]


def races(manifest, recording):
    if (recording / "told").exists():
        return told(manifest, (recording / "told").read_text())
    found, known = [], set()
    for line in (recording / "trace").read_bytes().split(b"\n"):
        fields = line.split(b" ")
        if fields[0] != b"finish" or fields[3:4] not in ([b"list"], [b"depfile"]):
            continue
        user = manifest.producer[unescaped(fields[1])]
        listed = fields[4:] if fields[3] == b"list" else unescaped(fields[4]).split(b":", 1)[1].split()
        for path in (canonical(unescaped(it)) for it in listed):
            for maker in makers(manifest, path):
                kind = "own" if maker is user else "cycle" if waits(manifest, maker, user) else "race"
                if not waits(manifest, user, maker) and (maker, user, path) not in known:
                    known.add((maker, user, path))
                    found.append((maker.number, user.number, kind, path))
    return [(kind, path, manifest.edges[maker], manifest.edges[user]) for maker, user, kind, path in sorted(found)]


def edge_told(edge):
    return {"output": shown_name(edge.name), "file": shown_name(edge.file), "line": edge.line}


def object_told(number, kind, path, maker, user):
    """The object of a finding. The maker of an unlisted file is null, and the two of a clash have other names."""
    mend = shown_name(path if path in maker.outputs else maker.name) if kind == "race" else None
    ends = dict(zip(("first", "other") if kind == "clash" else ("maker", "user"), map(edge_told, (maker, user))))
    if kind == "unlisted":
        ends["maker"] = None
    return {"kind": kind, "number": number, "path": shown_name(path), "mend": mend, "here": None, **ends}


def main(words):
    recording = pathlib.Path(words[-1])
    manifest = Manifest(b"build.ninja", lambda name: (recording / name.decode()).read_bytes())
    found = races(manifest, recording)
    for number, (kind, path, maker, user) in enumerate(found, 1):
        print(json.dumps(object_told(number, kind, path, maker, user)))
    return 4 if found else 0


if __name__ == "__main__":
    sys.exit(main(sys.argv[1:]))
