#!/usr/bin/env python3
"""Stands in for a program that answers `races --json RECORDING`: by what commands were observed to read and to write,
read plainly. It knows races and cycles, files that no line declares, sources that no line lists, and failed
commands."""

import json
import os
import pathlib
import sys

top = pathlib.Path(__file__).resolve().parent.parent.parent
sys.dont_write_bytecode = True
sys.path[:0] = [str(top), str(top / "tests")]

from builds import unescaped  # noqa: E402
from recorder.manifest import Manifest  # noqa: E402
from recorder.provoke.orders import waits  # noqa: E402
from recorder.provoke.races import shown_name  # noqa: E402

LOOKS, CHANGES = ("read", "missing"), ("left", "edited", "linked")


def numbers(ranges):
    for it in ranges:
        first, _, last = it.partition(b"-")
        yield from range(int(first), int(last or first) + 1)


def observed(text):
    """What each command did, by version 2: output -> word of the line -> paths."""
    assert text.startswith(b"rebug-observed 2\n"), "this program reads version 2 alone"
    paths, found, uses = [], {}, {}
    for line in text.split(b"\n"):
        word, *rest = line.split(b" ")
        if word == b"path":
            paths.append(unescaped(rest[0]))
        elif word == b"edge":
            uses = found.setdefault(unescaped(rest[0]), {})
        elif word.decode() in LOOKS + CHANGES:
            places = rest[1:] if word == b"linked" else rest
            uses.setdefault(word.decode(), []).extend(paths[it] for it in numbers(places))
    return found


def told(edge):
    return {"output": shown_name(edge.name), "file": shown_name(edge.file), "line": edge.line}


def objects(manifest, did):
    """The findings, as objects without numbers."""
    edges = {name: manifest.producer[name] for name in did if name in manifest.producer}
    makers = {}
    for name, edge in edges.items():
        for path in dict.fromkeys([*edge.outputs, *(it for kind in CHANGES for it in did[name].get(kind, ()))]):
            makers.setdefault(path, []).append(edge)
    for edge in manifest.edges:
        for path in () if edge.phony else edge.outputs:
            makers.setdefault(path, [edge])
    for name, edge in edges.items():
        listed = {*edge.explicit, *edge.implicit}
        for path in dict.fromkeys(it for kind in LOOKS for it in did[name].get(kind, ())):
            lists = None if edge.keeps_deps or path in listed else shown_name(path)
            for maker in makers.get(path, ()):
                if maker is not edge and not waits(manifest, edge, maker):
                    kind = "cycle" if waits(manifest, maker, edge) else "race"
                    declare = None if path in maker.outputs else shown_name(path)
                    mend = shown_name(maker.name) if kind == "race" else None
                    yield {"kind": kind, "path": shown_name(path), "maker": told(maker), "user": told(edge),
                           "declare": declare, "list": lists, "mend": mend}
            if lists and path not in makers and path in did[name].get("read", ()) and path[:1] in b"/.":
                yield {"kind": "unlisted", "path": shown_name(path), "maker": None, "user": told(edge),
                       "declare": None, "list": lists, "mend": None}


def failed(recording, manifest):
    """An object for each command that failed."""
    for line in (recording / "output").read_bytes().split(b"\n"):
        fields = line.split(b" ")
        if fields[0] == b"failed":
            lines = [shown_name(it).replace("\\s", " ") for it in unescaped(fields[4]).split(b"\n")]
            yield {"kind": "failed", "user": told(manifest.producer[unescaped(fields[1])]), "lines": lines}


def main(words):
    recording = pathlib.Path(words[-1])
    manifest = Manifest(b"build.ninja", lambda name: (recording / os.fsdecode(name)).read_bytes())
    found = list(objects(manifest, observed((recording / "observed").read_bytes())))
    for it in failed(recording, manifest):
        print(json.dumps(it))
    for number, it in enumerate(found, 1):
        print(json.dumps({**it, "number": number}))
    return 4 if found else 0


if __name__ == "__main__":
    sys.exit(main(sys.argv[1:]))
