"""What Ninja and the disk show at one moment: stamps, the build log, the deps records."""

from __future__ import annotations

import os
import time
from dataclasses import dataclass, field
from typing import Callable, Container, Iterable

from .depfiles import read_depfile
from .depslog import DepsLog, Listing
from .fields import canonical
from .listed import DepsRecord
from .logs import BuildLog, open_build_log
from .manifest import Manifest
from .ninja import Ninja


def stamp_of(folder: bytes, path: bytes) -> int:
    """A file's modification time in nanoseconds, as Ninja takes it: 0 is a missing file, and a time of 0 is 1."""
    try:
        return max(1, os.stat(os.path.join(folder, path)).st_mtime_ns)
    except (OSError, ValueError):
        return 0


@dataclass
class Snapshot:
    """The state of a build folder; paths are canonical. `deps` has output -> (stamp, Listing), `taken` is the time
    (nanoseconds) at which the snapshot was begun.

    `changed` has the outputs whose command is another than the log's; it counts where the log's hash is not known.
    """

    stamps: dict[bytes, int]
    log: BuildLog
    deps: dict[bytes, tuple[int, Listing]]
    without_deps_log: dict[bytes, bytes]
    changed: set[bytes] = field(default_factory=set)
    taken: int = 0


def take_snapshot(folder: bytes, manifest: Manifest, ninja: Ninja,
                  more: Callable[[BuildLog], Iterable[bytes]] = lambda _: ()) -> Snapshot:
    """Reads the logs as far as they go and as the Ninja takes them, the depfiles that Ninja keeps no record of, and the
    stamp of every path, also of those that `more` gives of the build log."""
    taken = time.time_ns()
    log = ninja.as_read(open_build_log(os.path.join(folder, manifest.log_folder(), b".ninja_log")))
    deps = _deps_records(folder, manifest, ninja)
    texts = {}
    for edge in manifest.edges:
        if edge.depfile and not edge.deps:
            texts[edge.name] = read_file(os.path.join(folder, edge.depfile))
    paths = manifest.known_paths()
    paths.update(dict.fromkeys(_listed_paths(deps)))
    paths.update(dict.fromkeys(more(log)))
    for name, text in texts.items():
        paths.update(dict.fromkeys(read_depfile(text, manifest.producer[name].outputs) or ()))
    return Snapshot({it: stamp_of(folder, it) for it in paths}, log, deps, texts, taken=taken)


def read_file(path: bytes) -> bytes:
    """A file's content, empty where there is none."""
    try:
        with open(path, "rb") as file:
            return file.read()
    except OSError:
        return b""


def _deps_records(folder: bytes, manifest: Manifest, ninja: Ninja) -> dict[bytes, tuple[int, Listing]]:
    """The records of the deps log for first outputs. Of other outputs neither Ninja nor rebug reads one."""
    path = os.path.join(folder, manifest.log_folder(), b".ninja_deps")
    places = DepsLog(path, ninja.ends_deps_logs_at_unknown_paths).places
    return {edge.name: places[edge.name] for edge in manifest.edges if edge.deps and edge.name in places}


def _listed_paths(deps: dict[bytes, tuple[int, Listing]]) -> list[bytes]:
    """Each path that the records list."""
    numbers: dict[DepsLog, set[int]] = {}
    for _, listing in deps.values():
        numbers.setdefault(listing.log, set()).update(listing.numbers())
    return [log.paths[it] for log, found in numbers.items() for it in sorted(found)]


def built_records(manifest: Manifest, log: BuildLog, hash_of: Callable[[bytes], int] | None,
                  changed: Container[bytes] = ()) -> dict[bytes, tuple[int, bytes]]:
    """The built records of the log: output -> (stamp, command).

    `hash_of` is the hash in the log. Where it is None, the commands are the manifest's, those of the outputs in
    `changed` excepted.
    """
    records: dict[bytes, tuple[int, bytes]] = {}
    hashes: dict[int, int] = {}
    for entry in log.last(manifest.producer).values():
        path = canonical(entry.output)
        edge = manifest.producer.get(path)
        if edge is None or edge.phony:
            continue
        if hash_of and edge.number not in hashes:
            hashes[edge.number] = hash_of(edge.ninja_command)
        is_same = hashes[edge.number] == entry.hash if hash_of else path not in changed
        records[path] = entry.stamp, edge.command if is_same else stand_in(entry.hash)
    return records


def stand_in(value: int) -> bytes:
    """What stands for a command of which only Ninja's hash is known; no manifest has it."""
    return b"another command, of which Ninja's log has the hash %016x" % value


def deps_records(manifest: Manifest, snapshot: Snapshot) -> dict[bytes, DepsRecord]:
    """The deps records, with those that rebug keeps for edges with `depfile` and without `deps`."""
    records: dict[bytes, DepsRecord] = dict(snapshot.deps)
    for name, text in snapshot.without_deps_log.items():
        listed = read_depfile(text, manifest.producer[name].outputs) if text else None
        if listed is not None:
            records[name] = snapshot.stamps.get(name, 0), listed
    return records
