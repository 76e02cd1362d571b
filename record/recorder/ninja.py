"""One Ninja: its program, its version, and what follows from the version. docs/NINJA.md has the table.

    version      log, hash of commands    stamp of an entry            a log of another version    first start
    up to 1.11   5, MurmurHash2           the newest of the outputs    is read from 4 on           the lowest number
    1.12         6, MurmurHash2           when the command began       is thrown away              the longest way
    from 1.13    7, rapidhash             when the command began       is thrown away              the longest way

The hash follows from Ninja's version and not from the log's: Ninja 1.11 keeps the header of a newer log, and writes its
own hashes below it. What a Ninja later than 1.13 writes is seen by its log alone.
"""

from __future__ import annotations

import os
import re
import shutil
import subprocess
from dataclasses import dataclass
from typing import Callable, Mapping

from .fields import canonical
from .hashes import murmur_hash, rapid_hash
from .logs import BuildLog, LogEntry

_VERSION = re.compile(rb"^(\d+)\.(\d+)\S*", re.MULTILINE)
_CHANGED = re.compile(rb"ninja explain: command line changed for (.*)")
_LONGEST_ANSWER = 60
# Version of a log -> the hash in it, where Ninja wrote the log as its own.
HASHES: dict[int, Callable[[bytes], int]] = {5: murmur_hash, 6: murmur_hash, 7: rapid_hash}


class NoNinja(Exception):
    """A sentence that says why there is no Ninja to run."""


@dataclass(frozen=True)
class Ninja:
    """A Ninja by its program, the first two numbers of its version, and the version as it tells it."""

    program: str
    version: tuple[int, int]
    told: bytes = b""

    @property
    def log_version(self) -> int:
        """The version of the build logs that it writes; of a later Ninja than is known here the least that it can
        be."""
        return 5 if self.version < (1, 12) else 6 if self.version < (1, 13) else 7

    @property
    def stamps_are_of_outputs(self) -> bool:
        """Whether the stamp of a log's entry is that of the newest output, and not the time at which its command
        began."""
        return self.version < (1, 12)

    @property
    def starts_longest_way_first(self) -> bool:
        """Whether of the edges that can start the one goes first that has most commands behind it in a row."""
        return self.version >= (1, 12)

    @property
    def status_of_interrupt(self) -> int:
        """Its exit status after an interrupt."""
        return 130 if self.version >= (1, 13) else 2

    @property
    def takes_a_jobserver(self) -> bool:
        """Whether it asks the jobserver in MAKEFLAGS for leave to start a command, where it has no -j."""
        return self.version >= (1, 13)

    @property
    def makes_folders_of_depfiles(self) -> bool:
        """Whether it makes the folders above a depfile before the command begins, as it does above outputs."""
        return self.version >= (1, 13)

    @property
    def ends_deps_logs_at_unknown_paths(self) -> bool:
        """Whether a list of the deps log with a path that the log does not have ends the log; an earlier Ninja ends by
        a fault of its own there."""
        return self.version >= (1, 13)

    def as_read(self, log: BuildLog) -> BuildLog:
        """A log as this Ninja takes it. From 1.12 on one of another version is thrown away ("starting over")."""
        if self.log_version == 5:
            return BuildLog(5, log.entries)
        is_later = self.version >= (1, 14) and log.version > self.log_version
        return log if is_later or log.version == self.log_version else BuildLog(self.log_version, [])

    def hash_in(self, log: BuildLog) -> Callable[[bytes], int] | None:
        """The hash of commands in a log as this Ninja takes it; None where it is not known here."""
        return HASHES.get(log.version)


def found_ninja(environment: Mapping[str, str] = os.environ) -> Ninja:
    """The Ninja that NINJA names, else the one on the PATH. Raises NoNinja."""
    given = environment.get("NINJA")
    found = shutil.which(given or "ninja")
    if not found:
        raise NoNinja(f"NINJA names {given}, which cannot be run" if given else
                      "there is no ninja on the PATH (NINJA may name one)")
    return asked_ninja(os.path.abspath(found))


def asked_ninja(program: str) -> Ninja:
    """The Ninja of a program, which is asked for its version. Raises NoNinja."""
    try:
        said = subprocess.run([program, "--version"], stdin=subprocess.DEVNULL, capture_output=True,
                              timeout=_LONGEST_ANSWER).stdout
    except (OSError, subprocess.TimeoutExpired) as why:
        raise NoNinja(f"{program} cannot be run: {getattr(why, 'strerror', None) or why}") from why
    version = _VERSION.search(said)
    if not version:
        raise NoNinja(f"{program} does not tell Ninja's version (`{program} --version`), by which its logs are read")
    return Ninja(program, (int(version[1]), int(version[2])), version[0])


def changed_commands(explained: bytes) -> set[bytes]:
    """The outputs of which `ninja -n -d explain` says that their command is another than the log's."""
    return {canonical(it[1]) for it in map(_CHANGED.fullmatch, explained.splitlines()) if it}


def differing(before: Mapping[bytes, LogEntry], after: Mapping[bytes, LogEntry]) -> set[bytes]:
    """The outputs whose entries have another hash than before: a run has logged them with their present command."""
    return {canonical(path) for path, entry in before.items()
            if path in after and after[path].hash != entry.hash}
