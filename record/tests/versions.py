"""What is expected of each Ninja: one table, by its version. Where the recorder's tests run with several (`run` tells
how), each is held to its own column. docs/NINJA.md has the same table for readers."""

from __future__ import annotations

import re
import shutil
import subprocess
from dataclasses import dataclass

from recorder.hashes import murmur_hash, rapid_hash


@dataclass(frozen=True)
class Expected:
    """A column of the table. Fields say what this Ninja does."""

    log: int
    hash_of: object
    status_of_interrupt: int
    tells_status_of_failures: bool
    logs_stamps_of_outputs: bool
    starts_longest_way_first: bool
    takes_a_jobserver: bool

    def status_of_failure(self, status: int) -> int:
        """Ninja's status where the last command that failed had this one."""
        return status if self.tells_status_of_failures else 1


TABLE = {
    (1, 11): Expected(log=5, hash_of=murmur_hash, status_of_interrupt=2, tells_status_of_failures=False,
                      logs_stamps_of_outputs=True, starts_longest_way_first=False, takes_a_jobserver=False),
    (1, 12): Expected(log=6, hash_of=murmur_hash, status_of_interrupt=2, tells_status_of_failures=False,
                      logs_stamps_of_outputs=False, starts_longest_way_first=True, takes_a_jobserver=False),
    (1, 13): Expected(log=7, hash_of=rapid_hash, status_of_interrupt=130, tells_status_of_failures=True,
                      logs_stamps_of_outputs=False, starts_longest_way_first=True, takes_a_jobserver=True),
}


def _version() -> tuple[int, int]:
    """The version of the Ninja on the PATH; that of the first column where there is none, for then nothing runs it."""
    if not shutil.which("ninja"):
        return min(TABLE)
    said = subprocess.run(["ninja", "--version"], stdin=subprocess.DEVNULL, capture_output=True, text=True).stdout
    found = re.match(r"(\d+)\.(\d+)", said)
    return (int(found[1]), int(found[2])) if found else min(TABLE)


VERSION = _version()
# A later one than all is held to the last column, and an earlier one to the first.
NINJA = TABLE[max((it for it in TABLE if it <= VERSION), default=min(TABLE))]


def since(version: tuple[int, int]) -> bool:
    """Whether the Ninja on the PATH is of this version or a later one."""
    return VERSION >= version
