"""Ways: how a path of a call leads to an entry, name by name, as things stood when the call was made."""

from __future__ import annotations

from dataclasses import dataclass
from enum import IntEnum


class Standing(IntEnum):
    """What stands at an entry. UNASKED: the observer could not ask."""

    UNASKED = 0
    MISSING = 1
    FILE = 2
    FOLDER = 3
    LINK = 4
    DEVICE = 5
    OF_KERNEL = 6


HIDDEN = (Standing.DEVICE, Standing.OF_KERNEL)
"""What is counted by its name: devices, and what procfs and sysfs show."""

Links = tuple[tuple[bytes, bytes], ...]


@dataclass(eq=False, slots=True)
class Way:
    """A way. Entries are real paths: no name on the way to them is a link. Two ways are the same only where they are
    one object.

    `entry` is that of the last name, which is no link that was followed, and `standing` what stood there. Where it
    is a link, `end` is the entry at the link's end, and `ends` are the links from the last name to it, each with its
    text. `links` are those on the way to the last name. `asked` has entries that the way asked for before its last
    name, since `..` follows them or no folder is there. `inode` names the file where it has several names (hard
    links). `process` is the number of the process in whose folder in /proc the entry is, 0 for none.
    """

    entry: bytes
    standing: Standing
    end: bytes | None = None
    end_standing: Standing = Standing.MISSING
    base: bytes = b""
    inode: bytes = b""
    process: int = 0
    is_broken: bool = False
    links: Links = ()
    ends: Links = ()
    asked: tuple[tuple[bytes, Standing], ...] = ()
    numbered: Numbered | None = None


@dataclass(eq=False, slots=True)
class Numbered:
    """A way by the numbers of its entries. `place` is that of the last name, `end` that at the end of all links.
    `is_bare`: it came through no link, and asked for nothing on the way."""

    place: int
    standing: Standing
    end: int
    end_standing: Standing
    links: tuple[tuple[int, bytes], ...]
    ends: tuple[tuple[int, bytes], ...]
    asked: tuple[tuple[int, Standing], ...]
    is_bare: bool
    way: Way
