"""What `rebug shuffle` is due to show of each attempt of tests/unsound: a difference between two orders, one that shows
only while two commands overlap, or none."""

from __future__ import annotations

import enum
import pathlib
import re
import sys
from dataclasses import dataclass

sys.path.append(str(pathlib.Path(__file__).resolve().parents[2] / "tests" / "unsound"))

import attempts  # noqa: E402

# A delay at the beginning of a command brings two commands to overlap in one way. An order of whole commands needs
# no delay.
DELAY = re.compile(r"(?<=c = )sleep 0\.5; ")

OVERLAP = frozenset(("mkdir_lock", "flock", "abstract_bind", "tcp_bind", "proc_count", "ninja_rsp", "timeout_open"))
NOTHING = frozenset(("uring", "n_glob_other", "n_exist", "n_same_content", "n_flock_mutex", "n_getent", "n_logger",
                     "n_unshare", "n_git", "n_mkdir_p", "n_tmp", "n_local_srv", "n_multiproc"))
# What these leave differs with the room on the disk, with Ninja's own log at that moment, or with another target.
NOT_SHOWN = frozenset(("ninja_t_deps", "other_targets", "statfs"))
# `src_one_deep` has its sources in a folder below the root of the file system, which `shuffle` does not copy.
LEFT_OUT = frozenset(("src_one_deep",))
# The pair that is due to be named, where it is not (a, b).
PAIRS = {
    "ninja_mkdir": ("sub/a", "b"), "ls_order_tmpfs": ("d/x", "d/y"), "find_ar_tmpfs": ("d/x.o", "d/y.o"),
    "ls_order_ext4": ("d/x", "d/y"), "stamps": ("x", "y"), "nested_make": ("y", "out"), "daemon": ("a", "s"),
    "stdin": ("b", "a"), "dirlink_retarget_out": ("cur", "b"), "dirlink_made": ("include", "b"),
    "dirlink_made_fail": ("include", "b"), "lib_soname": ("libv.so", "b"),
}


class Due(enum.Enum):
    """What a shuffled build is to show: a difference between two orders; one that shows while two commands overlap; no
    difference, since there is none; or none, since bytes cannot show it."""

    ORDER = "order"
    OVERLAP = "overlap"
    NOTHING = "nothing"
    NOT_SHOWN = "not shown"


@dataclass(frozen=True)
class Attempt:
    """An attempt of tests/unsound, what is due of it, and the pair that is due to be named."""

    build: attempts.Attempt
    due: Due
    pair: tuple[str, str]

    def manifest(self) -> str:
        """The manifest, without the delays at the beginnings of commands."""
        return self.build.manifest if self.due is Due.OVERLAP else DELAY.sub("", self.build.manifest)


def due_of(name: str) -> Due:
    """What is due of the attempt of this name."""
    listed = ((OVERLAP, Due.OVERLAP), (NOTHING, Due.NOTHING), (NOT_SHOWN, Due.NOT_SHOWN))
    return next((due for names, due in listed if name in names), Due.ORDER)


ATTEMPTS = tuple(Attempt(it, due_of(it.name), PAIRS.get(it.name, ("a", "b"))) for it in attempts.ATTEMPTS
                 if it.name not in LEFT_OUT)
