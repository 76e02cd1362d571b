"""The environment of a build, by digests that tell no value: each is keyed by a random of the user's own."""

from __future__ import annotations

import contextlib
import hmac
import os
import pathlib
from collections.abc import Mapping

KEY_BYTES, DIGEST_BYTES = 32, 8
_NAME = "environment-key"


def key() -> bytes:
    """The user's random, from the folder of caches ($XDG_CACHE_HOME, else ~/.cache). It is made at the first use. Where
    it cannot be kept, it is another one at each use, and two recordings' environments cannot be compared."""
    home = os.environ.get("XDG_CACHE_HOME") or os.path.join(os.path.expanduser("~"), ".cache")
    path = pathlib.Path(home) / "rebug" / _NAME
    for _ in range(2):
        with contextlib.suppress(OSError):
            found = path.read_bytes()
            if len(found) == KEY_BYTES:
                return found
        with contextlib.suppress(OSError):
            _make(path)
    return os.urandom(KEY_BYTES)


def _make(path: pathlib.Path) -> None:
    """Makes the file whole or not at all; the one that another recorder made first stays."""
    path.parent.mkdir(parents=True, exist_ok=True)
    own = path.with_name(f"{_NAME}-{os.getpid()}")
    with contextlib.suppress(FileNotFoundError):
        own.unlink()
    descriptor = os.open(own, os.O_WRONLY | os.O_CREAT | os.O_EXCL, 0o600)
    try:
        with os.fdopen(descriptor, "wb") as file:
            file.write(os.urandom(KEY_BYTES))
        if path.exists() and path.stat().st_size != KEY_BYTES:
            own.replace(path)
        else:
            with contextlib.suppress(FileExistsError):
                os.link(own, path)
    finally:
        with contextlib.suppress(FileNotFoundError):
            own.unlink()


def digest(own_key: bytes, text: bytes) -> bytes:
    """The keyed digest of a text."""
    return hmac.digest(own_key, text, "sha256")[:DIGEST_BYTES]


def digests(own_key: bytes, environment: Mapping[bytes, bytes]) -> list[tuple[bytes, bytes]]:
    """Each variable's name and the digest of its name and value, in the order of the names."""
    return [(name, digest(own_key, name + b"=" + environment[name])) for name in sorted(environment)]
