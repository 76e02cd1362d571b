"""The file `filters` of a recording: places of which no observed conflict is to be told, since whoever comes first
leaves there what any other command would have left.

docs/FORMATS.md has the form ("Places that are not told of"). What is written here is a beginning: the places are data,
which the user can change in the recording, and add to by a file of the same form.
"""

from __future__ import annotations

import os
import shutil
import subprocess
from collections.abc import Iterable, Iterator, Mapping
from dataclasses import dataclass

MOST_BYTES = 16_384
"""A text that is longer is refused by what reads it."""

_CCACHE_SECONDS = 10

_ALWAYS = """\
# Places of which no observed conflict is told, a pattern a line: the command that comes first leaves there what any
# other would have left. docs/FORMATS.md, "Places that are not told of", has the form.

# Devices, and files that the kernel makes up as they are read.
/dev
/proc
/sys

# Compiled copies of Python's modules: the first command that imports a module makes its copy, beside a temporary.
__pycache__
*.pyc
*.pyc.*
"""
_OF_CACHES = """
# Caches in which commands of this build left files: a file comes out the same, whether it was in the cache or is put
# there.
"""
_OF_INNER_NINJAS = """
# Logs of a Ninja that commands of this build run. Each such Ninja brings its log up to date, whoever runs it.
"""
NINJA_LOGS = (b".ninja_log", b".ninja_deps")
"""The names of the logs of a Ninja, in the folder that it builds in."""


@dataclass(frozen=True)
class Cache:
    """A cache of files: the environment's variable that names its folder, if there is one, and where it is without.

    `~` stands for the user's home folder, and `~cache` for that of caches ($XDG_CACHE_HOME). `parts` are what of the
    folder is the cache; the folder itself where there are none.
    """

    variable: str
    places: tuple[str, ...]
    parts: tuple[str, ...] = ()


CACHES = (
    Cache("CCACHE_DIR", ("~/.ccache", "~cache/ccache")),
    Cache("SCCACHE_DIR", ("~cache/sccache",)),
    Cache("CLANG_MODULE_CACHE_PATH", ("~cache/clang",)),
    Cache("", ("~cache/g-ir-scanner",)),
    Cache("", ("~cache/fontconfig",)),
    Cache("GOCACHE", ("~cache/go-build",)),
    Cache("GOMODCACHE", ("~/go/pkg/mod",)),
    Cache("CARGO_HOME", ("~/.cargo",), ("registry", "git", ".package-cache*", ".global-cache*")),
    Cache("PIP_CACHE_DIR", ("~cache/pip",)),
    Cache("npm_config_cache", ("~/.npm",)),
)


def default_filters(build: bytes, sources: Iterable[bytes], named: Iterable[bytes],
                    environment: Mapping[str, str] = os.environ, logs: Iterable[bytes] = ()) -> bytes:
    """The text of the file. `build` and `sources` are the real folders of the build and of its sources, and `named` the
    places that `observed` names: a cache in which none of them lies is not named here, since it tells of its user.
    `logs` has the places of logs that a Ninja leaves which a command runs."""
    folders = folders_of_caches(environment)
    patterns = [it for it in (_pattern(os.fsencode(name), build, tuple(sources)) for name in folders) if it]
    paths = list(named)
    lines = [it for it in patterns if any(path.startswith(_begin(it)) for path in paths)]
    text = _ALWAYS.encode()
    inner = [it for it in logs if b"\n" not in it and not it.startswith(b"#")]
    if inner:
        text += _OF_INNER_NINJAS.encode() + b"".join(it + b"\n" for it in inner)
    if lines:
        text += _OF_CACHES.encode() + b"".join(it + b"\n" for it in dict.fromkeys(lines))
    return text[:text.rindex(b"\n", 0, MOST_BYTES) + 1] if len(text) > MOST_BYTES else text


def folders_of_caches(environment: Mapping[str, str]) -> list[str]:
    """The folders of all caches that are there, each once."""
    return list(dict.fromkeys([*_named_by_ccache(environment), *_folders(environment)]))


def _folders(environment: Mapping[str, str]) -> Iterator[str]:
    """The folders of the caches that are there, by their real paths, and parts of them."""
    home = environment.get("HOME") or os.path.expanduser("~")
    caches = environment.get("XDG_CACHE_HOME") or os.path.join(home, ".cache")
    for cache in CACHES:
        named = environment.get(cache.variable) if cache.variable else None
        for place in [named] if named else cache.places:
            top, _, rest = place.partition("/")
            folder = os.path.realpath(os.path.join({"~": home, "~cache": caches}.get(top, top + "/"), rest))
            if os.path.isdir(folder):
                yield from (os.path.join(folder, it) for it in cache.parts) if cache.parts else [folder]


def _named_by_ccache(environment: Mapping[str, str]) -> Iterator[str]:
    """The folder that ccache's files of settings name, as ccache itself tells it."""
    program = shutil.which("ccache", path=environment.get("PATH", os.defpath))
    if program is None:
        return
    try:
        said = subprocess.run([program, "--get-config", "cache_dir"], env=dict(environment), stdin=subprocess.DEVNULL,
                              capture_output=True, text=True, timeout=_CCACHE_SECONDS)
    except (OSError, ValueError, subprocess.TimeoutExpired):
        return
    folder = said.stdout.rstrip("\n")
    if said.returncode == 0 and os.path.isabs(folder) and os.path.isdir(folder):
        yield os.path.realpath(folder)


def _begin(pattern: bytes) -> bytes:
    """What each path begins with that a cache's pattern hides, but for the cache's folder itself."""
    first, star, _ = pattern.partition(b"*")
    return first if star else pattern + b"/"


def _pattern(folder: bytes, build: bytes, sources: tuple[bytes, ...]) -> bytes | None:
    """The pattern that hides a folder, as the recording names places; None where it has none, or would hide the build
    or its sources."""
    if any((it + b"/").startswith(folder + b"/") for it in (build, *sources)) or b"\n" in folder or folder == b"/":
        return None
    if not folder.startswith(build + b"/"):
        return folder
    inner = folder[len(build) + 1 :]
    return None if inner.startswith(b"#") else inner
