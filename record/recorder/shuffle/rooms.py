"""A room: this system as one process and those below it see it, in which folders are copies that cost nothing.

Over each folder lies an overlay whose upper layer stands in memory, so that all paths are the real ones. All else can
only be read. The network has this process alone, and so have the messages and the memory that processes share. When the
processes have ended, nothing of the room is left, whatever ended them.
"""

from __future__ import annotations

import contextlib
import ctypes
import enum
import errno
import fcntl
import os
import re
import socket
import struct
from dataclasses import dataclass
from typing import Any, Mapping, Sequence

from ..provoke.copies import Refused, in_process

# CLONE_NEWNS, CLONE_NEWUSER, CLONE_NEWNET, CLONE_NEWIPC
_MOUNTS, _USER, _NETWORK, _MESSAGES = 0x00020000, 0x10000000, 0x40000000, 0x08000000
_BIND, _RECURSIVE, _PRIVATE = 0x1000, 0x4000, 1 << 18  # MS_BIND, MS_REC, MS_PRIVATE
_REMOUNT, _READ_ONLY = 32, 1  # MS_REMOUNT, MS_RDONLY
_MOUNT_SETATTR, _HERE, _ALL_BELOW, _ATTR_READ_ONLY = 442, -100, 0x8000, 1
_GET_FLAGS, _SET_FLAGS, _UP = 0x8913, 0x8914, 0x41  # SIOCGIFFLAGS, SIOCSIFFLAGS, IFF_UP | IFF_RUNNING
_OF_THE_SYSTEM = frozenset(
    b"proc sysfs devpts devtmpfs cgroup cgroup2 mqueue securityfs debugfs tracefs bpf pstore configfs fusectl "
    b"hugetlbfs binfmt_misc nsfs autofs rpc_pipefs efivarfs".split())
_ESCAPED = re.compile(rb"\\([0-7]{3})")
_TEMPORARIES = ("/tmp", "/var/tmp", "/dev/shm", "TMPDIR", "XDG_RUNTIME_DIR")
_OWN = ("HOME", "XDG_CACHE_HOME", "CCACHE_DIR", "SCCACHE_DIR")


class Kind(enum.Enum):
    """What a room has at a place: a copy of what stands there, a folder of another copy that stands there too, what
    stands there itself, or an empty folder."""

    COPY = "copy"
    SAME = "same"
    ITSELF = "itself"
    EMPTY = "empty"


@dataclass(frozen=True)
class Layer:
    """A mount of a room. `source` is the path of the folder that is there too."""

    place: bytes
    kind: Kind
    source: bytes = b""


@dataclass(frozen=True)
class _Mount:
    """A mount of this system: the device, the path in its file system, and where it is."""

    device: bytes
    root: bytes
    place: bytes
    kind: bytes


def outermost(folders: Sequence[bytes]) -> list[bytes]:
    """The folders that stand below no other of them."""
    found: list[bytes] = []
    for it in sorted(set(folders)):
        if not any(it == top or it.startswith(top.rstrip(b"/") + b"/") for top in found):
            found.append(it)
    return found


def layers_of_room(folders: Sequence[bytes], environment: Mapping[str, str]) -> list[Layer]:
    """The mounts of a room in which these folders (real paths) are copies, and those in which commands of two builds
    could meet. Where this system refuses such a room, since others are mounted below the latter, temporaries begin
    empty, and the user's own folder can only be read. Raises Refused."""
    temporaries, own = (_real(environment, it) for it in (_TEMPORARIES, _OWN))
    fallback = [it for it in temporaries if not any((of + b"/").startswith(it + b"/") for of in folders)]
    try:
        return _tried(_layers_over([*folders, *temporaries, *own], []))
    except Refused:
        return _tried(_layers_over(folders, outermost(fallback)))


def layers_of_empty_room(folders: Sequence[bytes], environment: Mapping[str, str]) -> tuple[list[Layer], list[bytes]]:
    """The mounts of a room in which these folders (real paths) and those of temporaries are empty, and the user's own
    folders are copies; and the folders that are empty. Where this system refuses such copies, the user's own folders
    can only be read. Raises Refused."""
    temporaries, own = (_real(environment, it) for it in (_TEMPORARIES, _OWN))
    empty = outermost([*folders, *temporaries])
    copies = [it for it in own if not any((it + b"/").startswith(of + b"/") for of in empty)]
    whole = [Layer(it, Kind.EMPTY) for it in empty]
    try:
        return _tried(sorted((*whole, *_layers_over(copies, [])), key=lambda it: it.place)), empty
    except Refused:
        return _tried(whole), empty


def layers_of_whole_room(folders: Sequence[bytes], environment: Mapping[str, str]) -> list[Layer]:
    """The mounts of a room in which these folders (real paths) and the user's own are copies. Folders of temporaries
    are empty, unless one of these folders is below them: then they are copies, too. Raises Refused."""
    temporaries, own = (_real(environment, it) for it in (_TEMPORARIES, _OWN))
    shared = [it for it in temporaries if any((of + b"/").startswith(it + b"/") for of in (*folders, *own))]
    empty = outermost([it for it in temporaries if it not in shared])
    return _tried(_layers_over([*folders, *shared, *own], empty))


def _tried(layers: list[Layer]) -> list[Layer]:
    """The layers, which make a room here. Raises Refused."""
    in_process(lambda: os.close(enter(layers, 1 << 24)))
    return layers


def _real(environment: Mapping[str, str], names: Sequence[str]) -> list[bytes]:
    """The folders that are there of those given by whole paths or by variables."""
    given = [it if os.path.isabs(it) else environment.get(it, "") for it in names]
    real = {os.path.realpath(os.fsencode(it)) for it in given if os.path.isabs(it)}
    return sorted(it for it in real if it != b"/" and os.path.isdir(it) and os.access(it, os.R_OK | os.X_OK))


def _layers_over(folders: Sequence[bytes], empty: Sequence[bytes]) -> list[Layer]:
    """The mounts of a room with copies of these folders, and of what is mounted below them."""
    mounts, found = _mounts(), [Layer(it, Kind.EMPTY) for it in empty]
    tops = outermost(folders)
    copies: list[tuple[bytes, bytes, bytes]] = []  # device and path of each copied folder, and where it is
    for top in tops:
        inner = [it for it in mounts.values() if it.place.startswith(top + b"/") and os.path.lexists(it.place)]
        for place, device, path, kind in [(top, *_stands(top, mounts), b""),
                                          *((it.place, it.device, it.root, it.kind) for it in inner)]:
            same = next((there + path[len(root) :] for of, root, there in copies if of == device
                         and (path + b"/").startswith(root.rstrip(b"/") + b"/")), None)
            if kind in _OF_THE_SYSTEM or not os.path.isdir(place):
                found.append(Layer(place, Kind.ITSELF))
            elif same is not None:
                found.append(Layer(place, Kind.SAME, same))
            else:
                copies.append((device, path, place))
                found.append(Layer(place, Kind.COPY))
    return found


def _mounts() -> dict[bytes, _Mount]:
    """What is mounted, by place, in the order of places; of two at one place the later."""
    found = {}
    with open("/proc/self/mountinfo", "rb") as file:
        for line in file:
            words = [_ESCAPED.sub(lambda it: bytes([int(it[1], 8)]), it) for it in line.split()]
            kind = words[words.index(b"-") + 1]
            found[words[4]] = _Mount(words[2], words[3], words[4], kind)
    return dict(sorted(found.items()))


def _stands(folder: bytes, mounts: dict[bytes, _Mount]) -> tuple[bytes, bytes]:
    """The device of a folder, and its path in that file system."""
    at = folder
    while at not in mounts and at != b"/":
        at = os.path.dirname(at)
    it = mounts[at]
    return it.device, (it.root.rstrip(b"/") + folder[len(at.rstrip(b"/")) :]) or b"/"


def enter(layers: Sequence[Layer], most_bytes: int) -> int:
    """Has this process be in a room with these layers, whose copies take at most so many bytes. Gives a handle of the
    memory that they stand in. Raises Refused."""
    _unshare()
    _mount("it does not part its mounts from others", b"none", b"/", None, _PRIVATE | _RECURSIVE)
    _have_all_read_only()
    layers, handles = _opened(layers)
    first = next(it.place for it in layers if it.kind in (Kind.COPY, Kind.EMPTY))
    _mount("it mounts no memory", b"tmpfs", first, b"tmpfs", 0, b"mode=0700,size=%d" % most_bytes)
    memory = os.open(first, os.O_RDONLY | os.O_DIRECTORY)
    os.fchdir(memory)
    for number, (layer, handle) in enumerate(zip(layers, handles)):
        try:
            _mount_layer(layer, handle, number)
        except Refused:
            if not _is_below_another(layer, layers) or not _is_removed(layer, handle):
                raise
        os.close(handle)
    _start_network()
    return memory


def _mount_layer(layer: Layer, handle: int, number: int) -> None:
    """Mounts a layer at its place. `handle` is of what stands there. Raises Refused."""
    it = b"/proc/self/fd/%d" % handle
    if layer.kind is Kind.COPY:
        _lay_over(layer.place, it, handle, number)
    elif layer.kind is Kind.EMPTY:
        os.mkdir(b"empty%d" % number, 0o1777)
        os.chmod(b"empty%d" % number, 0o1777)
        _mount("it does not mount a folder twice", b"empty%d" % number, layer.place, None, _BIND)
    elif layer.kind is Kind.SAME:
        _mount("it does not mount a folder twice", layer.source, layer.place, None, _BIND)
    else:
        _mount("it does not mount what stands below a folder", it, layer.place, None, _BIND | _RECURSIVE)


def _is_below_another(layer: Layer, layers: Sequence[Layer]) -> bool:
    return any(layer.place.startswith(it.place + b"/") for it in layers)


def _is_removed(layer: Layer, handle: int) -> bool:
    """Whether somebody has removed a folder since its handle was opened: others' folders of temporaries come and go.
    The system also takes away what is mounted at a folder that is removed, here as for all others."""
    return not os.fstat(handle).st_nlink or not os.path.lexists(layer.place)


def _opened(layers: Sequence[Layer]) -> tuple[list[Layer], list[int]]:
    """The layers whose places are there, with handles of them: what others mount below folders of temporaries comes and
    goes."""
    found, handles = [], []
    for it in layers:
        with contextlib.suppress(OSError):
            handles.append(os.open(it.place, os.O_PATH))
            found.append(it)
    return found, handles


def _lay_over(place: bytes, it: bytes, handle: int, number: int) -> None:
    names = [b"%s%d" % (name, number) for name in (b"lower", b"upper", b"work")]
    for name in names:
        os.mkdir(name)
    _mount(f"it does not mount {os.fsdecode(place)} twice", it, names[0], None, _BIND)
    found = os.fstat(handle)
    os.chmod(names[1], found.st_mode & 0o7777)
    if os.geteuid() == 0:
        with contextlib.suppress(OSError):  # an owner that a user namespace does not know
            os.chown(names[1], found.st_uid, found.st_gid)
    data = b"lowerdir=%b,upperdir=%b,workdir=%b" % (names[0], names[1], names[2])
    for more in (b",redirect_dir=on,index=on", b",redirect_dir=on", b",userxattr"):
        with contextlib.suppress(Refused):
            return _mount("", b"overlay", place, b"overlay", 0, data + more)
    return _mount(f"it lays no overlay over {os.fsdecode(place)}", b"overlay", place, b"overlay", 0, data)


def _libc() -> Any:
    return ctypes.CDLL(None, use_errno=True)


def _mount(what: str, source: bytes, place: bytes, kind: bytes | None, flags: int, data: bytes | None = None) -> None:
    if _libc().mount(source, place, kind, ctypes.c_ulong(flags), data):
        raise Refused(f"{what}: {os.strerror(ctypes.get_errno())}")


def _unshare() -> None:
    """Mounts, a network and messages of its own: by its own rights, else in a user namespace in which it is the same
    user."""
    libc, user, group, own = _libc(), os.geteuid(), os.getegid(), _MOUNTS | _NETWORK | _MESSAGES
    if not libc.unshare(own):
        return
    if ctypes.get_errno() not in (errno.EPERM, errno.EACCES) or libc.unshare(own | _USER):
        raise Refused(f"it allows no namespaces: {os.strerror(ctypes.get_errno())}")
    try:
        for name, text in (("setgroups", "deny"), ("uid_map", f"{user} {user} 1"), ("gid_map", f"{group} {group} 1")):
            with open(f"/proc/self/{name}", "w", encoding="ascii") as file:
                file.write(text)
    except OSError as why:
        raise Refused(f"it allows no user namespaces: {why.strerror}") from why


def _have_all_read_only() -> None:
    """Nothing that is mounted can be written, but for what tells of processes and devices."""
    if _set_read_only(b"/", True, _ALL_BELOW):
        for it in _mounts():  # a system before Linux 5.12
            _libc().mount(b"none", it, None, ctypes.c_ulong(_REMOUNT | _BIND | _READ_ONLY), None)
    for it in (b"/proc", b"/dev", b"/dev/pts"):
        _set_read_only(it, False, 0)


def _set_read_only(place: bytes, is_so: bool, flags: int) -> int:
    attributes = struct.pack("QQQQ", *((_ATTR_READ_ONLY, 0) if is_so else (0, _ATTR_READ_ONLY)), 0, 0)
    found: int = _libc().syscall(_MOUNT_SETATTR, _HERE, place, flags, attributes, len(attributes))
    return found


def _start_network() -> None:
    """The network that a process has alone begins switched off, also to itself."""
    with contextlib.suppress(OSError), socket.socket(socket.AF_INET, socket.SOCK_DGRAM) as it:
        asked = struct.pack("16sH14x", b"lo", 0)
        flags = struct.unpack("16sH14x", fcntl.ioctl(it, _GET_FLAGS, asked))[1]
        fcntl.ioctl(it, _SET_FLAGS, struct.pack("16sH14x", b"lo", flags | _UP))
