"""Servers: processes that answer commands by a socket, each known by its address.

A server that a command of the build started is that of the command that bound the address. Every other one was there
before the build, or is on another machine.
"""

from __future__ import annotations

import re
from collections import defaultdict
from collections.abc import Iterable, Iterator
from dataclasses import dataclass, field
from typing import TYPE_CHECKING

from .flags import Flag

if TYPE_CHECKING:
    from .processes import Command

_LOCAL = re.compile(rb"(?:0\.0\.0\.0|127\.[\d.]+|\[::1?\]|\[::ffff:127\.[\d.]+\]):(\d+)")
_OF_THE_KERNEL = b"netlink"


@dataclass(frozen=True, slots=True)
class Address:
    """An address with which a command had to do: whether a socket was bound there, the address as it is told, the
    call and the program, the entry of a socket that has a file, and whether somebody was there."""

    is_bound: bool
    text: bytes
    call: bytes
    program: bytes
    place: int | None = None
    is_answered: bool = True

    @property
    def key(self) -> bytes:
        """What two ways to write one address have in common: the entry of the socket's file, or this machine's port."""
        if self.place is not None:
            return b"entry %d" % self.place
        local = _LOCAL.fullmatch(self.text)
        return b"port " + local[1] if local else self.text


class Bound:
    """Who bound which address while the build went on."""

    def __init__(self) -> None:
        self._by: dict[bytes, tuple[Command, bytes]] = {}

    def used(self, command: Command, address: Address) -> None:
        """A command had to do with an address. Where a process of a command that has ended answers there, that process
        runs on."""
        command.addresses.append(address)
        if address.is_bound:
            self._by[address.key] = command, address.program
            return
        starter, program = self._by.get(address.key, (command, b""))
        if address.is_answered and starter is not command and starter.end and starter.alive:
            starter.flag(Flag.LATE, address.call, program, address.text)


@dataclass(slots=True)
class Server:
    """A server to which commands spoke: its address, the numbers of those commands, and of those that started it."""

    address: bytes
    users: set[int] = field(default_factory=set)
    starters: set[int] = field(default_factory=set)


def servers(commands: Iterable[Command]) -> Iterator[Server]:
    """The servers to which commands spoke that did not start them, by their addresses as they came. Commands have
    their numbers."""
    found: defaultdict[bytes, Server] = defaultdict(lambda: Server(b""))
    for number, command in enumerate(commands):
        for it in command.addresses:
            if it.text != _OF_THE_KERNEL and (it.is_answered or it.is_bound):
                server = found[it.key]
                server.address = server.address or it.text
                (server.starters if it.is_bound else server.users).add(number)
    for server in found.values():
        server.users -= server.starters
        if server.users:
            yield server


def flag_servers(commands: list[Command]) -> None:
    """Sets the flags of sockets. A command that speaks to itself alone has none, nor has a question to the kernel."""
    users: defaultdict[bytes, set[int]] = defaultdict(set)
    for number, command in enumerate(commands):
        for it in command.addresses:
            users[it.key].add(number)
    for command in commands:
        bound = {it.key for it in command.addresses if it.is_bound}
        for it in command.addresses:
            is_own = it.key in bound and len(users[it.key]) == 1
            if it.text != _OF_THE_KERNEL and not is_own:
                command.flag(Flag.SOCKET, it.call, it.program, it.text)
