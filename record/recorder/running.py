"""Runs Ninja with its output going through to the user, and keeps what the logs will not say.

Ninja logs commands that ended well. Which ones failed stands in its output, and what they wrote; when, in a mark that
this module has Ninja put before each status line, by NINJA_STATUS (`said` takes it out again). Which ones were running
when a build was interrupted stands nowhere: on Linux a thread looks at Ninja's children, in /proc.
"""

from __future__ import annotations

import contextlib
import fcntl
import os
import pty
import select
import signal
import struct
import subprocess
import termios
import threading
import time
from dataclasses import dataclass, field

from .said import BEGIN, END, MARK_COLUMNS, Failed, Said
from .signals import write_all

_NARROWEST = 40  # Ninja cuts the middle out of lines that are too wide, and a mark must stand in the first half
_POLL_SECONDS = 0.005
_SILENCE_SECONDS = 1.0


@dataclass
class Child:
    """A command of Ninja's that was seen running: its words, and when it was first seen (nanoseconds)."""

    words: list
    seen: int


@dataclass
class Ran:
    """What a run of Ninja left behind."""

    status: int
    begin: int
    failed: list[Failed] = field(default_factory=list)
    children: list = field(default_factory=list)
    said: Said | None = None
    status_format: bytes = b""
    jobserver: bytes | None = None  # MAKEFLAGS, where Ninja says that it asks the jobserver in it
    said_interrupted: bool = False
    said_stopped: bool = False
    load_stopped: bool = False  # a dyndep file could not be loaded while commands ran

    @property
    def died(self):
        """Whether Ninja ended in the middle of a build: it was killed, or met what it calls fatal.

        Where Ninja said why it stops, it has waited for its commands. It may end by the interrupt all the same: before
        1.13 one that comes while a command ends stays pending until Ninja is about to exit.
        """
        return not self.said_stopped and (self.status < 0 or self.status > 0 and bool(self.children))

    @property
    def interrupted(self):
        return self.said_interrupted or self.load_stopped or self.status == 130 or self.died


class _Watcher(threading.Thread):
    """Notes each child of a process, about every five milliseconds. Where there is no /proc it notes none.

    `program` is what the process was started by: a child that has that first word has not become its command yet.
    """

    def __init__(self, process, ran, program):
        super().__init__(daemon=True)
        self.program = os.fsencode(program)
        self.children = f"/proc/{process}/task/{process}/children"
        self.ran, self.is_over = ran, threading.Event()
        self.known, self.lock = {}, threading.RLock()

    def run(self):
        while not self.is_over.wait(_POLL_SECONDS):
            self.look()

    def look(self):
        """Looks at the children that are there now."""
        with self.lock:
            try:
                with open(self.children, "rb") as file:
                    present = file.read().split()
            except OSError:
                return
            now = time.time_ns()
            for child in present:
                if not isinstance(self.known.get(child), Child):
                    self.look_at(child, now)
            for child in self.known.keys() - set(present):
                del self.known[child]

    def look_at(self, child, now):
        """A child that has not yet become its command has Ninja's own words, so it is looked at again."""
        since = self.known.setdefault(child, now)
        try:
            with open(b"/proc/" + child + b"/cmdline", "rb") as file:
                words = file.read().split(b"\0")[:-1]
        except OSError:
            return
        if words and words[0] != self.program and not os.path.basename(words[0]).startswith(b"ninja"):
            self.known[child] = Child(words, since)
            self.ran.children.append(self.known[child])


def _channel(descriptor):
    """What Ninja writes to, as (the recorder's end, Ninja's end): a pipe, or at a terminal a pseudo terminal.

    The pseudo terminal is as wide as the user's and the mark together, so that Ninja writes as it does to the user's.
    """
    if not os.isatty(descriptor):
        return os.pipe()
    rows, columns, *_ = struct.unpack("HHHH", fcntl.ioctl(descriptor, termios.TIOCGWINSZ, bytes(8)))
    if 0 < columns < _NARROWEST:
        return os.pipe()
    outer, inner = pty.openpty()
    wider = columns + MARK_COLUMNS if columns else 0
    fcntl.ioctl(inner, termios.TIOCSWINSZ, struct.pack("HHHH", rows, wider, 0, 0))
    attributes = termios.tcgetattr(inner)
    attributes[1] &= ~termios.OPOST
    termios.tcsetattr(inner, termios.TCSANOW, attributes)
    return outer, inner


def _has_the_terminal():
    """Whether this process's group is the terminal's, so that Ctrl-C reaches Ninja without help."""
    try:
        terminal = os.open("/dev/tty", os.O_RDONLY | os.O_NOCTTY)
    except OSError:
        return False
    try:
        return os.tcgetpgrp(terminal) == os.getpgrp()
    except OSError:
        return False
    finally:
        os.close(terminal)


def run_ninja(ninja, words, folder, signals, manifest, keeps_all=False):
    """Runs the words, which run this Ninja, in the folder to their end, whatever signal comes in between.

    What commands of the manifest wrote that failed is kept, and what all others wrote where `keeps_all`.

    Signals go on to Ninja, but for an interrupt from the terminal: Ninja has got that, and a second one would kill it.
    It may even have ended by it before this process, on a busy machine, looks at its own.
    """
    outer, inner = _channel(1)
    status_format = os.environb.get(b"NINJA_STATUS", b"[%f/%t] ")
    environment = {**os.environb, b"NINJA_STATUS": BEGIN + b"%e" + END + status_format}
    ran = Ran(0, time.time_ns(), status_format=status_format)
    is_smart = os.isatty(inner) and os.environb.get(b"TERM", b"dumb") != b"dumb"
    ran.said = said = Said(manifest, status_format, _Writer(), is_smart, keeps_all)
    started: list[tuple[subprocess.Popen, _Watcher]] = []
    early: list[int] = []

    def hand_on(number):
        if not started:
            early.append(number)
        for process, watcher in started:
            if process.poll() is not None:
                ended_by_it = process.returncode in (ninja.status_of_interrupt, -signal.SIGINT)
                return number == signal.SIGINT and ended_by_it and _has_the_terminal()
            watcher.look()
            if number != signal.SIGINT or not _has_the_terminal():
                process.send_signal(number)
        return True

    signals.hand_on, signals.has_run = hand_on, True
    try:
        process = subprocess.Popen(words, cwd=folder, stdout=inner, env=environment, close_fds=True)
        os.close(inner)
        watcher = _Watcher(process.pid, ran, words[0])
        watcher.start()
        started.append((process, watcher))
        for number in early:  # while the process began, which may have commands already
            watcher.look()
            process.send_signal(number)
        _pass_on(outer, said, process)
        ran.failed, ran.jobserver = said.failed, said.jobserver
        ran.said_stopped = bool(said.stopped)
        ran.said_interrupted = said.stopped.startswith(b"interrupted")
        ran.status = process.wait()
        watcher.is_over.set()
        watcher.join()
    finally:
        signals.hand_on = None
    return ran


def run_quietly(words, folder, signals, errors_alone=False):
    """Runs the words with their output kept: the status and what was written, or what was written to standard error
    alone. Signals go on to them."""
    outputs = (subprocess.DEVNULL, subprocess.PIPE) if errors_alone else (subprocess.PIPE, subprocess.STDOUT)
    process = subprocess.Popen(words, cwd=folder, stdin=subprocess.DEVNULL, stdout=outputs[0], stderr=outputs[1])

    def hand_on(number):
        if process.poll() is not None:
            return False
        if number != signal.SIGINT or not _has_the_terminal():
            process.send_signal(number)
        return True

    signals.hand_on = hand_on
    try:
        said = process.communicate()[errors_alone]
    finally:
        signals.hand_on = None
    return process.returncode, said


class _Writer:
    """Writes to standard output as long as somebody takes it."""

    def __init__(self):
        self.is_open = True

    def __call__(self, data):
        self.is_open = self.is_open and write_all(1, data)


def _pass_on(descriptor, said, process):
    """Takes all that is written until nobody can write any more. Where the process has ended and nothing comes, a
    stopped copy of it would hold the output for ever, and is ended."""
    while True:
        if not select.select([descriptor], [], [], _SILENCE_SECONDS)[0]:
            if process.poll() is not None:
                _end_stopped(process.args)
        elif data := _read(descriptor):
            said.take(data)
        else:
            break
    said.end()
    os.close(descriptor)


def _end_stopped(words):
    """Ends each stopped process that has exactly these words.

    strace tries the kernel by a stopped child of its own before it runs Ninja. A signal that ends strace then leaves
    that child. The words name the recorder's own pipe, so no other program has them.
    """
    line = b"".join(os.fsencode(it) + b"\0" for it in words)
    for name in os.listdir(b"/proc"):
        if name.isdigit():
            with contextlib.suppress(OSError, ValueError):
                if _contents(name, b"cmdline") == line and _state(name) in b"Tt":
                    os.kill(int(name), signal.SIGKILL)


def _contents(process, name):
    with open(os.path.join(b"/proc", process, name), "rb") as file:
        return file.read()


def _state(process):
    """The letter of a process's state. The name before it stands in brackets, and may have any bytes."""
    return _contents(process, b"stat").rpartition(b")")[2].split()[0]


def _read(descriptor):
    try:
        return os.read(descriptor, 65536)
    except OSError:  # a pseudo terminal whose other end is closed
        return b""
