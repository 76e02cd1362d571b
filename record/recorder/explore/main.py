"""The command line of `rebug explore`. Whatever goes wrong is told in a sentence, and has a status."""

from __future__ import annotations

import contextlib
import errno
import os
import signal
import stat
import tempfile
from typing import NoReturn, Sequence

from ..installed import launcher
from ..signals import NUMBERS, write_all
from .asking import NotAsked, Recording
from .data import pages_of
from .page import page_of
from .telling import difference
from .words import NAME, BadWords, HelpWanted, Options, read_words


class _Ended(BaseException):
    """A signal has come."""

    def __init__(self, number: int) -> None:
        super().__init__(number)
        self.number = number


def _end(number: int, _frame: object) -> NoReturn:
    raise _Ended(number)


def main(words: Sequence[str]) -> int:
    """Writes the page, and gives the status."""
    try:
        for number in NUMBERS:
            signal.signal(number, _end)
        signal.pthread_sigmask(signal.SIG_UNBLOCK, NUMBERS)
        _run(read_words(words))
        return 0
    except HelpWanted as why:
        write_all(1, f"{why}\n".encode())
        return 0
    except BadWords as why:
        return _said(str(why), 2)
    except NotAsked as why:
        return _said(str(why), why.status)
    except OSError as why:
        if why.errno == errno.EPIPE:  # the reader has read enough
            return 128 + signal.SIGPIPE
        return _said(f"cannot write {why.filename or 'the page'}: {why.strerror}", 3)
    except _Ended as why:
        return _said(f"ended by {signal.Signals(why.number).name}", 128 + why.number)


def _said(text: str, status: int) -> int:
    if text:
        write_all(2, f"{NAME}: {text}\n".encode("utf-8", "backslashreplace"))
    return status


def _run(options: Options) -> None:
    program = options.rebug or launcher()
    folders = [options.recording, *([options.other] if options.other is not None else [])]
    recordings = [pages_of(Recording(program, it)) for it in folders]
    differences = None
    if options.other is not None:
        compared = Recording(program, options.recording).compared(options.other)
        differences = [difference(it) for it in compared if it["kind"] != "recording"]
    page = page_of(recordings, differences)
    if options.out is None:
        _write_all(1, page)
    else:
        _write_beside(options.out, page)


def _write_all(number: int, data: bytes) -> None:
    left = memoryview(data)
    while left:
        left = left[os.write(number, left) :]


def _write_beside(name: str, data: bytes) -> None:
    """Writes a file beside the one of this name, whose place it takes when it is whole. A pipe, a device or a link is
    written as it is."""
    try:
        mode = os.lstat(name).st_mode
    except FileNotFoundError:
        mode = None
    if mode is not None and not stat.S_ISREG(mode):
        with open(name, "wb") as file:
            file.write(data)
        return
    folder, last = os.path.split(name)
    try:
        number, beside = tempfile.mkstemp(prefix=f".{last}.", dir=folder or ".")
    except OSError as why:
        raise OSError(why.errno, why.strerror, name) from why
    try:
        with os.fdopen(number, "wb") as file:
            file.write(data)
            os.fchmod(file.fileno(), stat.S_IMODE(mode) if mode is not None else 0o666 & ~_umask())
        os.replace(beside, name)
    except BaseException:
        with contextlib.suppress(OSError):
            os.unlink(beside)
        raise


def _umask() -> int:
    mask = os.umask(0o077)
    os.umask(mask)
    return mask
