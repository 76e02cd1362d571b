"""The folder that keeps what is left of the runs: the orders, and both forms of the files that differ."""

from __future__ import annotations

import os
import stat
from dataclasses import dataclass

from ..fields import line, shown
from .judging import Judge, Report
from .places import Prepared


class BadOut(Exception):
    """A sentence that says why nothing can be written into a folder."""


@dataclass
class Out:
    """A folder that is not there yet, or that is empty."""

    folder: bytes

    @staticmethod
    def checked(name: str, build: Prepared) -> Out:
        """The folder. Raises BadOut where something stands in it, or where it would be compared."""
        folder = os.path.realpath(os.fsencode(name))
        above = os.path.dirname(folder)
        if os.path.lexists(folder) and not os.path.isdir(folder):
            raise BadOut(f"{name} is no folder")
        if os.path.isdir(folder) and os.listdir(folder):
            raise BadOut(f"{name} is not empty: name a new folder")
        if not os.path.isdir(above) or not os.access(folder if os.path.isdir(folder) else above, os.W_OK | os.X_OK):
            raise BadOut(f"{name} cannot be made: {shown(above)} is no folder that can be written")
        for top in build.place.before.folders:
            if (folder + b"/").startswith(top + b"/"):
                raise BadOut(f"{name} stands in {shown(top)}, which is compared: name a folder elsewhere")
        return Out(folder)

    def write(self, report: Report, build: Prepared, judge: Judge) -> None:
        """Writes `order-N`, with a first output a line, and the folder `recording-N` where the order was recorded. For
        each difference it writes a folder with the files of both runs, and what the failed command wrote."""
        os.makedirs(self.folder, exist_ok=True)
        for it in report.outcomes:
            if it.order:
                outputs = [line(judge.commands.first_output(node)) for node in it.order]
                self._write(b"order-%d" % it.number, b"\n".join(outputs) + b"\n")
            for name, content in it.recording.items():
                self._write(os.path.join(b"recording-%d" % it.number, name), content, is_program=name == b"replay")
        for number, finding in enumerate(report.findings, 1):
            name = b"difference-%d" % number
            for outcome in (finding.own, finding.other):
                for path, content in outcome.contents.items():
                    self._write(os.path.join(name, b"order-%d" % outcome.number, _below(path, build)), content)
            if finding.failed:
                self._write(os.path.join(name, b"written"), finding.failed[1])

    def _write(self, name: bytes, content: bytes, is_program: bool = False) -> None:
        path = os.path.join(self.folder, name)
        os.makedirs(os.path.dirname(path), exist_ok=True)
        with open(path, "xb") as file:
            file.write(content)
            if is_program:
                os.fchmod(file.fileno(), stat.S_IMODE(os.fstat(file.fileno()).st_mode) | 0o111)


def _below(path: bytes, build: Prepared) -> bytes:
    top = build.place.build + b"/"
    return path[len(top) :] if path.startswith(top) else path[1:]
