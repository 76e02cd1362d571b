"""What is to be run again: the commands of a recording, as far as the manifest of the build folder still has them."""

from __future__ import annotations

import os
from collections.abc import Sequence
from dataclasses import dataclass

from ..actions.files import Files, Unreadable
from ..contents.environment import digest, digests, key
from ..fields import canonical, shown
from ..manifest import BadManifest, Edge, Manifest
from ..shuffle.commands import read_manifest
from .filling import Project, Store
from .judging import Case, case_of, task_of
from .lines import BadRecording, Fields
from .recorded import Command, Recorded, read_recording
from .words import Options

_OF_THE_SHELL = frozenset((b"_", b"OLDPWD", b"PWD", b"SHLVL"))


class Unfit(Exception):
    """A sentence that says why nothing is run again."""


@dataclass
class Prepared:
    """The build folder, the folders of the project, the commands, and which variables of the environment are others
    than when the build was recorded (None where that cannot be known)."""

    build: bytes
    project: list[bytes]
    cases: list[Case]
    others_in_environment: list[str] | None

    def shown(self, path: bytes) -> str:
        """A path as a reader knows it: below the build folder without that folder."""
        return shown(path.removeprefix(self.build + b"/"))


def recorded_build(options: Options) -> tuple[bytes, Recorded, Manifest]:
    """The build folder, what the recording says, and the manifest of the build folder. Raises Unfit, BadRecording and
    NoBuild."""
    build, folder = os.path.realpath(os.fsencode(options.build)), os.fsencode(options.recording)
    if not os.path.isdir(build):
        raise Unfit(f"{options.build} is no folder")
    if os.path.isfile(folder):
        folder = os.path.dirname(folder) or b"."
    if not os.path.isdir(folder):
        raise Unfit(f"there is no recording at {options.recording}")
    found = read_recording(folder)
    if found.build != build:
        raise Unfit(f"the recording is of a build in {shown(found.build)}, and not in {shown(build)}: commands are run "
                    f"again where they ran")
    return build, found, read_manifest(build, os.fsencode(options.manifest))


def project_of(recorded: Recorded) -> list[bytes]:
    """The folders of the project that are there, the build folder first."""
    return [it for it in dict.fromkeys((recorded.build, *recorded.sources)) if os.path.isdir(it)]


def prepared(options: Options, build: bytes, recorded: Recorded, manifest: Manifest, empty: Sequence[bytes],
             recorded_manifest: Manifest) -> Prepared:
    """The commands that are wanted, in the order of their starts. Raises Unfit."""
    project = Project(empty, build, Store(), recorded.ninjas)
    wanted = _wanted(options.outputs, manifest)
    later: set[bytes] = set()
    cases: list[Case] = []
    for command in reversed(recorded.commands):
        edge, of = manifest.producer.get(canonical(command.output)), recorded_manifest.producer
        if edge is None and wanted is None or edge is not None and (wanted is None or edge.number in wanted):
            cases.append(_case(edge, of.get(canonical(command.output)), command, recorded, project, later, options))
        later |= command.changed()
    ran = {it.edge.number for it in cases}
    for number in sorted(wanted or ()):
        if number not in ran:
            cases.append(Case(manifest.edges[number], Command(manifest.edges[number].outputs[0]),
                              why_not="the recording does not have it"))
    return Prepared(build, project_of(recorded), cases[::-1], _others(recorded))


def _case(edge: Edge | None, recorded_edge: Edge | None, command: Command, recorded: Recorded, project: Project,
          later: set[bytes], options: Options) -> Case:
    if recorded_edge is None or recorded_edge.phony:
        raise Unfit(f"the recording's manifest has no command that makes {shown(command.output)}")
    if edge is None or _text(edge) != _text(recorded_edge):
        return Case(edge or recorded_edge, command, why_not="the manifest in the build folder has another command now")
    if recorded_edge.outputs[0] in recorded.failed:
        return Case(edge, command, why_not="it did not end well when it was recorded")
    task = task_of(edge, command, project.build, recorded.ninjas, project.has, options.limit)
    return case_of(edge, command, lambda: (task, project.inputs(command, later)))


def _text(edge: Edge) -> tuple[bytes, bytes]:
    return edge.binding(b"command"), edge.binding(b"rspfile_content")


def _wanted(outputs: Sequence[str], manifest: Manifest) -> set[int] | None:
    """The numbers of the edges with these outputs; None where all are wanted. Raises Unfit."""
    found = set()
    for it in outputs:
        edge = manifest.producer.get(canonical(os.fsencode(it)))
        if edge is None or edge.phony:
            raise Unfit(f"the manifest has no command that makes {it}")
        found.add(edge.number)
    return found if outputs else None


def _others(recorded: Recorded) -> list[str] | None:
    """The variables of the environment that are others than the recorded ones."""
    own = key()
    if digest(own, b"").hex().encode() != recorded.key:
        return None
    now = {name: it.hex().encode() for name, it in digests(own, os.environb)}
    names = (now.keys() | recorded.environment.keys()) - _OF_THE_SHELL
    return [shown(it) for it in sorted(names) if now.get(it) != recorded.environment.get(it)]


def manifest_of(folder: bytes) -> Manifest:
    """The manifest of a recording: its files are looked up below the recording's folder, and through no link. Raises
    BadRecording."""
    name, lines = b"build.ninja", Fields("ninja")
    try:
        files = Files(os.fsdecode(folder))
        for at, line in enumerate((files.read(b"ninja") or b"").split(b"\n")):
            if line.startswith(b"manifest "):
                name = lines.text(at, line.split(b" ", 1)[1])
        return Manifest(name, files.needed)
    except (BadManifest, RecursionError, Unreadable) as why:
        raise BadRecording(f"the manifest: {why}") from why
