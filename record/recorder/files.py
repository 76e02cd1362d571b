"""Writes a recording: the manifest's files, the trace, its times, other names of outputs, what Ninja it was, what
commands wrote, the script, and a script that replays them."""

from __future__ import annotations

import os
import stat
from typing import Iterator, Sequence

from .depslog import text_of
from .dyndep.kept import FOLDER
from .events import WORDS, Abort, Clean, Event, Fail, Finish, Interrupt, Pass, Plan, Start, Touch, name_of
from .fields import canonical, field, line, shown
from .folders import OPTIONAL, is_name
from .held import HeldFolder
from .manifest import Manifest
from .outputs import output_lines
from .recording import Recording
from .replaying import replay_text

MOST_LANES = 63
# The files beside those of the manifest.
WRITTEN = (b"trace", b"script", b"replay", b"times", b"names", b"ninja", b"output")
# What no file of the manifest may have as the first part of its name; that of an absolute path is empty.
_TAKEN = (b"", b".", b"..", b"outside", *WRITTEN, *OPTIONAL, FOLDER)


def write_recording(it: Recording, folder: HeldFolder, with_lanes: bool, program: str, at: bytes | str) -> list[bytes]:
    """Writes everything into the held folder, and gives the names of the manifest's files there.

    `at` is where the recording will stand, by which `replay` finds the program.
    """
    names = write_manifest(it, folder)
    if it.dyndep is not None:
        for name, content in it.dyndep.files(copies_of_files(it.dyndep.original)):
            with folder.create(name) as file:
                file.write(content)
    lanes, script = _lanes(it) if with_lanes else _one_lane(it)
    with folder.create(b"trace") as file:
        file.write(b"rebug-trace %d\n" % (1 if len(lanes) == 1 else 2))
        file.writelines(text + b"\n" for text in opening(it))
        file.writelines(text + b"\n" for text in commands(it.found.events, lanes))
    with folder.create(b"times") as file:
        file.write(b"rebug-times 1\n")
        file.writelines(times(it.found.times, lanes))
    with folder.create(b"names") as file:
        file.write(b"rebug-names 1\n")
        file.writelines(line(path, it.names[path]) + b"\n" for path in sorted(it.names))
    with folder.create(b"ninja") as file:
        file.write(b"rebug-ninja 1\n")
        file.writelines(text + b"\n" for text in it.about_ninja)
        # Without this line the manifest of a recording is build.ninja.
        file.writelines(line(b"manifest", name) + b"\n" for name in names[:1] if name != b"build.ninja")
    with folder.create(b"output") as file:
        file.write(b"rebug-output 1\n")
        file.writelines(text + b"\n" for text in outputs(it, lanes))
    with folder.create(b"script") as file:
        file.writelines(text + b"\n" for text in script)
    _write_replay(folder, replay_text([os.fsdecode(name) for name in names], script, with_lanes, _beside(program, at)))
    return names


def _beside(program: str, folder: bytes | str) -> str:
    """The program's path from the folder where both stand below the program's, so that they can be moved together."""
    top, folder = os.path.dirname(program), os.path.abspath(os.fsdecode(folder))
    return os.path.relpath(program, folder) if os.path.commonpath([top, folder]) == top else program


def _write_replay(folder: HeldFolder, text: str) -> None:
    with folder.create(b"replay") as file:
        file.write(os.fsencode(text))
        os.fchmod(file.fileno(), stat.S_IMODE(os.fstat(file.fileno()).st_mode) | 0o111)


def names_of_files(manifest: Manifest) -> dict[bytes, bytes]:
    """The names in a recording of the manifest's files, by their canonical paths. One from outside of the build folder,
    or with a name that the recording needs, gets another."""
    names: dict[bytes, bytes] = {}
    for name, _, _ in manifest.files:
        path = canonical(name)
        is_inside = is_name(path) and path.split(b"/", 1)[0] not in _TAKEN
        names[path] = path if is_inside else b"outside/%d.ninja" % len(names)
    return names


def copies_of_files(manifest: Manifest) -> Iterator[tuple[bytes, bytes]]:
    """The manifest's files as a recording has them, name and content. Where one has another name there, the line that
    names it is changed."""
    names = names_of_files(manifest)
    for name, content, includes in manifest.files:
        for place in reversed(includes):
            if names[canonical(place.path)] != canonical(place.path):
                text = place.keyword + b" " + names[canonical(place.path)]
                text += b"$\n" * content.count(b"\n", place.begin, place.end)
                content = content[: place.begin] + text + content[place.end :]
        yield names[canonical(name)], content


def write_manifest(it: Recording, folder: HeldFolder) -> list[bytes]:
    """Copies the files, and gives their names in the recording."""
    names = names_of_files(it.manifest)
    for path, name in names.items():
        if name != path:
            it.remarks.append(f"'{shown(path)}' is copied as {name.decode()}, and the line that names it is changed")
    for name, content in copies_of_files(it.manifest):
        with folder.create(name) as file:
            file.write(content)
    return list(names.values())


def opening(it: Recording) -> Iterator[bytes]:
    """The opening lines, in byte order within their kind."""
    yield line("jobs", it.jobs)
    for path in sorted(it.stamps):
        if it.stamps[path]:
            yield b"stamp %b %d" % (field(path), it.stamps[path])
    for path in sorted(it.built):
        yield b"built %b %d %b" % (field(path), it.built[path][0], field(it.built[path][1]))
    for path in sorted(it.deps):
        yield b"deps %b %d%b" % (field(path), it.deps[path][0], text_of(it.deps[path][1]))
    yield from (line("target", path) for path in it.targets)


def command(event: Event) -> bytes:
    """An event as its line. That of a plan has no targets: they are opening lines of the trace."""
    word = WORDS[type(event)]
    if isinstance(event, Start):
        return line(word, event.output, event.job, *(() if event.slot is None else (event.slot,)))
    if isinstance(event, Finish) and event.listing is not None:
        listing = event.listing
        listed = b"depfile " + field(listing) if isinstance(listing, bytes) else b"list" + text_of(listing)
        return b"finish %b %b %b" % (field(event.output), b",".join([b"%d" % it for it in event.stamps]), listed)
    if isinstance(event, (Finish, Fail, Abort)):
        return line(word, event.output, ",".join(map(str, event.stamps)))
    if isinstance(event, Touch):
        return line(word, event.path, event.stamp)
    return line(word, event.output) if isinstance(event, (Clean, Pass)) else word.encode()


Lanes = Sequence[Sequence[int]]


def commands(events: Sequence[Event], lanes: Lanes) -> Iterator[bytes]:
    """The lines of the lanes, each command where it came: a lane is named again where its next commands come.

    A lane that is named for the first time has the next number, so those before it are opened first.
    """
    lane_of = {place: number for number, places in enumerate(lanes) for place in places}
    opened, last = 0, None
    for place in sorted(lane_of):
        if lane_of[place] != last:
            last = lane_of[place]
            yield from (b"lane %d" % number for number in range(opened, last))
            yield b"lane %d" % last
            opened = max(opened, last + 1)
        yield command(events[place])
    yield from (b"lane %d" % number for number in range(opened, len(lanes)))


def times(known: Sequence[int | None], lanes: Lanes) -> Iterator[bytes]:
    """A line for each event of the trace: its label, and the milliseconds since Ninja began (`-`: not known)."""
    for number, places in enumerate(lanes):
        for count, place in enumerate(places, 1):
            time = known[place]
            yield b"%d:%d -\n" % (number, count) if time is None else b"%d:%d %d\n" % (number, count, time)


def outputs(it: Recording, lanes: Lanes) -> Iterator[bytes]:
    """A line for each event of the trace whose command's output is kept. An edge runs once in a recording."""
    written = {run.edge.name: run.written for run in it.runs if run.written is not None}
    return output_lines(it.found.events, sorted(place for places in lanes for place in places), written)


def _one_lane(it: Recording) -> tuple[Lanes, list[bytes]]:
    """The places of the events of each lane, and the script."""
    return [range(len(it.found.events))], [b"run", b"kept", b"marks"]


def _lanes(it: Recording) -> tuple[Lanes, list[bytes]]:
    """One lane for each job. The plan stands in the script, and so do an interrupt and what follows it."""
    lanes: list[list[int]] = [[] for _ in range(max(1, it.found.jobs))]
    lane_of: dict[bytes, int] = {}
    behind: list[bytes] = []
    plan, is_over, last = b"plan", False, 0
    for place, event in enumerate(it.found.events):
        is_over = is_over or isinstance(event, Interrupt)
        if isinstance(event, Plan):
            plan = line("plan", *it.targets)
            continue
        if is_over:
            behind.append(command(event))
            continue
        if isinstance(event, Start):
            lane_of[event.output] = event.job
        last = lane_of.get(name_of(event), last)
        lanes[last].append(place)
    if len(lanes) > MOST_LANES:
        it.notes.append(f"{len(lanes)} jobs ran side by side, and a trace has at most {MOST_LANES} lanes: rebug "
                        f"refuses it (102)")
    return lanes, [plan, b"run", *behind, b"kept", b"marks"]
