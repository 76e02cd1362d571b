"""The file `contents` as what it says, with the `observed` beside it: read by its page (docs/FORMATS.md), and not by
the recorder. Two recordings compared by it."""

import hashlib
import pathlib
import re
from collections import Counter
from dataclasses import dataclass, field

import observed_2

HEAD = ("by", "of", "build", "source", "key", "environ", "root", "path", "version", "link", "names", "changed")
WORDS = ("read", "left", "there", "missing", "unsure", "unsettled")
THERE, MISSING = "there", "missing"
SET_ASIDE_FROM = 5


@dataclass
class Command:
    """What one command met and left. An answer is THERE, MISSING or a content; the names in a folder are the answer of
    the folder's path with a slash behind."""

    flags: set[str] = field(default_factory=set)
    read: dict[bytes, tuple[bytes, ...]] = field(default_factory=dict)
    left: dict[bytes, tuple[bytes, ...]] = field(default_factory=dict)
    answers: dict[bytes, object] = field(default_factory=dict)
    changed: set[bytes] = field(default_factory=set)
    unsure: set[bytes] = field(default_factory=set)
    unsettled: set[bytes] = field(default_factory=set)


@dataclass
class Contents:
    """A whole recording: what stands in the head, and the commands by their edges, in the order of the file."""

    head: dict[str, list[list[bytes]]]
    paths: list[bytes]
    versions: list[tuple[bytes, tuple[bytes, ...]]]
    changed: set[bytes]
    commands: dict[bytes, Command]


def read(out: pathlib.Path) -> Contents:
    """The contents of a recording without a fault; an assertion fails where it has one."""
    observed = observed_2.read(out / "observed")
    text = (out / "contents").read_bytes()
    lines = text.split(b"\n")
    assert lines.pop() == b"" and lines[0] == b"rebug-contents 1", lines[:2]
    head: dict[str, list[list[bytes]]] = {}
    at = _head(lines, head)
    assert head["by"] == [[b"sha256"]] and len(head["of"]) == len(head["build"]) == len(head["key"]) == 1, head
    assert head["of"][0][0] == (out / "observed").read_bytes().split(b" ")[-1].strip()
    paths = _paths(observed.paths + [b"/"] * len(head.get("root", [])), head.get("path", []))
    versions = [_version(it, paths) for it in lines[1:at] if it.split(b" ")[0] in (b"version", b"link", b"names")]
    assert len(set(versions)) == len(versions), "no version stands there twice"
    changed = {paths[it] for words in head.get("changed", []) for it in observed_2.numbers_of(words, len(paths))}
    found = Contents(head, paths, versions, changed, {})
    edges = [it for it in observed.blocks if it]
    for name in edges:
        found.commands[name] = _of_observed(observed.blocks[name])
    blocks = _blocks(found, edges, lines[at:-1])
    word, *numbers = lines[-1].split(b" ")
    digest = hashlib.sha256(b"".join(it + b"\n" for it in lines[:-1])).hexdigest().encode()
    counts = [b"%d" % it for it in (len(versions), blocks, len(lines) - 1)]
    assert [word, *numbers] == [b"end", *counts, digest], lines[-1]
    ninja = observed.blocks.get(b"", observed_2.Block())
    ninjas = {it for word in observed_2.CHANGES for it in ninja.of(word)}
    for name in edges:
        _check_marks(found.commands[name], observed.blocks[name], ninjas)
    return found


def _head(lines: list[bytes], head: dict[str, list[list[bytes]]]) -> int:
    """Reads the head; gives the index of the first line behind it."""
    stage = 0
    for at, line in enumerate(lines[1:], 1):
        word, *words = line.split(b" ")
        if word in (b"edge", b"end"):
            return at
        place = HEAD.index({"link": "version", "names": "version"}.get(word.decode(), word.decode()))
        assert place >= stage, line
        stage = place
        head.setdefault(word.decode(), []).append(words)
    raise AssertionError("no end")


def _paths(told: list[bytes], own: list[list[bytes]]) -> list[bytes]:
    paths = list(told)
    for folder, *names in own:
        above = paths[observed_2.number_of(folder)]
        assert names, folder
        for text in map(observed_2.text_of, names):
            assert b"/" not in text, text
            paths.append(text if above == b"." else above.rstrip(b"/") + b"/" + text)
    return paths


def _version(line: bytes, paths: list[bytes]) -> tuple[bytes, tuple[bytes, ...]]:
    word, place, *words = line.split(b" ")
    path = paths[observed_2.number_of(place)]
    if word == b"link":
        (text,) = words
        return path, (b"link", observed_2.text_of(text))
    observed_2.number_of(words[0])
    assert re.fullmatch(rb"[0-9a-f]{64}", words[1]), line
    assert words[2:] in ([], [b"x"]) if word == b"version" else not words[2:], line
    return (path, tuple(words[1:])) if word == b"version" else (path + b"/", (b"names", words[1]))


def _of_observed(block: observed_2.Block) -> Command:
    """What `observed` itself has of a command's answers and changes."""
    command = Command({it[0].decode() for it in block.flags})
    for word in ("status", "mode", "there", "folder"):
        command.answers.update(dict.fromkeys(block.of(word), THERE))
    command.answers.update(dict.fromkeys(block.of("missing"), MISSING))
    for word, text, path in block.texts:
        if word == "link":
            command.answers[path] = (b"link", text)
        elif word == "linked":
            command.left[path] = (b"link", text)
    for word in ("left", "edited", "taken", "linked", "temps"):
        command.changed |= block.of(word)
    return command


def _blocks(found: Contents, edges: list[bytes], lines: list[bytes]) -> int:
    """Reads the blocks; gives how many there are."""
    last_edge, last, count, command = -1, -1, 0, Command()
    for line in lines:
        word, *words = line.split(b" ")
        if word == b"edge":
            number = observed_2.number_of(words[0])
            assert last_edge < number < len(edges), line
            command, last_edge, last, count = found.commands[edges[number]], number, -1, count + 1
            continue
        at = WORDS.index(word.decode())
        assert at > last and count, line
        last = at
        its = observed_2.numbers_of(words, len(found.versions if at < 2 else found.paths))
        if at < 2:
            for path, content in (found.versions[it] for it in its):
                (command.read if at == 0 else command.left)[path] = content
                if at == 0:
                    command.answers[path] = content
        else:
            paths = {found.paths[it] for it in its}
            if word in (b"there", b"missing"):
                for path in paths:
                    command.answers.setdefault(path, word.decode())
            else:
                getattr(command, word.decode()).update(paths)
    return count


def _check_marks(command: Command, block: observed_2.Block, ninjas: set[bytes]) -> None:
    """Each file that `observed` has as read or left has a digest or a mark, but for what Ninja itself changed."""
    left = block.of("left") | block.of("edited")
    read = block.of("read"), command.read, command.unsure
    for places, known, marked in (read, (left, command.left, command.unsettled)):
        assert places - ninjas <= known.keys() | marked, places - known.keys() - marked - ninjas
        assert not known.keys() & marked, known.keys() & marked


# two recordings


def disagree(a: Command, b: Command) -> set[bytes]:
    """The places at which both looked, and that answered them otherwise."""
    own = a.left.keys() | b.left.keys() | a.changed | b.changed
    found = set()
    for path in (a.answers.keys() & b.answers.keys()) - a.unsure - b.unsure:
        x, y = a.answers[path], b.answers[path]
        asked_only = {x, y} <= {THERE, MISSING}
        if x != y and not (path in own and asked_only) and not (THERE in (x, y) and MISSING not in (x, y)):
            found.add(path)
    return found


def other_outputs(a: Command, b: Command) -> set[bytes]:
    """The places that one left otherwise than the other."""
    settled = (a.left.keys() | b.left.keys()) - a.unsettled - b.unsettled
    return {it for it in settled if a.left.get(it) != b.left.get(it)}


def is_known(a: Command, b: Command) -> bool:
    """Whether nothing that decides is uncertain."""
    both = (a.answers.keys() | a.unsure) & (b.answers.keys() | b.unsure)
    return not (a.flags or b.flags or (a.unsure | b.unsure) & both or a.unsettled or b.unsettled)


def set_aside(a: Contents, b: Contents) -> set[bytes]:
    """Places of the system that differ, that no command leaves, and that several commands read which left the same."""
    left = {it for found in (a, b) for command in found.commands.values() for it in command.left}
    support: Counter[bytes] = Counter()
    for name in a.commands.keys() & b.commands.keys():
        places = disagree(a.commands[name], b.commands[name])
        outside = all(it.startswith(b"/") and it not in left for it in places)
        if outside and not other_outputs(a.commands[name], b.commands[name]):
            support.update(places)
    return {it for it, count in support.items() if count >= SET_ASIDE_FROM}


def classes(a: Contents, b: Contents) -> dict[bytes, str]:
    """By each edge that ran in both: same, absorbed, first, propagated, or unknown."""
    aside, found = set_aside(a, b), {}
    for name in a.commands.keys() & b.commands.keys():
        one, other = a.commands[name], b.commands[name]
        outs, ins = other_outputs(one, other), disagree(one, other) - aside
        if not outs:
            found[name] = "absorbed" if ins else "same"
        else:
            found[name] = "propagated" if ins else "first" if is_known(one, other) else "unknown"
    return found


def at_the_end(found: Contents) -> dict[bytes, tuple[bytes, ...]]:
    """What stands at each place that commands left, by the last of them."""
    last: dict[bytes, tuple[bytes, ...]] = {}
    for command in found.commands.values():
        for path in command.changed:
            last.pop(path, None)
        last.update(command.left)
    return last
