"""A manifest that what dyndep files say is put into, file by file: in memory, and at the end as text.

The manifest is read once. A load changes the edges that name the file, as it does in Ninja, and all of them or none. In
the text each change stays within its line, so that the lines keep the numbers that they have in the user's manifest.
"""

from __future__ import annotations

import copy
import re
from dataclasses import dataclass, replace

from ..fields import canonical, shown
from ..limits import place_of
from ..manifest import Edge, Include, Manifest
from .reading import BadDyndep, Told, Unresolvable, read_dyndep

_TO_ESCAPE = re.compile(rb"[$ :]")
RENAMED = b"resolved_"
"""What stands before the name of a binding of `dyndep` in a resolved manifest."""
_COMMENT = b"# resolved "


def files_of(manifest: Manifest) -> dict[bytes, list[int]]:
    """The dyndep files of a manifest, each with the numbers of the edges that name it."""
    found: dict[bytes, list[int]] = {}
    for edge in manifest.edges:
        if edge.dyndep:
            found.setdefault(canonical(edge.dyndep), []).append(edge.number)
    return found


def what_cannot_be_resolved(manifest: Manifest) -> list[str]:
    """A sentence for each dyndep that cannot be put into the manifest, whatever its file says."""
    found = [f"{shown(name)}:{line}: dyndep is bound for a whole file, where rebug takes no such name (22)"
             for name, line in manifest.dyndeps_of_files]
    for edge in manifest.edges:
        if edge.places is None:
            continue
        if edge.places.is_again and edge.dyndep:
            found.append(f"{place_of(edge)} has a dyndep in a file that is read twice, so one text would need two")
        elif edge.phony:
            found.append(f"{place_of(edge)} is phony and has a dyndep (22)")
        elif b"dyndep" in edge.places.needs:
            found.append(f"{place_of(edge)} needs the variable dyndep in its rule or its paths (22)")
    return found


@dataclass
class _Edit:
    """A text that stands in a file in the place of another one, from `begin` to `end`."""

    begin: int
    end: int
    text: bytes


class Resolving:
    """A manifest with what the dyndep files say that were loaded so far; `manifest` is the resolved one, whose edges
    change with each load. `loaded` has the contents of those files, and `told` what they say, by edge."""

    def __init__(self, original: Manifest) -> None:
        self.original, self.files = original, files_of(original)
        self.file_of = {number: path for path, numbers in self.files.items() for number in numbers}
        self.told: dict[int, Told] = {}
        self.loaded: dict[bytes, bytes] = {}
        self.maker_told: dict[bytes, int] = {}
        self.manifest = copy.copy(original)
        self.manifest.edges = [_own(it) if it.places is not None else it for it in original.edges]
        self.manifest.producer = {path: self.manifest.edges[it.number] for path, it in original.producer.items()}

    def is_pending(self, path: bytes) -> bool:
        """Whether it is a dyndep file that was not loaded."""
        return path in self.files and path not in self.loaded

    def load(self, path: bytes, content: bytes | None) -> None:
        """Changes each edge that names the file by what it says. Raises BadDyndep or Unresolvable, and then changes
        nothing."""
        found = self._said(path, content)
        outputs = [(it, number) for number, told in found.items() for it in told.outputs]
        for it, _ in outputs:
            if it in self.manifest.producer:
                raise BadDyndep(f"multiple rules generate {shown(it)}")
        if len({it for it, _ in outputs}) < len(outputs):
            raise BadDyndep(f"{shown(path)} says twice that an output is made")
        for number, told in found.items():
            self._look_at_restat(self.manifest.edges[number], told)
        for number, told in found.items():
            self._change(self.manifest.edges[number], told)
        assert content is not None
        self.loaded[path] = content
        self.told.update(found)

    def _said(self, path: bytes, content: bytes | None) -> dict[int, Told]:
        """What the file says of each edge that names it."""
        if content is None:
            raise BadDyndep(f"loading '{shown(path)}': No such file or directory")
        found: dict[int, Told] = {}
        for name, told in read_dyndep(path, content).items():
            edge = self.manifest.producer.get(name)
            if edge is None:
                raise BadDyndep(f"{shown(path)}: no build statement exists for '{shown(name)}'")
            if edge.number in found:
                raise BadDyndep(f"{shown(path)}: multiple statements for '{shown(name)}'")
            if self.file_of.get(edge.number) != path:
                raise BadDyndep(f"dyndep file '{shown(path)}' mentions output '{shown(name)}' whose build statement "
                                f"does not have a dyndep binding for the file")
            found[edge.number] = told
        for number in self.files[path]:
            if number not in found:
                raise BadDyndep(f"'{shown(self.manifest.edges[number].name)}' not mentioned in its dyndep file "
                                f"'{shown(path)}'")
        return found

    def _look_at_restat(self, edge: Edge, told: Told) -> None:
        places = edge.places
        if not told.restat or edge.restat or places is None:
            return
        if b"restat" in places.needs:
            raise Unresolvable(f"{place_of(edge)} needs the variable restat in its rule or its paths")
        if places.dyndep is None and places.restat is None:
            raise Unresolvable(f"{place_of(edge)} has its dyndep in the rule, and {shown(self.file_of[edge.number])} "
                               f"says restat: the statement has no line of its own for that")

    def _change(self, edge: Edge, told: Told) -> None:
        edge.outputs += told.outputs
        edge.implicit += told.inputs
        edge.inputs = edge.explicit + edge.implicit + edge.order_only
        edge.restat = edge.restat or told.restat
        for path in told.outputs:
            self.manifest.producer[path] = edge
            self.maker_told[path] = edge.number

    def leave_out(self, number: int, inputs: set[bytes], outputs: set[bytes]) -> None:
        """Takes paths away again that a loaded file says of an edge."""
        told, edge = self.told[number], self.manifest.edges[number]
        self.told[number] = replace(told, inputs=tuple(it for it in told.inputs if it not in inputs),
                                    outputs=tuple(it for it in told.outputs if it not in outputs))
        own = self.original.edges[number]
        edge.outputs, edge.implicit = [*own.outputs], [*own.implicit]
        for path in outputs:
            self.manifest.producer.pop(path, None)
        self._change(edge, self.told[number])

    def unload(self, path: bytes) -> None:
        """Takes all that a loaded file says away again."""
        for number in self.files[path]:
            told, edge = self.told[number], self.manifest.edges[number]
            edge.restat = self.original.edges[number].restat
            self.told[number] = replace(told, restat=False)
            self.leave_out(number, set(told.inputs), set(told.outputs))
            del self.told[number]
        del self.loaded[path]

    def finish(self) -> Manifest:
        """The resolved manifest with its files' texts."""
        edits: dict[bytes, list[_Edit]] = {}
        for edge in self.manifest.edges:
            if edge.places is not None:
                told = self.told.get(edge.number, Told())
                is_new = told.restat and not self.original.edges[edge.number].restat
                edits.setdefault(canonical(edge.file), []).extend(_edits(edge, told, is_new))
                edge.dyndep = b""
        contents = {canonical(name): content for name, content, _ in self.manifest.files}
        for name, begin, end in self.manifest.dyndeps_of_rules:
            text = _COMMENT + contents[canonical(name)][begin:end].replace(b"\n", b"\n" + _COMMENT)
            edits.setdefault(canonical(name), []).append(_Edit(begin, end, text))
        for found in edits.values():
            found.sort(key=lambda it: (it.begin, it.end))
        self.manifest.files = [(name, *_edited(content, includes, edits.get(canonical(name), [])))
                               for name, content, includes in self.manifest.files]
        return self.manifest


def _own(edge: Edge) -> Edge:
    """A copy whose lists can be changed."""
    return replace(edge, outputs=[*edge.outputs], implicit=[*edge.implicit], inputs=[*edge.inputs],
                   block=dict(edge.block))


def _edits(edge: Edge, told: Told, is_new: bool) -> list[_Edit]:
    """What changes in the text of an edge's statement; `is_new` says whether `restat` does."""
    places = edge.places
    assert places is not None
    found = [_Edit(at, at, b"".join([b" " if has else b" |", *(b" " + escaped(it) for it in paths), b" "]))
             for at, has, paths in ((places.outputs, places.has_outputs, told.outputs),
                                    (places.inputs, places.has_inputs, told.inputs)) if paths]
    restat = places.dyndep if places.restat is None else places.restat
    if is_new and restat is not None:
        edge.block[b"restat"] = b"1"
        found.append(_Edit(*restat, b"restat = 1"))
    if places.dyndep is not None:
        edge.block[RENAMED + b"dyndep"] = edge.block.pop(b"dyndep", b"")
        if not is_new or restat != places.dyndep:
            found.append(_Edit(places.dyndep[0], places.dyndep[0], RENAMED))
    return found


def escaped(path: bytes) -> bytes:
    """A path as a manifest has it."""
    return _TO_ESCAPE.sub(lambda it: b"$" + it[0], path)


def _edited(content: bytes, includes: list[Include], edits: list[_Edit]) -> tuple[bytes, list[Include]]:
    """A file's text with the edits, and where its include statements stand then."""
    pieces: list[bytes] = []
    moved: list[Include] = []
    todo, at, more = sorted(includes, key=lambda it: it.begin), 0, 0
    for edit in edits:
        while todo and todo[0].begin < edit.begin:
            moved.append(_moved(todo.pop(0), more))
        text = edit.text + b"$\n" * (content.count(b"\n", edit.begin, edit.end) - edit.text.count(b"\n"))
        pieces += [content[at : edit.begin], text]
        more += len(text) - (edit.end - edit.begin)
        at = edit.end
    moved += [_moved(it, more) for it in todo]
    return b"".join([*pieces, content[at:]]), moved


def _moved(include: Include, by: int) -> Include:
    return replace(include, begin=include.begin + by, end=include.end + by)
