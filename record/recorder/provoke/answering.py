"""What comes of a race that is made to happen: the user in front, the mended build, and what differs between them; and
of a clash, whose two commands are run in both orders."""

from __future__ import annotations

import os
from dataclasses import dataclass, field, replace
from typing import Callable

from ..depfiles import read_depfile
from ..depslog import BrokenLog, DepsLog, paths_of
from ..dyndep.reading import Told
from ..fields import canonical, shown
from ..files import copies_of_files
from ..manifest import BadManifest, Edge, Manifest
from ..observed.naming import source_folders
from ..regular import read_regular
from .copies import in_copy
from .in_place import in_place
from .leaving import may_go, run_anew
from .orders import BadOrder, Graph, Known, Order, Statements, differing, together, waits
from .races import Race, Recording, shown_name
from .trying import Trial, Tried, tried
from .words import Options

FAILS, DIFFERS, SAME = "it fails so", "it gives other bytes so", "no difference seen"
FAILS_MENDED, ONE_FAILS = "it fails with the mend, and not so", "it fails in one order"
BOTH_DIFFER = "each order gives other bytes"
REFUSED, UNKNOWN, NO_ORDER = "it is mended", "nothing can be told", "no order mends it"
STATUSES = {FAILS: 4, DIFFERS: 4, FAILS_MENDED: 4, ONE_FAILS: 4, BOTH_DIFFER: 4, SAME: 0, REFUSED: 0, UNKNOWN: 3,
            NO_ORDER: 0}
NO_ORDERS = {"cycle": "the maker waits for the user", "own": "the command lists its own output"}
"""The kinds of races that no order mends, and why."""
_LINES, _COLUMNS = 12, 200
_LONGEST_CYCLE = 4096
_MOST_OTHERS = 500
"""Of how many races the mends stand beside a trial of another one."""
_LONGEST_DEPFILE = 1 << 26
_CYCLE = b"ninja: error: dependency cycle: "


class Unfit(Exception):
    """A sentence that says why nothing is tried."""


@dataclass
class Answer:
    """One of the answers above, and the lines that it rests on."""

    text: str
    lines: list[str] = field(default_factory=list)


@dataclass(frozen=True)
class Way:
    """One of the two orders of a race or a clash: what it is called, the order itself, and the target that Ninja builds
    with it. `others` are orders of other races, which stand beside it."""

    name: str
    order: Order
    target: Edge
    others: tuple[Order, ...] = ()


@dataclass
class Provoker:
    """Provokes races of a recording in its build folder. `say` takes a sentence for the user, `tell` what is being
    done, and `races` are all that the recording has."""

    options: Options
    recording: Recording
    races: list[Race]
    ninja: str
    say: Callable[[str], None]
    tell: Callable[[str, str], None]

    def __post_init__(self) -> None:
        self.build = os.path.realpath(os.fsencode(self.options.build))
        self.name = self.recording.manifest_name()
        self.manifest = self._read({})
        self.statements = Statements(self.manifest)
        if dict(copies_of_files(self.manifest)) != self.recording.files():
            self.say("the manifest is another than the one that was recorded: the orders are put into the one that is "
                     "there")
        self.observed = self.recording.observed()
        self.told = self._told()
        self.folders = self._folders()
        self.known = Known(self.manifest, self._listed, self.told)
        self.deps_path = os.path.join(self.build, self.manifest.log_folder(), b".ninja_deps")
        self.deps, self.is_log_broken = self._deps()
        self.orders = self._orders()

    def _told(self) -> dict[int, Told]:
        """By the number of a command, what dyndep files say of it."""
        of = ((self.manifest.producer.get(name), told) for name, told in self.recording.told().items())
        return {edge.number: told for edge, told in of if edge is not None}

    def _told_outputs(self, *edges: Edge) -> list[bytes]:
        """The outputs that dyndep files say of these commands."""
        return [path for it in edges if it.number in self.told for path in self.told[it.number].outputs]

    def _read(self, files: dict[bytes, bytes]) -> Manifest:
        """The manifest, with these files in place of those that are there."""
        def content(name: bytes) -> bytes:
            if canonical(name) in files:
                return files[canonical(name)]
            return read_regular(os.path.join(self.build, name))
        try:
            return Manifest(self.name, content)
        except OSError as why:
            raise Unfit(f"cannot read {os.fsdecode(why.filename)}: {why.strerror}") from why
        except BadManifest as why:
            raise Unfit(str(why)) from why

    def _folders(self) -> list[bytes]:
        """The folders that a copy is made of: those of the build and of its sources, and wherever Ninja or a command
        may leave a file, also through a link; none below another."""
        own = {self.build, *source_folders(self.build, self.manifest)}
        left = {os.path.dirname(path) for edge in self.manifest.edges if not edge.phony for path in edge.outputs}
        left |= {os.path.dirname(name) for name, _, _ in self.manifest.files} | {self.manifest.log_folder()}
        real = own | {_there(os.path.realpath(os.path.join(self.build, it))) for it in left}
        found: list[bytes] = []
        for it in sorted(filter(os.path.isdir, real)):
            if not any(it == top or it.startswith(top + b"/") for top in found):
                found.append(it)
        others = [it for it in found if it not in own]
        if b"/" in found or others and self.options.in_place:
            raise Unfit(f"the build leaves files in {shown((others or found)[0])}, of which no copy is made")
        return found

    def _listed(self, edge: Edge) -> list[bytes]:
        """The paths that Ninja has in its records of an edge: in the deps log, or in a depfile that is there."""
        if edge.deps:
            return [path for output in edge.outputs if output in self.deps.places
                    for path in paths_of(self.deps.places[output][1])]
        try:
            text = read_regular(os.path.join(self.build, edge.depfile), _LONGEST_DEPFILE)
        except OSError:
            return []
        return read_depfile(text, edge.outputs) or []

    def _deps(self) -> tuple[DepsLog, bool]:
        """Ninja's records; none where its log is broken, which is then told by the second."""
        try:
            return DepsLog(self.deps_path), False
        except BrokenLog:
            return DepsLog(), True

    def _orders(self) -> list[tuple[Race, Order]]:
        """Of each race the order that mends it, and of each clash that in which `races` names the two: those that can
        be put into the manifest."""
        found = []
        for it in self.races[:_MOST_OTHERS]:
            maker, user = (self.manifest.producer.get(name) for name in (it.maker, it.user))
            if it.kind not in NO_ORDERS and it.is_told and maker and user and not (maker.phony or user.phony):
                if maker is not user and self.statements.is_of_one(user):
                    found.append((it, Order(user, maker, it.mend)))
        return found

    def edge(self, output: bytes) -> Edge:
        """The edge of the build folder's manifest with this output. Raises Unfit."""
        found = self.manifest.producer.get(output)
        if found is None or found.phony:
            raise Unfit(f"no command of {self.options.build} makes {shown_name(output)}: is the recording of a build "
                        f"in there?")
        return found

    def answer(self, race: Race) -> Answer:
        """Makes the race happen. Raises Unfit, Refused and Blocked."""
        if race.kind in NO_ORDERS:
            return Answer(NO_ORDER, [NO_ORDERS[race.kind]])
        maker, user = self.edge(race.maker), self.edge(race.user)
        if waits(self.manifest, user, maker, self.told):
            return self._answer_of_mended(self._two_ways(race)[0], race)
        if waits(self.manifest, maker, user, self.told):
            return self._answer_of_mended(self._two_ways(race)[1], race) if race.is_clash else \
                Answer(NO_ORDER, [NO_ORDERS["cycle"]])
        found = self._answer_of_both(race)
        return self._answer_of_changed_sources(found, maker, user) if found.text == SAME else found

    def _answer_of_both(self, race: Race) -> Answer:
        """Tries one order and then the other, and where it makes a difference, both at one time."""
        first, second = self.ways(race)
        others = first.others
        lines = [f"beside the orders that mend other findings: {len(others)}"] if others else []
        one = self.try_order(first, race)
        lines += _told(first.name, one)
        is_more_to_build = one.count > 0
        other = self.try_order(second, race, is_more_to_build)
        lines += _told(second.name, other)
        found = self._compare(one, other, lambda: self.try_order(second, race, is_more_to_build), lines, race.is_clash)
        if STATUSES[found.text] == 4:
            both = self.try_order(Way("both", first.order, first.target, (*others, second.order)), race, False)
            if both.fault.startswith(_CYCLE):
                found.lines.append(f"both: refused as a cycle, {visible(both.fault[len(_CYCLE) :], _LONGEST_CYCLE)}")
        return found

    def ways(self, race: Race) -> tuple[Way, Way]:
        """The two orders that are tried, beside those that mend other findings. Raises Unfit."""
        first, second = self._two_ways(race)
        others = self._orders_of_others(race, (first, second))
        self._look_at_orders([*others, first.order, second.order])
        return replace(first, others=tuple(others)), replace(second, others=tuple(others))

    def _answer_of_changed_sources(self, found: Answer, *commands: Edge) -> Answer:
        """Where a source is as a command of an earlier build left it, a trial cannot be as in a clean build."""
        sources = {path for edge in self.manifest.edges for path in edge.inputs} - self.manifest.producer.keys()
        changed = [path for edge in commands for path in self.observed.written_by(edge.name) if path in sources
                   and os.path.lexists(os.path.join(self.build, edge.name))]
        if not changed:
            return found
        return Answer(UNKNOWN, [*found.lines, f"a command changes {_names(changed)} in place, and an earlier build has "
                                              f"done so: give it the content that it had, and take the outputs away"])

    def _two_ways(self, race: Race) -> tuple[Way, Way]:
        """The two orders alone: of a race the user in front, so that the maker is not run, and the maker in front; of a
        clash each of the two. Raises Unfit."""
        maker, user = self.edge(race.maker), self.edge(race.user)
        later, earlier = Order(maker, user), Order(user, maker, race.mend)
        names = ("the user first", "mended")
        if race.is_clash:
            names = (f"{shown_name(user.name)} first", f"{shown_name(maker.name)} first")
        try:
            return (Way(f"{names[0]} ({_text(later)})", later, maker if race.is_clash else user),
                    Way(f"{names[1]} ({_text(earlier)})", earlier, user))
        except BadOrder as why:
            raise Unfit(f"the order cannot be put into the manifest: {why}") from why

    def _answer_of_mended(self, way: Way, race: Race) -> Answer:
        """What Ninja says of an order where the other one is in the manifest."""
        found = self.try_order(way, race)
        if found.fault.startswith(_CYCLE):
            return Answer(REFUSED, [f"{way.name}: refused as a cycle, "
                                    f"{visible(found.fault[len(_CYCLE) :], _LONGEST_CYCLE)}"])
        return Answer(UNKNOWN, [*_told(way.name, found), "one of the two waits for the other, and Ninja saw no cycle"])

    def _orders_of_others(self, race: Race, ways: tuple[Way, Way]) -> list[Order]:
        """The orders that mend the other races, so that none of them spoils this trial: those that can stand together
        beside each of the two orders that are tried."""
        own = {race.maker, race.user}
        orders = [order for it, order in self.orders if it is not race and {it.maker, it.user} != own]
        graphs = []
        for way in ways:
            unlisted = Graph(self.known).on_a_way(way.order.first, way.order.later)
            graph = Graph(self.known, {it.number for it in unlisted})
            graph.add(way.order)
            graphs.append(graph)
        return together(orders, graphs) if orders else []

    def _compare(self, first: Tried, second: Tried, again: Callable[[], Tried], lines: list[str],
                 is_clash: bool) -> Answer:
        if not (first.is_ready and second.is_ready):
            return Answer(UNKNOWN, [*lines, "what the maker waits for cannot be built"])
        if not (first.is_manifest_kept and second.is_manifest_kept):
            return Answer(UNKNOWN, [*lines, "the build made its manifest anew: bring it up to date before"])
        for it in (first, second):
            if it.fault.startswith(_CYCLE):
                return Answer(UNKNOWN, [*lines, "Ninja finds a cycle by what its records list"])
        if first.status and second.status:
            return Answer(UNKNOWN, [*lines, "both orders fail" if is_clash else "the mended build fails as well"])
        if first.status or second.status:
            return Answer(ONE_FAILS if is_clash else FAILS if first.status else FAILS_MENDED, lines)
        others = [path for path in first.sums if first.sums[path] != second.sums.get(path)]
        if not others:
            return Answer(SAME, lines)
        third = again()  # what differs from run to run by itself says nothing
        unsteady = [path for path in others if third.sums.get(path) != second.sums.get(path)]
        lines += [f"from run to run other bytes: {_names(unsteady)}"] if unsteady else []
        steady = [path for path in others if path not in unsteady]
        if not steady:
            return Answer(SAME, lines)
        missing = [path for path in steady if None in (first.sums[path], second.sums[path])]
        lines.append(f"other bytes: {_names(steady)}")
        if missing:
            lines.append(f"there after one of them alone: {_names(missing)}")
        return Answer(BOTH_DIFFER if is_clash else DIFFERS, lines)

    def _files(self, way: Way) -> dict[bytes, bytes]:
        """The manifest's files that are others so. Raises Unfit."""
        try:
            return self.statements.with_orders([*way.others, way.order])
        except BadOrder as why:
            raise Unfit(f"the order cannot be put into the manifest: {why}") from why

    def _look_at_orders(self, orders: list[Order]) -> None:
        """Whether a manifest with all of these orders says what the manifest says, and the orders alone. Each has a
        statement of its own, so it is the same of a part of them. Raises Unfit."""
        try:
            other = self._read(self.statements.with_orders(orders))
        except BadOrder as why:
            raise Unfit(f"the order cannot be put into the manifest: {why}") from why
        due: dict[int, set[bytes]] = {}
        for it in orders:
            due.setdefault(it.later.number, set()).add(it.path())
        if set(differing(self.manifest, other)) != due.keys() or not all(
                paths <= set(other.edges[number].order_only) for number, paths in due.items()):
            raise Unfit("the order of this race changes another thing than the order-only inputs of its commands")

    def try_order(self, way: Way, race: Race, is_more_to_build: bool = True) -> Tried:
        """One order tried. `is_more_to_build` is false where all that the maker waits for is there."""
        trial = self._trial(way, race, is_more_to_build)
        self.tell(way.name, "")
        work = lambda: tried(trial, lambda far: self.tell(way.name, far))
        return in_place(self.build, self.folders, work) if self.options.in_place else in_copy(self.folders, work)

    def _trial(self, way: Way, race: Race, is_more_to_build: bool) -> Trial:
        maker, user = self.edge(race.maker), self.edge(race.user)
        both = [user, maker]
        stale = [] if not self.options.stale else both if race.is_clash else [maker]
        again = stale or run_anew(self.manifest, self.observed, race.path, both)
        unlisted = Graph(self.known).on_a_way(way.order.first, way.order.later)
        fresh = [it for it in both if it not in stale]
        away = may_go(self.build, self.manifest, self.observed, fresh, unlisted, self._told_outputs(*fresh))
        before = {path: None for edge in (both if race.is_clash else [maker]) for path in edge.inputs
                  if path in self.manifest.producer}
        named = ["-f", os.fsdecode(self.name)] if self.name != b"build.ninja" else []
        return Trial(self.build, tuple(map(os.fsencode, [self.ninja, *named, *self.options.for_ninja])),
                     tuple(before) if is_more_to_build else (), (way.target.name,), self.manifest, self._files(way),
                     (*away, self.deps_path) if self.is_log_broken else away,
                     tuple(path for it in unlisted for path in it.outputs),
                     tuple(path for it in again for path in it.outputs),
                     tuple(path for it in again if it.generator for path in it.outputs),
                     self._compared(race, maker, user), tuple(self.folders))

    def _compared(self, race: Race, maker: Edge, user: Edge) -> tuple[bytes, ...]:
        """What is compared: what the user leaves, or what each of the two of a clash does. Depfiles are no output."""
        found = [race.path] if race.is_clash else []
        for it in [maker, user] if race.is_clash else [user]:
            found += [*it.outputs, *self._told_outputs(it), *self.observed.written_by(it.name)]
        depfiles = {canonical(it.depfile) for it in (maker, user) if it.depfile}
        return tuple(it for it in dict.fromkeys(found) if it not in depfiles)


def _there(folder: bytes) -> bytes:
    """The folder, or the nearest above it that is there."""
    while not os.path.isdir(folder):
        folder = os.path.dirname(folder)
    return folder


def _text(order: Order) -> str:
    """An order as the statement that has it."""
    edge = order.later
    return f"{shown_name(edge.file)}:{edge.line}: build {shown_name(edge.name)}: ... || {shown_name(order.path())}"


def _told(what: str, found: Tried) -> list[str]:
    """What came of a try, with the first lines of what failed commands wrote."""
    if not found.status:
        return [f"{what}: built"]
    lines = [f"{what}: failed, status {found.status}"]
    if not found.failed and found.fault:
        lines.append("    " + visible(found.fault))
    for name, text in found.failed:
        written = text.rstrip(b"\n").split(b"\n")
        lines.append(f"    {shown_name(name)} failed, and wrote{' nothing' if not text.strip() else ''}")
        lines += [f"      {visible(it)}" for it in written[:_LINES] if text.strip()]
        lines += [f"      and {len(written) - _LINES} lines more"] if written[_LINES:] else []
    return lines


def visible(line: bytes, columns: int = _COLUMNS) -> str:
    """A line of a command's output with its control bytes visible, not longer than a reader wants."""
    text = line[:columns].decode("utf-8", "backslashreplace").replace("\t", "    ")
    return "".join(it if it.isprintable() else it.encode("unicode_escape").decode() for it in text)


def _names(paths: list[bytes]) -> str:
    more = f" and {len(paths) - 3} more" if paths[3:] else ""
    return ", ".join(map(shown_name, paths[:3])) + more
