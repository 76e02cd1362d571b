"""What comes of a build in several orders: which of them leave something else, from which command on, and why."""

from __future__ import annotations

import os
from dataclasses import dataclass, field, replace
from functools import partial
from typing import Callable, Hashable, Sequence

from ..fields import canonical
from ..manifest import Edge, Manifest
from .asked import chosen_by, program
from .commands import Commands, NoBuild, commands_of, read_dyndep
from .orders import MOST_ORDERS, Chosen, Pairs, blocks_of, chosen
from .pairing import Pair, bisected, up_to, walked
from .patching import blocked, chained, with_orders, with_waits
from .places import Prepared
from .recorded import Recording
from .running import Ran, Task
from .side_by_side import Bench
from .states import MISSING, differing
from .words import Options

_LEAST_SECONDS, _TIMES_LONGER = 30.0, 10
_IMPOSSIBLE = (b"dependency cycle", b"multiple rules generate")
_OVERLAPS, _LONGEST_WAIT = 4, 0.2
_FIRST_OVERLAP, _MOST_KEPT = 1000, 200
_SPARE_MILLISECONDS = 1000
_TIMES_LONGER_OBSERVED = 10


class Unfit(Exception):
    """A sentence that says why nothing can be told."""


@dataclass
class Outcome:
    """A run of all: the number and the name of its order, and the size of the blocks that ran side by side. Where the
    commands overlapped everywhere there is no order, and a seed."""

    number: int
    name: str
    order: list[int] | None
    ran: Ran
    seed: int | None = None
    size: int = 1
    is_possible: bool = True
    contents: dict[bytes, bytes] = field(default_factory=dict)
    recording: Recording = field(default_factory=dict)
    not_recorded: str = ""


@dataclass
class Finding:
    """A difference: between which two outcomes, at which paths, in which command first, and the pair that it comes
    from. `beside` has the commands that overlapped with the user, and `is_overlap` says that it comes from an overlap
    in a block. `is_mended` says whether the user does the same once the order is put in, and `left` has the paths that
    differ still."""

    own: Outcome
    other: Outcome
    paths: list[bytes]
    causes: list[Edge]
    failed: tuple[bytes, bytes] | None
    maker: Edge | None = None
    user: Edge | None = None
    beside: list[Edge] = field(default_factory=list)
    is_overlap: bool = False
    is_mended: bool | None = None
    left: list[bytes] = field(default_factory=list)
    other_orders: list[int] = field(default_factory=list)


@dataclass
class Report:
    """All that is told in the end."""

    commands: int = 0
    unordered: int = 0
    left: int = 0
    builds: int = 0
    outcomes: list[Outcome] = field(default_factory=list)
    findings: list[Finding] = field(default_factory=list)
    unsteady: list[bytes] = field(default_factory=list)
    leftovers: list[bytes] = field(default_factory=list)
    compared: int = 0
    runs: int = 0
    budget: int = 0
    own_processor: float = 0.0
    is_cut: bool = False


@dataclass
class Judge:
    """Shuffles a prepared build. `tell` says what is done now."""

    options: Options
    build: Prepared
    bench: Bench
    tell: Callable[[str], None]

    def __post_init__(self) -> None:
        self.commands, self.manifest = self.build.commands, self.build.place.manifest
        self.before = self.build.place.before
        self.report = Report(commands=len(self.commands.graph.commands), budget=self.options.budget)
        self.away: tuple[bytes, ...] = ()
        self.more: dict[int, tuple[list[bytes], list[bytes]]] = {}
        self.unsteady: set[bytes] = set()
        self.odd: set[bytes] = set()
        self.mends: list[tuple[int, bytes]] = []
        self.declared = {it for edge in self.manifest.edges for it in self.build.outputs(edge)}

    def judge(self) -> Report:
        """All of it. Raises Unfit, NoRoom, Refused and what a run raises."""
        first = self._own_order()
        again = self._without_leftovers(first)
        own = Outcome(1, "its own order", self._order_of(first), first)
        outcomes = [own, *self._others(own, again)]
        reference = next((it for it in outcomes if it.ran.is_good and it.order), None)
        if reference is None:
            raise Unfit(self._why_not(first))
        self._count(own, outcomes)
        self.report.outcomes = outcomes
        if self.options.observe:
            self._record(outcomes)
        turns = 0
        while True:
            finding = self._first_finding(reference, outcomes)
            if finding is None:
                break
            self.report.findings.append(finding)
            self._name_pair(finding)
            turns += 1
            if not self.options.mend_all or not finding.is_mended:
                break
            if self.bench.runs >= self.options.budget:
                self.report.is_cut = True
                break
            self.tell(f"{turns} mended")
            outcomes = self._others(reference, reference.ran)
        self.report.unsteady = sorted(self.unsteady)
        self.report.runs = self.bench.runs
        changed = reference.ran.changed
        self.report.compared = len((self.before.stamps.keys() | changed.keys()) -
                                   {path for path, it in changed.items() if it == MISSING})
        if not self.before.is_as_it_was():
            raise Unfit(f"files below {os.fsdecode(self.build.place.build)} or its sources changed meanwhile: what was "
                        f"seen is of no single build")
        return self.report

    def _task(self, order: Sequence[int] | None = None, size: int = 1, **more: object) -> Task:
        """A run in this order, in blocks of this size, or in the manifest's own, from nothing."""
        files = self._mended() if self.mends else {}
        if order is not None:
            put = chained(self.commands, order) if size == 1 else blocked(self.commands, order, size)
            files = {**files, **put}
        return Task(files=files, targets=self.build.targets, away=self.away, jobs=size,
                    length=len(self.commands.graph.commands if order is None else order),
                    **more)  # type: ignore[arg-type]

    def _mended(self) -> dict[bytes, bytes]:
        return {canonical(name): content for name, content, _ in self.commands.manifest.files}

    # the build's own order

    def _own_order(self) -> Ran:
        """A run of the manifest as it is."""
        self.tell("the build's own order")
        dyndeps = {self.build.whole(canonical(edge.dyndep)): canonical(edge.dyndep)
                   for edge in self.commands.edges if edge.dyndep}
        first = self.bench.run(self._task(wanted=tuple(dyndeps)))
        if not first.is_manifest_kept:
            raise Unfit("the build makes its manifest anew: bring it up to date before, by Ninja")
        if first.fault and not first.failed and not first.order and b"build stopped" not in first.fault:
            why = first.fault.decode("utf-8", "backslashreplace")
            raise NoBuild(f"Ninja refuses the build: {why}. Nothing has run")
        self.report.own_processor = first.processor
        if dyndeps:
            self.more = read_dyndep(self.manifest, {dyndeps[it]: content for it, content in first.contents.items()})
            self.commands = commands_of(self.manifest, self.build.name, list(self.build.targets), self.more)
        self.limit = self.options.limit or max(_LEAST_SECONDS, _TIMES_LONGER * first.seconds)
        return first

    def _without_leftovers(self, first: Ran) -> Ran | None:
        """A second run of the manifest, from which is taken away what the first one wrote again beside the outputs; and
        from all later ones, if the build leaves the same: what an earlier build left hides what is missing. None where
        there is nothing, or it is needed."""
        written = self._written_again(first)
        if not written or not first.is_good:
            return None
        self.tell("the build's own order, without what an earlier build left")
        self.away = tuple(written)
        again = self.bench.run(self._task())
        if again.is_good and not differing(self.before, first.changed, again.changed):
            self.report.leftovers = sorted(written)
            return again
        self.away = ()
        return None

    def _written_again(self, first: Ran) -> list[bytes]:
        """What the run wrote again beside its outputs, and is not older than an earlier build, by the oldest output and
        the longest command."""
        stamps = self.before.stamps
        outputs = [stamps[path].changed for path in self.declared if path in stamps and stamps[path].changed]
        longest = max((end - begin for begin, end in first.times.values()), default=0)
        oldest = min(outputs, default=1 << 63) - (longest + _SPARE_MILLISECONDS) * 1_000_000
        return [path for path, it in first.changed.items() if path in stamps and path not in self.declared
                and stamps[path].changed >= oldest and not it.startswith(("folder", MISSING))]

    def _order_of(self, first: Ran) -> list[int]:
        """The order in which the first run's commands ended, and behind them those that did not run."""
        nodes = (self.commands.node_with(it) for it in first.order)
        ran = list(dict.fromkeys(it for it in nodes if it is not None))
        known = set(ran)
        return self.commands.graph.near(ran + [it for it in self.commands.graph.commands if it not in known])

    def _why_not(self, first: Ran) -> str:
        lines = [f"{os.fsdecode(name)} failed" for name, _ in first.failed[:1]]
        text = first.failed[0][1].decode("utf-8", "backslashreplace").strip() if first.failed else ""
        told = text.splitlines()[-1:] if first.failed else [first.fault.decode("utf-8", "backslashreplace")]
        return ": ".join(["the build fails in each order, in a copy that has no network and can write only in its own "
                          "folders", *lines, *told])

    # the other orders

    def _others(self, own: Outcome, again: Ran | None) -> list[Outcome]:
        """The other orders, and what came of them. With mends that were put in, those of the mended manifest. The
        manifest as it is runs a second time beside them, where it has not yet."""
        assert own.order is not None
        orders = list(self._chosen(own.order))
        if self.options.repeat is not None:
            orders = [it for it in orders if it[0] == self.options.repeat]
            if not orders and not self.options.overlap:
                raise NoBuild(f"there is no order {self.options.repeat}: a call without --repeat tells the numbers")
        size = self.options.blocks
        tasks = [self._task(order, size, seconds=self.limit) for _, _, order in orders]
        if self.options.overlap:
            tasks += [self._overlapped(seed) for seed in self._seeds()]
        self.tell(f"{len(tasks)} other orders" if len(tasks) != 1 else "1 other order")
        ran = self.bench.run_all([*tasks, *([self._task()] if again is None else [])])
        self._note_unsteady(own.ran, again or ran.pop())
        found = [Outcome(number, name, order, it, size=size) for (number, name, order), it in zip(orders, ran)]
        for number, (seed, it) in enumerate(zip(self._seeds(), ran[len(orders) :]), 1):
            found.append(Outcome(_FIRST_OVERLAP + number, f"commands that overlap, by seed {seed}", None, it, seed))
        for outcome in found:
            outcome.is_possible = not _is_refused(outcome.ran)
        return found

    def _chosen(self, own: list[int]) -> list[tuple[int, str, list[int]]]:
        """Orders with numbers and names: opposite ones, and in the end one by chance."""
        most = self.options.runs or MOST_ORDERS
        with_chance = len(own) > 2 and most > 2
        found = [(number, f"order {number}", it.order)
                 for number, it in enumerate(self._reversing(own, most - with_chance), 1)]
        number = len(found) + 1
        if with_chance:
            by_chance = self.commands.graph.at_random(self.options.seed)
            if by_chance not in [it[2] for it in found]:
                found.append((number, f"order {number}, by seed {self.options.seed}", by_chance))
        return found[1:]

    def _reversing(self, own: list[int], most: int) -> list[Chosen]:
        """The own order and at most so many in all, of which each reverses most of what is left. The proved program
        chooses orders without blocks, where it is there."""
        graph, size, asked = self.commands.graph, self.options.blocks, program()
        found = chosen_by(asked, graph, own, most) if asked and size == 1 else None
        return found or list(chosen(graph, own, most, size))

    def _seeds(self) -> range:
        return range(self.options.seed, self.options.seed + _OVERLAPS)

    def _overlapped(self, seed: int) -> Task:
        jobs = 4 * (os.cpu_count() or 1)
        files = {**(self._mended() if self.mends else {}), **with_waits(self.commands.manifest, seed, _LONGEST_WAIT)}
        return Task(files=files, targets=self.build.targets, away=self.away, jobs=jobs, seconds=self.limit,
                    length=len(self.commands.graph.commands), read_anew=True)

    def _record(self, outcomes: list[Outcome]) -> None:
        """Runs each order once more, under the recorder."""
        wanted = [it for it in outcomes if it.order is not None and it.is_possible]
        self.tell(f"recordings of {len(wanted)} orders")
        seconds = _TIMES_LONGER_OBSERVED * self.limit
        tasks = [self._task(it.order if it.number > 1 else None, seconds=seconds, is_recorded=True) for it in wanted]
        for outcome, ran in zip(wanted, self.bench.run_all(tasks)):
            outcome.recording, outcome.not_recorded = ran.recording, ran.not_recorded

    def _count(self, own: Outcome, outcomes: list[Outcome]) -> None:
        """Counts the pairs that stood both ways, by the commands that ran and the order in which they did."""
        assert own.order is not None
        pairs = Pairs(self.commands.graph, own.order)
        self.report.unordered = pairs.unordered
        pairs.take(blocks_of(self._ran(own.ran), 1))
        for it in outcomes[1:]:
            if it.is_possible and it.order is not None:
                pairs.take(self._blocks(it.order, it.ran, it.size))
        self.report.left = pairs.left
        self.report.builds = 1 + sum(it.is_possible for it in outcomes[1:])

    def _blocks(self, order: list[int], ran: Ran, size: int) -> list[list[int]]:
        """The commands that ran, in blocks of which each ran before the next one."""
        ended = self._ran(ran)
        if size == 1:
            return [[it] for it in ended]
        known = set(ended)
        return [[it for it in block if it in known] for block in blocks_of(order, size)]

    def _ran(self, ran: Ran) -> list[int]:
        nodes = (self.commands.node_with(it) for it in ran.order)
        return list(dict.fromkeys(it for it in nodes if it is not None))

    # what differs

    def _note_unsteady(self, one: Ran, other: Ran) -> None:
        """What differs between two runs of one order says nothing, and in a folder with names by chance no name does
        so."""
        differ = differing(self.before, one.changed, other.changed)
        self.unsteady |= differ
        self.odd |= {os.path.dirname(it) for it in differ if self._is_there(one, it) != self._is_there(other, it)}

    def _is_there(self, ran: Ran, path: bytes) -> bool:
        return ran.changed.get(path, "" if path in self.before.stamps else MISSING) != MISSING

    def _steady(self, own: Ran, other: Ran) -> list[bytes]:
        found = differing(self.before, own.changed, other.changed) - self.unsteady
        return sorted(it for it in found if it in self.declared or os.path.dirname(it) not in self.odd
                      or self._is_there(own, it) == self._is_there(other, it))

    def _differs(self, own: Ran, other: Ran) -> bool:
        return own.is_good != other.is_good or bool(self._steady(own, other))

    def _first_finding(self, own: Outcome, outcomes: list[Outcome]) -> Finding | None:
        """The first order that leaves something else, once it has done so twice."""
        others = [it for it in outcomes if it is not own and it.is_possible and self._differs(own.ran, it.ran)]
        for it in others:
            if not self._differs(own.ran, it.ran):
                continue  # by what is known to be unsteady since
            self.tell(f"{it.name} again")
            wanted = tuple(self._steady(own.ran, it.ran)[:_MOST_KEPT]) if self.options.out else ()
            tasks = [self._task(them.order, them.size, seconds=self.limit, wanted=wanted)
                     for them in (own, it) if them.order]
            once_more, *other = self.bench.run_all(tasks)
            self._note_unsteady(own.ran, once_more)
            for outcome, ran in zip((own, it), (once_more, *other)):
                outcome.contents = ran.contents
            if self._differs(own.ran, it.ran) and all(self._differs(own.ran, them) for them in other):
                return self._finding(own, it, [them.number for them in others if them is not it
                                               and self._differs(own.ran, them.ran)])
        return None

    def _finding(self, own: Outcome, other: Outcome, others: list[int]) -> Finding:
        paths = self._steady(own.ran, other.ran) if other.ran.is_good == own.ran.is_good else []
        failed = other.ran.failed[0] if other.ran.failed and not other.ran.is_good else None
        return Finding(own, other, paths, [self.commands.edges[it] for it in self._causes(paths)], failed,
                       other_orders=others)

    def _causes(self, paths: list[bytes]) -> list[int]:
        """The commands that left other bytes, and none of whose inputs' makers did."""
        differ, graph = set(paths), self.commands.graph
        bad = [it for it in graph.commands if differ.intersection(self.build.outputs(self.commands.edges[it]))]
        known = set(bad)
        return [it for it in bad if not graph.waited_for(it) & known]

    # the pair

    def _name_pair(self, finding: Finding) -> None:
        """Names the pair that the difference comes from, puts the order in, and builds with it."""
        user = self._user(finding)
        own, other = finding.own.order, finding.other.order
        assert own is not None
        if other is None or self._is_overlap(finding, other):
            self._note_beside(finding, user)
            return
        pair = None
        if user is not None:
            self.tell(f"which command must run before {os.fsdecode(self.commands.first_output(user))}, or behind it")
            pair = walked(self.commands.graph, own, other, user, partial(self._look, user))
        if pair is None and self.bench.runs < self.options.budget:
            self.tell("which two commands it comes from")
            pair = bisected(own, other, lambda order: self._is_as_own(finding, order))
        if pair is not None:
            finding.maker, finding.user = (self.commands.edges[it] for it in (pair.first, pair.second))
            self._try_mend(finding, pair, user)

    def _is_overlap(self, finding: Finding, order: list[int]) -> bool:
        """Whether an order whose blocks leave something else leaves the same where one command runs after the other:
        then it comes from commands of one block, which overlapped."""
        if finding.other.size == 1:
            return False
        self.tell(f"{finding.other.name}, one command after the other")
        finding.is_overlap = not self._differs(finding.own.ran, self.bench.run(self._task(order, seconds=self.limit)))
        return finding.is_overlap

    def _user(self, finding: Finding) -> int | None:
        """The command that failed, or never ended, or the first cause."""
        own, other = finding.own.ran, finding.other.ran
        if other.is_late and finding.other.order:
            ended = set(self._ran(other))
            return next((it for it in finding.other.order if it not in ended), None)
        if not other.is_good:
            return self.commands.node_with(other.failed[0][0]) if other.failed else None
        return self.commands.node_of[finding.causes[0].number] if finding.causes else None

    def _look(self, user: int, orders: Sequence[Sequence[int]]) -> list[Hashable]:
        """What the last command of each of these beginnings of orders did."""
        target = (self.commands.first_output(user),)
        tasks = [replace(self._task(self._with_checks(it), seconds=self.limit), targets=target) for it in orders]
        return [self._done(it, user) for it in self.bench.run_all(tasks)]

    def _with_checks(self, order: Sequence[int]) -> list[int]:
        """A beginning of an order, and behind it the commands that Ninja runs as well, since they validate."""
        graph, known = self.commands.graph, set(order)
        producer, more = self.manifest.producer, []
        todo = [it for node in order for it in self.commands.edges[node].validations]
        while todo:
            edge = producer.get(todo.pop())
            node = self.commands.node_of.get(edge.number) if edge else None
            if node is None or node in known:
                continue
            known.add(node)
            more += [it for it in (*graph.waited_for(node), node) if graph.is_command[it]]
            todo += [it for them in (*graph.waited_for(node), node) for it in self.commands.edges[them].validations]
        extra = set(more) - set(order)
        return [*order, *(it for it in graph.near(sorted(graph.commands)) if it in extra)]

    def _done(self, ran: Ran, user: int) -> Hashable:
        edge = self.commands.edges[user]
        has_ended = edge.outputs[0] in ran.order
        states = tuple(ran.changed.get(it) or self.before.state(it) for it in self.build.outputs(edge)
                       if it not in self.unsteady)
        return has_ended, states if has_ended else ()

    def _is_as_own(self, finding: Finding, order: list[int]) -> bool:
        """Whether an order of all leaves what the own order does, at what the finding is about."""
        ran = self.bench.run(self._task(order, seconds=self.limit))
        if ran.is_good != finding.own.ran.is_good:
            return False
        return not finding.paths or not set(self._steady(finding.own.ran, ran)) & set(finding.paths)

    def _note_beside(self, finding: Finding, user: int | None) -> None:
        """The commands that ran while the user did, and that do not wait for it, nor it for them."""
        times = finding.other.ran.times
        if user is None:
            return
        edge, graph = self.commands.edges[user], self.commands.graph
        finding.user = edge
        begin, end = times.get(edge.outputs[0], (0, 1 << 62))
        for node in graph.commands:
            at = times.get(self.commands.first_output(node))
            if at and node != user and at[0] < end and begin < at[1] and node not in graph.waited_for(user):
                finding.beside.append(self.commands.edges[node])

    # the mend

    def _try_mend(self, finding: Finding, pair: Pair, user: int | None) -> None:
        """Puts the order into the manifest, and runs the order that differed, as far as it is still one. Where that
        differs still, since another command fails before the user, say, what the user needs is run alone."""
        assert finding.maker and finding.user and finding.other.order and finding.own.order
        self.tell("the order put in")
        kept = self.commands, list(self.mends)
        self._put_in(finding.maker, finding.user)
        order = self.commands.graph.near(finding.other.order)
        ran = self.bench.run(self._task(order, seconds=self.limit))
        finding.left = self._steady(finding.own.ran, ran)
        finding.is_mended = ran.is_good and not set(finding.left).intersection(finding.paths or finding.left)
        if not finding.is_mended and user is not None:
            needed = self.commands.graph.waited_for(user)
            early = [it for it in order if it in needed] + [user]
            one, other = self._look(user, [up_to(finding.own.order, user), early])
            finding.is_mended = one == other
        if not self.options.mend_all or not finding.is_mended:
            self.commands, self.mends = kept

    def _put_in(self, maker: Edge, user: Edge) -> None:
        self.mends.append((user.number, maker.outputs[0]))
        files = with_orders(self.commands.manifest, {user.number: maker.outputs[0]})
        contents = {**self._mended(), **files}
        manifest = Manifest(self.build.name, lambda name: contents[canonical(name)])
        self.commands = commands_of(manifest, self.build.name, list(self.build.targets), self.more)


def _is_refused(ran: Ran) -> bool:
    """Whether Ninja knew more waits than the manifest has, by which this is no order."""
    return bool(ran.status) and not ran.failed and any(it in ran.fault for it in _IMPOSSIBLE)
