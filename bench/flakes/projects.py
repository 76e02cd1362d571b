"""Projects that fail in some of their builds, as a seed says for each build.

A seed draws how long each command would take. From that follows when each begins and ends, in thought. In the real
build no command sleeps. Each waits until all has begun and ended that does so before its own end (`turn.c`), so Ninja's
order is the drawn one on each machine, however busy that is.
"""

from __future__ import annotations

import pathlib
import random
import shutil
from collections.abc import Callable, Sequence
from dataclasses import dataclass, field

RULES = """rule step
  command = ($c) || (touch turns/failed; false)
rule cc
  command = ($c) || (touch turns/failed; false)
  deps = gcc
  depfile = $out.d
"""
USUAL = (40, 120)


@dataclass
class Command:
    """What a command waits for, and the words of the shell that it runs `before` its turn and `behind` it. `takes` is
    how long it takes at least and at most, in milliseconds. `rule` is the rule of the manifest. With an `address` it
    listens at that of the project, as `turn.c` has it: `need` or `share`."""

    waits: Sequence[str] = ()
    before: str = ""
    behind: str = ""
    takes: tuple[int, int] = USUAL
    rule: str = "step"
    address: str = ""


@dataclass(frozen=True)
class Span:
    """When a command begins and ends, in milliseconds from the begin of the build."""

    begin: float
    end: float


Schedule = dict[str, Span]


@dataclass
class Project:
    """Commands by their outputs, each behind those that it waits for, and other files. `anchor` is the command that
    fails, and `fails` says whether it does by when all begin and end. `culprits` are the commands that an order
    separates the failing builds by."""

    name: str
    about: str
    commands: dict[str, Command]
    anchor: str
    culprits: set[str]
    fails: Callable[[Schedule], bool]
    files: dict[str, str] = field(default_factory=dict)

    @property
    def jobs(self) -> int:
        """As many as there are commands, so that none waits for a job."""
        return len(self.commands)

    def schedule(self, seed: int) -> Schedule:
        """When each command begins and ends in the build of a seed."""
        chance, found = random.Random(seed), Schedule()
        for name, it in self.commands.items():
            begin = max((found[other].end for other in it.waits), default=0.0)
            found[name] = Span(begin, begin + chance.uniform(*it.takes))
        return found

    def turns(self, seed: int) -> dict[str, str]:
        """By each command the lines that `turn` waits for: what began before its end, and the command that ended last
        before it."""
        spans = self.schedule(seed)
        found, last = dict[str, str](), ""
        for name in sorted(spans, key=lambda it: spans[it].end):
            begun = [it for it in spans if it != name and spans[it].begin < spans[name].end]
            found[name] = (f"ended {last}\n" if last else "") + "".join(f"begun {it}\n" for it in begun)
            last = name
        return found

    def make(self, folder: pathlib.Path, seed: int, turn: pathlib.Path) -> None:
        """Writes a build folder from nothing, with the turns of this seed; `turn` is the program."""
        (folder / "turns").mkdir(parents=True)
        for name, text in {"build.ninja": self._manifest(), **self.files}.items():
            (folder / name).write_text(text)
        for name, text in self.turns(seed).items():
            (folder / "turns" / name).write_text(text)
        shutil.copy2(turn, folder / "turn")

    def _manifest(self) -> str:
        text = RULES
        for name, it in self.commands.items():
            turn = f"./turn {name} $$$$ {it.address}".rstrip()
            words = " && ".join(filter(None, [it.before, turn, it.behind or f"touch {name}"]))
            text += f"build {name}: {it.rule} {' '.join(it.waits)}".rstrip() + f"\n  c = {words}\n"
        return text


def others(name: str, count: int, waits: Sequence[str] = ()) -> dict[str, Command]:
    """Commands that only take their time."""
    return {f"{name}{it}": Command(waits) for it in range(count)}


def header() -> Project:
    """A generated header that one source file includes, and whose build line does not name it."""
    source = '#include "tab.h"\nint %s(void) { return TAB; }\n'
    compiled = "cc -MD -MF {0}.o.d -c {0}.c -o {0}.o"
    commands = {**others("o", 6), "tab.h": Command(["o0"], "", "echo '#define TAB 1' > tab.h", (20, 240)),
                "use.o": Command(["o2", "o3"], compiled.format("use"), ":", (40, 60), "cc"), **others("p", 8, ["o1"]),
                "list.o": Command(["tab.h"], compiled.format("list"), ":", rule="cc"),
                "app": Command(["use.o", "list.o", "o5"])}
    commands["o2"].takes = 140, 340
    return Project("header", "a header that is made too late", commands, "use.o", {"tab.h"},
                   lambda it: it["tab.h"].end > it["use.o"].begin,
                   files={"use.c": source % "use", "list.c": source % "list"})


def cleaner() -> Project:
    """A command that takes a folder away which another one reads."""
    commands = {**others("o", 5), "prepared": Command([], "mkdir scratch && echo 1 > scratch/data"),
                "cleaner": Command(["o1", "prepared"], "", "rm -r scratch && touch cleaner", (20, 120)),
                "reader": Command(["o2", "prepared"], "cat scratch/data > reader", ":", (40, 60)),
                **others("p", 6, ["o3"]), "app": Command(["reader", "cleaner"])}
    commands["o1"].takes, commands["o2"].takes = (40, 240), (60, 320)
    return Project("cleaner", "a folder that is taken away too early", commands, "reader", {"cleaner"},
                   lambda it: it["cleaner"].end < it["reader"].begin)


def two() -> Project:
    """A command that reads what two others make, and waits for neither."""
    commands = {**others("o", 6), "a.txt": Command(["o0"], "", "echo a > a.txt", (20, 200)),
                "b.txt": Command(["o1"], "", "echo b > b.txt", (20, 200)),
                "report": Command(["o2"], "cat a.txt b.txt > report", ":", (40, 60)),
                **others("p", 6, ["o3"]), "app": Command(["report", "a.txt", "b.txt"])}
    commands["o2"].takes = 160, 340
    return Project("two", "two files of which either may be made too late", commands, "report", {"a.txt", "b.txt"},
                   lambda it: max(it["a.txt"].end, it["b.txt"].end) > it["report"].begin)


def port() -> Project:
    """Two commands that listen at one address, as at a port: nothing in any folder shows that."""
    commands = {**others("o", 4), "holder": Command(["o1"], takes=(60, 120), address="share"),
                "user": Command(["o2"], takes=(60, 80), address="need"), **others("p", 10, ["o0"]),
                "app": Command(["user", "holder"])}
    commands["o1"].takes, commands["o2"].takes = (20, 180), (40, 320)
    return Project("port", "an address that another command holds", commands, "user", {"holder"},
                   lambda it: it["holder"].begin < it["user"].begin < it["holder"].end)


ALL = (header, cleaner, two, port)
