"""Inputs for the programs, made of the recordings that the repository has.

`varied` changes what a recording says and keeps its form, so that most of its cases are read and reach the rules, the
history and the answers. `damaged` changes bytes without regard to what they say, and most of its cases end in a fault.
"""

from __future__ import annotations

import hashlib
import pathlib
import random
import re
from dataclasses import dataclass, field
from typing import Callable

TOP = pathlib.Path(__file__).resolve().parents[2]
LARGEST = 200_000

NUMBERS = [0, 1, 2, 63, 64, 1023, 1024, 1025, 4096, 65535, 262144, 1000000, 1000001, 2**31, 2**32 - 1, 2**32, 2**63]
NUMBERS += [2**64 - 1, 2**64, 10**30]
BYTES = b"\0\t\n\r $:|#@\\/=-0a\x7f\x80\xff"
WORDS = [b"include build.ninja\n", b"subninja x.ninja\n", b"build x: phony\n", b"default x\n", b"lane 1\n", b"cone 1\n"]
WORDS += [b"undo 1\n", b"redo 1\n", b"back\n", b"run\n", b"interrupt\n", b"touch a 1\n", b"  command = $command\n"]
WORDS += [b"resize 0 2\n", b"resize 1 1\n", b"pool q\n  depth = 1024\n"]
WORDS += [b"a = $a$a\n", b"pool p\n  depth = 1\n", b"rule r\n  command = r $in\n", b"break touch a\n", b"continue\n"]
ALL_WORDS = b"run\nkept\nmarks\nstamps\nlogs\n"
BESIDE = ("names", "times", "output", "observed", "filters")
SPECIAL = ("build.ninja", "trace", "script", *BESIDE)


@dataclass
class Case:
    """The files of a recording by their names: `build.ninja`, `trace`, `script`, and those that the manifest names."""

    files: dict[str, bytes] = field(default_factory=dict)

    def copy(self) -> Case:
        return Case(dict(self.files))

    def size(self) -> int:
        return sum(map(len, self.files.values()))

    def write(self, folder: pathlib.Path) -> None:
        for name, content in self.files.items():
            (folder / name).parent.mkdir(parents=True, exist_ok=True)
            (folder / name).write_bytes(content)

    def words(self) -> list[str]:
        """The words by which the first program is given the files."""
        return ["--manifest", "build.ninja", "--trace", "trace", "--script", "script",
                *(name for name in self.files if name not in SPECIAL)]


def examples() -> list[Case]:
    """Each recording of the repository with a manifest, a trace and a script, and the generators' manifests."""
    cases = []
    traces = [*TOP.glob("examples/**/trace"), *TOP.glob("tests/races/*/trace"), TOP / "crates/rebug/data/trace"]
    for trace in sorted(it for it in traces if it.is_file()):
        folder = trace.parent
        if all((folder / name).is_file() for name in SPECIAL[:3]):
            names = [*SPECIAL, *(str(it.relative_to(folder)) for it in sorted(folder.rglob("*.ninja")))]
            cases.append(Case({name: (folder / name).read_bytes() for name in names if (folder / name).is_file()}))
    for manifest in sorted(TOP.glob("crates/manifest_counts/data/*.ninja")):
        lines = b"rebug-trace 1\njobs 4\nstamp main.c 5\nlane 0\nplan\ntouch main.c 7\nplan\n"
        cases.append(Case({"build.ninja": manifest.read_bytes(), "trace": lines, "script": ALL_WORDS}))
    return [it for it in cases if it.size() < LARGEST]


def made(rng: random.Random, cases: list[Case]) -> Case:
    """A case by chance."""
    case = rng.choice(cases).copy()
    kind = rng.random()
    if kind < 0.75:
        varied(rng, case)
    if kind > 0.7:
        damaged(rng, case, [content for it in cases for content in it.files.values()])
    return case


# WHAT A RECORDING SAYS

_TOKEN = re.compile(rb"(?:\$[\s:]|[^ ])+")
_BUILD = re.compile(rb"build (.*?[^$ ]) ?: *([\w.-]+) ?(.*)", re.DOTALL)
_MARKS = (b"", b"|", b"||", b"|@")


@dataclass
class Build:
    """A build line: its outputs as they stand, its rule, its inputs by the mark in front of them, and its block."""

    outputs: bytes
    rule: bytes
    inputs: dict[bytes, list[bytes]]
    block: bytes

    def text(self) -> bytes:
        words = [self.rule]
        for mark, its in self.inputs.items():
            words += [mark, *its] if mark and its else its
        return b"build %b: %b\n%b" % (self.outputs, b" ".join(words), self.block)

    def paths(self) -> list[bytes]:
        """All inputs, and the outputs."""
        return [it for its in self.inputs.values() for it in its] + \
            [it for it in _TOKEN.findall(self.outputs) if it != b"|"]


def read_build(statement: bytes) -> Build | None:
    """The build line that a statement is, if it is one that can be taken apart."""
    line, _, block = statement.replace(b"$\n", b"").partition(b"\n")
    found = _BUILD.fullmatch(line)
    if not found:
        return None
    inputs: dict[bytes, list[bytes]] = {mark: [] for mark in _MARKS}
    mark = b""
    for token in _TOKEN.findall(found[3]):
        if token in _MARKS:
            mark = token
        else:
            inputs[mark].append(token)
    return Build(found[1], found[2], inputs, block)


class Manifest:
    """The statements of a manifest, the build lines among them taken apart."""

    def __init__(self, text: bytes) -> None:
        pieces = re.split(rb"(?<!\$)(?<=\n)(?=[^\s#])", text)
        self.statements: list[bytes | Build] = [read_build(it) or it for it in pieces if it]
        self.rules = re.findall(rb"^rule ([\w.-]+)", text, re.MULTILINE) + [b"phony"]

    def text(self) -> bytes:
        return b"".join(it.text() if isinstance(it, Build) else it for it in self.statements)

    def builds(self) -> list[Build]:
        return [it for it in self.statements if isinstance(it, Build)]

    def paths(self) -> list[bytes]:
        return [path for it in self.builds() for path in it.paths()] or [b"main.c"]

    def sources(self) -> list[bytes]:
        """The paths that no build line makes: an edge that takes one more of them stands in no cycle."""
        outputs = {path for it in self.builds() for path in _TOKEN.findall(it.outputs)}
        return [path for path in self.paths() if path not in outputs] or [b"main.c"]


def _place(rng: random.Random, manifest: Manifest) -> int:
    return rng.randrange(len(manifest.statements) + 1)


def drop_input(rng: random.Random, manifest: Manifest, build: Build) -> None:
    its = rng.choice(list(build.inputs.values()))
    if its:
        its.pop(rng.randrange(len(its)))


def add_input(rng: random.Random, manifest: Manifest, build: Build) -> None:
    paths = manifest.sources() if rng.random() < 0.7 else manifest.paths()
    build.inputs[rng.choice(_MARKS)].append(rng.choice(paths))


def move_input(rng: random.Random, manifest: Manifest, build: Build) -> None:
    source, target = rng.sample(_MARKS, 2)
    if build.inputs[source]:
        build.inputs[target].append(build.inputs[source].pop())


def other_rule(rng: random.Random, manifest: Manifest, build: Build) -> None:
    build.rule = rng.choice(manifest.rules)


def drop_statement(rng: random.Random, manifest: Manifest, build: Build) -> None:
    manifest.statements.remove(build)


def copy_build(rng: random.Random, manifest: Manifest, build: Build) -> None:
    number = rng.randrange(10**6)
    inputs = {mark: list(its) for mark, its in build.inputs.items()}
    manifest.statements.append(Build(b"copy%d.o" % number, build.rule, inputs, build.block))


def add_binding(rng: random.Random, manifest: Manifest, build: Build) -> None:
    build.block += rng.choice([b"  restat = 1\n", b"  generator = 1\n", b"  deps = gcc\n  depfile = x.d\n",
                               b"  pool = console\n", b"  rspfile = x.rsp\n  rspfile_content = $in\n",
                               b"  command = again $in $out\n", b"  flags = $flags -g\n"])


def add_pool(rng: random.Random, manifest: Manifest, build: Build) -> None:
    name = b"pool%d" % rng.randrange(10**6)
    manifest.statements.insert(0, b"pool %b\n  depth = %d\n" % (name, rng.choice([0, 1, 2, 1000])))
    build.block += b"  pool = %b\n" % name


def add_default(rng: random.Random, manifest: Manifest, build: Build) -> None:
    manifest.statements.append(b"default %b\n" % rng.choice(_TOKEN.findall(build.outputs.partition(b" |")[0])))


def add_variable(rng: random.Random, manifest: Manifest, build: Build) -> None:
    manifest.statements.insert(_place(rng, manifest), b"v%d = %b\n" % (rng.randrange(9), rng.choice(
        [b"$v1$v2", b"a$ b$$c", b"${v3} $\n    again", b"x" * 5_000, b""])))


def reorder(rng: random.Random, manifest: Manifest, build: Build) -> None:
    manifest.statements.remove(build)
    manifest.statements.append(build)


def broken_line(rng: random.Random, manifest: Manifest, build: Build) -> None:
    build.rule += b" $\n   "


BUILDS: list[Callable[[random.Random, Manifest, Build], None]] = [
    drop_input, add_input, add_input, move_input, other_rule, drop_statement, copy_build, add_binding, add_pool,
    add_default, add_variable, reorder, broken_line]


def vary_manifest(rng: random.Random, case: Case) -> None:
    """Changes some statements, and at times moves the last ones into a file that is included."""
    manifest = Manifest(case.files["build.ninja"])
    for _ in range(rng.choice([1, 1, 2, 4])):
        builds = manifest.builds()
        if builds:
            rng.choice(BUILDS)(rng, manifest, rng.choice(builds))
    if rng.random() < 0.15 and len(manifest.statements) > 2:
        at = rng.randrange(1, len(manifest.statements))
        rest, manifest.statements = manifest.statements[at:], manifest.statements[:at]
        name = f"part{rng.randrange(1000)}.ninja"
        case.files[name] = b"".join(it.text() if isinstance(it, Build) else it for it in rest)
        manifest.statements.append(rng.choice([b"include %b\n", b"subninja %b\n"]) % name.encode())
    case.files["build.ninja"] = manifest.text()


def paths_of_lines(lines: list[bytes]) -> list[bytes]:
    """The first fields of lines that begin with a word about a path."""
    about = re.compile(rb"(?:stamp|built|start|finish|touch|pass|fail) \S").match
    return [it.split(b" ")[1] for it in lines if about(it)] or [b"a"]


def command(rng: random.Random, lines: list[bytes]) -> bytes:
    """A command about a path of a trace."""
    path, number = rng.choice(paths_of_lines(lines)), rng.choice([0, 1, 5, 2**40, 2**64 - 1])
    return rng.choice([b"touch %b %d" % (path, number), b"plan", b"plan %b" % path,
                       b"start %b %d" % (path, rng.randrange(9)), b"finish %b %d" % (path, number),
                       b"fail %b %d" % (path, number), b"abort %b 0" % path,
                       b"pass %b" % path, b"clean %b" % path, b"interrupt", b"undo %d" % rng.randrange(1, 20),
                       b"redo %d" % rng.randrange(1, 20), b"cone %d" % rng.randrange(1, 20), b"back",
                       b"break finish %b" % path, b"break touch %b" % path, b"break plan", b"unbreak 3", b"continue"])


def vary_trace(rng: random.Random, case: Case) -> None:
    """Changes some lines behind the first."""
    first, *lines = case.files["trace"].rstrip(b"\n").split(b"\n")
    for _ in range(rng.choice([1, 1, 2, 4])):
        opening = next((at for at, it in enumerate(lines) if it.startswith(b"lane ")), len(lines))
        commands = range(opening + 1, len(lines))
        everywhere = [at for at in range(len(lines)) if not lines[at].startswith((b"lane ", b"jobs "))]
        if not commands or not everywhere:
            break
        kind, at = rng.randrange(8), rng.choice(commands)
        if kind == 0:
            del lines[rng.choice(everywhere)]
        elif kind == 1:
            lines.insert(at, lines[at] if not lines[at].startswith(b"lane ") else b"plan")
        elif kind == 2 and at + 1 < len(lines):
            lines[at], lines[at + 1] = lines[at + 1], lines[at]
        elif kind == 3:
            at = rng.choice(everywhere)
            lines[at] = re.sub(rb"(?<= )\d+(?=$| )", lambda _: b"%d" % rng.choice([0, 1, 2, 2**40]), lines[at], count=1)
        elif kind == 4:
            lines.insert(at, command(rng, lines))
        elif kind == 5 and b" list" in lines[at]:
            words = lines[at].split(b" ")
            is_shorter = rng.random() < 0.4 and len(words) > 5
            lines[at] = b" ".join(words[:-1] if is_shorter else [*words, rng.choice(paths_of_lines(lines))])
        elif kind == 6:
            del lines[at + 1:]
        elif kind == 7 and first == b"rebug-trace 2":
            lines.insert(at, b"lane 0")
    case.files["trace"] = b"\n".join([first, *lines, b""])


def question(rng: random.Random, lines: list[bytes]) -> bytes:
    """A line of a script: a question, or a command."""
    path, number = rng.choice(paths_of_lines(lines)), rng.randrange(1, 30)
    return rng.choice([b"run", b"run %d" % rng.randrange(9), b"kept", b"marks", b"stamps", b"logs", b"why %b" % path,
                       b"dependents %d" % number, b"cone %d" % number, b"undo %d" % number, b"redo %d" % number,
                       b"undo 0:%d" % number, b"order " + b" ".join(b"%d" % it for it in rng.sample(range(1, 30), 5)),
                       b"back", b"resize 1 %d" % number, command(rng, lines)])


def vary_script(rng: random.Random, case: Case) -> None:
    """Asks other things."""
    lines = case.files["trace"].split(b"\n")
    asked = [question(rng, lines) for _ in range(rng.choice([1, 4, 20]))]
    case.files["script"] = b"\n".join([*([b"run"] if rng.random() < 0.8 else []), *asked, b""])


def observe(rng: random.Random, case: Case) -> None:
    """Gives a case what an observer could have seen, in one of the two versions: each command read its list, and left
    its output."""
    paths: dict[bytes, int] = {}
    lines = []
    is_2 = rng.random() < 0.7
    for words in (it.split(b" ") for it in case.files["trace"].split(b"\n") if it.startswith(b"finish ")):
        output, listed = words[1], words[4:] if words[3:4] == [b"list"] else []
        if b"edge " + output in lines:
            continue
        lines.append(b"edge " + output)
        for kind, its in ((b"read" if is_2 else b"reads", listed), (b"left" if is_2 else b"writes", [output])):
            numbers = sorted({paths.setdefault(it, len(paths)) for it in its})
            if numbers:
                lines.append(b" ".join([kind, *(b"%d" % it for it in numbers)]))
    first = [b"rebug-observed 2", b"by ptrace 6.10 x86-64"] if is_2 else [b"rebug-observed 1", b"by ptrace"]
    text = [*first, *(b"path " + it for it in paths), *lines]
    case.files["observed"] = b"\n".join([*(sealed(text) if is_2 else text), b""])
    case.files["filters"] = b"# caches\n__pycache__\n*.pyc\n/dev\nlogs/*.txt\n"


def sealed(lines: list[bytes]) -> list[bytes]:
    """The lines of an observation of version 2, with the last line that is due in the place of each other one."""
    lines = [it for it in lines if it and not it.startswith(b"end ")]
    counts = tuple(sum(it.startswith(word) for it in lines) for word in (b"path ", b"edge "))
    digest = hashlib.sha256(b"".join(it + b"\n" for it in lines)).hexdigest().encode()
    return [*lines, b"end %d %d %d %b" % (*counts, len(lines), digest)]


KINDS = [b"reads", b"stats", b"misses", b"lists", b"writes", b"edits", b"deletes", b"temps", b"folders"]
KINDS_2 = [b"cached", b"read", b"status", b"mode", b"there", b"folder", b"missing", b"passed", b"listed", b"own",
           b"after", b"left", b"edited", b"taken", b"temps", b"made", b"found", b"removed", b"prepared"]
FLAGS = [b"cut", b"server", b"namespace", b"uring", b"unresolved", b"twin"]
FLAGS_2 = [b"cut", b"late", b"socket", b"unknown", b"twin", b"other"]
EXTRA = [b"path extra", b"edge app", b"outside 3", b"#", b"*", b"a//b", b"reads 0-2"]
EXTRA_2 = [b"path extra 0", b"also extra 0", b"same 0-1", b"opening 0-2", b"hidden /dev/null 2", b"ninja", b"edge app",
           b"read 0-2", b"link v1 0", b"linked v1 1", b"searched cc1 0", b"ensured mkdir 0", b"outside 3",
           b"end 1 1 1 x"]


def vary_beside(rng: random.Random, case: Case) -> None:
    """Changes lines of a file beside the trace, where there is one. Most observations of version 2 end as is due."""
    name = rng.choice([it for it in BESIDE if it in case.files] or ["none"])
    first, *lines = case.files.get(name, b"").split(b"\n")
    is_2 = first == b"rebug-observed 2"
    kinds, flags = (KINDS_2, FLAGS_2) if is_2 else (KINDS, FLAGS)
    for _ in range(rng.choice([1, 1, 3])):
        at = rng.randrange(len(lines) + 1)
        kind = rng.randrange(6)
        if kind == 0 and lines:
            del lines[at % len(lines)]
        elif kind == 1 and lines:
            lines.insert(at, rng.choice(lines))
        elif kind == 2 and lines:
            at %= len(lines)
            lines[at] = re.sub(rb"(?<= )\d+", lambda _: b"%d" % rng.randrange(9), lines[at], count=1)
        elif kind == 3 and lines:
            at %= len(lines)
            word, _, rest = lines[at].partition(b" ")
            lines[at] = (rng.choice(kinds) if word in kinds else word) + b" " + rest
        elif kind == 4 and lines:
            at %= len(lines)
            is_edge = lines[at].startswith(b"edge ")
            if is_edge and is_2:
                lines.insert(at + 1, b"flag %b openat sh \\0" % rng.choice(flags))
            else:
                lines[at] += b" " + rng.choice(flags if is_edge else [b"0-1", b"3", b"x"])
        else:
            lines.insert(at, rng.choice(EXTRA_2 if is_2 else EXTRA))
    if is_2 and rng.random() < 0.7:
        first, *lines = [*sealed([first, *lines]), b""]
    if name in case.files:
        case.files[name] = b"\n".join([first, *lines])


def varied(rng: random.Random, case: Case) -> None:
    """Some changes of what a case says."""
    if "observed" not in case.files and rng.random() < 0.3:
        observe(rng, case)
    for vary in rng.sample([vary_manifest, vary_trace, vary_script, vary_beside], rng.choice([1, 2, 3])):
        vary(rng, case)


# BYTES

def _cut(rng: random.Random, content: bytearray, others: list[bytes]) -> bytes:
    """The content with one change of its bytes."""
    at = rng.randrange(len(content) + 1)
    to = min(len(content), at + rng.choice([1, 2, 8, 40, 200, 2000]))
    kind = rng.randrange(11)
    if kind == 0 and at < len(content):
        content[at] ^= 1 << rng.randrange(8)
    elif kind == 1 and at < len(content):
        content[at] = rng.choice(BYTES)
    elif kind == 2:
        del content[at:]
    elif kind == 3:
        del content[at:to]
    elif kind == 4:
        content[at:at] = content[at:to]
    elif kind == 5:
        other = rng.choice(others)
        begin = rng.randrange(len(other) + 1)
        content[at:at] = other[begin : begin + rng.choice([10, 100, 1000])]
    elif kind == 6:
        numbers = list(re.finditer(rb"\d+", bytes(content)))
        if numbers:
            number = rng.choice(numbers)
            content[number.start() : number.end()] = str(rng.choice(NUMBERS)).encode()
    elif kind == 9:
        content[at:at] = rng.choice([b"$", b"a", b"../", b"$ ", b"$\n", b" "]) * rng.choice([16, 4095, 4096, 4097])
    elif kind == 10:
        begin = bytes(content).rfind(b"\n", 0, at) + 1
        content[begin:begin] = rng.choice(WORDS)
    else:
        return _lines(rng, bytes(content), kind)
    return bytes(content)


def _lines(rng: random.Random, content: bytes, kind: int) -> bytes:
    """The content with one line many times, or with its lines in another order."""
    lines = content.splitlines(keepends=True)
    if kind == 7 and lines:
        place = rng.randrange(len(lines))
        lines[place:place] = [lines[place]] * rng.choice([1, 3, 200])
    elif kind == 8:
        if rng.random() < 0.2:
            rng.shuffle(lines)
        else:
            lines.reverse()
    return b"".join(lines)


def damaged(rng: random.Random, case: Case, others: list[bytes]) -> None:
    """Some changes of the bytes of one or two files."""
    for _ in range(rng.choice([1, 1, 2])):
        name = rng.choice(list(case.files))
        for _ in range(rng.choice([1, 1, 2, 4])):
            case.files[name] = _cut(rng, bytearray(case.files[name]), others)
