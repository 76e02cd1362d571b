"""What is read of a manifest's files: their first fault with its place, commands, scopes, and the graph."""

from collections.abc import Iterator
from dataclasses import dataclass

from rows import FAULT, FIRST, WELL, Begin, Row

MAIN = "build.ninja"

# Manifests, each with the line and the number of its first fault.
FAULTS = (
    ("build x: nope\n", "1 13"),
    ("rule r\n\tcommand = r\n", "2 11"),
    ("a = $%\n", "1 12"),
    ("rule r\n  depfile = d\n", "1 16"),
    ("rule r\n  dyndep = d\n", "1 22"),
    ("rule r\n  command = $depfile\n  depfile = $command\nbuild x: r\n", "4 17"),
    ("rule r\n  command = cc $description\n  description = of $command\nbuild o: r a\n", "4 17"),
    ("include no.ninja\n", "1 20"),
    ("pool p\n", "1 19"),
    ("pool p\n  depth =\n", "1 19"),
    ("pool console\n  depth = 2\n", "1 24"),
    ("pool p\n  depht = 2\n", "1 15"),
    ("rule r\n  commando = x\n", "1 15"),
    ("rule phony\n  dyndep = x\n", "1 22"),
    ("rule phony\n", "1 14"),
    ("rule r\n  command = r\nrule r\n  command = r\n", "3 14"),
    ("dyndep = x\n", "1 22"),
    ("include ./x/../build.ninja\n", "1 21"),
    ("include $none\n", "1 1"),
    ("default $none x\n", "1 1"),
    ("build x: phony\n  dyndep = d\n", "1 22"),
    ("build $none: nope\n", "1 13"),
    ("rule r\n  command = c\n  pool = p\nbuild x: r\n", "4 18"),
)

# Graphs that are none: the number, and the path.
GRAPHS = (
    # The first second producer is named.
    ("rule r\n  command = r\nbuild x y: r\nbuild z y x: r a\n", "40 y"),
    # The least edge on a cycle is named.
    ("rule r\n  command = r\nbuild x: r y\nbuild y: r x\n", "41 x"),
    ("rule r\n  command = r\nbuild w: r x\nbuild y x: r z\nbuild z: r y\n", "41 y"),
    # Order-only inputs close a cycle.
    ("rule r\n  command = r\nbuild x: r || y\nbuild y: r | x\n", "41 x"),
)


@dataclass(frozen=True)
class Files:
    """Files, a trace and a script, and the report that is due."""

    files: dict[str, str]
    trace: str
    script: str
    report: str
    status: int = WELL


def faulty(files: dict[str, str], fault: str) -> Files:
    return Files(files, FIRST, "", f"fault manifest {fault}\n", FAULT)


def marked(files: dict[str, str], marks: str, opening: str = "") -> Files:
    """Files whose edges a plan of the defaults marks so."""
    return Files(files, f"{FIRST}{opening}lane 0\nplan\n", "run\nmarks\n", f"1 0 ok\n{marks}")


def wanted(*outputs: str) -> str:
    return "".join(f"mark {edge} {output} wanted\n" for edge, output in enumerate(outputs))


def commands(files: dict[str, str], built: dict[str, str], inputs: tuple[str, ...] = ()) -> Files:
    """Files whose edges have these commands, as they stand in the build log once each of them ran: by their outputs,
    in byte order. Inputs that no edge makes are there."""
    opening = "".join(f"stamp {path} 1\n" for path in inputs)
    runs = "".join(f"start {output} 0\nfinish {output} 9\n" for output in built)
    replies = "".join(f"{number} 0 ok\n" for number in range(1, 2 * len(built) + 2))
    logs = "".join(f"built {output} 9 {command}\n" for output, command in built.items())
    return Files(files, f"{FIRST}{opening}lane 0\nplan {' '.join(built)}\n{runs}", "run\nlogs\n", replies + logs)


def command(text: str, output: str, told: str, inputs: tuple[str, ...] = ()) -> Files:
    return commands({MAIN: text}, {output: told}, inputs)


def below(outer: str, inner: str) -> dict[str, str]:
    """A file with a rule, and a file that it names as a scope of its own."""
    return {MAIN: f"{outer}rule r\n  command = r $f$g $v\nsubninja s.ninja\n", "./s.ninja": inner}


SCOPES = {
    "a scope hides its parent": marked(
        {MAIN: "f = 1\nrule r\n  command = r\nsubninja s\nbuild o$f$g: r\n", "s": "f = 2\nbuild i$f$g: r\n"},
        wanted("i2", "o1"),
    ),
    "a parent gives what a scope has not": marked(
        {MAIN: "g = 3\nrule r\n  command = r\nsubninja s\n", "s": "build i$g: r\n"}, wanted("i3")
    ),
    "a rule of one name in two scopes": marked(
        below("", "rule r\n  command = c\nbuild x: r\n"), wanted("x")
    ),
    "a rule is found in a parent": marked(below("", "build x: r\n"), wanted("x")),
    "a rule that is nowhere": faulty(below("", "build x: s\n"), "./s.ninja 1 13"),
    "texts are expanded as they are read": commands(
        below("f = 1\n", "f = 2\nv = $f/${f}.$$f$g\nf = 5\nbuild x: r\n"), {"x": "r\\s5\\s2/2.$f"}
    ),
    "a variable alone has its value, and nothing where it is nowhere": commands(
        {
            MAIN: "f = 1\nrule r\n  command = r .$v.$w.$x.\nw = $f\nsubninja s\n",
            "s": "f = 2\nv = ${f}\nx = $g\nbuild x: r\n",
        },
        {"x": "r\\s.2.1.."},
    ),
    "a file has a scope of its own": commands(
        {
            MAIN: "f = 1\nrule r\n  command = r $f $in\nsubninja s.ninja\nbuild y: r b\n",
            "./s.ninja": "f = 2\nbuild x: r a\n",
        },
        {"x": "r\\s2\\sa", "y": "r\\s1\\sb"},
        ("a", "b"),
    ),
    "an included file is in the same scope": commands(
        {MAIN: "rule r\n  command = r $f\ninclude i\nbuild y: r\n", "i": "f = 3\n"}, {"y": "r\\s3"}
    ),
    "a fault in an included file": faulty(
        {MAIN: "rule r\n  command = $f\ninclude i\nbuild y: r\n  unused = $\n", "i": "f = 3\npool p\n"}, "i 2 19"
    ),
    "of two bindings in a block the later counts": command(
        "rule r\n  command = r $a.$b\nbuild x: r\n  a = 1\n  a = 2\n", "x", "r\\s2."
    ),
    "of two texts of a rule's variable the later counts": command(
        "rule r\n  command = one\n  command = two\nbuild x: r\n", "x", "two"
    ),
    "a block comes before the scopes": command(
        "f = 1\nrule r\n  command = r $f\nbuild x: r\n  f = 3\n", "x", "r\\s3"
    ),
}

EDGES = {
    "paths are quoted": command(
        "rule r\n  command = $in > $out; ${in_newline}\nbuild o: r a$ b c\n",
        "o",
        "'a\\sb'\\sc\\s>\\so;\\s'a\\sb'\\nc",
        ("a\\sb", "c"),
    ),
    "a path without quotes": command(
        "rule r\n  command = r $in\nbuild o: r ../Src_1/a+b-c.o\n", "o", "r\\s../Src_1/a+b-c.o", ("../Src_1/a+b-c.o",)
    ),
    "a path with a quote and a dollar": command(
        "rule r\n  command = r $in\nbuild o: r it's$ a$ $$x.o\n",
        "o",
        "r\\s'it'\\\\''s\\sa\\s$x.o'",
        ("it's\\sa\\s$x.o",),
    ),
    "rule variables lead to one another": command(
        "f = 1\nrule r\n  command = cc @$rspfile # $description\n  rspfile = $out.rsp\n  description = $f $rspfile\n"
        "build o: r a\n",
        "o",
        "cc\\s@o.rsp\\s#\\s1\\so.rsp",
        ("a",),
    ),
    "what no edge needs may need itself": command(
        "rule r\n  command = cc\n  description = of $description\nbuild o: r\n", "o", "cc"
    ),
    "a block hides the rule": command(
        "rule r\n  command = cc $description\n  description = $description\nbuild o: r\n  description = o.d\n",
        "o",
        "cc\\so.d",
    ),
    "a rule with a prefix of deps": marked(
        {MAIN: "rule r\n  command = c\n  msvc_deps_prefix = x\nbuild o: r\n"}, wanted("o")
    ),
    "a response file's path that needs itself": marked(
        {MAIN: "rule r\n  command = c\n  rspfile = $rspfile\nbuild x: r\n"}, wanted("x")
    ),
    "an empty pool": Files(
        {MAIN: "rule r\n  command = c\nbuild x: r\n  pool =\n"},
        f"{FIRST}lane 0\nplan\nstart x 0\n",
        "run\n",
        "1 0 ok\n2 0 ok\n",
    ),
    # The plan wants what the defaults are: both edges, since x is not an input of its own.
    "an edge that is its own input": marked(
        {MAIN: "build x: phony x y |@ z\nbuild z: phony\n"}, "mark 1 z wanted\n", "stamp y 1\n"
    ),
}

def last_slot(depth: str, slot: int) -> Files:
    """A pool of this depth, of which a command takes the last slot and another one is refused the next."""
    text = f"pool p\n{depth}rule r\n  command = c\n  pool = p\nbuild x: r\n"
    trace = f"{FIRST}lane 0\nplan\nstart x 0 {slot + 1}\nstart x 0 {slot}\n"
    return Files({MAIN: text}, trace, "run\n", "1 0 ok\n2 0 refused 73\n3 0 ok\n")


DEPTHS = {
    "a depth with zeros in front": last_slot("  depth = 0001000000\n", 999_999),
    "of two depths the later counts": last_slot("  depth = x\n  depth = 3\n", 2),
}

# Values of twice as many bytes each: a0 has one, and a20 1,048,576.
DOUBLES = "a0 = x\n" + "".join(f"a{number + 1} = $a{number}$a{number}\n" for number in range(20))
# What comes behind these 21 lines, and the fault at once, where there is one.
BEHIND_DOUBLES = (
    ("", ""),
    ("build $a20: phony\n", "22 2"),
    ("a21 = $a20$a20\n", "22 23"),
    ("rule r\n  command = c\n  rspfile = $a20$a20\nbuild x: r\n", ""),
    ("rule r\n  command = c\nbuild x: r\n  v = $a19$a19\n", ""),
    ("rule r\n  command = c\nbuild x: r\n  v = $a19.$a19\n", "24 23"),
)


def behind_doubles() -> Iterator[Files]:
    for text, fault in BEHIND_DOUBLES:
        files = {MAIN: DOUBLES + text}
        yield faulty(files, f"{MAIN} {fault}") if fault else Files(files, FIRST, "", "")


CHAIN = "rule cc\n  command = cc $in -o $out\nbuild b.o: cc b.c\nbuild b: cc b.o\n"
POOLS = """\
pool any
  depth = 0
pool one
  depth = 2
rule r
  command = r
build x | w: r a |@ v
  pool = any
build v: r b
  pool = one
"""
OBJECTS, SLOTS = Begin(CHAIN, "stamp b.c 1\n"), Begin(POOLS, "jobs 2\nstamp a 1\nstamp b 1\n")

ANSWERS = {
    "producers": OBJECTS.said("plan b", "ok", "marks; why b.c", f"{wanted('b.o', 'b')}refused 60\n"),
    "what is known": OBJECTS.said("plan b.c; plan cc", "ok; refused 51 0"),
    "the last outputs are defaults": OBJECTS.said("plan", "ok", "marks", wanted("b.o", "b")),
    "an edge waits for its input": OBJECTS.said("plan b; start b 0", "ok; refused 68 0"),
    # An edge has one output, no slot, no deps, and is not phony.
    "an edge by itself": OBJECTS.said(
        "plan b; pass b.o; start b.o 0 0; start b.o 0; finish b.o 5,6; finish b.o 5 list b.c; finish b.o 5",
        "ok; refused 62; refused 73; ok; refused 75 1; refused 76; ok",
        "marks; logs",
        "mark 0 b.o done 0\nmark 1 b wanted\nbuilt b.o 5 cc\\sb.c\\s-o\\sb.o\n",
    ),
    # Under neither restat nor generator: what a command leaves as it was is changed, and another command is a reason.
    "an edge without restat": Begin(CHAIN, "stamp b.c 5\nstamp b.o 4\nbuilt b.o 4 cc\\sb.c\n").said(
        "plan b.o; start b.o 0; finish b.o 4",
        "ok; ok; ok",
        "marks; logs",
        "mark 0 b.o done 0\nbuilt b.o 4 cc\\sb.c\\s-o\\sb.o\n",
    ),
    "an edge without generator": Begin(CHAIN, "stamp b.c 5\nstamp b.o 6\nbuilt b.o 6 cc\\sb.c\n").said(
        "plan b.o", "ok", "why b.o", "why b.o command b.o\n"
    ),
    # Implicit outputs are made, and validations are planned.
    "implicit outputs and validations": SLOTS.said(
        "plan w",
        "ok",
        "marks; why v",
        f"{wanted('x', 'v')}why v missing v\nwhy v older v b\nwhy v no-record v\n",
    ),
    # A pool of depth 0 has no slots.
    "slots of pools": SLOTS.said(
        "plan x; start x 0 0; start v 0 2; start v 0 1; start x 1",
        "ok; refused 73; refused 73; ok; ok",
        "marks",
        "mark 0 x running 1 - 1\nmark 1 v running 0 1 1\njob 0 1\njob 1 0\nslot 2 1 1\n",
    ),
}

# The empty text as a field of a trace has it.
EMPTY = "\\0"
NAMES = (
    # Parent parts are resolved.
    ("./a//b/../c", "a/c"),
    ("a/..", "."),
    ("../../a", "../../a"),
    # The root has no parent.
    ("/..", "/"),
    ("/../a/", "/a"),
)


def named() -> dict[str, Row]:
    """Paths of a trace in their canonical form, and of 4,096 bytes and one more; an empty one."""
    rows = {}
    for path, name in (*NAMES, ("a" * 4096, "a" * 4096)):
        rows[f"a path {path}"] = Row("", f"{FIRST}stamp {path} 1\n", "stamps\n", f"stamp {name} 1\n")
    for text, fault in (("", 1), ("a" * 4097, 2)):
        in_a_trace, in_a_manifest = f"{FIRST}stamp {text or EMPTY} 1\n", f"a = {text}\nbuild $a: phony\n"
        rows[f"a path of {len(text)} letters"] = Row("", in_a_trace, "", "fault trace 2 100\n", FAULT)
        rows[f"an output of {len(text)} letters"] = Row(
            in_a_manifest, FIRST, "", f"fault manifest {MAIN} 2 {fault}\n", FAULT
        )
    return rows


# Each file but the last names the next, by turns as a part of its scope and as a scope of its own.
NESTED = "abcdefghijklmnopqr"


def nested(names: str) -> dict[str, str]:
    files = {}
    for place, (name, following) in enumerate(zip(names, names[1:])):
        files[name] = f"{'subninja' if place == 1 else 'include'} {following}\n"
    return files | {names[-1]: "rule r\n  command = r\nbuild x: r\n"}


SEVERAL = {
    "files 17 deep": faulty(nested(NESTED), "q 1 21"),
    "files 16 deep": marked(nested(NESTED[1:]), wanted("x")),
}

# As many edges as a thread each is worth.
EDGES_OF_A_FILE = 2_000


def edges_of(letter: str, wrong: int | None) -> str:
    """A file's edges, whose outputs begin with a letter. The edge at one place has a pool that no file declares."""
    edges = range(EDGES_OF_A_FILE)
    lines = (f"build {letter}{edge}: r {edge}\n" + "  which = none\n" * (edge == wrong) for edge in edges)
    return "".join(lines)


def by_threads(in_main: int | None = None, in_named: int | None = None) -> dict[str, str]:
    """A manifest that names a file before its own edges, and the file."""
    rule = "rule r\n  command = r $in -o $out\n  pool = $which\nsubninja named\n"
    return {MAIN: rule + edges_of("a", in_main), "named": edges_of("b", in_named)}


def read_by_threads() -> dict[str, Files]:
    """The edges of a named file stand before those behind its name, each with its command: with these in the build
    log no edge has a reason to run. Of two faults the first one is told."""
    outputs = [f"{letter}{edge}" for letter in "ba" for edge in range(EDGES_OF_A_FILE)]
    sources = "".join(f"stamp {edge} 1\n" for edge in range(EDGES_OF_A_FILE))
    records = "".join(f"stamp {it} 2\nbuilt {it} 2 r\\s{it[1:]}\\s-o\\s{it}\n" for it in outputs)
    return {
        "edges of two files, in their order": marked(by_threads(), wanted(*outputs), sources),
        "edges of two files, with their commands": marked(by_threads(), "", sources + records),
        "the first of two faults": faulty(by_threads(700, 1_500), "named 1501 18"),
    }


# As many edges as there may be.
MOST_EDGES = 262_144
IN_THE_MIDDLE, LATER = 131_072, 200_000


def graph(steps: list[list[int]]) -> str:
    """A manifest in which the edge at each place makes its number, from the outputs of others."""
    lines = (f"build {edge}: r {' '.join(map(str, inputs))}\n" for edge, inputs in enumerate(steps))
    return "rule r\n  command = r\n" + "".join(lines)


def scattered() -> list[list[int]]:
    """Up to three steps to later edges that look like chance."""
    steps, state = [], 1
    for edge in range(MOST_EDGES):
        inputs = []
        for _ in range(3):
            state = (state * 1_664_525 + 1_013_904_223) % (1 << 32)
            later = edge + 1 + state // 65_536
            if later < MOST_EDGES:
                inputs.append(later)
        steps.append(inputs)
    return steps


def large_graphs() -> Iterator[tuple[str, Files]]:
    """Graphs as large as the largest build. That these runs end in a moment shows that ranks are found in linear
    time."""
    chain = [[edge + 1] for edge in range(MOST_EDGES - 1)]
    yield "a long chain", Files({MAIN: graph([*chain, []])}, FIRST, "", "")
    large = Files({MAIN: graph([*chain, [IN_THE_MIDDLE]])}, FIRST, "", f"fault graph 41 {IN_THE_MIDDLE}\n", FAULT)
    yield "a large cycle", large
    steps = scattered()
    yield "scattered steps", Files({MAIN: graph(steps)}, FIRST, "", "")
    # The steps of all other edges go up, so these two are the only ones that reach themselves.
    steps[IN_THE_MIDDLE].append(LATER)
    steps[LATER] = [IN_THE_MIDDLE]
    cycle = Files({MAIN: graph(steps)}, FIRST, "", f"fault graph 41 {IN_THE_MIDDLE}\n", FAULT)
    yield "one cycle among scattered steps", cycle


ROWS = ANSWERS | named()


def read() -> Iterator[tuple[str, Files]]:
    """All that is read of files, by name."""
    for text, fault in FAULTS:
        yield f"a manifest {text!r}", faulty({MAIN: text}, f"{MAIN} {fault}")
    for text, fault in GRAPHS:
        yield f"a graph {text!r}", Files({MAIN: text}, FIRST, "", f"fault graph {fault}\n", FAULT)
    for place, files in enumerate(behind_doubles()):
        yield f"behind doubled values, {place}", files
    for rows in (SCOPES, EDGES, DEPTHS, SEVERAL, read_by_threads()):
        yield from rows.items()
    yield from large_graphs()
