"""Recordings that tests/explore/run makes: of many commands, and with names that are markup."""

from __future__ import annotations

import os
import random

PER_FOLDER = 100


def big(folder: str, count: int, reads: int, beside: int = 16) -> str:
    """A recording of compilers, so many at a time, in folders of a hundred each with an archive, and a link at the end.
    Each lists so many headers: most are those of its folder, which its neighbours list too. A header in a thousand is
    made by a command."""
    chance = random.Random(count)
    headers = [f"/usr/include/part_{it % 40:02d}/header_{it:05d}.h" for it in range(reads * 8)]
    made = [f"gen/version_{it}.h" for it in range(max(1, count // 1000))]
    lines = ["rule c\n  command = cc -O2 -DNAME=$out -Iinclude -c $in -o $out\n  deps = gcc\n  depfile = $out.d\n",
             "rule m\n  command = make_header $out\n", "rule ar\n  command = ar rc $out $in\n"]
    steps: list[tuple[int, int, str, str]] = []
    lines += [f"build {it}: m\n" for it in made]
    clock = [0] * beside
    steps += [(0, 40, it, "") for it in made]
    archives, sources = [], []
    for number in range(count):
        part, own = divmod(number, PER_FOLDER)
        name = f"source/library_{part:03d}/objects/unit_{own:02d}.cpp.o"
        lines.append(f"build {name}: c /work/source/library_{part:03d}/unit_{own:02d}.cpp || "
                     f"{made[part % len(made)]}\n")
        sources.append(f"/work/source/library_{part:03d}/unit_{own:02d}.cpp")
        if own == 0:
            shared = sorted(chance.sample(headers, reads))
        listed = [f"/work/source/library_{part:03d}/unit_{own:02d}.cpp", made[part % len(made)], *shared[own % 7 :]]
        lane = min(range(beside), key=clock.__getitem__)
        took = chance.choice((40, 90, 160, 400, 900))
        steps.append((max(50, clock[lane]), took, name, " list " + " ".join(listed)))
        clock[lane] = max(50, clock[lane]) + took
        if own == PER_FOLDER - 1 or number == count - 1:
            archive = f"source/library_{part:03d}/library_{part:03d}.a"
            inputs = " ".join(f"source/library_{part:03d}/objects/unit_{it:02d}.cpp.o" for it in range(own + 1))
            lines.append(f"build {archive}: ar {inputs}\n")
            archives.append(archive)
            ended = max(begin + took for begin, took, _, _ in steps[-own - 1 :])
            lane = min(range(beside), key=clock.__getitem__)
            clock[lane] = max(clock[lane], ended) + 30
            steps.append((clock[lane] - 30, 30, archive, ""))
    steps.append((max(clock) + 40, 500, "app", ""))
    lines.append(f"build app: ar {' '.join(archives)}\n")
    write(folder, "".join(lines), steps, {*headers, *sources})
    return folder


def write(folder: str, manifest: str, steps: list[tuple[int, int, str, str]], sources: set[str]) -> None:
    """Writes a recording: commands by when they begin, how long they take, their outputs and lists."""
    events = sorted([(begin, 1, place) for place, (begin, _, _, _) in enumerate(steps)] +
                    [(begin + took, 0, place) for place, (begin, took, _, _) in enumerate(steps)])
    # (as the recorder numbers jobs: one for each command, as far as there are jobs)
    jobs, begun = min(len(steps), 1024), 0
    stamps = [f"stamp {it} 1" for it in sorted(sources)]
    trace, times = ["rebug-trace 1", f"jobs {jobs}", *stamps, "lane 0", "plan"], ["rebug-times 1", "0:1 0"]
    for at, is_start, place in events:
        name, listed = steps[place][2], steps[place][3]
        if is_start:
            trace.append(f"start {name} {begun % jobs}")
            begun += 1
        else:
            trace.append(f"finish {name} {at + 1}{listed}")
        times.append(f"0:{len(times)} {at}")
    os.makedirs(folder)
    texts = {"build.ninja": manifest, "trace": "\n".join(trace) + "\n", "times": "\n".join(times) + "\n"}
    for name, text in texts.items():
        with open(f"{folder}/{name}", "w", encoding="ascii") as file:
            file.write(text)


# One job: what runs later rests on what ran before it by the job alone, which no build line says.
ONE_JOB = {
    "build.ninja": "rule c\n  command = c\nbuild a: c i\nbuild b: c i\nbuild c: c b\n",
    "trace": "rebug-trace 1\njobs 1\nstamp i 1\nlane 0\nplan\nstart a 0\nfinish a 2\nstart b 0\nfinish b 3\nstart c 0\n"
             "finish c 4\n",
}
# Two builds: the second one makes anew what a touched source changes.
TWO_BUILDS = {
    "build.ninja": "rule c\n  command = c\nbuild a: c i\nbuild b: c a\nbuild d: c j\n",
    "trace": "rebug-trace 1\njobs 9\nstamp i 1\nstamp j 1\nlane 0\nplan\nstart a 0\nstart d 1\nfinish a 2\nfinish d 2\n"
             "start b 2\nfinish b 3\ntouch i 5\nplan\nstart a 3\nfinish a 6\nstart b 4\nfail b 0\n",
}
# Names that are markup, script, ends of blocks and of comments, or letters of other bytes. Fields of a trace have `\s`
# for a space, and a manifest has `$ `.
MARKUP = [b"<script>alert(1)</script>", b"<img src=x onerror=alert(1)>", b"</script><b>bold</b>", b"<!--", b"a&lt;b.o",
          b"' onclick='alert(1)", b'" autofocus="', b"]]>", b"\xff\xfe.o", b"\x1b[31m", b"javascript:alert(1)", b"a*b",
          b"12", b"${x}`", b"__proto__", b"constructor", b"</title>"]


def markup(folder: str) -> str:
    """A recording whose outputs, inputs, commands and rule have such names."""
    def field(name: bytes) -> bytes:
        return name.replace(b"\\", b"\\\\").replace(b" ", b"\\s")

    def path(name: bytes) -> bytes:
        return name.replace(b"$", b"$$").replace(b" ", b"$ ").replace(b":", b"$:")

    manifest = b"rule c\n  command = c $in > <b>$out</b> && echo '</script>'\n  description = <i>$out</i>\n"
    manifest += b"  deps = gcc\n"
    trace = b"rebug-trace 1\njobs 99\nstamp <i> 1\nlane 0\nplan\n"
    for place, name in enumerate(MARKUP):
        before = path(MARKUP[place - 1]) if place else b"<i>"
        manifest += b"build " + path(name) + b": c " + before + b"\n"
        trace += b"start " + field(name) + b" %d\nfinish " % place + field(name) + b" %d list <i> <u>\n" % (place + 2)
    os.makedirs(folder)
    for file_name, text in (("build.ninja", manifest), ("trace", trace)):
        with open(f"{folder}/{file_name}", "wb") as file:
            file.write(text)
    return folder


def chance(folder: str, seed: int, edges: int = 60, jobs: int = 3, timed: bool = False) -> str:
    """A recording of a build whose build lines and order are drawn by lot. Some commands list what they read, and the
    last one of some fails. It has a file of times if it is to have one."""
    lot = random.Random(seed)
    inputs = [sorted(lot.sample(range(it), min(it, lot.randrange(4)))) for it in range(edges)]
    kinds = [[lot.choice((" ", " | ", " || ")) for _ in it] for it in inputs]
    name = [f"part_{lot.randrange(5)}/unit_{it}.o" for it in range(edges)]
    lines = ["rule c\n  command = c $out\n", "rule l\n  command = l $out\n  deps = gcc\n"]
    lists = [lot.random() < 0.5 for _ in range(edges)]
    for it in range(edges):
        of = ["".join(f" {name[on]}" for on, kind in zip(inputs[it], kinds[it]) if kind == wanted)
              for wanted in (" ", " | ", " || ")]
        lines.append(f"build {name[it]}: {'l' if lists[it] else 'c'} s{it}{of[0]} |{of[1]} ||{of[2]}\n")
    trace = ["rebug-trace 1", f"jobs {jobs}", *(f"stamp s{it} 1" for it in range(edges)), "lane 0", "plan"]
    ready, begun, free = [it for it in range(edges) if not inputs[it]], dict[int, int](), list(range(jobs))
    ended, clock = set[int](), 1
    fails = lot.random() < 0.5
    while ready or begun:
        if ready and free and (not begun or lot.random() < 0.6):
            it = ready.pop(lot.randrange(len(ready)))
            begun[it] = free.pop(lot.randrange(len(free)))
            trace.append(f"start {name[it]} {begun[it]}")
            continue
        it = lot.choice(sorted(begun))
        free.append(begun.pop(it))
        ended.add(it)
        clock += 1
        if fails and len(ended) == edges:
            trace.append(f"fail {name[it]} 0")
            break
        listed = f" list s{it} " + " ".join(name[on] for on in sorted(ended) if lot.random() < 0.1) if lists[it] else ""
        trace.append(f"finish {name[it]} {clock}{listed.rstrip()}")
        ready += [on for on in range(edges) if it in inputs[on] and set(inputs[on]) <= ended and on not in ended
                  and on not in begun and on not in ready]
    os.makedirs(folder)
    files = {"build.ninja": "".join(lines), "trace": "\n".join(trace) + "\n"}
    if timed:
        times = range(len(trace) - trace.index("plan"))
        files["times"] = "".join(["rebug-times 1\n", *(f"0:{it + 1} {it}\n" for it in times)])
    for file_name, text in files.items():
        with open(f"{folder}/{file_name}", "w", encoding="ascii") as file:
            file.write(text)
    return folder
