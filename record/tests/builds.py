"""Real builds that the tests record: chains of runs in one build folder, each run recorded.

A chain is made once, in the folder that REBUG_RECORDINGS names or in one of its own, so that ./test can record before
the program is built and replay when it is. Beside each recording stands `expected`: what the disk and Ninja's logs
said right after the run.
"""

import atexit
import functools
import json
import os
import pathlib
import re
import shutil
import signal
import subprocess
import sys
import tempfile
import time

from recorder.disk import stamp_of
from recorder.logs import read_build_log
from recorder.manifest import Manifest
from versions import NINJA

RECORDER = pathlib.Path(__file__).resolve().parent.parent / "rebug-record"

STATUSES_OF_INTERRUPT = (NINJA.status_of_interrupt, 128 + signal.SIGINT)
"""What a build that SIGINT stopped ends with. Where a command ends as the signal comes, a Ninja before 1.13 finds it
pending and stops in order, and then that very signal ends it: so it is on a busy machine."""
LONGEST_SECONDS = 600
"""How long a test waits for what comes within a second where the machine has nothing else to do: what has not come by
then never will. A busy machine may take a hundred times as long."""
_SWITCHES = 20  # of a thread that looks about every five milliseconds, and waits at most a few times in each look


def missing_tools(*names):
    """A sentence that says which of the tools are not on this machine, or None."""
    found = [it for it in names if not shutil.which(it)]
    return f"not on this machine: {', '.join(found)}" if found else None


def other_ninjas():
    """The Ninjas that NINJAS names and that are not the one on the PATH."""
    named = [it for it in os.environ.get("NINJAS", "").split(os.pathsep) if it]
    here = shutil.which("ninja")
    return [it for it in named if here and not os.path.samefile(it, here)]


def recordings():
    """The folder that the recordings are made in."""
    if "REBUG_RECORDINGS" not in os.environ:
        folder = tempfile.mkdtemp(prefix="rebug-recordings-")
        os.environ["REBUG_RECORDINGS"] = folder
        atexit.register(shutil.rmtree, folder, ignore_errors=True)
    return pathlib.Path(os.environ["REBUG_RECORDINGS"])


def wait_for_another_stamp():
    """Waits until a file that is written from now on has a later stamp than each file that is there: the clock of a
    file system may tick every ten milliseconds. Ninja takes a source for unchanged that has its output's stamp."""
    time.sleep(0.02)


def wait_until(is_so, what, every=0.01):
    """Waits until the function says so. `what` says what has not come where it never does."""
    end = time.monotonic() + LONGEST_SECONDS
    while not is_so():
        if time.monotonic() > end:
            raise AssertionError(f"{what}, for {LONGEST_SECONDS} seconds")
        time.sleep(every)


def wait_for(path):
    """Waits for a file that a running command makes."""
    wait_until(path.exists, f"{path} did not come")


def until_gone(path):
    """Words of a shell that wait until a file is gone, for a command that is interrupted.

    They sleep shortly: dash loses an interrupt that comes while it starts a program, until that program has ended.
    """
    return f"while test -e {path}; do sleep 0.1; done"


def read_terminal(descriptor):
    """What comes next at the outer end of a pseudo terminal; nothing where nobody can write any more.

    Linux tells by an error that all inner ends are closed. It looks whether they are after it has looked for bytes. So
    bytes that were written between the two looks come behind the error: who reads once more has them.
    """
    for _ in range(2):
        try:
            return os.read(descriptor, 65536)
        except OSError:
            continue
    return b""


def wait_until_asleep(process):
    """Waits until a process has slept for a fifth of a second; where there is no /proc, for a whole one."""
    before = []

    def is_asleep():
        with open(f"/proc/{process}/status") as file:
            lines = [it for it in file if it.startswith(("State:", "voluntary_ctxt_switches:"))]
        is_as_before = lines == before
        before[:] = lines
        return is_as_before and lines[0].split()[1] == "S"

    if os.path.exists(f"/proc/{process}/status"):
        wait_until(is_asleep, "the process does not sleep", every=0.2)
    else:
        time.sleep(1)


def wait_until_it_has_looked(recorder):
    """Waits until the recorder has looked at Ninja's children from beginning to end, so that it has seen the commands
    that ran as this was called.

    It looks in a thread of its own, from time to time, on a busy machine seldom: so the thread's own steps are counted
    and not the seconds. Where there is no /proc the recorder sees no command.
    """
    def steps():
        """The number of times that each other thread than the first one went to sleep."""
        found = {}
        for thread in os.listdir(f"/proc/{recorder}/task"):
            if thread != str(recorder):
                with open(f"/proc/{recorder}/task/{thread}/status") as file:
                    found[thread] = next(int(it.split()[1]) for it in file if it.startswith("voluntary_ctxt_switches:"))
        return found

    if os.path.exists(f"/proc/{recorder}/task"):
        before = steps()
        wait_until(lambda: any(now >= before.get(it, 0) + _SWITCHES for it, now in steps().items()),
                   "the recorder does not look at Ninja's children")


class Chain:
    """A build folder, and the recordings of the runs in it."""

    def __init__(self, name):
        self.folder = recordings() / name
        self.build = self.folder / "build"
        self.build.mkdir(parents=True)
        self.logs = self.build

    def write(self, path, text):
        path = os.path.join(os.fsencode(self.build), path if isinstance(path, bytes) else path.encode())
        os.makedirs(os.path.dirname(path), exist_ok=True)
        with open(path, "wb") as file:
            file.write(text if isinstance(text, bytes) else text.encode())
        wait_for_another_stamp()

    def record(self, name, *words, status=0, jobs=4, own=(), interrupt_when=None):
        """Records a run, and what the disk and Ninja's logs say after it. `interrupt_when` is a file that a command
        makes: SIGINT comes then."""
        words = [sys.executable, RECORDER, self.build, self.folder / name, "-j", str(jobs), *own, "--", *words]
        with open(self.folder / f"{name}.said", "wb") as said:
            # without the terminal of the tests, from which the recorder would take Ninja to have SIGINT already
            process = subprocess.Popen(words, stdin=subprocess.DEVNULL, stdout=said, stderr=subprocess.STDOUT,
                                       start_new_session=True)
            if interrupt_when:
                wait_for(self.build / interrupt_when)
                wait_until_it_has_looked(process.pid)
                process.send_signal(signal.SIGINT)
            got = process.wait(timeout=LONGEST_SECONDS)
        due = STATUSES_OF_INTERRUPT if interrupt_when else (status,)
        assert got in due, f"{name}: status {got}, not one of {due}: {(self.folder / f'{name}.said').read_text()}"
        self.expect(name)

    def expect(self, name):
        build = os.fsencode(self.build)
        log = read_build_log(read(self.logs / ".ninja_log")).last()
        deps = read_deps(subprocess.run(["ninja", "-n", "-t", "deps"], cwd=build, capture_output=True).stdout)
        commands = subprocess.run(["ninja", "-t", "compdb"], cwd=build, capture_output=True).stdout
        hashes = {}
        for it in json.loads(commands.decode("latin-1")):
            if ".rsp" not in it["command"]:
                hashes[it["output"]] = NINJA.hash_of(it["command"].encode("latin-1"))
        text = lambda it: it.decode("latin-1")
        (self.folder / f"{name}.expected").write_text(json.dumps({
            "stamps": {text(it): stamp_of(build, it) for it in self.paths(name, deps)},
            "built": {text(it): [entry.stamp, entry.hash == hashes[text(it)] if text(it) in hashes else None] for it,
                      entry in log.items()},
            "deps": {text(it): [stamp, *map(text, paths)] for it, (stamp, paths) in deps.items()},
        }))

    def paths(self, name, deps):
        """The paths of the manifest, of the deps lists, and of the recording's opening."""
        found = set(Manifest(b"build.ninja", lambda it: read(self.build / os.fsdecode(it))).known_paths())
        return found.union(stamped(self.folder / name), *(listed for _, listed in deps.values()))


_DEPS = re.compile(rb"(.*): #deps (\d+), deps mtime (-?\d+) \((?:STALE|VALID)\)")


def read_deps(listing):
    """Reads what `ninja -t deps` prints: output -> (stamp, list of paths). The recorder reads the log itself."""
    records, lines = {}, listing.split(b"\n")
    at = 0
    while at < len(lines):
        head = _DEPS.fullmatch(lines[at])
        at += 1
        if head:
            count = int(head[2])
            records[head[1]] = (max(0, int(head[3])), [it[4:] for it in lines[at : at + count]])
            at += count
    return records


def read(path):
    return path.read_bytes() if path.exists() else b""


def stamped(recording):
    """The paths that the opening of a recording has stamps of."""
    for line in (recording / "trace").read_bytes().split(b"\n"):
        if line.startswith(b"stamp "):
            yield unescaped(line.split(b" ")[1])


def unescaped(text):
    """The text that a field stands for."""
    if text == b"\\0":
        return b""
    for escape, byte in ((b"\\s", b" "), (b"\\t", b"\t"), (b"\\n", b"\n"), (b"\\r", b"\r")):
        parts = text.split(b"\\\\")
        text = b"\\\\".join(part.replace(escape, byte) for part in parts)
    return text.replace(b"\\\\", b"\\")


# A C project as CMake writes it for Ninja.

CMAKE_LISTS = """cmake_minimum_required(VERSION 3.13)
project(greeting C)
add_custom_command(OUTPUT version.h COMMAND ${CMAKE_COMMAND} -E copy ${CMAKE_SOURCE_DIR}/version.in version.h
                   DEPENDS version.in)
add_custom_target(version DEPENDS version.h)
add_library(words STATIC w1.c w2.c w3.c w4.c)
add_library(tools STATIC t1.c t2.c t3.c)
add_dependencies(tools version)
target_include_directories(tools PRIVATE ${CMAKE_BINARY_DIR})
add_executable(greet greet.c)
target_link_libraries(greet words tools)
"""


def cmake_chain():
    """A first build, a touch, a header added, a failed compile, its repair, an interrupted build, the next one."""
    it = Chain("cmake")
    it.write("src/CMakeLists.txt", CMAKE_LISTS)
    it.write("src/version.in", "#define VERSION 1\n")
    for name in ("w1", "w2", "w3", "w4"):
        it.write(f"src/{name}.c", f"int {name}(void) {{ return 1; }}\n")
    for name in ("t1", "t2", "t3"):
        it.write(f"src/{name}.c", f'#include "version.h"\nint {name}(void) {{ return VERSION; }}\n')
    it.write("src/greet.c", "int w1(void);\nint t1(void);\nint main(void) { return w1() - t1(); }\n")
    out = it.build
    subprocess.run(["cmake", "-G", "Ninja", "-S", out / "src", "-B", out], check=True, capture_output=True)
    it.record("first_build")
    it.write("src/w2.c", "int w2(void) { return 2; }\n")
    it.record("rebuilt_after_a_touch")
    it.write("src/numbers.h", "#define ONE 1\n")
    it.write("src/w3.c", '#include "numbers.h"\nint w3(void) { return ONE; }\n')
    it.record("header_added")
    it.write("src/numbers.h", "#define ONE (1\n")
    it.write("src/w4.c", "int w4(void) { return 4; }\n")
    it.record("failed_compile", "-k", "0", status=1)
    it.write("src/numbers.h", "#define ONE (1)\n")
    it.record("repaired")
    it.write("src/version.in", "#define VERSION 2\n")
    it.record("generated_header_changed")
    it.write("src/slow.sh", f"touch begun; {until_gone('begun')}\n")
    slow = "add_custom_target(slow ALL COMMAND sh ${CMAKE_SOURCE_DIR}/slow.sh)\n"
    it.write("src/CMakeLists.txt", CMAKE_LISTS + slow)
    subprocess.run(["cmake", out], check=True, capture_output=True)
    it.write("src/w1.c", "int w1(void) { return 7; }\n")
    it.record("interrupted", interrupt_when="begun")
    it.write("src/CMakeLists.txt", CMAKE_LISTS)
    it.record("after_the_interrupt_with_another_manifest")


# Edges of every kind, with commands of the shell alone.

SHELL_MANIFEST = f"""# edges of every kind
where = sub
builddir = $where/kept
pool two
  depth = 2
rule copy
  command = sleep 0.05; cat $in > $out
rule pooled
  command = sleep 0.1; cat $in > $out
  pool = two
rule talk
  command = echo talking; cat $in > $out
  pool = console
rule keep
  command = cmp -s $in $out || cp $in $out
  restat = 1
rule list
  command = cat $in > $out && echo "$out: $in list.h" > $out.d
  depfile = $out.d
  deps = gcc
rule slow
  command = touch begun; sleep $seconds; {until_gone('held')}; cat $in > $out
rule answer
  command = cat $out.rsp > $out
  rspfile = $out.rsp
  rspfile_content = $in $more
rule twice
  command = cat $in > $out_one && cat $in > $out_two
build a b c d: phony
build o/kept: keep s1
build o/kept2: keep o/kept
build alias: phony o/kept2
build o/user: copy alias_source | o/kept2
build o/p1: pooled s1
build o/p2: pooled s1
build o/p3: pooled s1 || o/p1
build o/talk1: talk s1
build o/talk2: talk s2
build o/listed: list s2
build o/answer: answer s1 s2
  more = and more
build o/one | o/two: twice s2
  out_one = o/one
  out_two = o/two
build a$ file$:of$$dollars#and$ more: copy $ name s1
build group: phony o/p1 o/p2 o/p3
build o/last: copy o/listed || group alias
build o/checked: copy s1 |@ o/valid
build o/valid: copy s2
build o/never: copy s2
include $where/more.ninja
subninja $where/less.ninja
"""


def shell_chain():
    """Restat, pools, the console, response files, several outputs, validations, odd names, an interrupt, failures."""
    it = Chain("shell")
    it.logs = it.build / "sub/kept"
    it.write("build.ninja", SHELL_MANIFEST)
    it.write("sub/more.ninja", b"build o/\xff\xfe: copy s1\nseconds = 0\n")
    it.write("sub/less.ninja", "seconds = 30\nbuild o/slow: slow s2\n  seconds = $wait\nwait = 0\n")
    for name in ("s1", "s2", "alias_source", " name", "list.h"):
        it.write(name, name + "\n")
    everything = ["o/user", "o/p3", "o/p2", "o/talk1", "o/talk2", "o/answer", "o/one", "a file:of$dollars#and more",
                  "o/last",
                  "o/checked", "o/slow", os.fsdecode(b"o/\xff\xfe")]
    it.record("every_kind_of_edge", *everything)
    it.write("s1", "s1\n")
    it.record("restat_cleans", "o/user", "o/last", "alias")
    it.write("list.h", "more\n")
    it.record("listed_header_changed", *everything)
    it.record("one_lane_for_each_job", "o/never", "o/user", own=["--lanes"])
    it.write("s2", "s2 again\n")
    it.record("source_named_with_a_caret", "s2^")
    it.record("nothing_to_do", "o/listed")
    (it.build / "begun").unlink()
    it.write("held", "")
    it.write("sub/less.ninja", "build o/slow: slow s2\n  seconds = 0.1\nbuild o/behind: copy o/slow\n")
    it.record("interrupted_while_slow", "o/behind", "o/p1", "o/p3", interrupt_when="begun")
    (it.build / "held").unlink()
    it.write("sub/less.ninja", "build o/slow: slow s2\n  seconds = 0.2\nbuild o/behind: copy o/slow\n")
    it.record("resumed", "o/behind", "o/p3")


FAILING_MANIFEST = """rule make
  command = sleep $time; test ! -e stop && cat $in > $out
rule break
  command = sleep $time; exit 1
rule shout
  command = echo shouting; exit 3
  pool = console
time = 0.02
build x: make s
build y: make s
  time = 0.1
build z: break s
build u: make z
build v: phony u y
build w: make x || v
build t: shout s
"""


def failing_chain():
    """Failures: the first one ends the build, any number of them, one on the console, a missing source."""
    it = Chain("failing")
    it.write("build.ninja", FAILING_MANIFEST)
    it.write("s", "s\n")
    it.record("first_failure_ends", "w", status=1)
    it.record("keep_going", "-k0", "w", "t", status=1)
    it.record("console_failure", "t", "y", status=NINJA.status_of_failure(3), jobs=1)
    it.write("build.ninja", FAILING_MANIFEST.replace("break s", "make s"))
    it.record("repaired", "w")
    it.record("recorded_with_lanes", "-k0", "t", "w", status=NINJA.status_of_failure(3), own=["--lanes"])
    it.write("s", "again\n")
    it.record("jobs_as_run", "w", own=["--jobs-as-run"])


SWITCHED_MANIFEST = """rule copy
  command = cat $in > $out # %s
rule keep
  command = cmp -s $in $out || cp $in $out
  restat = 1
rule list
  command = cat $in > $out && echo "$out: $in list.h" > $out.d
  depfile = $out.d
  deps = gcc
rule answer
  command = cat $out.rsp > $out
  rspfile = $out.rsp
  rspfile_content = $in $more
rule make
  command = test ! -e stop && touch $out
  generator = 1
build kept: keep s1
build user: copy kept
build listed: list s2 | user
build answer: answer s1 listed
build made: make s2
build group: phony user listed
build last: copy answer made || group
"""


def switched_chain(other):
    """Four builds of this Ninja, each behind one of another Ninja's: nothing changed, a source, a flag, a failure."""
    it = Chain(f"switched_from_{version_of(other)}")
    it.write("build.ninja", SWITCHED_MANIFEST % "one")
    for name in ("s1", "s2", "list.h"):
        it.write(name, name + "\n")

    def built_before():
        subprocess.run([other, "-k0"], cwd=it.build, stdin=subprocess.DEVNULL, capture_output=True)
        wait_for_another_stamp()

    built_before()
    it.record("nothing_changed")
    built_before()
    it.write("s1", "s1\n")
    it.write("list.h", "more\n")
    it.record("a_source_and_a_header_touched")
    built_before()
    it.write("build.ninja", SWITCHED_MANIFEST % "two")
    it.record("another_flag")
    it.write("stop", "")
    it.write("s2", "s2 again\n")
    built_before()
    it.record("a_failure", "-k0", status=1)


def version_of(ninja):
    return subprocess.run([ninja, "--version"], stdin=subprocess.DEVNULL, capture_output=True, text=True).stdout.strip()


# chain -> the function that makes it, what it needs, its recordings
CHAINS = {
    "cmake": (cmake_chain, ("ninja", "cmake", "cc"), (
        "first_build", "rebuilt_after_a_touch", "header_added", "failed_compile", "repaired",
        "generated_header_changed",
        "interrupted", "after_the_interrupt_with_another_manifest")),
    "shell": (shell_chain, ("ninja",), (
        "every_kind_of_edge", "restat_cleans", "listed_header_changed", "one_lane_for_each_job",
        "source_named_with_a_caret",
        "nothing_to_do", "interrupted_while_slow", "resumed")),
    "failing": (failing_chain, ("ninja",), (
        "first_failure_ends", "keep_going", "console_failure", "repaired", "recorded_with_lanes", "jobs_as_run")),
}

for _other in other_ninjas():
    CHAINS[f"switched_from_{version_of(_other)}"] = (functools.partial(switched_chain, _other), ("ninja",), (
        "nothing_changed", "a_source_and_a_header_touched", "another_flag", "a_failure"))


def made(chain):
    """The folder of a chain's recordings, which are made where they are not there yet."""
    folder = recordings() / chain
    if not folder.exists():
        CHAINS[chain][0]()
        (folder / "made").touch()
    if not (folder / "made").exists():
        raise AssertionError(f"the builds of the chain {chain} could not be recorded to their end")
    return folder
