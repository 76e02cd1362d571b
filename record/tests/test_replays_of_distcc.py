"""A build through distcc, with two daemons on this machine: its races and its first causes are those of the same build
without distcc. Its socket is a flag that names it, and a file of the user's trusts it."""

from __future__ import annotations

import json
import os
import pathlib
import shutil
import signal
import socket
import subprocess
import sys
import tempfile
import time
import unittest

import builds
import contents_1
from observing import refusal
from test_replays_of_races import program

MANIFEST = """rule gen
  command = echo 'int n;' > $out
rule cc
  command = @CC@ -c $in -o $out
rule ld
  command = cat $in > $out
build gen.h: gen
build main.o: cc main.c
build date.o: cc date.c
build same.o: cc same.c
build app: ld main.o date.o same.o
"""
SOURCES = {"main.c": '#include "gen.h"\n', "date.c": 'const char *now = __DATE__ " " __TIME__;\n',
           "same.c": "int same(void) { return 1; }\n"}
TRUST = """rebug-trust 1
socket distcc 127.0.0.1:* distcc compiles as the compiler here does
ipc distcc lock distcc counts its jobs by locks in its own folder
"""
COMPILED = {"main.o", "date.o", "same.o"}


class Daemon:
    """A distccd on a port of the loopback, in a session of its own."""

    def __init__(self, folder: pathlib.Path) -> None:
        with socket.socket() as found:
            found.bind(("127.0.0.1", 0))
            self.port = found.getsockname()[1]
        user = ["--user", "nobody"] if os.geteuid() == 0 else []
        words = ["distccd", "--daemon", "--no-detach", "--allow", "127.0.0.1", "--listen", "127.0.0.1", "--port",
                 str(self.port), "--jobs", "2", "--enable-tcp-insecure", "--log-stderr", *user]
        self.process = subprocess.Popen(words, env={**os.environ, "TMPDIR": str(folder)}, stdin=subprocess.DEVNULL,
                                        stdout=subprocess.DEVNULL, stderr=subprocess.DEVNULL, start_new_session=True)

    def answers(self) -> bool:
        with socket.socket() as found:
            return found.connect_ex(("127.0.0.1", self.port)) == 0

    def end(self) -> None:
        os.killpg(self.process.pid, signal.SIGKILL)
        self.process.wait()


class Distcc(unittest.TestCase):
    @classmethod
    def setUpClass(cls) -> None:
        lacking = builds.missing_tools("distcc", "distccd", "gcc") or refusal("own")
        if not lacking and not os.access(program(), os.X_OK):
            lacking = f"the program is not built: there is no {program()}"
        if lacking:
            raise unittest.SkipTest(lacking)
        cls.room = pathlib.Path(tempfile.mkdtemp(prefix="rebug-distcc-"))
        cls.addClassCleanup(shutil.rmtree, cls.room, ignore_errors=True)
        cls.room.chmod(0o755)
        for name in ("state", "temporary"):
            (cls.room / name).mkdir()
            (cls.room / name).chmod(0o777)
        daemons = [Daemon(cls.room / "temporary") for _ in range(2)]
        for it in daemons:
            cls.addClassCleanup(it.end)
        cls.ports = [it.port for it in daemons]
        hosts = " ".join(f"127.0.0.1:{it.port}/2" for it in daemons)
        cls.environment = {**os.environ, "DISTCC_DIR": str(cls.room / "state"), "DISTCC_HOSTS": hosts,
                           "DISTCC_FALLBACK": "0"}
        for it in daemons:
            builds.wait_until(lambda it=it: it.answers() or it.process.poll() is not None, "distccd does not answer")
        (cls.room / "filters").write_text(f"{cls.room}/state\n")
        (cls.room / "trust").write_text(TRUST)
        cls.compile(cls.room)
        for name, compiler in (("plain", "gcc"), ("distributed", "distcc gcc")):
            cls.record(name, compiler)

    @classmethod
    def compile(cls, folder: pathlib.Path) -> None:
        """Compiles a file by each daemon, or skips the tests where they do not compile here."""
        (folder / "trial.c").write_text("int trial;\n")
        for host in cls.environment["DISTCC_HOSTS"].split():
            done = subprocess.run(["distcc", "gcc", "-c", "trial.c", "-o", "trial.o"], cwd=folder, capture_output=True,
                                  env={**cls.environment, "DISTCC_HOSTS": host}, text=True)
            if done.returncode:
                raise unittest.SkipTest(f"distcc compiles nothing here: {done.stderr.splitlines()[:1]}")

    @classmethod
    def record(cls, name: str, compiler: str) -> None:
        """Records the build twice from nothing, a command after another, at least a second apart."""
        build = cls.room / name
        for number in ("1", "2"):
            shutil.rmtree(build, ignore_errors=True)
            build.mkdir()
            for path, text in {"build.ninja": MANIFEST.replace("@CC@", compiler), **SOURCES}.items():
                (build / path).write_text(text)
            words = [sys.executable, builds.RECORDER, build, cls.room / f"{name}-{number}", "--contents", "--", "-j1",
                     "gen.h", "main.o", "date.o", "same.o", "app"]
            ran = subprocess.run(words, stdin=subprocess.DEVNULL, capture_output=True, text=True, env=cls.environment,
                                 timeout=builds.LONGEST_SECONDS)
            assert ran.returncode == 0, ran.stdout + ran.stderr
            ended = time.time()
            builds.wait_until(lambda since=ended: time.time() > since + 1, "no second goes by")

    def asked(self, word: str, name: str, *words: str) -> list[dict]:
        done = subprocess.run([program(), word, self.room / name, "--json", *words], capture_output=True)
        self.assertEqual((done.returncode, done.stderr), (4, b""))
        return [json.loads(it) for it in done.stdout.splitlines()]

    def test_the_flags_name_distcc_and_its_socket(self):
        for name, due in (("plain-1", set()), ("distributed-1", COMPILED)):
            found = contents_1.observed_2.read(self.room / name / "observed")
            flagged = {edge.decode() for edge, block in found.blocks.items() if block.flags}
            self.assertEqual(flagged, due)
            flags = {it[:3] for block in found.blocks.values() for it in block.flags}
            named = {(b"socket", b"connect", b"distcc"), (b"ipc", b"fcntl", b"distcc")}
            self.assertEqual(flags, named if due else set())

    def test_races_are_those_without(self):
        """The planted race alone. The places in distcc's own folder are hidden by a filter."""
        for name, words in (("plain-1", ()), ("distributed-1", ("--filters", self.room / "filters"))):
            found = self.asked("races", name, *words)
            races = [(it["path"], it["maker"]["output"], it["user"]["output"]) for it in found
                     if it["kind"] in ("race", "clash", "undeclared", "unlisted", "unstable")]
            self.assertEqual(races, [("gen.h", "gen.h", "main.o")], name)

    def test_a_certificate_with_trusted_flags_has_the_obstacles_of_one_without(self):
        words = ("--filters", self.room / "filters", "--trust", self.room / "trust")
        plain, distributed = self.asked("certify", "plain-1"), self.asked("certify", "distributed-1", *words)
        obstacles = [[it for it in found if it["kind"] not in ("certificate", "assumed", "trusted")]
                     for found in (plain, distributed)]
        self.assertEqual(*obstacles)
        self.assertEqual([it["path"] for it in obstacles[0]], ["gen.h"])
        self.assertEqual([found[0]["whole"] for found in (plain, distributed)], [5, 5 - len(COMPILED)])
        self.assertEqual({it["text"] for it in distributed if it.get("flag") == "socket"} -
                         {f"127.0.0.1:{port}" for port in self.ports}, set())

    def test_first_causes_are_those_without(self):
        """By the same contents. A command with a flag is a first cause where the flag is trusted."""
        for name in ("plain", "distributed"):
            pair = [contents_1.read(self.room / f"{name}-{number}") for number in "12"]
            for found in pair:
                for command in found.commands.values():
                    command.flags -= {"socket", "ipc"}
                    for places in (command.unsure, command.unsettled):  # of what the filter hides
                        places -= {it for it in places if it.startswith(os.fsencode(self.room / "state"))}
            classes = {edge.decode(): word for edge, word in contents_1.classes(*pair).items()}
            self.assertEqual(classes, {"gen.h": "same", "main.o": "same", "same.o": "same", "date.o": "first",
                                       "app": "propagated"}, name)

    def test_both_compile_to_the_same_bytes(self):
        self.assertEqual((self.room / "plain/same.o").read_bytes(), (self.room / "distributed/same.o").read_bytes())


if __name__ == "__main__":
    unittest.main()
