"""Replays the recordings by rebug itself: every command is accepted, and what rebug then shows is what the disk and
Ninja's logs said right after the run."""

import json
import os
import pathlib
import shutil
import subprocess
import tempfile
import unittest

import builds
import projects  # noqa: F401, adds its chains
from builds import CHAINS, missing_tools, unescaped
from recorder.checking import check
from recorder.manifest import Manifest
from versions import NINJA

BUILT = pathlib.Path(__file__).resolve().parents[2] / "crates/rebug/out/rebug"
# commands that every version which replays builds reads
PROBE_TRACE = b"rebug-trace 1\njobs 1\nlane 0\nplan\n"
PROBE_SCRIPT = b"run\nmarks\nlogs\n"


def program():
    return os.environ.get("REBUG_PROGRAM") or str(BUILT)


def probe(*options):
    """What the program reports of a build of nothing."""
    with tempfile.TemporaryDirectory() as folder:
        for name, text in (("m", b""), ("trace", PROBE_TRACE), ("script", PROBE_SCRIPT)):
            (pathlib.Path(folder) / name).write_bytes(text)
        words = [program(), "--manifest", "m", "--trace", "trace", "--script", "script", *options]
        return subprocess.run(words, cwd=folder, stdin=subprocess.DEVNULL, capture_output=True).stdout


def why_not():
    """Why nothing can be replayed here, or None."""
    if not os.access(program(), os.X_OK):
        return f"the program is not built: there is no {program()}"
    return None if probe() == b"1 0 ok\n" else f"{program()} is of a version that replays no builds"


def why_no_lanes():
    """Why recordings of several lanes cannot be replayed here, or None."""
    return None if probe("--workers") == b"1 0 ok\n" else f"{program()} is of a version that has no --workers"


class Replays(unittest.TestCase):
    @classmethod
    def setUpClass(cls):
        cls.unable = why_not()

    def replay(self, chain, name):
        lacking = self.unable or missing_tools(*CHAINS[chain][1])
        if lacking:
            self.skipTest(lacking)
        folder, said = builds.made(chain), []
        if "--workers" in (folder / name / "replay").read_text() and why_no_lanes():
            self.skipTest(why_no_lanes())
        status = check(str(folder / name), program(), said.append)
        self.assertEqual((status, said[0].split(":")[0]), (0, "rebug accepted every command"), said)
        expected = json.loads((folder / f"{name}.expected").read_text())
        self.look(folder / name, expected, is_interrupted="interrupted" in name.split("_")[0])

    def look(self, folder, expected, is_interrupted):
        with tempfile.TemporaryDirectory() as room:
            room = pathlib.Path(room) / "recording"
            shutil.copytree(folder, room)
            script = (room / "script").read_bytes().replace(b"kept\n", b"").replace(b"marks\n",
                                                                                    b"marks\nstamps\nlogs\n")
            (room / "script").write_bytes(script)
            done = subprocess.run(["sh", room / "replay"], env={**os.environ, "REBUG": os.path.abspath(program())},
                                  stdin=subprocess.DEVNULL, capture_output=True)
            manifest = Manifest(b"build.ninja", lambda name: (room / os.fsdecode(name)).read_bytes())
        self.assertEqual(done.returncode, 0, done.stderr)
        lines = [line.split(b" ") for line in done.stdout.split(b"\n")]
        self.assertEqual([b"halted"] in lines, is_interrupted)
        self.assertNotIn(b"running", [line[3] for line in lines if line[0] == b"mark"])
        self.look_at_stamps(lines, expected["stamps"])
        self.look_at_built(lines, expected, manifest, self.ended_well(folder))
        self.look_at_deps(lines, expected["deps"], manifest)

    def ended_well(self, recording):
        """The names of the edges whose commands ended well, as the trace has it."""
        lines = (recording / "trace").read_bytes().split(b"\n")
        return {unescaped(it.split(b" ")[1]) for it in lines if it.startswith(b"finish ")}

    def look_at_stamps(self, lines, disk):
        shown = {unescaped(line[1]).decode("latin-1"): int(line[2]) for line in lines if line[0] == b"stamp"}
        for path in disk.keys() | shown.keys():
            self.assertEqual(shown.get(path, 0), disk.get(path, 0), path)

    def look_at_built(self, lines, expected, manifest, ran):
        """Ninja writes one stamp into the records of all outputs of an edge; rebug each output's own. `ran` names the
        edges that ended well in this recording: what another run left stands in rebug's log as in Ninja's."""
        shown = {unescaped(line[1]): (int(line[2]), unescaped(line[3])) for line in lines if line[0] == b"built"}
        logged = {path.encode("latin-1"): it for path, it in expected["built"].items()}
        self.assertEqual({it for it in logged if it in manifest.producer}, set(shown))
        for path, (stamp, command) in shown.items():
            edge, stamp_of_ninja = manifest.producer[path], logged[path][0]
            stamps = [shown[it][0] for it in edge.outputs]
            if NINJA.logs_stamps_of_outputs:
                self.assertEqual(stamp_of_ninja, max(stamps), path)
            elif edge.name not in ran:
                self.assertEqual(stamp, stamp_of_ninja, path)
            else:
                self.look_at_built_by_start(edge, stamp_of_ninja, stamps)
            if logged[path][1] is not None:
                self.assertEqual(command == edge.command, logged[path][1], path)

    def look_at_built_by_start(self, edge, stamp_of_ninja, stamps):
        """From 1.12 on a record has the moment at which the command began, which is not later than what the command
        wrote; a command may also leave no file. Under `generator` it has the newest output; under `restat` too, where
        the command changed all outputs, and else rebug has for one that stayed the newest input."""
        if edge.restat:
            self.assertGreaterEqual(stamp_of_ninja, min(stamps), edge.name)
        elif edge.generator:
            self.assertEqual(stamp_of_ninja, max(stamps), edge.name)
        else:
            for stamp in filter(None, stamps):
                self.assertLessEqual(stamp_of_ninja, stamp, edge.name)

    def look_at_deps(self, lines, expected, manifest):
        shown = {unescaped(line[1]): [int(line[2]), *map(unescaped, line[3:])] for line in lines if line[0] == b"deps"}
        logged = {path.encode("latin-1"): [it[0], *(p.encode("latin-1") for p in it[1:])] for path,
                  it in expected.items()}
        self.assertEqual({it for it in logged if it in manifest.producer}, set(shown))
        for path, record in shown.items():
            self.assertEqual(record, logged[path], path)


def _test(chain, name):
    return lambda self: self.replay(chain, name)


for _chain, (_, _, _names) in CHAINS.items():
    for _name in _names:
        setattr(Replays, f"test_{_chain}_{_name}", _test(_chain, _name))
