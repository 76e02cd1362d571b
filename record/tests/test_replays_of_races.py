"""Real projects race in nothing; with one dependency taken out, in exactly what that ordered. So they do by recordings
that were made while Ninja ran, and by those of its logs."""

import json
import os
import pathlib
import subprocess
import unittest

import builds
import projects
import taken
from builds import missing_tools

BUILT = pathlib.Path(__file__).resolve().parents[2] / "crates/rebug_ask/out/rebug_ask"


def program():
    return os.environ.get("REBUG_ASK_PROGRAM") or str(BUILT)


class RacesOfProjects(unittest.TestCase):
    def races(self, recording, tools):
        """The races of a recording, as (maker, user), whether a command failed, and the status."""
        lacking = missing_tools(*tools)
        if not os.access(program(), os.X_OK):
            lacking = f"the program is not built: there is no {program()}"
        if lacking:
            self.skipTest(lacking)
        chain, name = recording
        done = subprocess.run([program(), "races", "--json", builds.made(chain) / name], capture_output=True)
        found = [it for it in map(json.loads, done.stdout.splitlines()) if it["kind"] != "not judged"]
        self.assertEqual(done.stderr, b"")
        failed = sum(it["kind"] == "failed" for it in found)
        allowed = {"race", "failed", "suspect"} if failed else {"race"}
        self.assertEqual({it["kind"] for it in found} - allowed, set())
        races = {(it["maker"]["output"], it["user"]["output"]) for it in found if it["kind"] == "race"}
        return sorted(races), failed > 0, done.returncode


def _shown(name):
    """A name as the program shows it."""
    text = "".join(chr(it) if 32 < it < 127 else rf"\x{it:02x}" for it in name.encode())
    return text.replace(r"\x20", r"\s")


def _taken(chain, name, tools, due):
    def test(self):
        due_shown = sorted((_shown(maker), _shown(user)) for maker, user in due)
        self.assertEqual(self.races((chain, name), tools), (due_shown, False, 4 if due else 0))

    return test


def _whole(chain, name):
    """A build with no race. The broken one failed by a fault of a source, so its status says that no cause is told."""
    failed = name == "broken"
    due = ([], failed, 5 if failed else 0)
    return lambda self: self.assertEqual(self.races((chain, name), projects.PROJECTS[chain][1]), due)


for _chain, (_, _tools, _due) in taken.RECORDED.items():
    for _name in ("passed", "logs"):
        setattr(RacesOfProjects, f"test_{_chain}_{_name}", _taken(_chain, _name, _tools, _due))
for _chain, (_, _, _names) in projects.PROJECTS.items():
    for _name in _names:
        setattr(RacesOfProjects, f"test_{_chain}_{_name}", _whole(_chain, _name))


if __name__ == "__main__":
    unittest.main()
