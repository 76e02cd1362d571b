"""rebug's plan of each of the six builds is that of `ninja -n -v`."""

import json
import os
import subprocess
import unittest

import builds
import projects
from builds import missing_tools
from recorder.manifest import Manifest
from test_replays import program, why_not


class ReplaysOfProjects(unittest.TestCase):
    @classmethod
    def setUpClass(cls):
        cls.unable = why_not()


def _test(project, name):
    def test(self):
        lacking = self.unable or missing_tools(*projects.PROJECTS[project][1])
        if lacking:
            self.skipTest(lacking)
        folder = builds.made(project)
        # marks is not a question of the plan, so it is asked by a script of its own
        words = (folder / name / "replay").read_text().splitlines()[-1].split()[2:]
        words[words.index("--script") + 1] = "/dev/stdin"
        done = subprocess.run([os.path.abspath(program()), *words], cwd=folder / name, input=b"run 1\nmarks\n",
                              capture_output=True)
        manifest = Manifest(b"build.ninja", lambda it: (folder / name / os.fsdecode(it)).read_bytes())
        wanted = [manifest.edges[int(it.split(b" ")[1])] for it in done.stdout.split(b"\n") if it.endswith(b" wanted")]
        commands = sorted(it.ninja_command.split(b";rspfile=")[0].decode("latin-1") for it in wanted if not it.phony)
        planned = json.loads((folder / f"{name}.planned").read_text())["planned"]
        self.assertEqual(len(commands), int(planned[-1][0]) if planned else 0)
        # of the lines that come while an edge has the console Ninja shows the last one alone
        self.assertEqual([it for _, it in planned if it not in commands], [])
        if not any(edge.pool == b"console" for edge in wanted):
            self.assertEqual(sorted(it for _, it in planned), commands)

    return test


for _project, (_, _, _names) in projects.PROJECTS.items():
    for _name in _names:
        if _name != "manifest_made_anew":  # a dry run goes by the old one
            setattr(ReplaysOfProjects, f"test_{_project}_{_name}", _test(_project, _name))


if __name__ == "__main__":
    unittest.main()
