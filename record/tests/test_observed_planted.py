"""The planted projects, recorded by each observer with 1, 4 and 8 jobs: what their commands do is what is due."""

import os
import sys
import unittest

import builds
from observing import Footprint, WithRoom
from planted import PROJECTS, Project

LEAVES = ("writes", "edits", "deletes", "temps")
LOOKS = ("reads", "stats", "misses", "lists")
# A Python that runs without the user's own settings, and writes no compiled copies beside its sources.
PYTHON = f"{os.path.realpath(sys.executable)} -B -E"


def parent(path: bytes) -> bytes:
    return path.rpartition(b"/")[0] or b"."


def conflicts(commands: dict[bytes, Footprint]) -> set[tuple[bytes, bytes]]:
    """Each command and path (of a listing its folder) where it looks at what another leaves. The build folder itself,
    at which every shell looks, is none."""
    found = set()
    for user, its in commands.items():
        for maker, others in commands.items():
            left = {path for kind in LEAVES for path in getattr(others, kind)} if user != maker else set()
            found |= {(user, path) for kind in LOOKS[:3] for path in getattr(its, kind) & left}
            found |= {(user, folder) for folder in its.lists if folder in map(parent, left)}
    return found


class Cases(WithRoom):
    """The cases, for each observer."""

    def hold(self, project: Project, jobs: int):
        if builds.missing_tools(*project.tools):
            self.skipTest(builds.missing_tools(*project.tools))
        found = self.room.build(self.observer, project.manifest(PYTHON), project.files, words=("-j", str(jobs)))
        self.assertEqual(found.status, 0, found.said)
        self.assertNotIn("not observed whole", found.said)
        commands, due = found.commands, set()
        for user, kinds, path in (it.encode().split(b" ") for it in project.due):
            looks = {kind for kind in LOOKS if path in getattr(commands[user], kind)}
            self.assertTrue(looks & set(kinds.decode().split("|")), f"{project.name}: {user} {path}: {looks}")
            due.add((user, path))
        for maker, kinds, path in (it.encode().split(b" ") for it in project.changes):
            left = {kind for kind in LEAVES if path in getattr(commands[maker], kind)}
            self.assertTrue(left & set(kinds.decode().split("|")), f"{project.name}: {maker} {path}: {left}")
        for edge, its in commands.items():
            self.assertEqual((edge in its.writes, its.flags), ((found.folder / os.fsdecode(edge)).exists(), set()))
        self.assertLessEqual(conflicts(commands), due)


def _test(project: Project, jobs: int):
    return lambda self: self.hold(project, jobs)


for _project in PROJECTS:
    for _jobs in (1, 4, 8):
        setattr(Cases, f"test_{_project.name}_with_{_jobs}_jobs", _test(_project, _jobs))


class OwnCases(Cases, unittest.TestCase):
    observer = "own"


class StraceCases(Cases, unittest.TestCase):
    observer = "strace"


if __name__ == "__main__":
    unittest.main()
