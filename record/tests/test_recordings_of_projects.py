"""The six builds of each project: the events are the edges of Ninja's log, in its order, and the times are its."""

import json
import unittest

import builds
import projects
from builds import missing_tools, unescaped


class RecordingsOfProjects(unittest.TestCase):
    """Each looks at one recording."""

    def recording(self, project, name):
        lacking = missing_tools(*projects.PROJECTS[project][1])
        if lacking:
            self.skipTest(lacking)
        folder = builds.made(project)
        text = (folder / name / "trace").read_bytes()
        events = text[text.index(b"\nlane 0\n") + 8 :].split(b"\n")[:-1]
        times = (folder / name / "times").read_text().split("\n")
        noted = folder / f"{name}.planned"
        return events, times, json.loads(noted.read_text()) if noted.exists() else None

    def test_what_is_built_is_what_is_to_be_seen(self):
        """The six builds are what their names say."""
        for project in projects.PROJECTS:
            with self.subTest(project=project):
                counts = {}
                for name in projects.STEPS:
                    events, _, _ = self.recording(project, name)
                    counts[name] = [sum(it.startswith(word) for it in events) for word in
                                    (b"start ", b"finish ", b"fail ", b"abort ")]
                self.assertGreater(counts["clean"][0], 9)
                self.assertEqual(counts["clean"][0], counts["clean"][1])
                self.assertTrue(0 < counts["header_touched"][1] < counts["clean"][1])
                self.assertEqual(counts["broken"][2], 1)
                self.assertEqual(counts["mended"][2:], [0, 0])
                events = [it.split(b" ") for it in self.recording(project, "interrupted")[0]]
                aborted = {it[1] for it in events if it[0] == b"abort"}
                self.assertIn(b"step.h", aborted)
                self.assertNotIn(b"greet", aborted)  # which waits for it; a slow machine may still run another one
                self.assertGreater(counts["resumed"][1], 1)


def _test(project, name):
    def test(self):
        events, times, noted = self.recording(project, name)
        self.assertEqual(times[0], "rebug-times 1")
        self.assertEqual([it.split(" ")[0] for it in times[1:-1]], [f"0:{at}" for at in range(1, len(events) + 1)])
        if noted is None or noted["logged"] is None:
            return
        finished = {unescaped(it.split(b" ")[1]).decode("latin-1"): int(time.split(" ")[1])
                    for it, time in zip(events, times[1:]) if it.startswith(b"finish ")}
        logged = {}
        for end, output in noted["logged"]:
            logged.setdefault(output, end)
        # an edge of several outputs has a line of the log for each, and an event of its first one
        self.assertEqual([(it, logged.get(it)) for it in finished], [(it, end) for it, end in finished.items()])
        self.assertEqual({end for end, _ in noted["logged"]}, set(finished.values()))
        self.assertEqual(list(finished), [it for it in logged if it in finished])
        starts = [it.split(b" ") for it in events if it.startswith(b"start ")]
        self.assertEqual([int(it[2]) for it in starts], list(range(len(starts))))

    return test


for _project, (_, _, _names) in projects.PROJECTS.items():
    for _name in _names:
        setattr(RecordingsOfProjects, f"test_{_project}_{_name}", _test(_project, _name))


if __name__ == "__main__":
    unittest.main()
