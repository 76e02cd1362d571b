"""The recorded examples: rebug accepts each recording, answers each story as its report has it, and the README
beside it quotes lines that are there."""

import os
import pathlib
import subprocess
import tempfile
import unittest

from recorder.checking import check
from test_replays import program, why_not

EXAMPLES = pathlib.Path(__file__).resolve().parents[2] / "examples"


class ReplaysOfExamples(unittest.TestCase):
    def program(self):
        unable = why_not()
        if unable:
            self.skipTest(unable)
        return os.path.abspath(program())

    def report_of(self, folder, trace):
        """What is reported of a trace, with the manifest and the script or story that lie beside it, and the status."""
        words = ["--manifest", "build.ninja", "--trace", trace, "--script", "script"]
        if (folder / "replay").exists():
            words = (folder / "replay").read_text().splitlines()[-1].split()[2:]
            words[words.index("--trace") + 1] = trace
            words[words.index("--script") + 1] = "story"
        done = subprocess.run([self.program(), *words], cwd=folder, stdin=subprocess.DEVNULL, capture_output=True)
        return done.stdout, done.returncode


def _check_test(folder):
    def test(self):
        said = []
        self.assertEqual(check(str(folder), self.program(), said.append), 0, said)

    return test


def _story_test(folder):
    def test(self):
        words = (folder / "replay").read_text().splitlines()[-1].split()[2:]
        words[words.index("--script") + 1] = "story"
        done = subprocess.run([self.program(), *words], cwd=folder, stdin=subprocess.DEVNULL, capture_output=True)
        self.assertEqual(done.stdout, (folder / "report").read_bytes())
        self.assertEqual(done.returncode, 0)

    return test


def _plain_test(folder):
    """An example whose script lies beside its trace is answered as its report has it."""

    def test(self):
        words = ["--manifest", "build.ninja", "--trace", "trace", "--script", "script"]
        done = subprocess.run([self.program(), *words], cwd=folder, stdin=subprocess.DEVNULL, capture_output=True)
        self.assertEqual(done.stdout, (folder / "report").read_bytes())
        self.assertEqual(done.returncode, 0)

    return test


def _migrated_test(folder):
    """With `--migrate` all bytes of the trace but its first line are kept, and the report is the one it was. Manifest
    and script are not read then."""

    def test(self):
        first, rest = (folder / "trace").read_bytes().split(b"\n", 1)
        words = ["--manifest", "none", "--trace", "trace", "--script", "none", "--migrate"]
        done = subprocess.run([self.program(), *words], cwd=folder, stdin=subprocess.DEVNULL, capture_output=True)
        self.assertEqual(done.stdout, b"rebug-trace 2\n" + rest)
        self.assertEqual(done.returncode, 0)
        with tempfile.NamedTemporaryFile() as trace:
            trace.write(done.stdout)
            trace.flush()
            self.assertEqual(*(self.report_of(folder, name) for name in ("trace", trace.name)))

    return test


def _version_test(folder):
    """The same lanes in version 2, in the order of time, have the report that they have in version 1."""

    def test(self):
        self.assertEqual(self.report_of(folder, "trace-2"), ((folder / "report").read_bytes(), 0))

    return test


def _plain_quote_test(folder):
    """Each indented line of the README that begins as a line of the report does stands there."""

    def test(self):
        known = (folder / "report").read_text().splitlines()
        begins = {line.split()[0] for line in known}
        quoted = [line[4:] for line in (folder / "README.md").read_text().splitlines() if line.startswith("    ")]
        trace = (folder / "trace").read_text().splitlines()
        answers = [it for it in quoted if it and it.split()[0] in begins and it not in trace]
        self.assertEqual([it for it in answers if it not in known], [])

    return test


def _quoted(text):
    """The indented lines of a page, without the blocks below a comment, which `tests/pages` runs and compares."""
    lines, is_run = [], False
    for line in text.splitlines():
        is_run = line.startswith("<!-- ") or is_run and (not line or line.startswith("    "))
        if line.startswith("    ") and not is_run:
            lines.append(line[4:])
    return lines


def _quote_test(readme):
    """Each indented line of a README that reads as an answer stands in a report or a trace beside it."""

    def test(self):
        files = [it for name in ("report", "trace") for it in readme.parent.glob(f"*/{name}")]
        known = {line for it in files for line in it.read_text().splitlines()}
        words = ("why ", "mark ", "job ", "dependents ", "start ", "finish ", "fail ", "kept ", "stamp ")
        answers = [it for it in _quoted(readme.read_text()) if it.startswith(words) or it[:1].isdigit()]
        self.assertGreater(len(answers), 5)
        self.assertEqual([it for it in answers if it not in known], [])

    return test


for _story in sorted(EXAMPLES.glob("*/*/story")):
    _name = "_".join(_story.parent.relative_to(EXAMPLES).parts)
    setattr(ReplaysOfExamples, f"test_{_name}_is_accepted", _check_test(_story.parent))
    setattr(ReplaysOfExamples, f"test_{_name}_story", _story_test(_story.parent))
for _example in sorted({it.parents[1] for it in EXAMPLES.glob("*/*/story")}):
    setattr(ReplaysOfExamples, f"test_{_example.name}_quotes_what_is_there", _quote_test(_example / "README.md"))
for _plain in sorted(EXAMPLES.glob("*/script")):
    setattr(ReplaysOfExamples, f"test_{_plain.parent.name}_is_answered", _plain_test(_plain.parent))
    setattr(ReplaysOfExamples, f"test_{_plain.parent.name}_quotes_its_report", _plain_quote_test(_plain.parent))
for _trace in sorted([*EXAMPLES.glob("*/trace"), *EXAMPLES.glob("*/*/trace")]):
    _name = "_".join(_trace.parent.relative_to(EXAMPLES).parts)
    setattr(ReplaysOfExamples, f"test_{_name}_is_migrated", _migrated_test(_trace.parent))
for _trace in sorted(EXAMPLES.glob("*/trace-2")):
    setattr(ReplaysOfExamples, f"test_{_trace.parent.name}_in_version_two", _version_test(_trace.parent))
