#!/usr/bin/env python3
"""Compares the run on threads with the run without them, byte for byte, on traces of one lane.

    one_lane.py CASES...

CASES is a file with a case on each line, as JSON: `files` is a list of pairs of name and content, the first of them the
manifest; `trace` and `script` are texts. A character stands for a byte.

Left out are traces of two lanes or more, and traces and scripts with labels or breaks: a break ends a `run`, and with
--workers the lanes do not stop there. Since `run` has another meaning with --workers, where the first one says all that
the lane has, a script's first `run` loses its number and its later ones are left out; its other words stay.
"""

import json
import os
import pathlib
import re
import subprocess
import sys
import tempfile

PROGRAM = pathlib.Path(__file__).resolve().parents[2] / "crates/rebug/out/rebug"
LABEL_OR_BREAK = re.compile(r"^(?:(?:undo|redo|cone|dependents) \d+:|break\b|unbreak\b|continue\b)", re.MULTILINE)


def is_of_one_lane(case):
    """Whether a case has one lane at most, and neither labels nor breaks."""
    lanes = re.findall(r"^lane ", case["trace"], re.MULTILINE)
    return len(lanes) <= 1 and not LABEL_OR_BREAK.search(case["trace"] + "\n" + case["script"])


def with_one_run(script):
    """The script with one `run`, which says all."""
    words, has_run = [], False
    for word in script.split("\n"):
        if word.split(" ")[0] != "run":
            words.append(word)
        elif not has_run:
            words.append("run")
            has_run = True
    return "\n".join(words)


def case_of(case):
    """A generated case of many lanes as one of one lane, which says what all of them have, by turns."""
    longest = max(map(len, case.lanes))
    commands = [lane[place] for place in range(longest) for lane in case.lanes if place < len(lane)]
    trace = [*case.opening, "lane 0", *(it for it in commands if not LABEL_OR_BREAK.search(it))]
    script = [it for it in case.script() if not LABEL_OR_BREAK.search(it)]
    texts = ["".join(f"{line}\n" for line in lines) for lines in (case.manifest, trace, script)]
    return {"files": [("build.ninja", texts[0])], "trace": texts[1], "script": texts[2]}


def write(case, folder):
    """Writes a case's files; gives the names of those of the manifest."""
    given = [("trace", case["trace"]), ("script", with_one_run(case["script"])), *case["files"]]
    for name, content in given:
        path = pathlib.Path(folder) / name
        path.parent.mkdir(parents=True, exist_ok=True)
        path.write_bytes(content.encode("latin-1"))
    return [name for name, _ in case["files"]]


def reports(program, case):
    """What is reported without threads and with them, each with its status."""
    with tempfile.TemporaryDirectory() as folder:
        names = write(case, folder)
        words = [program, "--manifest", names[0], "--trace", "trace", "--script", "script", *names[1:]]
        runs = [subprocess.run([*words, *options], cwd=folder, stdin=subprocess.DEVNULL, capture_output=True,
                               timeout=600)
                for options in ([], ["--workers"])]
    return [(done.stdout, done.returncode) for done in runs]


def main(words):
    if not words or words[0].startswith("-"):
        print(__doc__)
        return 2
    program = os.path.abspath(os.environ.get("REBUG_PROGRAM") or PROGRAM)
    cases = [json.loads(line) for name in words for line in pathlib.Path(name).read_text().splitlines()]
    taken = [case for case in cases if is_of_one_lane(case)]
    bad = []
    for place, case in enumerate(taken):
        alone, on_threads = reports(program, case)
        if alone != on_threads:
            bad.append(case.get("case", f"the one of place {place}"))
    print(f"{len(taken)} of {len(cases)} cases have one lane, {len(bad)} of them differ", *bad, sep="\n  ")
    return 1 if bad or not taken else 0


if __name__ == "__main__":
    sys.exit(main(sys.argv[1:]))
