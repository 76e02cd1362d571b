"""The room in which the launcher is tested: a small copy of the repository, with a command rt that only says what the
kit's would say."""

import os
import shutil
import subprocess
import tempfile
import unittest

TOP = os.path.dirname(os.path.dirname(os.path.dirname(os.path.realpath(__file__))))

# `rt try` answers as the kit does. `rt ci` notes the files of its folder and writes a program, unless BREAK has it fail
# or HOLD has it wait; SLOW is how long it takes. It notes the number of lanes that it was given, too.
FAKE_RT = """#!/usr/bin/env bash
echo "$*" >>"$CALLS"
case $1 in
  version) echo "rattle-kit-0 logic 0" ;;
  try)
    echo "unproved report"
    cat
    {
      echo "rebug: a sentence of the program"
      echo "checked: ended status=1"
      echo "races: not looked for"
      if [ -n "${NO_ANSWER-}" ]; then
        echo "run=no-answer proved=no"
        exit 6
      fi
      echo "run=ended status=${STATUS-1} runners=1 races=unchecked proved=no"
    } >&2
    exit "${STATUS-1}"
    ;;
  ci)
    find . -type f | LC_ALL=C sort >"$CALLS.copy"
    [ -d crates/rebug_ask ] && program=rebug_ask || program=rebug
    echo "${RT_JOBS-}" >"$CALLS.$program"
    echo "rt: rev_causal proved"
    sleep "${SLOW-0}"
    if [ -n "${HOLD-}" ]; then
      echo $$ >"$HOLD"
      exec sleep 900
    fi
    if [ -n "${BREAK-}" ]; then
      echo "rt: rebug NOT PROVED"
      echo "$PWD/crates/rebug is named"
      echo "1 passed, 1 failed"
      exit 1
    fi
    for name in rebug rebug_ask; do
      [ -d "crates/$name" ] || continue
      mkdir -p "crates/$name/out"
      printf '#!/bin/sh\\necho "proved report $*"\\n' >"crates/$name/out/$name"
      chmod +x "crates/$name/out/$name"
      echo "rt: $name proved"
    done
    echo "2 passed, 0 failed"
    exit 0
    ;;
esac
"""


class Room(unittest.TestCase):
    """A small copy of the repository, in which the launcher is called."""

    def setUp(self):
        self.room = tempfile.mkdtemp()
        self.addCleanup(shutil.rmtree, self.room)
        self.top, self.calls = f"{self.room}/clone", f"{self.room}/calls"
        self.program = f"{self.top}/crates/rebug/out/rebug"
        os.makedirs(f"{self.top}/tools")
        shutil.copy(f"{TOP}/rebug", self.top)
        for name in ("prove", "launcher.bash", "sources.bash", "unproved.bash", "session", "colours.sed", "costs.py",
                     "gate.py", "lanes", "proof-seconds"):
            shutil.copy(f"{TOP}/tools/{name}", f"{self.top}/tools")
        shutil.copy(f"{TOP}/crates.txt", self.top)
        shutil.copytree(f"{TOP}/examples/first", f"{self.top}/examples/first")
        with open(f"{TOP}/crates.txt", encoding="utf-8") as file:
            names = [line.split(":")[0].split()[0] for line in file if ":" in line]
        for name in names:
            self.write(f"crates/{name}/src/lib.rt", f"// {name}\n")
        os.makedirs(f"{self.room}/bin")
        with open(f"{self.room}/bin/rt", "w", encoding="utf-8") as file:
            file.write(FAKE_RT)
        os.chmod(f"{self.room}/bin/rt", 0o755)

    def write(self, name, text):
        os.makedirs(os.path.dirname(f"{self.top}/{name}"), exist_ok=True)
        with open(f"{self.top}/{name}", "w", encoding="utf-8") as file:
            file.write(text)

    def how(self, **more):
        path = f"{self.room}/bin:{os.environ['PATH']}"
        return {
            "cwd": f"{self.top}/examples/first",
            "env": {**os.environ, "PATH": path, "CALLS": self.calls, **more},
            "stdout": subprocess.PIPE,
            "stderr": subprocess.PIPE,
            "text": True,
        }

    def call(self, *words, **more):
        return subprocess.run([f"{self.top}/rebug", *words], timeout=600, **self.how(**more))

    def stand_in(self, text):
        """A program that stands for rebug_ask."""
        self.write("crates/rebug_ask/out/rebug_ask", text if text.startswith("#!") else "#!/bin/sh\n" + text)
        os.chmod(f"{self.top}/crates/rebug_ask/out/rebug_ask", 0o755)

    def called(self):
        """The first words of what rt was asked since the last look, `version` left out."""
        try:
            with open(self.calls, encoding="utf-8") as file:
                words = [line.split()[0] for line in file]
        except OSError:
            return []
        os.remove(self.calls)
        return [it for it in words if it != "version"]
