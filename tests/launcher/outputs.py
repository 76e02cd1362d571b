"""Tests of where answers go: files that are named, pipes whose reader goes away, and devices that take nothing."""

import os
import stat
import subprocess
import threading
import unittest

from room import Room

# As rebug_ask it answers a line, and writes the file that --write-baseline names. END has it end in between.
FAKE_TELL = """#!/bin/bash
echo "given $*"
name=""
for word in "$@"; do
  case $before:$word in
    --write-baseline:*) name=$word ;;
    *:--write-baseline=*) name=${word#*=} ;;
  esac
  before=$word
done
if [ -n "$name" ]; then
  {
    printf 'half'
    if [ -n "${END-}" ]; then
      echo "rebug: cannot write $name" >&2
      eval "$END"
    fi
    printf ' and whole'
  } >"$name"
fi
exit "${STATUS-0}"
"""


class Outputs(Room):
    """What is written, and what is said where it cannot be."""

    def setUp(self):
        super().setUp()
        self.folder = f"{self.top}/examples/first"
        self.write("examples/first/recorded/trace", "")
        self.before = set(os.listdir(self.folder))

    def text(self, name):
        with open(f"{self.folder}/{name}", encoding="utf-8") as file:
            return file.read()

    def made(self):
        """The names in the folder that were not there."""
        return sorted(set(os.listdir(self.folder)) - self.before)

    # FILES THAT ARE NAMED

    def test_a_picture_takes_its_place_when_it_is_whole(self):
        self.write("examples/first/drawn.svg", "as it was")
        for word, name in (("picture", "drawn.svg"), ("timeline", "drawn.json")):
            self.write(f"examples/first/{name}", "as it was")
            for ending in ("exit 3", "kill -9 $$"):
                self.stand_in(f"printf half\n{ending}\n")
                self.assertNotEqual(self.call(word, "recorded", name).returncode, 0)
                self.assertEqual(self.text(name), "as it was")
            self.stand_in("printf 'whole %s' \"$*\"\n")
            ran = self.call(word, "recorded", name, "--event", "2")
            self.assertEqual((ran.returncode, ran.stdout, ran.stderr), (0, "", ""))
            self.assertEqual(self.text(name), f"whole {word} recorded --event 2")
        ran = self.call("picture", "recorded", "new.svg")
        self.assertEqual((ran.returncode, self.text("new.svg")), (0, "whole picture recorded"))
        ran = self.call("picture", "recorded", "nowhere/drawn.svg")
        self.assertEqual((ran.returncode, ran.stderr), (3, "rebug: cannot write nowhere/drawn.svg\n"))
        # what the program is to refuse, it is asked
        for words in (("drawn.svg", "--html"), ("drawn.svg", "other.svg"), ("drawn.html",), ()):
            ran = self.call("picture", "recorded", *words)
            self.assertEqual(ran.stdout, " ".join(("whole picture recorded", *words)))
        self.assertEqual(self.made(), ["drawn.json", "drawn.svg", "new.svg"])

    def test_a_baseline_takes_its_place_when_it_is_whole(self):
        self.stand_in(FAKE_TELL)
        for word in ("races", "certify"):
            self.write("examples/first/known", "as it was")
            for name in ("--write-baseline", "known"), ("--write-baseline=known",):
                for ending in ("exit 3", "kill -9 $$"):
                    ran = self.call(word, "recorded", *name, END=ending)
                    self.assertNotEqual(ran.returncode, 0)
                    self.assertEqual((self.text("known"), ran.stderr), ("as it was", "rebug: cannot write known\n"))
            for status in ("0", "4", "5"):
                ran = self.call(word, "recorded", "--write-baseline", "known", "--all", STATUS=status)
                self.assertEqual((ran.returncode, ran.stderr, self.text("known")), (int(status), "", "half and whole"))
                self.assertTrue(ran.stdout.startswith(f"given {word} recorded --all --write-baseline known."))
                self.write("examples/first/known", "as it was")
        ran = self.call("races", "recorded", "--write-baseline", "new", "--color", "always")
        self.assertEqual((ran.returncode, self.text("new")), (0, "half and whole"))
        ran = self.call("races", "recorded", "--write-baseline", "nowhere/known")
        self.assertEqual((ran.returncode, ran.stdout, ran.stderr), (3, "", "rebug: cannot write nowhere/known\n"))
        self.assertEqual(self.made(), ["known", "new"])

    def test_what_a_file_may_be_stays(self):
        self.stand_in(FAKE_TELL)
        self.write("examples/first/known", "as it was")
        os.chmod(f"{self.folder}/known", 0o640)
        self.call("races", "recorded", "--write-baseline", "known")
        self.assertEqual(self.text("known"), "half and whole")
        self.assertEqual(stat.S_IMODE(os.stat(f"{self.folder}/known").st_mode), 0o640)

    def test_links_and_files_of_two_names_are_written_as_they_are(self):
        self.stand_in(FAKE_TELL)
        self.write("examples/first/known", "as it was")
        os.symlink("known", f"{self.folder}/by")
        os.symlink("later", f"{self.folder}/to")
        os.link(f"{self.folder}/known", f"{self.folder}/second")
        inode = os.stat(f"{self.folder}/known").st_ino
        for name, target in (("by", "known"), ("second", "known"), ("to", "later")):
            self.write("examples/first/known", "as it was")
            ran = self.call("races", "recorded", "--write-baseline", name)
            self.assertEqual((ran.stdout, ran.returncode), (f"given races recorded --write-baseline {name}\n", 0))
            self.assertEqual(self.text(target), "half and whole")
        self.assertEqual((os.readlink(f"{self.folder}/by"), os.readlink(f"{self.folder}/to")), ("known", "later"))
        self.assertEqual(os.stat(f"{self.folder}/second").st_ino, inode)
        self.stand_in('echo "given $*"\n')
        os.symlink("drawn", f"{self.folder}/by.svg")
        self.assertEqual(self.call("picture", "recorded", "by.svg").stdout, "given picture recorded by.svg\n")

    @unittest.skipIf(os.geteuid() != 0, "another owner's file needs the superuser")
    def test_a_file_stays_its_owners(self):
        self.stand_in(FAKE_TELL)
        self.write("examples/first/known", "as it was")
        for owner, group in ((65534, -1), (0, 65534)):
            os.chown(f"{self.folder}/known", owner, group)
            ran = self.call("races", "recorded", "--write-baseline", "known")
            self.assertEqual((ran.stdout, ran.returncode), ("given races recorded --write-baseline known\n", 0))
            found = os.stat(f"{self.folder}/known")
            self.assertEqual((found.st_uid, self.text("known")), (owner, "half and whole"))
        self.assertEqual(found.st_gid, 65534)
        self.assertEqual(self.made(), ["known"])

    def test_pipes_and_devices_are_written_as_they_are(self):
        self.stand_in(FAKE_TELL)
        pipe = f"{self.folder}/pipe"
        os.mkfifo(pipe)
        read = []

        def take():
            with open(pipe, encoding="utf-8") as file:
                read.append(file.read())

        reader = threading.Thread(target=take)
        reader.start()
        ran = self.call("races", "recorded", "--write-baseline", "pipe")
        reader.join(timeout=60)
        self.assertEqual((ran.returncode, ran.stdout), (0, "given races recorded --write-baseline pipe\n"))
        self.assertEqual(read, ["half and whole"])
        self.assertTrue(stat.S_ISFIFO(os.stat(pipe).st_mode))
        ran = self.call("races", "recorded", "--write-baseline", "/dev/null")
        self.assertEqual((ran.returncode, ran.stderr), (0, ""))
        self.assertTrue(stat.S_ISCHR(os.stat("/dev/null").st_mode))

    # THE STANDARD OUTPUT

    def test_where_nothing_can_be_written_the_status_is_3(self):
        self.stand_in('echo "race a made by b (build.ninja:14)"\necho "1 ok"\nexit 4\n')
        for words in (("races", "recorded", "--color", "always"), ("ask", "recorded", "kept"),
                      ("ask", "--json", "recorded", "kept"), ("certify", "recorded", "--color=always")):
            with open("/dev/full", "w", encoding="utf-8") as full:
                ran = subprocess.run([f"{self.top}/rebug", *words], timeout=600, **{**self.how(), "stdout": full})
            self.assertEqual((ran.returncode, ran.stderr), (3, "rebug: cannot write\n"), words)

    def test_a_reader_that_goes_away_is_no_fault(self):
        # More than a pipe takes, so that the program meets the end of its reader.
        self.stand_in("#!/bin/bash\nfor ((n = 0; n < 20000; n++)); do\n"
                      '  echo "line $n of many" 2>/dev/null || { echo "rebug: cannot write" >&2; exit 3; }\n'
                      "done\nexit 4\n")
        for words in (("races", "recorded"), ("races", "recorded", "--color", "always"), ("ask", "recorded", "kept"),
                      ("picture", "recorded"), ("timeline", "recorded"), ("help",)):
            for handler in (True, False):
                with subprocess.Popen([f"{self.top}/rebug", *words], **self.how(), restore_signals=handler) as ran:
                    first = ran.stdout.readline()
                    ran.stdout.close()
                    said = ran.stderr.read()
                    self.assertEqual((first, said, ran.wait(timeout=600)), ("line 0 of many\n", "", 4), words)

    # A RECORDING'S OWN FOLDER

    def test_what_is_no_folder_of_a_recorder_is_not_followed(self):
        self.stand_in('echo "given $*"\n')
        self.write("elsewhere/replay", "")
        self.write("elsewhere/secret", "of somebody\n")
        os.symlink("../../../elsewhere", f"{self.folder}/recorded/.moving")
        for words in (["races", "recorded"], ["ask", "recorded", "kept"], ["picture", "recorded"]):
            ran = self.call(*words)
            self.assertEqual((ran.stdout.split()[:3], ran.stderr), (["given", words[0], "recorded"], ""))
        os.remove(f"{self.folder}/recorded/.moving")
        os.mkdir(f"{self.folder}/recorded/.moving")
        os.symlink("../../../../elsewhere/replay", f"{self.folder}/recorded/.moving/replay")
        self.assertEqual(self.call("races", "recorded").stderr, "")

    def test_a_list_that_is_a_link_leaves_nothing_out(self):
        self.stand_in('for it; do [ -d "$it" ] && (cd "$it" && echo $(ls -A)); done\n')
        self.write("elsewhere", "observed\ntrace\n")
        for name in ("observed", ".moving/replay", ".moving/trace"):
            self.write(f"examples/first/recorded/{name}", "")
        os.symlink("../../../../elsewhere", f"{self.folder}/recorded/.moving/.without")
        self.assertEqual(self.call("races", "recorded").stdout, "observed replay trace\n")
