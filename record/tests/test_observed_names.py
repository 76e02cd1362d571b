"""Entries have the names that they had when a call was made: names of one file, files that are renamed or taken away
while a process has them open, folders that are renamed or taken away while a process stands in them."""

import os
import unittest

import observed_2
from observing import WithRoom

TEXTS = {
    "other_name": "os.link('h/a', 'h/b'); open('h/b', 'a').write('x')",
    "other_name_alone": "open('h/b', 'a').write('x')",
    "moved_name": "os.rename('h/b', 'h/c')",
    "edited_then": "os.truncate('h/a', 0)",
    "gone_name": "os.link('g/a', 'g/b'); os.unlink('g/a'); open('g/b', 'a').write('x')",
    "rename_of_one_file": "os.link('s/a', 's/b'); os.rename('s/a', 's/b')",
    "renamed_while_open": "it = os.open('r/old', os.O_CREAT | os.O_WRONLY); os.rename('r/old', 'r/new'); "
                          "os.fchmod(it, 0o600)",
    "gone_while_open": "it = os.open('u/a', 0); os.unlink('u/a'); os.fchmod(it, 0o600)",
    "stamps_of_a_descriptor": "it = os.open('t/a', 0); os.utime(it)",
    "folder_moved": "os.chdir('m/d'); os.rename('../d', '../e'); open('x').read(); open('new', 'w').write('1')",
    "folder_gone": "os.mkdir('f/d'); os.chdir('f/d'); os.rmdir('../d'); open('../x').read(); "
                   "open('../new', 'w').write('1')",
    "looks_in_a_folder_that_is_gone": "os.mkdir('l/d'); os.chdir('l/d'); os.rmdir('../d'); os.path.exists('out_of_it')",
    "folder_of_another": "import subprocess; child = subprocess.Popen(['cat'], cwd='p', stdin=subprocess.PIPE); "
                         "open(f'/proc/{child.pid}/cwd/a').read(); child.communicate()",
    "out_of_it": "pass",
}
FILES = {"h/a": "1", "g/a": "1", "s/a": "1", "r/x": "", "u/a": "1", "t/a": "1", "m/d/x": "1", "f/x": "1", "l/x": "1",
         "p/a": "1"}
MANIFEST = "rule c\n  command = python3 -S scripts/$out.py && : > $out\n"


def manifest() -> str:
    """Each command after the one before."""
    names = list(TEXTS)
    return MANIFEST + "".join(f"build {it}: c{f' | {names[at - 1]}' if at else ''}\n" for at, it in enumerate(names))


class Names(WithRoom):
    @classmethod
    def setUpClass(cls):
        super().setUpClass()
        scripts = {f"scripts/{name}.py": "import os\n" + text.replace("; ", "\n") for name, text in TEXTS.items()}
        found = cls.room.build(cls.observer, manifest(), {**FILES, **scripts}, words=("-j", "1"), read=False)
        assert found.status == 0, found.said
        cls.observed = observed_2.read(found.out / "observed")

    def has(self, name: str, **due: str) -> None:
        """What the file says of a command below the folders of its files, in lines of these words and no others."""
        block = self.observed.blocks[name.encode()]
        found = {word: " ".join(sorted(os.fsdecode(it) for it in block.of(word) if b"/" in it and b"scripts" not in it))
                 for word in ("read", "status", "left", "edited", "taken", "temps")}
        self.assertEqual({word: its for word, its in found.items() if its}, due)
        self.assertEqual(block.flags, [])

    def test_names_of_one_file(self):
        self.has("other_name", read="h/a", left="h/b", edited="h/a")
        self.has("other_name_alone", edited="h/a h/b")
        self.has("moved_name", read="h/b", left="h/c", taken="h/b")
        self.has("edited_then", edited="h/a h/c")
        self.assertIn({b"h/a", b"h/b", b"h/c"}, self.observed.same)

    def test_a_name_that_is_gone_is_not_edited(self):
        self.has("gone_name", read="g/a", left="g/b", taken="g/a")

    def test_a_rename_to_another_name_of_the_file_does_nothing(self):
        self.has("rename_of_one_file", read="s/a", left="s/b")

    def test_files_that_are_renamed_or_taken_away_while_they_are_open(self):
        self.has("renamed_while_open", left="r/new", **{self.temps: "r/old"})
        self.has("gone_while_open", read="u/a", taken="u/a")

    def test_stamps_that_are_set_by_a_descriptor(self):
        self.has("stamps_of_a_descriptor", read="t/a", edited="t/a")

    def test_a_path_out_of_a_folder_that_is_gone(self):
        self.has("folder_gone", read="f/x", left="f/new", temps="f/d")
        self.assertFalse(self.observed.blocks[b"looks_in_a_folder_that_is_gone"].has("missing", b"out_of_it"))

    def test_a_path_by_the_folder_of_another_process(self):
        self.has("folder_of_another", read="p/a")


class ByTheOwnObserver(Names, unittest.TestCase):
    observer = "own"
    temps = "temps"

    def test_a_folder_that_is_renamed_has_what_stood_in_it_then(self):
        self.has("folder_moved", read="m/d/x", left="m/e/new m/e/x", taken="m/d/x")


class ByStrace(Names, unittest.TestCase):
    observer = "strace"
    temps = "taken"
    """strace does not show that nothing was there."""


if __name__ == "__main__":
    unittest.main()
