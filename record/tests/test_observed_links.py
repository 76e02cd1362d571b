"""Links are followed as they stood when a call was made: fifty times beside a busy build, whatever else runs
and however late the log is read."""

import unittest

import observed_2
from observing import WithRoom

TIMES = 50
LINK = "ln -s x l$out && cat l$out > $out && rm l$out"
FOLDER = "ln -s d l$out && cat l$out/x > $out && rm l$out"
MOVED = "ln -s d l$out && mv l$out m$out && cat m$out/x > $out && rm m$out"
SWITCHED = "ln -sfn r1 c$out && cat c$out/x > $out && ln -sfn r2 c$out && cat c$out/x >> $out && rm c$out"
BUSY = "for i in 1 2 3 4 5 6 7 8 9; do test -e none$$i; ls d > /dev/null; done; echo done > $out"
RULES = "rule c\n  command = $cmd\n"


class Links(WithRoom, unittest.TestCase):
    observer = "own"

    def commands(self, text: str) -> dict[bytes, observed_2.Block]:
        """A build of so many commands of this text, with as many beside them that only look around."""
        lines = [f"build {name}{it}: c\n  cmd = {its.replace('$out', f'{name}{it}')}\n"
                 for it in range(TIMES) for name, its in (("o", text), ("busy", BUSY))]
        files = {"x": "1\n", "d/x": "2\n", "r1/x": "3\n", "r2/x": "4\n"}
        found = self.room.build("own", RULES + "".join(lines), files, words=("-j", "8"),
                                read=False)
        self.assertEqual(found.status, 0, found.said)
        blocks = observed_2.read(found.out / "observed").blocks
        return {name: it for name, it in blocks.items() if name.startswith(b"o")}

    def hold(self, text: str, reads: set[bytes]) -> None:
        blocks = self.commands(text)
        self.assertEqual(len(blocks), TIMES)
        self.assertEqual({frozenset(it.of("read")) for it in blocks.values()}, {frozenset(reads)})
        self.assertEqual([it.flags for it in blocks.values() if it.flags], [])

    def test_a_link_that_is_made_and_taken_away(self):
        self.hold(LINK, {b"x"})

    def test_a_link_of_a_folder(self):
        self.hold(FOLDER, {b"d/x"})

    def test_a_link_that_gets_another_name(self):
        self.hold(MOVED, {b"d/x"})

    def test_a_link_that_leads_elsewhere_in_between(self):
        self.hold(SWITCHED, {b"r1/x", b"r2/x"})


if __name__ == "__main__":
    unittest.main()
