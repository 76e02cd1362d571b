"""Builds that fail while they are observed, by real Ninja: a command looks for a file that its maker has not left. What
`races` tells of its maker, and which commands it does not blame."""

from __future__ import annotations

from dataclasses import dataclass


@dataclass(frozen=True)
class Failing:
    """A build that fails: the lines of its manifest below the rule `sh`, the words for Ninja, parts of what `races` is
    to write, the findings with a path as kind, path, and maker, and parts that the answer may not have."""

    build: str
    words: tuple[str, ...]
    lines: tuple[str, ...] = ()
    found: tuple[tuple[str, str, str], ...] = ()
    unwritten: tuple[str, ...] = ()


FAILING = {
    "a test for a file whose maker is still to run": Failing(
        """build check: sh in
  do = test -f data.bin && touch check
build first: sh in
  do = sleep 1; cp in first
build data.bin: sh first
  do = cp first data.bin
build all: phony check data.bin
default all
""", ("-j2",), ("race data.bin made by data.bin (build.ninja:7)\n",
                "mend: build.ninja:3: build check: ... | data.bin"),
        (("race", "data.bin", "data.bin"),), ("for: data.bin", ", data.bin")),
    "a maker that failed first": Failing(
        """build made: sh in
  do = echo it was not made; exit 1
build first: sh in
  do = sleep 1; cp in first
build user: sh first
  do = cat made first > user
""", ("-j2", "-k0"), ("race made made by made (build.ninja:3)\n", "mend: build.ninja:7: build user: ... | made"),
        (("race", "made", "made"),)),
    "a maker that no built target needs": Failing(
        """build made: sh in
  do = cp in made
build user: sh in
  do = cat made in > user
""", ("user",), ("race made made by made (build.ninja:3)\n",), (("race", "made", "made"),)),
    "a maker that waits for the failed command": Failing(
        """build user: sh in
  do = cat late > user
build late: sh user
  do = cp user late
""", (), ("cycle late made by late (build.ninja:5)\n", "for which the maker waits: no order mends that [1]"),
        (("cycle", "late", "late"),), ("mend:",)),
    "a maker of another folder's file of that name": Failing(
        """build gen/foo.h: sh in
  do = sleep 2; cp in gen/foo.h
build user: sh in
  do = cat inc/foo.h in > user || { echo "m.c:1: foo.h: No such file"; exit 1; }
""", ("-j2",), ("also ", " gen/foo.h "), (), ("race ",)),
    "a running maker is told once": Failing(
        """build table: sh in
  do = cp in table; sleep 2
build user: sh in
  do = sleep 1; cat table > user; echo 'it does not fit'; exit 1
""", ("-j2",), ("race table made by table (build.ninja:3)\n",), (("race", "table", "table"),), ("also ",)),
}
