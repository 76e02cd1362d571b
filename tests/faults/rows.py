"""Small builds in which an answer once misled its reader, by real Ninja: what failed first and was no suspect, one lost
order that was printed as several races, and places that filters hide. No compiler is needed: commands are the shell's.
Where the order of two commands matters, the later one waits for a file of the earlier one."""

from __future__ import annotations

from dataclasses import dataclass


@dataclass(frozen=True)
class Row:
    """A build and what `races` is to print of it.

    `build` has the lines of its manifest below the rule `sh`, and `words` are for Ninja. `observed` says whether the
    recorder observes the commands. `filters` has patterns for `--filters`, a line each. `lines` are parts that the
    answer has to have, in this order. `all_lines` are parts of the answer with `--all`. `unwritten` are parts that the
    answer without `--all` may not have. `found` has of each numbered object of `--json` the members that are named
    here. `hidden` has the places of the objects `hidden`. `patch` has the added lines of `races --mend`; it is None
    where the row does not ask."""

    build: str
    lines: tuple[str, ...]
    status: int
    words: tuple[str, ...] = ("-j", "4")
    observed: bool = True
    filters: str = ""
    all_lines: tuple[str, ...] = ()
    unwritten: tuple[str, ...] = ()
    found: tuple[dict[str, object], ...] = ()
    hidden: tuple[tuple[str, bool], ...] = ()
    patch: tuple[str, ...] | None = None


# Ninja starts the next command when the one before it has ended, and goes on where one failed.
ONE_JOB = ("-j", "1", "-k", "0")
RULES = """rule sh
  command = $do
"""
# A command that fails, one that the user waits for, and the user: one after the other on one job.
FAILED_FIRST = """build made: sh in
  do = echo 'it cannot be made'; exit 1
build first: sh in
  do = cp in first
build user: sh first
  do = {}
"""
# An archive and its members. The user waits for none of these, and reads each once the archive is there.
ARCHIVE = """build a.o: sh in
  do = cp in a.o
build b.o: sh in
  do = cp in b.o
build lib.a: sh a.o b.o
  do = cat a.o b.o > part; mv part lib.a
"""
WAITS = "until [ -e lib.a ]; do sleep 0.05; done; "

ROWS = {
    "a maker that failed first is a suspect, and the error names its output": Row(
        FAILED_FIRST.format("cat made first > user"),
        ("failed made (build.ninja:3)", "also still to run, and not waited for: first [2], user [3]\n",
         "failed user (build.ninja:7)", "  cat: made: No such file or directory\n",
         "race made made by made (build.ninja:3)\n",
         "  used by user (build.ninja:7), which does not wait for it [1]\n",
         "    here: the maker had failed when the user began; its error names made\n",
         "    mend: build.ninja:7: build user: ... || made\n", "2 commands failed; 1 race;"),
        4, ONE_JOB, observed=False, unwritten=("also failed before",),
        found=({"kind": "suspect", "path": "made", "here": "failed-before", "basis": "error", "mend": "made"},
               {"kind": "suspect", "path": None, "here": "to-run"},
               {"kind": "suspect", "path": None, "here": "to-run"})),
    "a maker that failed first is a suspect where the error names nothing": Row(
        FAILED_FIRST.format("test -e made || { echo 'something is missing'; exit 1; }"),
        ("failed user (build.ninja:7)", "  something is missing\n",
         "also failed before, and not waited for: made [3]\n"),
        5, ONE_JOB, observed=False, unwritten=("race ",),
        found=({"kind": "suspect", "here": "to-run"}, {"kind": "suspect", "here": "to-run"},
               {"kind": "suspect", "path": None, "here": "failed-before", "basis": None, "mend": "made"})),
    "an observation names the file of a maker that failed first, and no group repeats the maker": Row(
        FAILED_FIRST.format("test -s made || { echo 'something is missing'; exit 1; }"),
        ("race made made by made (build.ninja:3)\n", "  used by user (build.ninja:7)",
         "    mend: build.ninja:7: build user: ... | made\n"),
        4, ONE_JOB, unwritten=("also failed before",)),
    "a command that waits for the failed one is no suspect": Row(
        """build made: sh in
  do = exit 1
build user: sh made
  do = exit 1
""", ("failed made (build.ninja:3)", "1 command failed; no race;"), 5, ("-k", "0"), observed=False,
        unwritten=("also ",)),
    "one lost order is told once: an archive and its members": Row(
        ARCHIVE + f"build user: sh in\n  do = {WAITS}cat lib.a a.o b.o in > user\n",
        ("race lib.a made by lib.a (build.ninja:7)\n",
         "  used by user (build.ninja:9), which does not wait for it [3]\n",
         "    mend: build.ninja:9: build user: ... | lib.a\n",
         "    the order mends 2 more of this command's races (--all tells them)\n", "3 races; 4 commands ran"),
        4, unwritten=("race a.o", "race b.o"),
        all_lines=("race a.o made by a.o (build.ninja:3)\n", "    mend: the order of [3] mends this too\n",
                   "race b.o made by b.o (build.ninja:5)\n", "    mend: the order of [3] mends this too\n",
                   "race lib.a made by lib.a (build.ninja:7)\n", "    mend: build.ninja:9: build user: ... | lib.a\n",
                   "    the order mends 2 more of this command's races\n"),
        found=({"number": 1, "path": "a.o", "mend": "a.o", "mended_by": 3},
               {"number": 2, "path": "b.o", "mend": "b.o", "mended_by": 3},
               {"number": 3, "path": "lib.a", "mend": "lib.a", "mended_by": None}),
        patch=("build user: sh in | lib.a",)),
    "one lost order is told once for each command that lost it": Row(
        ARCHIVE + f"build one: sh in\n  do = {WAITS}cat lib.a a.o in > one\n"
        + f"build two: sh in\n  do = {WAITS}cat lib.a b.o in > two\n",
        ("race lib.a made by lib.a (build.ninja:7)\n", "  used by one (build.ninja:9)",
         "    the order mends 1 more of this command's races", "  used by two (build.ninja:11)",
         "    the order mends 1 more of this command's races"),
        4, unwritten=("race a.o", "race b.o"),
        found=({"path": "a.o", "mended_by": 3}, {"path": "b.o", "mended_by": 4}, {"path": "lib.a", "mended_by": None},
               {"path": "lib.a", "mended_by": None}), patch=("build one: sh in | lib.a", "build two: sh in | lib.a")),
    "two makers of which neither waits for the other are two lost orders": Row(
        """build a.h: sh in
  do = cp in a.h
build b.h: sh in
  do = cp in b.h
build user: sh in
  do = until [ -e a.h ] && [ -e b.h ]; do sleep 0.05; done; cat a.h b.h in > user
""", ("race a.h made by a.h (build.ninja:3)\n", "race b.h made by b.h (build.ninja:5)\n"), 4,
        unwritten=("the order mends",), found=({"path": "a.h", "mended_by": None}, {"path": "b.h", "mended_by": None}),
        patch=("build user: sh in | a.h b.h",)),
    "an order-only step brings no file that is to run the user again": Row(
        """build a.h: sh in
  do = cp in a.h
build b.h: sh in || a.h
  do = cp in b.h
build user: sh in
  do = until [ -e a.h ] && [ -e b.h ]; do sleep 0.05; done; cat a.h b.h in > user
""", ("race a.h made by a.h (build.ninja:3)\n", "race b.h made by b.h (build.ninja:5)\n"), 4,
        unwritten=("the order mends",), found=({"path": "a.h", "mended_by": None}, {"path": "b.h", "mended_by": None}),
        patch=("build user: sh in | a.h b.h",)),
    "a file that no line declares keeps the mend of its own": Row(
        """build a.stamp: sh in
  do = cp in extra.h; touch a.stamp
build b.h: sh a.stamp
  do = cp in b.h
build user: sh in
  do = until [ -e b.h ]; do sleep 0.05; done; cat extra.h b.h in > user
""", ("race extra.h: a.stamp (build.ninja:3) writes it, though no line says so\n",
      "    mend: build.ninja:3: build a.stamp | extra.h: ...\n", "race b.h made by b.h (build.ninja:5)\n"), 4,
        unwritten=("the order mends",)),
    "places that filters hide have their paths": Row(
        """build one: sh in
  do = echo 1 > stats; cp in one
build two: sh in
  do = echo 1 > stats; cp in two
""", ("no race;", "filters hide 1 place where commands meet\n  hidden: stats\n"), 0, filters="stats\n",
        unwritten=("clash ",), hidden=(("stats", False),)),
    "of many hidden places three are printed, and all with --all": Row(
        """build one: sh in
  do = mkdir -p cache; for it in a b c; do echo 1 > cache/$$it; done; cp in one
build two: sh in
  do = mkdir -p cache; for it in a b c; do echo 1 > cache/$$it; done; cp in two
build three: sh one
  do = ls cache > three
""", ("filters hide 4 places where commands meet\n  hidden: cache/a\n  hidden: cache/b\n  hidden: cache/c\n"
      "  and 1 more (--all tells them)\n",), 0, filters="cache\n",
        all_lines=("  hidden: cache/c\n  hidden: the entries of cache\n",),
        hidden=(("cache/a", False), ("cache/b", False), ("cache/c", False), ("cache", True))),
}
