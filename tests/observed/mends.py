"""Builds with a planted finding that one patch of `races --mend` mends, by real Ninja: what the patch adds to which
build line, and what `races` prints of the build that was patched and made from nothing. Where the manifest does not say
which of two commands comes last, the patch has the order of the recorded build."""

from __future__ import annotations

from dataclasses import dataclass, field


@dataclass(frozen=True)
class Mended:
    """A build: the lines of its manifest below the rule `sh`, its sources, parts of what `races --all` is to write, the
    build lines that the patch is to write, and the kinds of what `races` still finds in the patched build.

    The patched build is certain unless an unstable file is among these: there each build changes what the next one
    begins with, and no order mends that. `unwritten` are parts of lines that neither the answer nor the patch may
    have."""

    build: str
    sources: dict[str, str] = field(default_factory=dict)
    lines: tuple[str, ...] = ()
    patched: tuple[str, ...] = ()
    left: tuple[str, ...] = ()
    unwritten: tuple[str, ...] = ()


ONE_LISTED = """rule cc
  command = $do
  depfile = $out.d
"""

MENDS = {
    "a user without a list names the file behind a |": Mended(
        """build table: sh in
  do = cp in table
build user: sh in
  do = until [ -e table ]; do sleep 0.05; done; cat table in > user
""", {"in": "x\n"}, ("mend: build.ninja:5: build user: ... | table\n",), ("build user: sh in | table",)),
    "a user that asked too early, and has no list": Mended(
        """build table: sh in
  do = sleep 1; cp in table
build user: sh in
  do = cat table > user 2> /dev/null || cp in user
""", {"in": "x\n"}, ("mend: build.ninja:5: build user: ... | table\n",), ("build user: sh in | table",)),
    "a user whose depfile lists the file has it behind ||": Mended(
        ONE_LISTED + """build table: sh in
  do = cp in table
build user: cc in
  do = until [ -e table ]; do sleep 0.05; done; cat table in > user; echo 'user: in table' > user.d
""", {"in": "x\n"}, ("mend: build.ninja:8: build user: ... || table\n",), ("build user: cc in || table",)),
    "a user whose depfile lacks the file has it behind a |": Mended(
        ONE_LISTED + """build table: sh in
  do = cp in table
build user: cc in
  do = until [ -e table ]; do sleep 0.05; done; cat table in > user; echo 'user: in' > user.d
""", {"in": "x\n"}, ("mend: build.ninja:8: build user: ... | table\n",), ("build user: cc in | table",)),
    "a | where the line has one, before ||, a validation, and a line's end": Mended(
        """build table: sh in
  do = cp in table
build check: sh in
  do = cp in check
build user $
    : sh in | more $
    || also |@ check
  do = until [ -e table ]; do sleep 0.05; done; cat table in more > user
build also: sh in
  do = cp in also
""", {"in": "x\n", "more": "y\n"}, (), ("    : sh in | more table $",)),
    "a file that is no output is named, and waited for": Mended(
        """build stamp: sh in
  do = cp in extra; touch stamp
build user: sh in
  do = until [ -e extra ]; do sleep 0.05; done; cat extra in > user
""", {"in": "x\n"}, ("mend: build.ninja:3: build stamp | extra: ...", "mend: build.ninja:5: build user: ... | extra\n"),
        ("build stamp | extra: sh in", "build user: sh in | stamp")),
    "a file that is no output, behind its maker": Mended(
        """build stamp: sh in
  do = cp in extra; touch stamp
build user: sh in | stamp
  do = cat extra in > user
""", {"in": "x\n"}, (), ("build stamp | extra: sh in",)),
    "a file with a space, a colon and a dollar": Mended(
        """build stamp: sh in
  do = cp in 'e: $$x'; touch stamp
build user: sh in | stamp
  do = cat 'e: $$x' in > user
""", {"in": "x\n"}, (), ("build stamp | e$:$ $$x: sh in",)),
    "a source that no line lists": Mended(
        """build user: sh in
  do = cat in settings > user
""", {"in": "x\n", "settings": "y\n"}, (), ("build user: sh in | settings",)),
    "two commands that change a file name it nowhere": Mended(
        """build one: sh in
  do = cat in >> lib.a; touch one
build two: sh in
  do = sleep 0.6; cat in >> lib.a; touch two
build app: sh in
  do = sleep 1.5; cat lib.a > app
""", {"in": "x\n"}, ("build two: ... || one (what it does comes last, as here)",
                     "build one: ... || two (what it does comes last)"),
        ("build two: sh in || one", "build app: sh in | one two"), ("undeclared", "undeclared"), ("| lib.a",)),
    "another's output is named by nobody else": Mended(
        """build tool: sh in
  do = cp in tool
build sign: sh tool
  do = cp tool x; echo s >> x; cp x tool; rm x; touch sign
build out: sh | tool
  do = sleep 1; cat tool > out
""", {"in": "x\n"}, (), ("build out: sh | tool sign",), ("unstable",), ("| tool: ...", "build sign | tool")),
    "a folder is no input": Mended(
        """build stage/a: sh in
  do = mkdir -p stage && cp in stage/a
build stage/b: sh in
  do = sleep 1; mkdir -p stage && cp in stage/b
build pkg.tar: sh stage/a
  do = tar --mtime=@0 --sort=name -cf pkg.tar stage
""", {"in": "x\n"}, (), ("build pkg.tar: sh stage/a | stage/b",), (), ("| stage,", "| stage\n", "unlisted")),
    "a source that is changed in place is no output": Mended(
        """build stamp: sh
  do = echo more >> in; touch stamp
build user: sh in
  do = sleep 1; cat in > user
""", {"in": "x\n"}, (), ("build user: sh in | stamp",), ("undeclared",), ("build stamp | in",)),
    "a source that is written anew is no output": Mended(
        """build stamp: sh
  do = cp in x; echo more >> x; mv x in; touch stamp
build user: sh | stamp
  do = cat in > user
build other: sh in | stamp
  do = cat in > other
""", {"in": "x\n"}, ("mend: another path for what it writes there",), (), ("undeclared", "undeclared"),
        ("build stamp | in",)),
    "who renames a file away uses it": Mended(
        """build gen.h: sh in
  do = cp in gen.h
build inc/gen.h: sh in
  do = until [ -e gen.h ]; do sleep 0.05; done; mv gen.h inc/gen.h
build user: sh in | inc/gen.h
  do = cat in inc/gen.h > user
""", {"in": "x\n"}, ("race gen.h made by gen.h (build.ninja:3)\n"
                     "  used by inc/gen.h (build.ninja:5), which does not wait",
                     "mend: build.ninja:5: build inc/gen.h: ... | gen.h\n"),
        ("build inc/gen.h: sh in | gen.h",), ("unstable",), ("clash",)),
    "a folder that one takes away and another fills": Mended(
        """build clean: sh in
  do = rm -rf doc; touch clean
build doc/logo: sh in
  do = sleep 1; mkdir -p doc; cp in doc/logo
""", {"in": "x\n"}, ("mend: build.ninja:5: build doc/logo: ... || clean (what it does comes last, as here)\n"
                     "    or: build.ninja:3: build clean: ... || doc/logo (what it does comes last)\n",),
        ("build doc/logo: sh in || clean",)),
    "a file that one takes away and another leaves": Mended(
        """build clean: sh in
  do = rm -f logo; touch clean
build stamp: sh in
  do = sleep 1; cp in logo; touch stamp
""", {"in": "x\n", "logo": "old\n"},
        ("race logo: clean (build.ninja:3) takes it away",
         "build stamp: ... || clean (what it does comes last, as here)"),
        ("build stamp: sh in || clean",), ("undeclared",)),
    "two commands with one temporary": Mended(
        """build one: sh in
  do = cp in work.tmp; cp work.tmp one; rm work.tmp
build two: sh in
  do = sleep 1; cp in work.tmp; cp work.tmp two; rm work.tmp
""", {"in": "x\n"}, ("mend: another path for one of the two\n"
                     "    or: build.ninja:5: build two: ... || one (what it does comes last, as here)\n"
                     "    or: build.ninja:3: build one: ... || two (what it does comes last)\n",),
        ("build two: sh in || one",)),
    "two commands that write one file": Mended(
        """build one: sh in
  do = cat in > both; touch one
build two: sh in
  do = sleep 1; cat in > both; touch two
""", {"in": "x\n"}, (), ("build two: sh in || one",)),
    "a lost order of an archive brings that of its members": Mended(
        """build a.o: sh in
  do = cp in a.o
build b.o: sh in
  do = cp in b.o
build lib.a: sh a.o b.o
  do = echo a.o b.o > lib.a
build app: sh in
  do = until [ -e lib.a ]; do sleep 0.05; done; cat lib.a a.o b.o > app
""", {"in": "x\n"}, ("race lib.a made by lib.a", "race a.o made by a.o", "race b.o made by b.o"),
        ("build app: sh in | lib.a",)),
    "who reads what the other one makes waits, though that one lists its folder": Mended(
        """build out/table: sh in
  do = ls out; cp in out/table
build out/user: sh in
  do = until [ -e out/table ]; do sleep 0.05; done; cat out/table in > out/user
""", {"in": "x\n", "out/old": "y\n"}, ("mend: build.ninja:5: build out/user: ... | out/table\n",),
        ("build out/user: sh in | out/table",)),
}
