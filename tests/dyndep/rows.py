"""Recordings with dyndep files that are written by hand: one that fits, changes that leave it so, and changes for which
it is refused. The numbers and the meaning of each line are those of docs/FORMATS.md and docs/CODES.md."""

from __future__ import annotations

from dataclasses import dataclass

OWN, RECORDED, NOTES = "dyndep/manifest/build.ninja", "build.ninja", "dyndep/notes"
FIRST, SECOND = "dyndep/files/1", "dyndep/files/2"
# The user's manifest: a rule that names dyndep files, and two build lines that do.
MANIFEST = """rule cp
  command = cp $in $out
rule scan
  command = scan $in > $out
rule compile
  command = cc $in -o $out
  dyndep = $out.dd
build a.o.dd: scan a.c
build both.dd: scan b.c c.c
build a.o: compile a.c || a.o.dd
build b.o: cp b.c || both.dd
  dyndep = both.dd
build c.o | c.log: cp c.c | x.h || both.dd
  dyndep = both.dd
  restat =
build app: cp a.o b.o c.o
build other: cp app both.dd
default app
"""
# The same as a recording has it.
RESOLVED = """rule cp
  command = cp $in $out
rule scan
  command = scan $in > $out
rule compile
  command = cc $in -o $out
  # resolved dyndep = $out.dd
build a.o.dd: scan a.c
build both.dd: scan b.c c.c
build a.o | a.mod : compile a.c | b.mod || a.o.dd
build b.o | b.mod : cp b.c || both.dd
  restat = 1
build c.o | c.log : cp c.c | x.h b.mod a.mod || both.dd
  resolved_dyndep = both.dd
  restat =
build app: cp a.o b.o c.o
build other: cp app both.dd
default app
"""
FILES = {
    RECORDED: RESOLVED,
    OWN: MANIFEST,
    FIRST: "ninja_dyndep_version = 1\nbuild a.o | a.mod: dyndep | b.mod\n",
    # In another order than the manifest has, and by another output than the first.
    SECOND: "ninja_dyndep_version = 1.0\n# c\nbuild c.log: dyndep | b.mod $\n  a.mod\nbuild b.o | b.mod: dyndep\n"
            "  restat = 1\n",
    NOTES: "rebug-dyndep 1\nloaded a.o.dd 1 early\nloaded both.dd 2 late\n",
    "trace": "rebug-trace 1\njobs 1\nlane 0\n",
}


@dataclass(frozen=True)
class Row:
    """A change of FILES: texts that stand in the place of others, by file; a file without a text is not there. What is
    said then on standard error behind `rebug: `, and the status."""

    name: str
    changes: dict[str, tuple[tuple[str, str], ...] | str | None]
    said: str = ""
    status: int = 1

    def files(self) -> dict[str, str]:
        """The files."""
        found = dict(FILES)
        for file, change in self.changes.items():
            if change is None:
                found.pop(file)
            elif isinstance(change, str):
                found[file] = change
            else:
                for old, new in change:
                    if found[file].count(old) < 1:
                        raise ValueError(f"{self.name}: {file} does not have {old!r}")
                    found[file] = found[file].replace(old, new, 1)
        return found


def both(old: str, new: str) -> dict[str, tuple[tuple[str, str], ...]]:
    """The same change of the user's manifest and of the recorded one."""
    return {OWN: ((old, new),), RECORDED: ((old, new),)}


OTHER = "{}: not the user's own manifest with what the loaded dyndep files say (124, docs/CODES.md)"
NOBODY = "{}: about no build statement that has the file, or the second about one (123, docs/CODES.md)"
LINE, NUMBER = "{}: no line that may stand there (100, docs/CODES.md)", "{}: no number of that form or size (101, docs/CODES.md)"

TAKEN = (
    Row("as it stands", {}),
    Row("with returns at the ends of lines", {OWN: MANIFEST.replace("\n", "\r\n")}),
    Row("a binding over two lines", {OWN: (("  dyndep = both.dd\n", "  dyndep = $\n    both.dd\n"),),
                                     RECORDED: (("  restat = 1\n", "  restat = $\n    1\n"),)}),
    Row("a rule's binding over two lines", {OWN: (("dyndep = $out.dd\n", "dyndep = $\n  $out.dd\n"),),
                                            RECORDED: (("$out.dd\n", "$\n  # resolved   $out.dd\n"),)}),
    Row("a comment and an empty line before a binding", both("|| both.dd\n", "|| both.dd\n\n  # dyndep = c\n")),
    Row("no space at the equals sign", {OWN: (("dyndep = $out.dd", "dyndep=$out.dd"), ("dyndep = both", "dyndep= both"))}),
    Row("a variable whose name begins so", both("command = scan", "command = $dyndep_scan ${dyndep.x}$$dyndep scan")),
    Row("a comment that has the variable", both("rule cp\n", "# $dyndep\nrule cp\n")),
    Row("a rule named dyndep", both("rule scan\n  command = scan $in > $out\n",
                                    "rule scan\n  command = scan $in > $out\nrule dyndep\n  command = x\n")),
    Row("a binding of nothing", {OWN: (("build app: cp a.o b.o c.o\n", "build app: cp a.o b.o c.o\n  dyndep =\n"),),
                                 RECORDED: (("build app: cp a.o b.o c.o\n",
                                             "build app: cp a.o b.o c.o\n  resolved_dyndep =\n"),)}),
    Row("an input that is left out", {RECORDED: (("x.h b.mod a.mod", "x.h a.mod"),),
                                      NOTES: FILES[NOTES] + "left-out c.o input b.mod\n"}),
    Row("an output that is left out", {RECORDED: (("a.o | a.mod :", "a.o:"),),
                                       NOTES: FILES[NOTES] + "left-out a.o output a.mod\n"}),
    Row("a file that was not loaded", {RECORDED: (("a.o | a.mod :", "a.o :"), ("a.c | b.mod ||", "a.c ||")),
                                       NOTES: "rebug-dyndep 1\nnot-loaded a.o.dd no\\sfile\nloaded both.dd 1 early\n",
                                       FIRST: FILES[SECOND], SECOND: None}),
    Row("nothing loaded", {RECORDED: MANIFEST.replace("  dyndep = $", "  # $").replace(" dyndep", " resolved_dyndep"),
                           NOTES: "rebug-dyndep 1\nnot-loaded a.o.dd\nnot-loaded both.dd\n"}),
    Row("no restat, and no outputs", {SECOND: "ninja_dyndep_version=1\nbuild b.o: dyndep\nbuild c.o: dyndep\n  restat =\n",
                                      RECORDED: (("b.o | b.mod :", "b.o:"), ("  restat = 1\n", "  x = 1\n"),
                                                 ("x.h b.mod a.mod", "x.h"))}),
    Row("a note", {NOTES: FILES[NOTES] + "note b.o\\sruns\\seach\\stime\n"}, "note: b.o runs each time"),
    Row("a note that a terminal would obey", {NOTES: FILES[NOTES] + "note \x1b[31mred\n"}, "note: \\x1b[31mred"),
    Row("no dyndep files", {RECORDED: "build x: phony\n", OWN: None, FIRST: None, SECOND: None, NOTES: None}),
    Row("with an included file", {RECORDED: "include more.ninja\n", "more.ninja": RESOLVED, OWN: "include more.ninja\n",
                                  "dyndep/manifest/more.ninja": MANIFEST}),
)

REFUSED = (
    # The user's own manifest is another.
    Row("another command of a rule", {OWN: (("command = cc", "command = cc -O"),)}, OTHER.format("build.ninja:10")),
    Row("another command of one statement", {OWN: (("  restat =\n", "  restat =\n  command = x\n"),)},
        OTHER.format("build.ninja:13")),
    Row("another order-only input", {OWN: (("b.c || both.dd", "b.c || both.dd a.o"),)}, OTHER.format("build.ninja:11")),
    Row("an edge more", {OWN: (("default app", "build more: cp app\ndefault app"),)}, OTHER.format("build.ninja:18")),
    Row("an edge less", {OWN: (("build other: cp app both.dd\n", "\n"),)}, OTHER.format("build.ninja:17")),
    Row("another default", {OWN: (("default app", "default other"),)}, OTHER.format("build.ninja:0")),
    Row("a line more above", {OWN: (("rule cp\n", "\nrule cp\n"),)}, OTHER.format("build.ninja:8")),
    Row("restat of its own", {OWN: (("  restat =\n", "  restat = 1\n"),)}, OTHER.format("build.ninja:13")),
    Row("another pool", {OWN: (("build app: cp a.o b.o c.o\n", "build app: cp a.o b.o c.o\n  pool = console\n"),)},
        OTHER.format("build.ninja:16")),
    Row("another depfile", {OWN: (("command = scan", "depfile = d\n  command = scan"),),
                            RECORDED: (("command = scan", "description = d\n  command = scan"),)},
        OTHER.format("build.ninja:9")),
    # The recorded manifest has what no file says, or lacks what one says.
    Row("an input more", {RECORDED: (("| b.mod ||", "| b.mod x.h ||"),)}, OTHER.format("build.ninja:10")),
    Row("an input less", {RECORDED: (("x.h b.mod a.mod", "x.h b.mod"),)}, OTHER.format("build.ninja:13")),
    Row("inputs in another order", {RECORDED: (("b.mod a.mod", "a.mod b.mod"),)}, OTHER.format("build.ninja:13")),
    Row("an output less", {RECORDED: (("b.o | b.mod :", "b.o :"),)}, OTHER.format("build.ninja:11")),
    Row("an output at another edge", {RECORDED: (("b.o | b.mod :", "b.o :"), ("c.log :", "c.log b.mod :"))},
        OTHER.format("build.ninja:11")),
    Row("an input as order-only", {RECORDED: (("| b.mod || a.o.dd", "|| a.o.dd b.mod"),)}, OTHER.format("build.ninja:10")),
    Row("no restat", {RECORDED: (("  restat = 1\n", "  resolved_dyndep = both.dd\n"),)}, OTHER.format("build.ninja:11")),
    Row("an input of a statement without dyndep", {RECORDED: (("app: cp a.o b.o c.o", "app: cp a.o b.o c.o | b.mod"),)},
        OTHER.format("build.ninja:16")),
    Row("what a file says that was not loaded", {NOTES: "rebug-dyndep 1\nloaded a.o.dd 1 early\nnot-loaded both.dd\n"},
        OTHER.format("build.ninja:11")),
    # The loaded files.
    Row("another input is said", {FIRST: ((" b.mod", " x.mod"),)}, OTHER.format("build.ninja:10")),
    Row("restat is said", {FIRST: (("b.mod\n", "b.mod\n  restat = 1\n"),)}, OTHER.format("build.ninja:10")),
    Row("a statement less", {SECOND: (("build b.o | b.mod: dyndep\n  restat = 1\n", ""),)}, OTHER.format("build.ninja:11")),
    Row("a statement about an edge without the file", {FIRST: FILES[FIRST] + "build app: dyndep\n"},
        NOBODY.format("dyndep/files/1:3")),
    Row("a statement about nothing", {SECOND: (("b.o | b.mod", "none | b.mod"),)}, NOBODY.format("dyndep/files/2:5")),
    Row("a statement about an input", {FIRST: (("a.o | a.mod", "a.c | a.mod"),)}, NOBODY.format("dyndep/files/1:2")),
    Row("two statements about one output", {SECOND: FILES[SECOND] + "build b.o: dyndep\n"},
        NOBODY.format("dyndep/files/2:7")),
    Row("two statements about one edge", {SECOND: FILES[SECOND] + "build c.o: dyndep\n"},
        NOBODY.format("dyndep/files/2:7")),
    Row("a statement in another file", {FIRST: FILES[FIRST] + "build b.o: dyndep\n"}, NOBODY.format("dyndep/files/2:5")),
    Row("the files exchanged", {FIRST: FILES[SECOND], SECOND: FILES[FIRST]}, NOBODY.format("dyndep/files/2:2")),
    Row("an empty file", {FIRST: ""}, "dyndep/files/1:1: the first statement is not ninja_dyndep_version = 1 "
        "(120, docs/CODES.md)"),
    Row("another version", {SECOND: (("1.0", "2"),)}, "dyndep/files/2:1: the first statement is not "
        "ninja_dyndep_version = 1 (120, docs/CODES.md)"),
    Row("another rule", {FIRST: ((": dyndep", ": cp"),)}, "dyndep/files/1:2: no statement of a dyndep file "
        "(121, docs/CODES.md)"),
    Row("an explicit input", {FIRST: (("dyndep |", "dyndep x |"),)}, "dyndep/files/1:2: no statement of a dyndep file "
        "(121, docs/CODES.md)"),
    Row("another binding", {SECOND: (("restat", "depfile"),)}, "dyndep/files/2:6: another binding than one of restat "
        "(122, docs/CODES.md)"),
    Row("no syntax", {FIRST: (("dyndep |", "dyndep | |"),)}, "dyndep/files/1:2: no statement of a manifest "
        "(10, docs/CODES.md)"),
    Row("a tab", {SECOND: (("  restat", "\trestat"),)}, "dyndep/files/2:6: a tab in the indentation (11, docs/CODES.md)"),
    Row("a dollar", {FIRST: (("b.mod", "b$!"),)}, "dyndep/files/1:2: a `$` with nothing behind it that may stand there "
        "(12, docs/CODES.md)"),
    # The notes.
    Row("no notes", {NOTES: ""}, "dyndep/notes:1: no notes of this version (104, docs/CODES.md)"),
    Row("other notes", {NOTES: (("rebug-dyndep 1", "rebug-dyndep 2"),)}, "dyndep/notes:1: no notes of this version "
        "(104, docs/CODES.md)"),
    Row("notes that are cut off", {NOTES: FILES[NOTES][:-1]}, LINE.format("dyndep/notes:3")),
    Row("an empty line of notes", {NOTES: FILES[NOTES] + "\n"}, LINE.format("dyndep/notes:4")),
    Row("an unknown word", {NOTES: FILES[NOTES] + "more\n"}, LINE.format("dyndep/notes:4")),
    Row("a time that is none", {NOTES: (("late", "later"),)}, LINE.format("dyndep/notes:3")),
    Row("a field too many", {NOTES: (("late", "late late"),)}, LINE.format("dyndep/notes:3")),
    Row("a path that is none", {NOTES: (("a.o.dd", "\\0"),)}, LINE.format("dyndep/notes:2")),
    Row("a note of two lines", {NOTES: FILES[NOTES] + "note a\\nb\n"}, LINE.format("dyndep/notes:4")),
    Row("a number that is not the next", {NOTES: (("both.dd 2", "both.dd 3"),)}, NUMBER.format("dyndep/notes:3")),
    Row("a number that is none", {NOTES: (("a.o.dd 1", "a.o.dd x"),)}, NUMBER.format("dyndep/notes:2")),
    Row("a file twice", {NOTES: FILES[NOTES] + "not-loaded both.dd\n"},
        "dyndep/notes:4: a second line about one file (103, docs/CODES.md)"),
    Row("left out of nothing", {NOTES: FILES[NOTES] + "left-out x input b.mod\n"}, NOBODY.format("dyndep/notes:4")),
    Row("left out of an edge without statement", {NOTES: FILES[NOTES] + "left-out app input b.mod\n"},
        NOBODY.format("dyndep/notes:4")),
    Row("left out what is not said", {NOTES: FILES[NOTES] + "left-out a.o input x.h\n"}, NOBODY.format("dyndep/notes:4")),
    Row("left out as an output", {NOTES: FILES[NOTES] + "left-out a.o output b.mod\n"}, NOBODY.format("dyndep/notes:4")),
    Row("left out what the manifest has", {NOTES: FILES[NOTES] + "left-out a.o input b.mod\n"},
        OTHER.format("build.ninja:10")),
    Row("left out of no kind", {NOTES: FILES[NOTES] + "left-out a.o order b.mod\n"}, LINE.format("dyndep/notes:4")),
    # The user's own manifest is none.
    Row("an unknown rule", {OWN: (("build app: cp", "build app: cpp"),)},
        "dyndep/manifest/build.ninja:16: unknown rule (13, docs/CODES.md)"),
    Row("the variable's value is needed", {OWN: (("command = cc", "command = $dyndep cc"),)},
        "dyndep/manifest/build.ninja:5: dynamic dependencies, which rebug does not read (22, docs/CODES.md)"),
    Row("a binding for a whole file", {OWN: (("build a.o.dd", "dyndep = x\nbuild a.o.dd"),)},
        "dyndep/manifest/build.ninja:8: dynamic dependencies, which rebug does not read (22, docs/CODES.md)"),
    # The recorded manifest is none.
    Row("a binding that is left", {RECORDED: (("resolved_dyndep", "dyndep"),)},
        "build.ninja:13: dynamic dependencies, which rebug does not read (22, docs/CODES.md)"),
    Row("an output with two makers", {FIRST: (("a.mod", "b.mod"),), RECORDED: (("a.o | a.mod", "a.o | b.mod"),)},
        "build.ninja: two build lines have one output (40, docs/CODES.md): b.mod"),
    # Files that are not there.
    Row("a loaded file is lost", {SECOND: None},
        "cannot read the file dyndep/files/2 of {}\nrebug: it is not there", 3),
    Row("the user's manifest is lost", {OWN: None},
        "cannot read the file dyndep/manifest/build.ninja of {}\nrebug: it is not there", 3),
    Row("the notes are lost", {NOTES: None}, "cannot read the file dyndep/notes of {}\nrebug: it is not there", 3),
)
