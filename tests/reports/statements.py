"""What the statements of a manifest say, as generators write them, and where the first line stands that is none."""

from collections.abc import Iterator

from manifests import MAIN, Files, command, faulty, marked, wanted
from rows import FIRST, Begin, Row

# Manifests, each with the line and the number of its first fault.
FAULTS = (
    # Tabs and escapes.
    ("rule r\n\tcommand = r\n", "2 11"),
    ("rule r\n \t$%\n", "2 11"),
    ("\tx", "1 11"),
    ("a = $%\n", "1 12"),
    ("a = \0 $%\n", "1 10"),
    ("a = $% \0\n", "1 12"),
    ("a = ${b\n", "1 12"),
    ("build $^: r\n", "1 12"),
    # Ends of files.
    ("rule $", "1 12"),
    ("build x$", "1 12"),
    ("foo bar$", "1 10"),
    ("build a: r | b |$", "1 12"),
    ("build a: r || b |\n", "1 10"),
    ("a = $\n", "1 12"),
    ("a = b\r", "1 10"),
    ("rule r\n  command = r $in\nbuild o", "3 10"),
    ("rule r\n  command", "2 10"),
    # Places of faults.
    ("rule $%\n", "1 10"),
    ("foo $%\n", "1 10"),
    ("include a $%\n", "1 10"),
    ("build : r $%\n", "1 10"),
    ("build a || b: r\n", "1 10"),
    ("default\n", "1 10"),
    ("default a\n  x = 1\n", "2 10"),
    ("pool = p\n", "1 10"),
)


def shows(variables: str, text: str, told: str) -> Files:
    """What variables stand for in a command."""
    return command(f"{variables}rule r\n  command = {text}\nbuild o: r\n", "o", told)


# Explicit outputs and inputs stand in the command, and a finish wants a stamp of the implicit output too. Of the inputs
# the implicit one is missing, then the first that is order-only. The validation is planned.
OF_EVERY_KIND = "rule cc\n  command = $in > $out $x\nbuild a $\n    b|c: cc d e|f||g h |@i\n  x = 1\nbuild i: phony\n"
INPUTS = "stamp d 1\nstamp e 1\n"


def of_every_kind(opening: str, said: str, replies: str, words: str = "", shown: str = "") -> Row:
    return Begin(OF_EVERY_KIND, opening).said(said, replies, words, shown)


STATEMENTS = {
    "nothing": Files({MAIN: ""}, FIRST, "", ""),
    "a name with a dot, and a dollar": shows("", "cc $in -o ${out.x}$$", "cc\\s\\s-o\\s$"),
    "the last of two commands": command("rule r\n  command = cc\n  command = $$\nbuild o: r\n", "o", "$"),
    "an implicit output alone, and bars with nothing behind": marked(
        {MAIN: "build | a: phony\nbuild$ b:phony |||@\n"}, wanted("a", "\\sb")
    ),
    "blank lines, a comment, a pool and defaults": Files(
        {MAIN: "x = k\nrule r\n  command = c\n\n# none\npool p\n  depth = 4\n  \ndefault a$:b $x.y\n"
               "build a$:b c k.y: r\n  pool = p\nbuild d: r\n"},
        f"{FIRST}lane 0\nplan\nstart c 0 4\nstart c 0 3\n",
        "run\nmarks\n",
        "1 0 ok\n2 0 refused 73\n3 0 ok\nmark 0 a:b running 0 3 0\njob 0 0\nslot 1 3 0\n",
    ),
    "the line of a statement behind blank lines": faulty({MAIN: "\n# none\npool p\n  \ndefault\n"}, f"{MAIN} 3 19"),
    "files with a blank behind the name, and with a variable in it": marked(
        {MAIN: "d = e\ninclude a/b.ninja \nsubninja${d}/c", "a/b.ninja": "build x: phony\n", "e/c": "build y: phony\n"},
        wanted("x", "y"),
    ),
    "blanks at the ends of values": shows("a=  b c \nrule.x = $ y\n", ".$a.${rule.x}.", ".b\\sc\\s.\\sy."),
    "lines that are joined, with either end": shows("a$\nb = 1\r\nc = $\n  #2\r\n", "$ab$c", "1#2"),
    "a value that goes on with nothing": shows("a = $\n\n", ".$a.", ".."),
    "a text with a blank and a variable": shows("c = 1\n", "a$ b$c.d", "a\\sb1.d"),
}

ROWS = {
    "a missing implicit input": of_every_kind(INPUTS, "plan a", "refused 52 2 0"),
    "a missing order-only input": of_every_kind(f"{INPUTS}stamp f 1\n", "plan a", "refused 52 3 0"),
    "paths of every kind": of_every_kind(
        f"{INPUTS}stamp f 1\nstamp g 1\nstamp h 1\n",
        "plan a; start b 0; finish c 7,8; finish c 7,8,9",
        "ok; ok; refused 75 3; ok",
        "marks; stamps; logs",
        "mark 0 a done 0,1,2\nmark 1 i wanted\n"
        "stamp a 7\nstamp b 8\nstamp c 9\nstamp d 1\nstamp e 1\nstamp f 1\nstamp g 1\nstamp h 1\n"
        "built a 7 d\\se\\s>\\sa\\sb\\s1\nbuilt b 8 d\\se\\s>\\sa\\sb\\s1\nbuilt c 9 d\\se\\s>\\sa\\sb\\s1\n",
    ),
}


def read() -> Iterator[tuple[str, Files]]:
    """All that is read of files, by name."""
    for text, fault in FAULTS:
        yield f"statements {text!r}", faulty({MAIN: text}, f"{MAIN} {fault}")
    yield from STATEMENTS.items()
