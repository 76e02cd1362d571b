"""What is read of the depfiles that compilers write, or their fault with its offset."""

from rows import FIRST, WELL, Row

COMPILE = "rule cc\n  command = cc\n  depfile = $out.d\n  deps = gcc\n"
ESCAPES = str.maketrans({"\\": "\\\\", " ": "\\s", "\t": "\\t", "\n": "\\n", "\r": "\\r"})


def field(text: str) -> str:
    """A text as a field of a trace has it."""
    return text.translate(ESCAPES) or "\\0"


# Texts of an object a.o: what each lists, with a bar between two paths, or the number of its fault and the offset.
LISTS = (
    # Separating colons.
    ("a.o: b", "b"),
    ("a.o : b : c:d", "b|:|c:d"),
    ("a.o:", ""),
    ("a.o:\\\n b", "b"),
    # Later colons are bytes.
    ("a.o: b: c", "b:|c"),
    ("a.o: C:/k.h C\\:/k.h", "C:/k.h"),
    ("a.o: b\\: c\\:d", "b\\:|c:d"),
    # Lines.
    ("\n \t\n\\\n\na.o: b\n\na.o: c\n", "b|c"),
    ("a.o: b\r\na.o: c\r\n", "b|c"),
    ("a.o: b\rc\n", "b\rc"),
    ("a.o: b \\\r\n c \\\n d", "b|c|d"),
    # Backslashes before line ends.
    ("a.o: b\\\\\n c", "b\\|c"),
    ("a.o: b\\\\\\\r\n c", "b\\\\|c"),
    ("a.o: b\\\r\r\n", "b\\\r"),
    # Backslashes before blanks.
    ("a.o: b\\ c", "b c"),
    ("a.o: b\\\\ c", "b\\\\|c"),
    ("a.o: b\\\\\\ c", "b\\ c"),
    ("a.o: b\\\tc", "b\\|c"),
    # Backslashes before signs.
    ("a.o: \\#b c\\\\#d #e", "#b|c\\#d|#e"),
    ("a.o: b\\c d\\", "b\\c|d\\"),
    ("a.o: $$b $x c$$$d", "$b|$x|c$$d"),
    # Targets.
    ("b.o a.o c.o: d", "d"),
    ("./x/../a.o: d", "d"),
    ("a.o: b\nb.h:\nc.h: ", "b"),
    # A colon alone.
    (":", ""),
    # First mentions.
    ("a.o: b ./b c b\na.o: x/../c d", "b|c|d"),
    ("a.o: a.o ../b /..", "a.o|../b|/"),
    # Words of several kinds.
    ("a.o: a.c \\\n my\\ h.h $$x C:/k.h\nmy\\ h.h:\n", "a.c|my h.h|$x|C:/k.h"),
    ("a.o: C\\:/k.h d\\\\ e\\\\\\ f", "C:/k.h|d\\\\|e\\ f"),
    # Cut texts.
    ("", ""),
    ("a.o: ", ""),
    ("a.o: b\\", "b\\"),
    ("a.o: b\\\n", "b"),
    ("a.o: b\\\n ", "b"),
    ("a.o: b\\\n c", "b|c"),
    ("a.o: b\\\n c\n", "b|c"),
)
FAULTS = (
    ("a.o:b: c", "31 0"),
    ("\\a.o: b", "31 0"),
    # Other targets.
    ("a.o: b\n b.o c.o: d", "31 8"),
    ("a.o: b\n : d", "31 8"),
    # Missing colons.
    ("a.o b", "30 0"),
    ("a.o: b\n  \\#c d", "30 9"),
    ("a.o: b\nb.o: c\nd", "31 7"),
    # Cut texts.
    ("a", "30 0"),
    ("a.", "30 0"),
    ("a.o", "30 0"),
)
# What compilers write with -MD for an object `m n.o` of a file that includes files with such names.
WRITTEN = (
    # gcc 12.2.
    (
        "m\\ n.o: m\\ n.c /usr/include/stdc-predef.h in\\ c/my\\ h.h x\\#y.h d$$e.h \\\n b\\e.h c:d.h end\\\\\\ .h "
        "q\\\\#r.h in\\ c/../x\\#y.h\n",
        "m n.c|/usr/include/stdc-predef.h|in c/my h.h|x#y.h|d$e.h|b\\e.h|c:d.h|end\\ .h|q\\#r.h",
    ),
    # clang 14.0.
    (
        "m\\ n.o: m\\ n.c in\\ c/my\\ h.h x\\#y.h d$$e.h b/e.h c:d.h end/\\ .h q/\\#r.h \\\n  in\\ c/../x\\#y.h\n",
        "m n.c|in c/my h.h|x#y.h|d$e.h|b/e.h|c:d.h|end/ .h|q/#r.h",
    ),
)


def finished(output: str, text: str, reply: str, logs: str) -> Row:
    """The command that makes an output ends well and hands over a depfile."""
    manifest = f"{COMPILE}build {output.replace(' ', '$ ')}: cc\n"
    name = field(output)
    trace = f"{FIRST}lane 0\nplan {name}\nstart {name} 0\nfinish {name} 9 depfile {field(text)}\n"
    return Row(manifest, trace, "run\nlogs\n", f"1 0 ok\n2 0 ok\n3 0 {reply}\n{logs}", WELL)


def lists(output: str, text: str, said: str) -> Row:
    """A depfile that says these paths."""
    name = field(output)
    paths = "".join(f" {field(path)}" for path in said.split("|") if path)
    return finished(output, text, "ok", f"built {name} 9 cc\ndeps {name} 9{paths}\n")


def at_limits() -> dict[str, Row]:
    """Words of 4,096 bytes and one more. A target that is too long is no output, whatever its canonical path."""
    return {
        "a prerequisite of 4096 bytes": lists("a.o", f"a.o: {'a' * 4096}", "a" * 4096),
        "a prerequisite of 4097 bytes": finished("a.o", f"a.o: {'a' * 4097}", "refused 77 32 5", ""),
        "a target of 4096 bytes": lists("/o", f"{'/' * 4095}o: b", "b"),
        "a target of 4097 bytes": finished("/o", f"{'/' * 4096}o: b", "refused 77 31 0", ""),
    }


ROWS = (
    {f"a depfile {text!r}": lists("a.o", text, said) for text, said in LISTS}
    | {f"a depfile {text!r}": finished("a.o", text, f"refused 77 {fault}", "") for text, fault in FAULTS}
    | {f"a depfile {text!r}": lists("m n.o", text, said) for text, said in WRITTEN}
    | at_limits()
)
