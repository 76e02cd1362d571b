"""A run from bytes to bytes, with what it has to write, and manifests that several runs have."""

from dataclasses import dataclass

WELL, FAULT = 0, 1
FIRST = "rebug-trace 1\n"
# Lines of a trace stand apart by it where they stand in one text, and so do the replies to them.
APART = "; "


@dataclass(frozen=True)
class Row:
    """A manifest, a trace and a script, the report that is due, and the status."""

    manifest: str
    trace: str
    script: str
    report: str
    status: int = WELL
    # Whether it is run with its lanes on threads, too. Its trace has one lane, so the report is the same.
    on_threads: bool = False


@dataclass(frozen=True)
class Begin:
    """A manifest, and the opening lines of a trace."""

    manifest: str
    opening: str

    def said(self, lines: str, replies: str, words: str = "", shown: str = "") -> Row:
        """The lines of one lane, each with the reply that is due, and what words of the script show behind them."""
        said = lines.split(APART)
        replied = [f"{number} 0 {reply}\n" for number, reply in enumerate(replies.split(APART), start=1)]
        assert len(said) == len(replied), lines
        trace = "\n".join(["rebug-trace 2", *self.opening.splitlines(), "lane 0", *said, ""])
        script = "\n".join(["run", *words.split(APART), ""]) if words else "run\n"
        return Row(self.manifest, trace, script, "".join(replied) + shown)


COMPILES = """\
rule cc
  command = cc -c $in -o $out
rule ld
  command = ld $in -o $out
build a.o: cc a.c
build b.o: cc b.c
build app: ld a.o b.o
"""

POOLS = """\
pool one
  depth = 1
pool any
  depth = 0
rule r
  command = r $out
  pool = one
build x: r
build y: r
build z: r
  pool = any
build t: r
  pool = console
"""
