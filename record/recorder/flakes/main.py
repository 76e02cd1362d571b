"""The command line of `rebug flakes`. Whatever goes wrong is told in a sentence, and has a status."""

from __future__ import annotations

import json
import os
import signal
from collections.abc import Iterator, Sequence

from ..provoke.copies import SHIELD, Ended
from ..regular import NoFile
from ..signals import NUMBERS, write_all
from ..summary.lines import VERSION
from .counting import Counted, OtherCounts, counted
from .reading import Summaries
from .sums import members_of
from .telling import faults_of, lines_of, objects_of
from .words import NAME, BadWords, HelpWanted, Options, read_words

_NOTHING, _AT_FAULT, _NO_ANSWER, _FOUND = 0, 2, 3, 4


def say(text: object) -> None:
    """A sentence to standard error."""
    write_all(2, f"{NAME}: {text}\n".encode("utf-8", "surrogateescape"))


def main(words: Sequence[str]) -> int:
    try:
        for number in NUMBERS:
            signal.signal(number, SHIELD.take)
        return _answered(words)
    except Ended as why:
        say(f"ended by {signal.Signals(why.number).name}")
        return 128 + why.number


def _answered(words: Sequence[str]) -> int:
    try:
        return _run(read_words(words))
    except HelpWanted as why:
        return _NOTHING if _show(f"{why}\n") else _NO_ANSWER
    except BadWords as why:
        say(why)
        return _AT_FAULT
    except (FileNotFoundError, NoFile) as why:
        say(f"{why.filename}: {why.strerror}")
        return _AT_FAULT
    except OtherCounts as why:
        say(why)
        return _NO_ANSWER
    except OSError as why:
        say(f"cannot read {os.fsdecode(why.filename or b'a file')}: {why.strerror}")
        return _NO_ANSWER


def _run(options: Options) -> int:
    summaries = Summaries()
    summaries.read(options.paths)
    for it in options.anchors:
        if not any(it in manifest.names for manifest in summaries.manifests.values()):
            summaries.faults.add(f"--anchor {it}: no manifest has a command of which that is the first output")
    them = counted(summaries, options.anchors, options.is_partial)
    for it in faults_of(summaries):
        say(it)
    if not them:
        say("no build is told of")
        return _NO_ANSWER
    write = _partial if options.is_partial else objects_of if options.json else lines_of
    if not _show("".join(it + "\n" for it in write(them))):
        return _NO_ANSWER
    if options.is_partial:
        return _NOTHING
    is_found = any(its.failed for it in them for its in it.sums.commands.values()) or any(it.left for it in them)
    return _FOUND if is_found else _NOTHING


def _show(text: str) -> bool:
    """Writes the answer, or says that it cannot be written."""
    is_written = write_all(1, text.encode("utf-8", "backslashreplace"))
    if not is_written:
        say("the answer cannot be written")
    return is_written


def _partial(them: Sequence[Counted]) -> Iterator[str]:
    """The lines of sums: names and findings as they were read, and the counts."""
    for it in them:
        manifest = it.manifest
        yield _line("names", manifest=it.name, names=manifest.names, places=manifest.places, waits=manifest.waits)
        for name, of in sorted(manifest.findings.items()):
            yield _line("finding", manifest=it.name, id=name, finding=of.kind, path=of.path, maker=of.maker,
                        user=of.user, mend=of.mend)
        yield _line("sums", manifest=it.name, **members_of(it.sums))


def _line(word: str, **members: object) -> str:
    return json.dumps({"rebug": word, "version": VERSION, **members}, sort_keys=True, separators=(",", ":"))
