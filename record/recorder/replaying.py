"""The text of a recording's `replay`, a script that needs a shell and rebug alone, and can be moved.

Its last line is a comment with the words of a run without questions, so that they can be read without running it.
"""

from __future__ import annotations

import os
import re
import shlex

from .fields import canonical

_SCRIPT = r"""#!/bin/sh
# Replays this recorded build. Words are questions: replay 'why app' 'dependents 6'. Those that begin with why are asked
# right after the plan, the others at the end. REBUG names another rebug than the one of the recorder. Where that one is
# not there, the one on the PATH is taken.
program=@PROGRAM@
if [ -n "${REBUG:-}" ]; then
    case $REBUG in
        /*) program=$REBUG ;;
        *) if [ -f "$REBUG" ]; then program=$PWD/$REBUG; else program=$(command -v "$REBUG") || program=$REBUG; fi ;;
    esac
fi
# Where the recorder was ended while it moved a new recording into its place, that one is replayed, from a copy.
here=$(dirname -- "$0")
is_moving() { [ -f "$here/.moving/replay" ] && ! [ -h "$here/.moving" ]; }
if is_moving; then sleep 1; fi
if is_moving; then REBUG_IS_MOVING=yes exec sh "$here/.moving/replay" "$@"; fi
CDPATH= cd -- "$here" || exit 3
if [ -n "${REBUG_IS_MOVING:-}" ]; then
    echo "replay: the recorder was ended while it moved this recording into its place: replayed from a copy" >&2
    cd .. && whole=$(mktemp -d) || exit 3
    trap 'rm -rf "$whole"' EXIT
    trap 'exit 129' HUP
    trap 'exit 130' INT
    trap 'exit 143' TERM
    case $program in /*) ;; *) program=$PWD/$program ;; esac
    for it in @NAMES@; do
        from=$it
        [ ! -f ".moving/$it" ] || from=.moving/$it
        mkdir -p "$(dirname -- "$whole/$it")" && cp "./$from" "$whole/$it" || exit 3
    done
    cd "$whole" || exit 3
fi
if ! [ -f "$program" ] && [ -z "${REBUG:-}" ]; then found=$(command -v rebug) && program=$found; fi
if ! [ -f "$program" ]; then
    echo "replay: there is no rebug at $program, nor on the PATH: name one, as in REBUG=/path/to/rebug $0" >&2
    exit 3
fi
ask() {
    @PLAN@
    for it in "$@"; do case $it in why*) printf '%s\n' "$it" ;; esac; done
    for it in "$@"; do case $it in why*) ;; *) rest=1 ;; esac; done
    [ -z "${rest:-}" ] || { @REST@; }
    for it in "$@"; do case $it in why*) ;; *) printf '%s\n' "$it" ;; esac; done
}
replay() {
    if [ $# = 0 ]; then
        "$program" @WORDS@ --script script@FILES@
    else
        ask "$@" | "$program" @WORDS@ --script /dev/stdin@FILES@
    fi
}
# The reader may go away (replay | head): the rest of the report then goes nowhere, without a word.
exec 4>&1
status=$({ { replay "$@" 3>&- 4>&-; echo $? >&3; } | {
    cat >&4
    written=$?
    cat >/dev/null
    [ $written = 0 ] || [ $written = 141 ] || echo 3 >&3
}; } 3>&1)
exit "${status##*
}"
# What runs without words:
# rebug @WORDS@ --script script@FILES@
"""
_LAST_LINE = "\n# What runs without words:\n# rebug "


def replay_text(names: list[str], script: list[bytes], with_lanes: bool, program: str) -> str:
    """The text, for the names of the manifest and of its further files. None of these is taken for an option."""
    at = script.index(b"run")
    plan, rest = (script[:at], script[at:-2]) if with_lanes else ([b"run 1"], [b"run"])
    manifest = [f"--manifest={names[0]}"] if names[0].startswith("-") else ["--manifest", names[0]]
    files = [*(["--workers"] if with_lanes else []), *(["--", *names[1:]] if names[1:] else [])]
    values = {"@PROGRAM@": shlex.quote(program), "@PLAN@": _printed(plan), "@REST@": _printed(rest),
              "@WORDS@": shlex.join([*manifest, "--trace", "trace"]),
              "@NAMES@": shlex.join([*names, "trace", "script"]),
              "@FILES@": "".join(" " + shlex.quote(it) for it in files)}
    return re.sub("|".join(values), lambda found: values[found[0]], _SCRIPT)


def _printed(lines: list[bytes]) -> str:
    """The shell's command that prints the lines."""
    return "printf '%s\\n' " + shlex.join(map(os.fsdecode, lines))


_SHAPE = ("--trace", "trace", "--script", "script")


def words_of_replay(text: str) -> list[str] | None:
    """The words that a recording's `replay` has rebug run with where it is asked nothing.

    None where it tells none, or others than a recorder writes: a recording may come from somebody else, and its words
    name files of its own alone.
    """
    _, found, line = text.rpartition(_LAST_LINE)
    try:
        words = shlex.split(line) if found and "\0" not in line else []
    except ValueError:
        return None
    if words[:1] == ["--manifest"]:
        words[:2] = ["=".join(words[:2])]
    manifest, is_named, name = words[0].partition("=") if words else ("", "", "")
    files = words[5:]
    with_lanes = files[:1] == ["--workers"]
    files = files[with_lanes:]
    if files[:1] == ["--"]:
        files = files[1:]
    elif any(it.startswith("-") for it in files):
        return None
    if manifest != "--manifest" or not is_named or tuple(words[1:5]) != _SHAPE:
        return None
    if not all(map(_is_inside, [name, *files])):
        return None
    return [f"--manifest={name}", *_SHAPE, *(["--workers"] if with_lanes else []), "--", *files]


def names_of_words(words: list[str]) -> list[str]:
    """The names of the files that these words have rebug read."""
    return [words[0].partition("=")[2], "trace", "script", *words[words.index("--") + 1 :]]


def _is_inside(name: str) -> bool:
    """Whether the name is that of a file below the folder."""
    path = os.fsencode(name)
    return bool(path) and canonical(path) == path and path.split(b"/", 1)[0] not in (b"", b".", b"..")
