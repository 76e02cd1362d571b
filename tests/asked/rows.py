"""Lines of the prompt about one small build, and what the last of them is answered, by numbers of events (docs/ASK.md,
"Words"). Lines stand apart by `; `."""

from __future__ import annotations

from typing import Any

# m.o waits for v.h, and app for m.o and t.o; nobody asked for pass.
MANIFEST = """\
rule c
  command = c $out
build v.h: c v.in
build m.o m.d: c m.c || v.h
build t.o: c t.c
build app: c m.o t.o
build all: phony app
build pass: c p.in
"""

# The events have the numbers 1 to 11.
TRACE = """\
rebug-trace 1
jobs 4
stamp m.c 1
stamp p.in 1
stamp t.c 1
stamp v.in 1
lane 0
plan all
start v.h 0
start t.o 1
finish v.h 10
start m.o 0
finish t.o 11
finish m.o 12,12
start app 0
finish app 13
pass all
touch v.in 20
"""
FILES = {"build.ninja": MANIFEST, "trace": TRACE}

# Which event a name means.
NAMES = {
    "run; what 5": "5",
    "run; what 0:5": "5",
    "run; what 99": "no event",
    "run; what 0:99": "no event",
    "run; what 7:1": "no event",
    # A number means its event also where that is undone.
    "run; undo 10; what 10": "10",
    # A path means the last kept event there.
    "run; what m.o": "7",
    "run; what v.in": "11",
    "run; what all": "10",
    "run; undo 10; what all": "none kept",
    "run; undo 10; undo 9; what app": "8",
    "next 2; what v.h": "2",
    # Each output of an edge names it; a touch is at its own path.
    "run; what m.d": "7",
    "run; touch m.d 30; what m.d": "12",
    "run; touch m.d 30; what m.o": "7",
    # Of a kind.
    "run; what start m.o": "5",
    "run; what start m.d": "5",
    "run; touch m.o 30; what finish m.o": "7",
    "run; what touch v.in": "11",
    "run; what pass all": "10",
    "run; what clean m.o": "none kept",
    "run; what pass": "none kept",
    # What is no output.
    "run; what start none": "no output",
    "run; undo 11; what v.in": "no output",
}

# Which question a line asks, and what it is answered. A run is the events that began and ended it.
QUESTIONS = {
    "run; needs 5": "4 2 1",
    "run; needs pass all": "9 8 1",
    "run; needs pass all all": "9 8 7 6 5 4 3 2 1",
    "run; needs all": "9 8 1",
    "run; needs touch all": "none kept",
    "run; needs": "no question",
    "run; dependents 4": "5 7 8 9",
    "run; dependents pass all": "",
    "run; would cone 4": "4 5 7 8 9 10",
    "run; would 4": "no question",
    "run; who app": "8 9",
    "run; undo 10; undo 9; who app": "8 9",
    "run; who reads": "no output",
    "run; with t.o": "3-6 2-4 5-7",
    "next 5; with t.o": "3- 2-4 5-",
    "run; with pass": "-",
    "run; run 1": "no question",
    "run; quit app": "no question",
    "run; whoo app": "no question",
}

# What another order of events makes.
ORDERS = {
    "run; order 1 3 2 4 5 6 7 8 9 10 11": "same",
    "run; order 1 2 3": "differ",
    "run; touch v.in 30; order 1 2 3 4 5 6 7 8 9 10 12 11": "pair 11 12",
    "run; order 5 1": "refused 5 66",
    "run; order plan start v.h": "no output",
    # The first name that means no event is told.
    "run; order app 99 none": "no event",
    "run; order app none 99": "no output",
}

# What the state has of one path or edge.
LISTINGS = {
    "marks app": "",
    "next 3; marks t.o": "mark 2 t.o running 1 - 1",
    "run; marks app": "mark 3 app done 0",
    "run; marks m.d": "mark 1 m.o done 0,1",
    "run; marks v.in": "no output",
    "run; stamps app": "stamp app 13",
    "run; stamps none": "",
    "run; undo 11; stamps v.in": "stamp v.in 1",
    "run; logs app": "built app 13 c\\sapp",
    "run; logs m.d": "built m.d 12 c\\sm.o\\sm.d",
    "run; logs v.in": "",
}

# What changes the history, or goes on in the recording.
COMMANDS = {
    "run": "said 11, refused 0",
    "kept": "",
    "run; undo 4": "refused 82",
    "run; undo 10; undo 10": "refused 81",
    "run; redo 10": "refused 83",
    "run; undo 10; redo 10; kept": "1 2 3 4 5 6 7 8 9 10 11",
    "run; cone m.o": "7 8 9 10",
    "run; without t.o": "3 6 8 9 10",
    "run; back; back; kept": "1 2 3 4 5 6 7 8 9",
    "next 2; next": "3",
    "run; next": "the end",
    "next 11": "1 2 3 4 5 6 7 8 9 10 11",
    "until m.o; until m.o": "7",
    "until m.o; kept": "1 2 3 4 5",
    "until pass": "the end",
    # At a break the recording stands still.
    "break start m.o; run; kept": "2 3 4 5 6",
    "break start m.o; run; next": "a break",
}

# What a line is cut into. `who` asks for the path that stands behind it, and `help` tells the word that does.
CUTS = {
    "who app": "who app",
    "  who \t app  ": "who app",
    "   ": "nothing",
    "# a comment": "nothing",
    "who app # and why": "who app",
    "who a#b": "who a#b",
    # Quotes keep blanks together, and may stand inside of a text.
    "who 'my app'": "who my\\sapp",
    'who my" "app': "who my\\sapp",
    "help ''": "there is no word ``; `help` lists the words",
    # What names are shown as stands for their bytes, but not between single quotes.
    "who my\\sapp": "who my\\sapp",
    'who "a\\\\b"': "who a\\\\b",
    "who 'a\\sb'": "who a\\\\sb",
    "who \\x23\\x27\\x22": "who #'\"",
    "who \\x2g": "who \\\\x2g",
    'who "my app': "a quote is not closed",
}


def numbers(events: list[dict[str, Any]]) -> str:
    return " ".join(str(it["number"]) for it in events)


def span_of(run: dict[str, Any] | None) -> str:
    """A run by the events that began and ended it."""
    if run is None:
        return "-"
    return f"{run['began']['number']}-{run['ended']['number'] if run['ended'] else ''}"


def order_of(answer: dict[str, Any]) -> str:
    events = [it["number"] for it in (answer["first"], answer["second"]) if it]
    code = [answer["code"]] if answer["code"] else []
    return " ".join(map(str, [answer["answer"], *events, *code]))


def steps_of(answer: dict[str, Any]) -> str:
    """The events of the commands that were said, each of which has one, or why none was said."""
    if answer["steps"]:
        events = [it["answer"]["event"] for it in answer["steps"]]
        return numbers(events) if all(events) else "a command without an event"
    return "the end" if answer["ended"] else "a break"


def told_of(answer: dict[str, Any]) -> str:
    """An answer as the rows have it."""
    match answer["kind"]:
        case "event":
            return str(answer["event"]["number"])
        case "events" | "cone" | "without":
            return numbers(answer["events"])
        case "needs" | "dependents":
            return numbers([it["event"] for it in answer["events"]])
        case "with":
            return " ".join(map(span_of, [answer["run"], *answer["others"]]))
        case "lines":
            return "\n".join(answer["lines"])
        case "order":
            return order_of(answer)
        case "refused":
            return f"refused {answer['code']}"
        case "run":
            return f"said {answer['said']}, refused {answer['refused']}"
        case "steps":
            return steps_of(answer)
        case "no event" if answer["path"] is not None:
            return "none kept"
    return str(answer["kind"])


def cut_of(answer: dict[str, Any]) -> str:
    """The path that a line asks for, or what is told in its place."""
    match answer["kind"]:
        case "lines":
            return str(answer["lines"][0])
        case "no question":
            return str(answer["words"])
        case "nothing":
            return "nothing"
    return f"who {answer['path']}"
