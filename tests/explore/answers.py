"""What rebug answers of a recording of one build, as `rebug explore` asks it, worked out by a few lines of Python.

It is for pages of recordings that the program would take long over, and for machines without the program. The recording
has one plan, and no pools, phony edges, touches and logs of earlier builds. tests/explore/run compares what stands in
these pages with what the program answers, for recordings of a size at which both can be asked."""

from __future__ import annotations

from collections import defaultdict
from typing import Any, Iterable, Iterator

from recorder.explore.asking import Object, Recording
from recorder.explore.statements import statements

_ENDS = ("finish", "fail", "abort")


class Answers(Recording):
    """A recording that is asked without the program."""

    def __init__(self, folder: str) -> None:
        super().__init__("tests/explore/answers.py", folder)
        self.statements = [{**it, "listed": None} for it in statements(folder)]
        self.outputs = [[*it["outputs"], *it["implicit_outputs"]] for it in self.statements]
        self.names = [it[0] for it in self.outputs]
        self.maker = {name: edge for edge, names in enumerate(self.outputs) for name in names}
        self.waits = [self._waits(it) for it in self.statements]
        self.stamped = set[str]()
        self.events = list(self._events())
        self.begun = {it["path"]: it["number"] for it in self.events if it["kind"] == "start"}
        self.ended = {it["path"]: it["number"] for it in self.events if it["kind"] in _ENDS}

    def session(self, questions: Iterable[str]) -> Iterator[Object]:
        yield {"kind": "recording", "commands": len(self.events), "lanes": 1}
        answers = {"run": self._run, "kept": self._kept, "edges": self._edges, "critical": self._critical,
                   "races": self._races, "marks": self._marks}
        needs = self._needs()
        for question in questions:
            word, _, rest = question.partition(" ")
            if word == "needs":  # of each event, in their order
                yield next(needs)
            elif word in ("edge", "why"):
                yield {"kind": "each", "count": len(self.names), "phony": False, "answers": self._each(word)}
            else:
                yield answers[word]()

    def _waits(self, it: Object) -> list[int]:
        """The edges that make inputs of an edge."""
        inputs = [*it["explicit"], *it["implicit"], *it["order_only"]]
        return sorted({self.maker[name] for name in inputs if name in self.maker})

    def _events(self) -> Iterator[Object]:
        with open(f"{self.folder}/times", encoding="ascii") as file:
            times = [int(it.split()[1]) for it in file if ":" in it]
        number = 0
        with open(f"{self.folder}/trace", encoding="ascii") as file:
            for line in file:
                word, path, more = [*line.split(" ", 3), "", ""][:3]
                if word == "stamp":
                    self.stamped.add(path)
                if word.strip() not in ("plan", "start", *_ENDS):
                    continue
                number += 1
                job = int(more) if word == "start" else None
                plan = word.strip() == "plan"
                path = path.strip()
                words = line.strip() if plan else f"{word} {path}" + ("" if job is None else f" (job {job})")
                yield {"number": number, "kind": word.strip(), "path": None if plan else path, "job": job,
                       "time": times[number - 1], "words": words}

    def _run(self) -> Object:
        return {"kind": "run", "refused": 0, "running": 0}

    def _kept(self) -> Object:
        return {"kind": "kept", "events": self.events}

    def _edges(self) -> Object:
        with open(f"{self.folder}/build.ninja", encoding="ascii") as file:
            lines = [at for at, it in enumerate(file, 1) if it.startswith("build ")]
        return {"kind": "edges", "edges": [{"output": name, "line": line, "file": "build.ninja"}
                                           for name, line in zip(self.names, lines)]}

    def _critical(self) -> Object:
        chain, left = list[str](), [name for name in self.names if name in self.ended]
        while left:
            chain.append(max(left, key=lambda it: self.ended[it]))
            left = [self.names[it] for it in self.waits[self.maker[chain[-1]]] if self.names[it] in self.ended]
        return {"kind": "critical", "runs": [{"began": self.begun[it]} for it in chain]}

    def _races(self) -> Object:
        return {"kind": "races", "findings": []}

    def _marks(self) -> Object:
        return {"kind": "lines", "lines": []}

    def _needs(self) -> Iterator[Object]:
        """What each event rests on: two events by the mark of an edge, or by a job that both had."""
        of_job, jobs = defaultdict[int, list[int]](list), dict[str, int]()
        for at, it in enumerate(self.events):
            number, path = it["number"], it["path"]
            by = dict[int, str]()
            if path is not None:
                edge = self.maker[path]
                marks = [*(self.waits[edge] if it["kind"] == "start" else ()), edge]
                by[1] = f"the mark of {self.names[min(marks)]}"
                for mark in marks:
                    for earlier in (self.begun.get(self.names[mark]), self.ended.get(self.names[mark])):
                        if earlier is not None and earlier < number:
                            by[earlier] = f"the mark of {self.names[mark]}"
                job = jobs.setdefault(path, it["job"])
                for earlier in of_job[job]:
                    by.setdefault(earlier, f"job {job}")
                of_job[job].append(number)
            yield {"kind": "needs", "observed": None, "events": [
                {"event": {"number": earlier}, "through": by[earlier]} for earlier in sorted(by, reverse=True)]}

    def _each(self, word: str) -> list[Object]:
        if word == "edge":
            return [{**it, "kind": "edge", "output": name, "read_besides": None}
                    for it, name in zip(statements(self.folder), self.names)]
        plan = {"number": 1}
        return [{"kind": "why", "path": name, "last": name, "plan": plan if name in self.begun else None, "steps": [],
                 "reasons": self._reasons(edge)} for edge, name in enumerate(self.names)]

    def _reasons(self, edge: int) -> list[Any]:
        it = self.statements[edge]
        told = [("missing", output, None) for output in self.outputs[edge]]
        told += [("no-deps", None, None)] if "deps" in it["flags"] else []
        told += [("older", output, name) for output in self.outputs[edge] for name in [*it["explicit"], *it["implicit"]]
                 if name in self.stamped]
        told += [("no-record", output, None) for output in self.outputs[edge]]
        return [dict(zip(("reason", "output", "input"), one)) for one in told]
