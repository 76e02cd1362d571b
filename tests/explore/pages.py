"""What stands in a page of `rebug explore`, and what its model answers in Node."""

from __future__ import annotations

import base64
import json
import os
import re
import subprocess
import zlib
from typing import Any

TOP = os.path.dirname(os.path.dirname(os.path.dirname(os.path.realpath(__file__))))
EXPLORE = f"{TOP}/record/rebug-explore"
MODEL = f"{TOP}/record/recorder/explore/model.js"

# Answers to questions, each a list of a word and its arguments, of a page's first recording. `keep` begins anew.
ANSWERS = """
const words = (model, list) => list.map((it) => model.events.number[it]);
const why = (model, it) => it && [it.code, it.other < 0 ? null : model.events.number[it.other], it.through];
function answered(model, questions) {
  let desk = new Desk(model);
  const at = (number) => model.placeOf.get(number);
  const of = {
    keep: () => { desk = new Desk(model); },
    needs: (it) => model.needs(at(it)).map((on) => [model.events.number[on], model.through(at(it), on)]),
    past: (it) => words(model, model.past(at(it))),
    dependents: (it) => words(model, model.dependents(at(it))),
    cone: (it) => words(model, desk.cone(at(it))),
    refused: (it) => why(model, desk.undoRefused(at(it))),
    undo: (it) => { const no = desk.undoRefused(at(it)); if (!no) desk.mark([at(it)], true); return why(model, no); },
    undoCone: (it) => { const cone = desk.cone(at(it)); desk.mark(cone, true); return words(model, cone); },
    redo: (it) => { const no = desk.redoRefused(at(it)); if (!no) desk.mark([at(it)], false); return why(model, no); },
    redoWith: (it) => { const all = desk.redoWith(at(it)); desk.mark(all, false); return words(model, all); },
    kept: () => words(model, [...model.kinds.keys()].filter((it) => desk.isKept(it))),
    move: (it) => { const no = desk.moveTo(it); return no && words(model, [no.at, no.on]); },
    mark: (it) => desk.markOf(model.edgeOf.get(it)).state,
    words: (it) => model.words(at(it)),
    search: (query, details) => searched(model, details, query)
      .map((it) => [model.texts[model.edgeOutput[it.edge]], it.by]),
    rows: (by) => rowsOf(model, by, new Set()).map((row) => [row.label, [...row.runs].map((run) => model.output(run))]),
    bands: (by, from, to, width) => rowsOf(model, by, new Set()).map((row) => {
      const found = [];
      bandsOf(model, row, {from, to, width}, new Uint16Array(model.runs),
        (left, right, run, count) => found.push([left, right, count]));
      return [[...row.runs].filter((run) => model.runTo[run] >= from && model.runFrom[run] <= to).length, found];
    }),
    load: (from, to, width) => [...loadOf(model, {from, to, width})],
    labels: () => [...Array(model.runs).keys()].map((run) => model.label(run)),
  };
  return questions.map(([word, ...given]) => of[word](...given));
}
"""
IN_NODE = """
const {readFileSync} = require('fs');
const {data, questions} = JSON.parse(readFileSync(0, 'utf8'));
console.log(JSON.stringify(new Function('data', 'questions', readFileSync(process.argv[1], 'utf8') + process.argv[2] +
  'return answered(new Model(data), questions);')(data, questions)));
"""
# Bad bodies that the tests must find: each takes the place of a function of the page.
BAD = {
    "a cone by the build graph": """
Desk.prototype.cone = function (at) {
  const {model} = this, {behind} = model.data, made = new Set();
  const edgeOf = (it) => model.runOf[it] < 0 ? -1 : model.runEdge[model.runOf[it]], taken = new Set([edgeOf(at)]);
  const names = (edge, ...lists) => lists.flatMap((it) => behind[it][edge]).map((it) => behind.texts[it]);
  if (!this.isKept(at)) return [];
  for (const edge of taken) {
    if (edge < 0) continue;
    names(edge, 'outputs', 'implicit_outputs').forEach((it) => made.add(it));
    model.edgeOutput.forEach((_, it) => {
      if (names(it, 'explicit', 'implicit', 'order_only').some((name) => made.has(name))) taken.add(it);
    });
  }
  return [...model.kinds.keys()].filter((it) => it >= at && this.isKept(it) && taken.has(edgeOf(it)));
};
""",
    "an undo that nothing refuses": "Desk.prototype.undoRefused = () => null;",
    "an undo that build lines alone refuse": """
Desk.prototype.undoRefused = function (at) {
  const through = (it) => this.model.through(it, at);
  const other = this.model.dependents(at).find((it) => through(it).startsWith('the mark of'));
  return other === undefined ? null : {code: 82, other, through: through(other)};
};
""",
    "bars of less than a pixel are left out": """
bandsOf = ((whole) => (model, row, view, flags, visit) => {
  const scale = view.width / (view.to - view.from);
  whole(model, row, view, flags, (left, right, run, ...more) => {
    if ((model.runTo[run] - model.runFrom[run]) * scale >= 1) visit(left, right, run, ...more);
  });
})(bandsOf);
""",
    "bars are as wide as they lasted": """
bandsOf = (model, row, view, flags, visit) => row.runs.forEach((run) => {
  const x = (time) => (time - view.from) * view.width / (view.to - view.from);
  if (model.runTo[run] >= view.from && model.runFrom[run] <= view.to) {
    visit(x(model.runFrom[run]), x(model.runTo[run]), run, 1, flags[run], flags[run]);
  }
});
""",
    "labels are cut": "Model.prototype.label = function (run) { return this.output(run).slice(0, 24); };",
    "labels are the last part of a path": """
Model.prototype.label = function (run) { return this.output(run).split('/').pop(); };
""",
}


def made(program: str, *words: str) -> bytes:
    """The page that the words ask for."""
    ran = subprocess.run([EXPLORE, *words, "--rebug", program], capture_output=True, timeout=600, check=False)
    if ran.returncode or ran.stderr:
        raise AssertionError(f"status {ran.returncode}: {ran.stderr.decode()}")
    return ran.stdout


def data_of(page: bytes, name: str = "first") -> Any:
    """The data of a block of the page."""
    found = re.search(rb'<script type="text/plain" id="data-%b">([A-Za-z0-9+/=]*)</script>' % name.encode(), page)
    assert found
    return json.loads(zlib.decompress(base64.b64decode(found[1])))


def recording_of(page: bytes) -> Any:
    """The first recording of a page."""
    return data_of(page)["recordings"][0]


def in_node(node: str, data: Any, questions: list[list[Any]], bad: str = "") -> list[Any]:
    """What the model answers. A bad body takes the place of one of its functions."""
    given = json.dumps({"data": data, "questions": questions})
    words = [node, "-e", IN_NODE, MODEL, ANSWERS + bad]
    ran = subprocess.run(words, input=given, capture_output=True, text=True, timeout=600, check=False)
    if ran.returncode:
        raise AssertionError(ran.stderr)
    answers: list[Any] = json.loads(ran.stdout)
    return answers
