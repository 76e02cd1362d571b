'use strict';
// The page of `rebug explore`: model.js is tested without a document, chart.js is the canvas, and page.js has panels,
// keys and moments. Events, runs and edges are known by their places in the columns of the data; `number` is that of a
// journal's entry, by which the prompt knows an event.

/** @typedef {{kind: string, id: string, matters: boolean, title: string, lines: string[], printed: ?string[],
 *   of: ?string, runs: (?number)[]}} Finding */
/** @typedef {{label: string, group: number, runs: Int32Array, reach: Float64Array, isHead: boolean,
 *   isFolded: boolean}} Row */
/** @typedef {{from: number, to: number, width: number}} View */
/** @typedef {{code: number, other: number, through: string}} Refusal */
/** @typedef {{track: Track, at: number, run: number, past: number[], future: number[],
 *   same: {track: Track, run: number}[]}} Chosen */

const NONE = -1, CHAIN = -3;
const ENDED = /** @type {Object<string, string>} */ (
  {ok: 'well', failed: 'failed', stopped: 'was stopped', running: 'not in this recording'});
const MARKS = /** @type {Object<string, string>} */ ({ok: 'done', failed: 'failed', stopped: 'stopped'});
const LEAST_BAR = 2;
/** So many rows are laid out at most; where there are more, folders are folded. */
const MOST_ROWS = 120;

/** Lists of what has the same key, in the order of the keys' first places.
 * @template T, K @param {T[]} list @param {(it: T) => K} keyOf @return {Map<K, T[]>} */
function grouped(list, keyOf) {
  const found = new Map();
  for (const it of list) {
    const key = keyOf(it), group = found.get(key);
    if (group) group.push(it);
    else found.set(key, [it]);
  }
  return found;
}

/** A recording: its kept events, what each rests on, its runs and its edges. */
class Model {
  /** @param {Object<string, any>} data */
  constructor(data) {
    this.data = data;
    this.texts = /** @type {string[]} */ (data.texts);
    this.events = /** @type {Object<string, number[]>} */ (data.events);
    this.count = this.events.number.length;
    this.kinds = this.events.kind.map((it) => this.texts[it]);
    this.placeOf = new Map(this.events.number.map((number, at) => [number, at]));
    this.known = {at: NONE, isLater: false, found: /** @type {Map<number, number>} */ (new Map())};
    this.setTimes();
    this.setNeeds();
    this.setEdges();
    this.setRuns();
    this.looksOf = grouped(/** @type {any[][]} */ (data.looks), (it) => it[0]);
    const leaves = [...this.kinds.keys()].filter((at) => /^(finish|touch)$/.test(this.kinds[at]));
    /** The events that left each path as it is: the ends of the command that makes it, and its touches. */
    this.left = grouped(leaves, (at) => this.pathOf(at));
  }

  /** Where each event stands on the axis: at its time, or by its place where the recording has no times. */
  setTimes() {
    this.isTimed = this.events.time.some((it) => it !== NONE);
    let last = 0;
    this.at = Float64Array.from(this.events.time, (time, at) => last = this.isTimed ? Math.max(last, time) : at);
    this.end = Math.max(1, last);
  }

  /** The links of each event, both ways. A cell's number below NONE says that the event stands for all behind it. */
  setNeeds() {
    const {count, back, through} = this.data.needs, size = this.count + 1;
    const links = () => ({from: new Int32Array(size), on: new Int32Array(back.length), by: Int32Array.from(through)});
    const {from, on, by} = this.earlier = links(), later = this.later = links();
    for (let at = 0, next = 0; at < this.count; at++) {
      for (const last = next + count[at]; next < last; next++) later.from[(on[next] = at - back[next]) + 1]++;
      from[at + 1] = next;
    }
    for (let at = 0; at < this.count; at++) later.from[at + 1] += later.from[at];
    const filled = later.from.slice();
    for (let at = 0; at < this.count; at++) {
      for (let it = from[at]; it < from[at + 1]; it++) {
        later.by[filled[on[it]]] = by[it];
        later.on[filled[on[it]]++] = at;
      }
    }
  }

  setEdges() {
    this.edgeOutput = /** @type {number[]} */ (this.data.edges.output);
    this.edgeOf = new Map(this.edgeOutput.map((it, edge) => [this.texts[it], edge]));
    this.wanted = new Set(/** @type {number[]} */ (this.data.wanted));
    this.runsOfEdge = /** @type {number[][]} */ (this.edgeOutput.map(() => []));
  }

  /** The runs of commands: each start with the event that ends it. */
  setRuns() {
    const {start, end, edge, state} = this.data.runs;
    this.runs = start.length;
    this.runStart = Int32Array.from(start);
    this.runEnd = Int32Array.from(end);
    this.runEdge = Int32Array.from(edge);
    this.runState = /** @type {number[]} */ (state).map((it) => this.texts[it]);
    this.runFrom = Float64Array.from(this.runStart, (it) => this.at[it]);
    this.runTo = Float64Array.from(this.runEnd, (it) => it === NONE ? this.end : this.at[it]);
    this.runOf = new Int32Array(this.count).fill(NONE);
    for (let run = 0; run < this.runs; run++) {
      this.eventsOf(run).forEach((it) => { this.runOf[it] = run; });
      if (this.runEdge[run] !== NONE) this.runsOfEdge[this.runEdge[run]].push(run);
    }
    this.critical = new Set(/** @type {number[]} */ (this.data.critical).map((it) => this.runAt(it)));
  }

  /** The run of the event of this number, or NONE. @param {?number} number */
  runAt(number) {
    const at = number === null ? undefined : this.placeOf.get(number);
    return at === undefined ? NONE : this.runOf[at];
  }

  /** @param {number} at */
  words(at) {
    const text = this.events.words[at];
    if (text !== NONE) return this.texts[text];
    const job = this.events.job[at];
    return `${this.kinds[at]} ${this.pathOf(at)}${job === NONE ? '' : ` (job ${job})`}`;
  }

  /** An event with its number, as the prompt names it. @param {number} at */
  named(at) { return `${this.events.number[at]} ${this.words(at)}`; }

  /** @param {number} at */
  pathOf(at) { return this.events.path[at] === NONE ? '' : this.texts[this.events.path[at]]; }

  /** @param {number} run */
  output(run) { return this.pathOf(this.runStart[run]); }

  /** The shortest end of an output, by whole parts, that no other output has. @param {number} run */
  label(run) {
    const edge = this.runEdge[run], name = this.output(run);
    return edge === NONE ? name : name.slice(-this.data.edges.label[edge]);
  }

  /** The last run of the command of this output, or NONE. @param {string} output */
  lastRun(output) { return (this.runsOfEdge[this.edgeOf.get(output)] || []).at(-1) ?? NONE; }

  /** @param {number} run */
  eventsOf(run) { return this.runEnd[run] === NONE ? [this.runStart[run]] : [this.runStart[run], this.runEnd[run]]; }

  /** The file and line of a build statement. @param {number} edge */
  edgePlace(edge) {
    const {file, line} = this.data.edges;
    return `${file[edge] === NONE ? 'the manifest' : this.texts[file[edge]]}:${line[edge]}`;
  }

  /** The events at the other ends of an event's direct links, each with its cell. Behind a link that stands for others
   * come the links by the same cell: of an earlier event all, and of a later one those that stand for others.
   * @param {number} at @param {boolean} isLater @return {Map<number, number>} */
  linked(at, isLater) {
    const {from, on, by} = isLater ? this.later : this.earlier, found = new Map(), left = [[at, NONE]];
    if (this.known.at === at && this.known.isLater === isLater) return this.known.found;
    for (const [event, only] of left) {
      for (let it = from[event]; it < from[event + 1]; it++) {
        const isChain = by[it] < NONE, cell = isChain ? CHAIN - by[it] : by[it];
        if (event !== at && (cell !== only || isLater && !isChain)) continue;
        found.set(on[it], cell);
        if (isLater || isChain) left.push([on[it], cell]);
      }
    }
    this.known = {at, isLater, found};
    return found;
  }

  /** The earlier events that an event rests on directly, the nearest first. @param {number} at @return {number[]} */
  needs(at) { return [...this.linked(at, false).keys()].sort((one, other) => other - one); }

  /** The later events that rest on an event directly, in their order. @param {number} at @return {number[]} */
  dependents(at) { return [...this.linked(at, true).keys()].sort((one, other) => one - other); }

  /** Through what one event rests on another, in words. @param {number} at @param {number} on */
  through(at, on) {
    const cell = this.linked(at, false).get(on);
    return cell === undefined || cell === NONE ? '' : this.texts[cell];
  }

  /** All that an event rests on, also by way of others. @param {number} at @return {number[]} */
  past(at) {
    return closure(at, this.earlier, () => true).slice(1).sort((one, other) => one - other);
  }
}

/** An event and all that is reached from it along the links. The event is the first.
 * @param {number} at @param {{from: Int32Array, on: Int32Array}} links @param {(at: number) => boolean} isTaken */
function closure(at, {from, on}, isTaken) {
  const seen = new Uint8Array(from.length), found = [at];
  seen[at] = 1;
  for (let next = 0; next < found.length; next++) {
    for (let it = from[found[next]]; it < from[found[next] + 1]; it++) {
      if (!seen[on[it]] && isTaken(on[it])) {
        seen[on[it]] = 1;
        found.push(on[it]);
      }
    }
  }
  return found;
}

/** What is kept of a recording at a moment: the events before it, without those that were undone. Each kept event rests
 * on kept events alone, so the dependences are those of the recording. */
class Desk {
  /** @param {Model} model */
  constructor(model) {
    this.model = model;
    this.moment = model.count;
    this.undone = new Uint8Array(model.count);
    this.undoneCount = 0;
  }

  /** @param {number} at */
  isKept(at) { return at < this.moment && !this.undone[at]; }

  /** Why the event is not undone: null where it may be. @param {number} at @return {?Refusal} */
  undoRefused(at) {
    if (!this.isKept(at)) return {code: 81, other: NONE, through: ''};
    for (const other of this.model.dependents(at)) {
      if (this.isKept(other)) return {code: 82, other, through: this.model.through(other, at)};
    }
    return null;
  }

  /** The kept event and each kept one that rests on it, also by way of others, in their order. @param {number} at */
  cone(at) {
    if (!this.isKept(at)) return [];
    return closure(at, this.model.later, (it) => this.isKept(it)).sort((one, other) => one - other);
  }

  /** Why an undone event is not redone: null where it may be. @param {number} at @return {?Refusal} */
  redoRefused(at) {
    if (at >= this.moment) return {code: 80, other: NONE, through: ''};
    if (!this.undone[at]) return {code: 83, other: NONE, through: ''};
    for (const other of this.model.needs(at)) {
      if (this.undone[other]) return {code: 84, other, through: this.model.through(at, other)};
    }
    return null;
  }

  /** The undone event and each undone one that it rests on, in their order. @param {number} at */
  redoWith(at) {
    if (at >= this.moment || !this.undone[at]) return [];
    return closure(at, this.model.earlier, (it) => !!this.undone[it]).sort((one, other) => one - other);
  }

  /** @param {number[]} events @param {boolean} isUndone */
  mark(events, isUndone) {
    for (const at of events) {
      if (!!this.undone[at] !== isUndone) this.undoneCount += isUndone ? 1 : -1;
      this.undone[at] = isUndone ? 1 : 0;
    }
  }

  /** Moves to a moment. On the way forward it stops in front of the first event that rests on an undone one, and gives
   * both. @param {number} moment @return {?{at: number, on: number}} */
  moveTo(moment) {
    const goal = Math.max(0, Math.min(this.model.count, moment));
    if (goal <= this.moment || this.undoneCount === 0) {
      for (let at = goal; this.undoneCount && at < this.moment; at++) this.mark([at], false);
      this.moment = goal;
      return null;
    }
    for (; this.moment < goal; this.moment++) {
      const on = this.model.needs(this.moment).find((it) => this.undone[it]);
      if (on !== undefined) return {at: this.moment, on};
    }
    return null;
  }

  /** How far an edge has come at the moment, with the event that says so, or NONE. @param {number} edge */
  markOf(edge) {
    const {model} = this, {runStart, runEnd} = model, runs = model.runsOfEdge[edge];
    const plan = this.lastKept((at) => model.kinds[at] === 'plan'), next = model.kinds.indexOf('plan', plan + 1);
    const run = runs.filter((it) => this.isKept(runStart[it])).pop();
    if (run === undefined || runStart[run] < plan) {
      const isNow = (/** @type {number} */ it) => runStart[it] > plan && (next < 0 || runStart[it] < next);
      if (plan !== NONE && (runs.some(isNow) || next < 0 && model.wanted.has(edge))) return {state: 'to run', by: plan};
    }
    if (run === undefined) return {state: 'did not run', by: NONE};
    const isOver = runEnd[run] !== NONE && this.isKept(runEnd[run]);
    return isOver ? {state: MARKS[model.runState[run]], by: runEnd[run]} : {state: 'running', by: runStart[run]};
  }

  /** The last kept event that left a path as it is, or NONE. @param {string} path */
  leftBy(path) {
    return (this.model.left.get(path) || []).filter((at) => this.isKept(at)).at(-1) ?? NONE;
  }

  /** The last kept event that passes a test, or NONE. @param {(at: number) => boolean} isWanted */
  lastKept(isWanted) {
    for (let at = this.moment - 1; at >= 0; at--) if (!this.undone[at] && isWanted(at)) return at;
    return NONE;
  }
}

/** Runs in as few rows as ran side by side, each after the one before. @param {Model} model @param {number[]} runs */
function packed(model, runs) {
  const rows = /** @type {number[][]} */ ([]), ends = /** @type {number[]} */ ([]);
  const free = /** @type {number[]} */ ([]), busy = /** @type {number[]} */ ([]);
  for (const run of runs) {
    const start = model.runStart[run];
    for (let it = 0; it < busy.length;) {
      if (ends[busy[it]] <= start) free.push(...busy.splice(it, 1));
      else it++;
    }
    free.sort((one, other) => other - one);
    let lane = free.pop();
    if (lane === undefined) lane = rows.push([]) - 1;
    rows[lane].push(run);
    ends[lane] = model.runEnd[run] === NONE ? Infinity : model.runEnd[run];
    busy.push(lane);
  }
  return rows;
}

/** @param {Model} model @param {string} label @param {number[]} runs @param {number} [group] @param {boolean} [isHead]
 * @param {boolean} [isFolded] @return {Row} */
function rowOf(model, label, runs, group = NONE, isHead = false, isFolded = false) {
  let last = -Infinity;
  const reach = Float64Array.from(runs, (run) => last = Math.max(last, model.runTo[run]));
  return {label, group, runs: Int32Array.from(runs), reach, isHead, isFolded};
}

/** The rows of a recording: its lanes, or a group for each folder or target, which is one row where it is folded.
 * @param {Model} model @param {string} by @param {Set<number>} turned the groups that are not as they are at first */
function rowsOf(model, by, turned) {
  const all = Array.from({length: model.runs}, (_, run) => run);
  if (by === 'lanes') return packed(model, all).map((runs, at) => rowOf(model, `lane ${at + 1}`, runs));
  const groups = grouped(all, (run) => {
    const group = model.runEdge[run] === NONE ? NONE : model.data.edges[by][model.runEdge[run]];
    return group === NONE ? `no ${by}` : model.texts[group];
  });
  const names = [...groups.keys()].sort();
  const lanes = names.map((name) => packed(model, groups.get(name)));
  const isMany = lanes.reduce((sum, it) => sum + it.length, 0) > MOST_ROWS;
  return names.flatMap((name, group) => {
    const runs = groups.get(name), label = `${name} (${runs.length})`;
    if (isMany !== turned.has(group)) return [rowOf(model, label, runs, group, true, true)];
    return lanes[group].map((it, at) => rowOf(model, at ? '' : label, it, group, at === 0));
  });
}

/** The rectangles of a row in a view: each run of two pixels or more, and of narrower ones that stand together a band
 * with their count. No run that the view shows is without a rectangle, and none is narrower than a pixel. The visitor
 * gets the first run, how many there are, and the flags that one of them has and that all of them have.
 * @param {Model} model @param {Row} row @param {View} view @param {ArrayLike<number>} flags
 * @param {(left: number, right: number, run: number, count: number, some: number, every: number) => void} visit */
function bandsOf(model, row, view, flags, visit) {
  const scale = view.width / (view.to - view.from);
  let left = 0, right = -1, first = NONE, count = 0, some = 0, every = 0;
  for (let at = firstBehind(row.reach, view.from); at < row.runs.length; at++) {
    const run = row.runs[at];
    if (model.runFrom[run] > view.to) break;
    if (model.runTo[run] < view.from) continue;
    const begin = (model.runFrom[run] - view.from) * scale, end = (model.runTo[run] - view.from) * scale;
    const isBar = end - begin >= LEAST_BAR;
    if (count && (isBar || begin > right + 1)) {
      visit(left, right, first, count, some, every);
      count = 0;
    }
    if (isBar) visit(begin, end, run, 1, flags[run], flags[run]);
    else if (count) {
      right = Math.max(right, end, begin + 1);
      count++;
      some |= flags[run];
      every &= flags[run];
    } else {
      left = begin;
      right = Math.max(end, begin + 1);
      first = run;
      count = 1;
      some = every = flags[run];
    }
  }
  if (count) visit(left, right, first, count, some, every);
}

/** The first place whose value is not below a bound; the values rise.
 * @param {ArrayLike<number>} values @param {number} bound */
function firstBehind(values, bound) {
  let low = 0, high = values.length;
  while (low < high) {
    const middle = (low + high) >> 1;
    if (values[middle] < bound) low = middle + 1;
    else high = middle;
  }
  return low;
}

/** How many commands run at most in each column of a view. @param {Model} model @param {View} view */
function loadOf(model, view) {
  const most = new Uint32Array(Math.max(1, Math.ceil(view.width)));
  const scale = view.width / (view.to - view.from);
  let running = 0, column = 0;
  for (let at = 0; at < model.count; at++) {
    const run = model.runOf[at];
    if (run === NONE) continue;
    const next = Math.floor((model.at[at] - view.from) * scale);
    for (; column < Math.min(next, most.length); column++) most[column] = Math.max(most[column], running);
    running += model.runStart[run] === at ? 1 : -1;
    if (next >= 0 && next < most.length) most[next] = Math.max(most[next], running);
  }
  for (; column < most.length; column++) most[column] = Math.max(most[column], running);
  return most;
}

/** A test of texts: by a part, or by a pattern in which `*` stands for any text. @param {string} query */
function matcher(query) {
  const wanted = query.toLowerCase();
  if (!wanted.includes('*')) return (/** @type {string} */ text) => text.toLowerCase().includes(wanted);
  const parts = wanted.split('*').map((it) => it.replace(/[\\^$.|?+()[\]{}]/g, '\\$&'));
  const pattern = new RegExp(`^${parts.join('.*')}$`, 's');
  return (/** @type {string} */ text) => pattern.test(text.toLowerCase());
}

/** The edges that a query finds, each with what it was found by. `details` is null where they are not read yet.
 * @param {Model} model @param {?Object<string, any>} details @param {string} query */
function searched(model, details, query) {
  const found = /** @type {{edge: number, by: string, text: string}[]} */ ([]);
  if (!query) return found;
  const matches = matcher(query);
  const isHit = details ? details.texts.map(matches) : [];
  const isChunk = details ? details.chunks.map((/** @type {number[]} */ it) => it.some((text) => isHit[text])) : [];
  const hit = (/** @type {number[]} */ texts) => texts.find((it) => isHit[it]);
  const inChunks = (/** @type {?number[]} */ chunks) => {
    const chunk = (chunks || []).find((it) => isChunk[it]);
    return chunk === undefined || !details ? undefined : hit(details.chunks[chunk]);
  };
  for (let edge = 0; edge < model.edgeOutput.length; edge++) {
    const output = model.texts[model.edgeOutput[edge]];
    if (matches(output)) found.push({edge, by: 'output', text: output});
    else if (details) {
      const texts = [...details.outputs[edge], ...details.implicit_outputs[edge]];
      const inputs = [...details.explicit[edge], ...details.implicit[edge], ...details.order_only[edge]];
      const places = /** @type {[string, number|undefined][]} */ ([['output', hit(texts)], ['input', hit(inputs)],
        ['list', inChunks(details.listed[edge])], ['read', inChunks(details.besides[edge])],
        ['command', hit([details.command[edge]])]]);
      const [by, text] = places.find((it) => it[1] !== undefined) || ['', undefined];
      if (text !== undefined) found.push({edge, by, text: details.texts[text]});
    }
  }
  return found;
}

/** The texts of a list that is kept as chunks.
 * @param {Object<string, any>} details @param {?number[]} chunks @return {string[]} */
function textsOf(details, chunks) {
  return (chunks || []).flatMap((it) => details.chunks[it]).map((it) => details.texts[it]);
}

/** The observed paths of ranges, each its first and its last.
 * @param {any} observed @param {number[]} [ranges] @return {string[]} */
function pathsOf(observed, ranges = []) {
  return ranges.flatMap((first, at) => at % 2 ? [] : observed.paths.slice(first, ranges[at + 1] + 1));
}

/** A length of time in words. @param {number} milliseconds */
function lasting(milliseconds) {
  if (milliseconds < 10000) return `${milliseconds} ms`;
  const seconds = milliseconds / 1000;
  return seconds < 120 ? `${seconds.toFixed(1)} s` : `${Math.floor(seconds / 60)} min ${Math.round(seconds % 60)} s`;
}

/** Steps of an axis: 1, 2 or 5 times a power of ten, at least `least` wide. @param {number} least */
function stepOf(least) {
  const power = 10 ** Math.floor(Math.log10(Math.max(least, 1)));
  return [1, 2, 5, 10].map((it) => it * power).find((it) => it >= least) || power;
}
