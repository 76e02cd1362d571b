/** So many entries a list has before its button is pressed. */
const MOST_ENTRIES = 100;
const LISTS = [['explicit', 'Inputs'], ['implicit', 'Implicit inputs'], ['order_only', 'Order-only inputs'],
  ['validations', 'Validations'], ['outputs', 'Outputs'], ['implicit_outputs', 'Implicit outputs']];
const CHUNKED = [['listed', 'Its list of what it read'], ['besides', 'Read besides, by what was observed']];
const OBSERVED = [['reads', 'Observed reads'], ['writes', 'Observed writes'], ['edits', 'Observed edits'],
  ['deletes', 'Observed deletions'], ['temps', 'Observed temporary files']];

/** The buttons that do what a key does. */
const BUTTONS = Object.entries(
  {near: 'w', far: 's', help: '?', first: 'Home', back: ',', forth: '.', next: 'n', last: 'End', break: 'b'});

/** An element of the document. Texts become text nodes, and are never read as markup.
 * @param {string} tag @param {Object<string, any>} [given] @param {...any} inside @return {any} */
function element(tag, given = {}, ...inside) {
  const made = document.createElement(tag);
  for (const [name, value] of Object.entries(given)) {
    if (typeof value === 'function') made.addEventListener(name, value);
    else if (value === true) made.setAttribute(name, '');
    else if (value !== false && value !== null && value !== undefined) made.setAttribute(name, String(value));
  }
  made.append(...inside.filter((it) => it !== null && it !== undefined && it !== false));
  return made;
}

/** @param {Object<string, any>} given @param {() => void} click @param {...(Node|string|false)} inside */
function button(given, click, ...inside) {
  return element('button', {type: 'button', ...given, click}, ...inside);
}

const part = (/** @type {string} */ id) => /** @type {any} */ (document.getElementById(id));

/** Gives a panel what it has now. What had the focus there has it again, or else the first heading or button.
 * @param {HTMLElement} panel @param {any[]} inside */
function fill(panel, inside) {
  const held = /** @type {any} */ (document.activeElement), isIn = panel.contains(held);
  panel.replaceChildren(...inside.filter((it) => it));
  const event = isIn && held.dataset.event, [name, value] = event ? ['data-event', event] : ['id', isIn && held.id];
  const found = value && panel.querySelector(`[${name}="${CSS.escape(value)}"]:enabled`);
  const first = panel.querySelector('.finding[aria-pressed=true]') || panel.querySelector('h2, button');
  if (isIn) /** @type {any} */ (found || first).focus();
}

/** A part of a panel: a heading that opens and shuts it, and entries, of which the first ones stand there until a
 * button is pressed. Nothing where there are no entries.
 * @param {string} title @param {number} count @param {(at: number) => Node|string} entry @param {boolean} [isOpen] */
function section(title, count, entry, isOpen = true) {
  if (!count) return null;
  const list = element('ul');
  const made = element('details', {open: isOpen}, element('summary', {}, `${title} (${count})`), list);
  const add = (/** @type {number} */ to) => {
    for (let at = list.childElementCount; at < to; at++) list.append(element('li', {}, entry(at)));
  };
  const show = () => {
    if (list.childElementCount || !made.open) return;
    add(Math.min(count, MOST_ENTRIES));
    if (count <= MOST_ENTRIES) return;
    const more = button({}, () => {
      more.remove();
      add(count);
      made.firstChild.focus();
    }, `show all ${count}`);
    made.append(more);
  };
  made.addEventListener('toggle', show);
  show();
  return made;
}

const throughOf = (/** @type {string} */ through) => through ? ` through ${through}` : '';

/** The page: what is chosen, its panels, its keys and the moments of its recordings. */
class Page {
  /** @param {Object<string, any>} first */
  constructor(first) {
    this.tracks = /** @type {Track[]} */ (first.recordings.map((/** @type {any} */ it) => new Track(new Model(it))));
    this.differences = first.differences;
    this.chosen = /** @type {?Chosen} */ (null);
    this.active = /** @type {Track} */ (this.tracks[0]);
    this.finding = /** @type {?Finding} */ (null);
    this.kind = '';
    this.chart = new Chart(part('canvas'), this.tracks, this);
    this.listen();
    this.changed('');
    this.showFindings();
    this.showDifferences();
    this.goTo(location.hash);
  }

  /** Takes what is read behind the first look. @param {number} at @param {Object<string, any>} details */
  addDetails(at, details) {
    const track = this.tracks[at];
    track.details = details;
    track.makerOf = new Map(['implicit_outputs', 'outputs'].flatMap((name) => details[name].flatMap(
      (/** @type {number[]} */ texts, /** @type {number} */ edge) => texts.map((it) => [details.texts[it], edge]))));
    this.showChosen();
    if (part('query').value) this.search();
  }

  /** @param {string} text */
  say(text) { part('said').textContent = text; }

  /** Draws anew what depends on the moment, on what is undone and on what is chosen. @param {string} text */
  changed(text) {
    this.flag();
    this.showChosen();
    this.showMoment();
    this.say(text);
  }

  /** Chooses an event, and shows what it rests on and what rests on it.
   * @param {Track} track @param {number} at @param {boolean} [isNear] */
  choose(track, at, isNear = false) {
    const {model} = track, run = model.runOf[at];
    this.active = track;
    this.chosen = {track, at, run, past: [], future: [], same: []};
    if (run !== NONE) {
      const past = new Set(), future = new Set();
      for (const event of model.eventsOf(run)) {
        model.needs(event).forEach((it) => past.add(model.runOf[it]));
        model.dependents(event).forEach((it) => future.add(model.runOf[it]));
      }
      const others = (/** @type {Set<number>} */ runs) => [...runs].filter((it) => it !== NONE && it !== run);
      this.chosen.past = others(past);
      this.chosen.future = others(future);
      for (const other of this.tracks) {
        const same = other === track ? NONE : other.model.lastRun(model.output(run));
        if (same !== NONE) this.chosen.same.push({track: other, run: same});
      }
      this.chart.bring(track, [run], isNear);
    }
    this.note(`event=${model.events.number[at]}`);
    this.changed(`${model.named(at)} is chosen; it rests on ${model.needs(at).length} events, and ` +
      `${model.dependents(at).length} rest on it`);
  }

  /** Notes what is chosen in the address, which can be sent to somebody. @param {string} what */
  note(what) {
    const place = this.tracks.indexOf(this.active);
    history.replaceState(null, '', `#${what}${place ? `&recording=${place + 1}` : ''}`);
  }

  /** Goes to what an address names. @param {string} hash */
  goTo(hash) {
    const words = new URLSearchParams(hash.slice(1)), id = words.get('finding');
    const track = this.tracks[Number(words.get('recording') || 1) - 1] || this.tracks[0];
    const at = track.model.placeOf.get(Number(words.get('event') || NaN));
    const found = id && track.model.data.findings.find((/** @type {Finding} */ it) => it.id === id);
    if (found) this.chooseFinding(track, found);
    else if (at !== undefined) this.choose(track, at, true);
    else if (hash.length > 1) this.say(`nothing here is called ${hash.slice(1)}`);
  }

  /** Works out how each run is drawn. */
  flag() {
    const {chosen, finding} = this;
    const add = (/** @type {Track} */ track, /** @type {number[]} */ runs, /** @type {number} */ flag) =>
      runs.forEach((run) => { track.flags[run] |= flag; });
    for (const track of this.tracks) {
      const {model, desk, flags} = track;
      for (let run = 0; run < model.runs; run++) {
        const start = model.runStart[run], end = model.runEnd[run];
        flags[run] = track.lasting[run];
        if (desk.undone[start]) flags[run] |= UNDONE;
        else if (start >= desk.moment) flags[run] |= LATER;
        else if (end !== NONE && !desk.isKept(end)) flags[run] = flags[run] & ~(FAILED | STOPPED) | RUNNING;
      }
      for (const edge of track.hits) add(track, model.runsOfEdge[edge], HIT);
      if (finding && this.active === track) add(track, track.runsOf(finding), CHOSEN);
    }
    if (chosen) {
      const {track, at, run} = chosen, {model, flags, desk} = track;
      const mark = (/** @type {number[]} */ events, /** @type {number} */ flag) => {
        for (const it of events.map((event) => model.runOf[event])) if (it !== NONE && it !== run) flags[it] |= flag;
      };
      mark(desk.cone(at), IN_CONE);
      mark(model.past(at), IN_PAST);
      add(track, [...chosen.past, ...chosen.future], DIRECT);
      if (run !== NONE) flags[run] |= CHOSEN;
      for (const it of chosen.same) it.track.flags[it.run] |= CHOSEN;
    }
    this.chart.ask();
  }

  /** A button that chooses an event. @param {Track} track @param {number} at @param {string} [behind] */
  eventButton(track, at, behind = '') {
    const {model, desk} = track, state = desk.isKept(at) ? '' : desk.undone[at] ? ' (undone)' : ' (later)';
    const given = {class: 'link', 'data-event': model.events.number[at]};
    return button(given, () => this.choose(track, at), `${model.named(at)}${state}${behind}`);
  }

  showChosen() {
    const panel = part('panel-chosen'), {chosen} = this;
    if (!chosen) {
      const how = 'Nothing is chosen. Click a command, or press / and type a part of its name.';
      panel.replaceChildren(element('p', {}, how));
      return;
    }
    const {track, at, run} = chosen, {model, desk} = track, edge = run === NONE ? NONE : model.runEdge[run];
    const events = edge === NONE ? [at] : model.runsOfEdge[edge].flatMap((it) => model.eventsOf(it));
    const needs = model.needs(at), looks = model.looksOf.get(at) || [], dependents = model.dependents(at);
    const cone = desk.cone(at), name = model.named(at);
    const linked = (/** @type {number} */ it, /** @type {string} */ by) => this.eventButton(track, it, throughOf(by));
    fill(panel, [
      element('h2', {tabindex: -1}, run === NONE ? model.words(at) : model.output(run)),
      this.facts(track, run, edge), this.deskButtons(track, at),
      section('Its events', events.length, (it) => {
        const made = this.eventButton(track, events[it]);
        made.setAttribute('aria-pressed', String(events[it] === at));
        return made;
      }),
      section(`${name} rests on`, needs.length, (it) => linked(needs[it], model.through(at, needs[it]))),
      section('and, by what was observed, on', looks.length, (it) => {
        const [, other, path, how] = looks[it];
        return this.eventButton(track, other, `, since it ${model.texts[how]} ${model.texts[path]}`);
      }),
      section(`On ${name} rest`, dependents.length, (it) => linked(dependents[it], model.through(dependents[it], at))),
      section('An undo with its cone takes', cone.length, (it) => this.eventButton(track, cone[it]), cone.length < 20),
      ...edge === NONE ? [] : this.details(track, edge)]);
  }

  /** A path, and what left it as it is at the moment. @param {Track} track @param {string} path */
  pathAt(track, path) {
    const {model, desk, makerOf} = track, edge = makerOf.get(path);
    const name = edge === undefined ? path : model.texts[model.edgeOutput[edge]], left = desk.leftBy(name);
    if (!model.left.has(name)) return path;
    return element('span', {}, `${path}, as `, left === NONE ? 'the recording found it' :
      this.eventButton(track, left, ' left it'));
  }

  /** @param {Track} track @param {number} run @param {number} edge */
  facts(track, run, edge) {
    const {model, desk, details} = track, {runFrom, runTo} = model, rows = /** @type {[string, string][]} */ ([]);
    const target = edge === NONE ? NONE : model.data.edges.target[edge];
    const rule = edge === NONE || !details ? NONE : details.rule[edge];
    if (edge !== NONE) rows.push(['Build line', model.edgePlace(edge)]);
    if (target !== NONE) rows.push(['Target', model.texts[target]]);
    if (rule !== NONE) rows.push(['Rule', details.texts[rule]]);
    if (run !== NONE) {
      const [from, to] = [runFrom[run], runTo[run]];
      if (model.isTimed) rows.push(['Ran', `${lasting(from)} to ${lasting(to)}: ${lasting(to - from)}`]);
      rows.push(['Ended', ENDED[model.runState[run]]]);
      if (model.critical.has(run)) rows.push(['Critical', 'the end of the build waited for it']);
    }
    if (edge !== NONE) {
      const mark = desk.markOf(edge), left = desk.leftBy(model.texts[model.edgeOutput[edge]]);
      rows.push(['At this moment', mark.by === NONE ? mark.state : `${mark.state}, by ${model.named(mark.by)}`]);
      rows.push(['Its output', left === NONE ? 'as the recording found it' : `as ${model.named(left)} left it`]);
    }
    return element('dl', {}, ...rows.flatMap(([name, value]) => [element('dt', {}, name), element('dd', {}, value)]));
  }

  /** The buttons that undo and redo an event. @param {Track} track @param {number} at */
  deskButtons(track, at) {
    const {desk} = track, cone = desk.cone(at).length, back = desk.redoWith(at).length;
    return element('p', {class: 'buttons'},
      button({id: 'undo', disabled: !desk.isKept(at)}, () => this.turn(true), 'Undo ', element('kbd', {}, 'u')),
      button({id: 'cone', disabled: !cone},
        () => this.turnAll(true), `Undo its cone: ${cone} `, element('kbd', {}, 'U')),
      button({id: 'redo', disabled: !back}, () => this.turn(false), 'Redo ', element('kbd', {}, 'r')),
      back > 1 && button({id: 'redo-with'}, () => this.turnAll(false), `Redo with what it rests on: ${back}`));
  }

  /** What is read behind the first look. @param {Track} track @param {number} edge @return {(Node|null)[]} */
  details(track, edge) {
    const {details, model} = track, output = model.texts[model.edgeOutput[edge]];
    if (!details) return [element('p', {}, 'The command and its inputs are being read.')];
    const failed = model.data.findings.find((/** @type {Finding} */ it) => it.of === output);
    const seen = details.observed && details.observed.of[edge] || {}, why = details.reasons[edge];
    const planned = why && why.plan !== null ? model.placeOf.get(why.plan) : undefined;
    const names = (/** @type {string} */ title, /** @type {string[]} */ list, most = 0) =>
      section(title, list.length, (it) => list[it], list.length < most);
    const texts = (/** @type {number[]} */ list) => list.map((it) => details.texts[it]);
    return [
      element('h3', {}, 'Command'), element('pre', {}, details.texts[details.command[edge]]),
      failed && element('h3', {}, 'It printed'), failed && element('pre', {}, failed.printed.join('\n')),
      why && names(`Why it ran${why.of === output ? '' : `: ${why.of}`}`, why.lines, 20),
      planned !== undefined && element('p', {}, 'as the build stood at ', this.eventButton(track, planned)),
      ...LISTS.map(([name, title]) => {
        const list = texts(details[name][edge]);
        return section(title, list.length, (it) => this.pathAt(track, list[it]), list.length < 20);
      }),
      ...CHUNKED.map(([name, title]) => names(title, textsOf(details, details[name][edge]))),
      ...OBSERVED.map(([name, title]) => names(title, pathsOf(details.observed, seen[name]))),
    ];
  }

  showFindings() {
    const findings = (/** @type {Track} */ it) => /** @type {Finding[]} */ (it.model.data.findings);
    const all = this.tracks.flatMap((track) => findings(track).map((it) => ({track, it})));
    const counts = new Map();
    for (const {it} of all) counts.set(it.kind, (counts.get(it.kind) || 0) + 1);
    part('tab-findings').textContent = `Findings (${all.filter(({it}) => it.matters).length})`;
    const choice = element('select', {id: 'kinds', change: () => {
      this.kind = choice.value;
      this.showFindings();
    }}, element('option', {value: ''}, `every kind (${all.length})`), ...[...counts].map(([kind, count]) =>
      element('option', {value: kind, selected: kind === this.kind}, `${kind} (${count})`)));
    const told = all.filter(({it}) => !this.kind || it.kind === this.kind);
    fill(part('panel-findings'), [element('label', {}, 'Kind ', choice),
      section('Findings', told.length, (at) => {
        const {track, it} = told[at], where = this.tracks.length > 1 ? [`in ${track.model.data.name}`] : [];
        const given = {class: 'finding', 'aria-pressed': String(it === this.finding), 'data-finding': it.id};
        return button(given, () => this.chooseFinding(track, it), element('strong', {}, it.title),
          ...[...it.lines, ...where].map((line) => element('div', {}, line)),
          it.printed && element('pre', {}, it.printed.join('\n')));
      }) || element('p', {}, 'There are none.')]);
  }

  /** Shows the commands of a finding. @param {Track} track @param {Finding} it */
  chooseFinding(track, it) {
    const runs = track.runsOf(it);
    this.finding = it;
    this.active = track;
    if (runs.length) this.choose(track, track.model.runStart[runs[runs.length - 1]]);
    this.chart.bring(track, runs, true);
    this.turnTo('findings');
    if (it.id) this.note(`finding=${it.id}`);
    this.showFindings();
    this.changed(`${it.title} is chosen`);
  }

  showDifferences() {
    const {differences} = this, moved = this.moved();
    part('tab-differences').hidden = !differences;
    if (!differences) return;
    part('tab-differences').textContent = `Differences (${differences.length})`;
    part('panel-differences').replaceChildren(section('What differs', differences.length, (at) => {
      const it = differences[at], track = this.tracks[it.side], event = track.model.placeOf.get(it.event);
      const given = {class: 'finding', 'data-kind': it.kind, disabled: event === undefined};
      return button(given, () => this.choose(track, event),
        element('strong', {}, it.kind), ...it.lines.map((/** @type {string} */ line) => element('div', {}, line)));
    }) || element('p', {}, 'Nothing differs.'), section('How much longer or shorter they took', moved.length, (at) => {
      const {run, same, by} = moved[at], [one, other] = this.tracks.map((it) => it.model);
      return button({class: 'link'}, () => this.choose(this.tracks[0], one.runStart[run]), `${one.output(run)}: ` +
        `${by < 0 ? 'shorter' : 'longer'} by ${lasting(Math.abs(by))} in the second recording; it began at ` +
        `${lasting(one.runFrom[run])}, and there at ${lasting(other.runFrom[same])}`);
    }, false) || '');
  }

  /** The commands that ran in both recordings, by how much their time differs. */
  moved() {
    const [one, other] = this.tracks.map((/** @type {Track} */ it) => it.model), found = [];
    for (let run = 0; other && one.isTimed && other.isTimed && run < one.runs; run++) {
      const same = other.lastRun(one.output(run));
      const by = same === NONE ? 0 : other.runTo[same] - other.runFrom[same] - (one.runTo[run] - one.runFrom[run]);
      if (same !== NONE) found.push({run, same, by});
    }
    return found.sort((it, next) => Math.abs(next.by) - Math.abs(it.by));
  }

  search() {
    const query = part('query').value.trim(), entries = /** @type {{track: Track, it: any}[]} */ ([]);
    for (const track of this.tracks) {
      const found = searched(track.model, track.details, query);
      track.hits = new Set(found.map((it) => it.edge));
      entries.push(...found.map((it) => ({track, it})));
    }
    const none = query ? 'No name, input or command has this.' : 'Type a part of a name, or a pattern with *.';
    part('tab-search').textContent = query ? `Search (${entries.length})` : 'Search';
    part('panel-search').replaceChildren(section('Commands', entries.length, (at) => {
      const {track, it} = entries[at], {model} = track, run = model.runsOfEdge[it.edge].slice(-1)[0];
      const output = model.texts[model.edgeOutput[it.edge]];
      const by = it.text === output ? '' : ` by the ${it.by} ${it.text}`;
      return button({class: 'link', disabled: run === undefined}, () => this.choose(track, model.runStart[run]),
        `${output}${by}${run === undefined ? ' (did not run)' : ''}`);
    }) || element('p', {}, none));
    if (query) this.turnTo('search');
    this.flag();
    this.say(query ? `${entries.length} commands found` : '');
  }

  /** @param {number} moment */
  moveTo(moment) {
    const {model, desk} = this.active, stopped = desk.moveTo(moment);
    this.changed(stopped ? `${model.named(stopped.at)} rests on ${model.named(stopped.on)}, which is undone` +
      `${throughOf(model.through(stopped.at, stopped.on))}: redo that first` : `at ${this.moment()}`);
  }

  /** The last event before the moment, in words. */
  moment() {
    const {model, desk} = this.active, at = desk.moment - 1;
    const time = model.isTimed && at >= 0 ? `, ${lasting(model.at[at])}` : '';
    return at < 0 ? 'nothing: before the first event' : `${model.named(at)}${time}`;
  }

  showMoment() {
    const {model, desk} = this.active, range = part('moment'), undone = desk.undoneCount;
    range.max = model.count;
    range.value = desk.moment;
    range.setAttribute('aria-valuetext', this.moment());
    part('where').textContent = `${desk.moment} of ${model.count} events` +
      `${undone ? `, ${undone} undone, ${desk.moment - undone} kept` : ''}: ${this.moment()}`;
    part('ask').textContent = undone ? 'What a plan would do now, the prompt answers: ' +
      `rebug ask ${model.data.name}, then run, the same undo or cone, and rebuilds` : '';
  }

  /** On to the next event that passes a test, which is chosen.
   * @param {(at: number) => boolean} isWanted @param {string} none */
  goOn(isWanted, none) {
    const {model, desk} = this.active;
    for (let at = desk.moment; at < model.count; at++) {
      if (!isWanted(at)) continue;
      this.moveTo(at + 1);
      if (desk.moment > at) this.choose(this.active, at);
      return;
    }
    this.say(none);
  }

  nextOfChosen() {
    if (!this.chosen) return;
    const {track, at} = this.chosen, {path} = track.model.events;
    this.active = track;
    this.goOn((it) => path[it] === path[at], 'no later event is of what is chosen');
  }

  toBreak() {
    const kind = part('break-kind').value, matches = matcher(part('break-name').value.trim()), {model} = this.active;
    const isMet = (/** @type {number} */ it) => (!kind || model.kinds[it] === kind) && matches(model.pathOf(it));
    this.goOn(isMet, 'no later event is what the break names');
  }

  /** Undoes or redoes the chosen event, or says why not. @param {boolean} isUndone */
  turn(isUndone) {
    if (!this.chosen) return;
    const {track, at} = this.chosen, {model, desk} = track, name = model.named(at);
    const why = isUndone ? desk.undoRefused(at) : desk.redoRefused(at);
    if (!why) return this.mark(track, [at], isUndone);
    if (why.other === NONE) return this.say(`refused: ${name} is not ${isUndone ? 'kept' : 'undone'} (${why.code})`);
    const other = model.named(why.other), through = throughOf(why.through);
    this.refuse(track, why.other, `refused: ${name}${isUndone ?
      `: a later kept event depends on it: ${other}${through} (${why.code})` :
      ` rests on ${other}, which is undone${through}: redo that first`}`);
  }

  /** Undoes the chosen event's cone, or redoes it with all that it rests on. @param {boolean} isUndone */
  turnAll(isUndone) {
    if (!this.chosen) return;
    const {track, at} = this.chosen, {desk} = track;
    this.mark(track, isUndone ? desk.cone(at) : desk.redoWith(at), isUndone);
  }

  /** @param {Track} track @param {number[]} events @param {boolean} isUndone */
  mark(track, events, isUndone) {
    track.desk.mark(events, isUndone);
    const what = events.length === 1 ? `${track.model.named(events[0])} is` : `${events.length} events are`;
    this.changed(`${what} ${isUndone ? 'undone' : 'kept again'}`);
  }

  /** Shows the event that is in the way. @param {Track} track @param {number} other @param {string} text */
  refuse(track, other, text) {
    const run = track.model.runOf[other];
    this.say(text);
    if (run === NONE) return;
    track.flags[run] |= HIT;
    this.chart.bring(track, this.chosen && this.chosen.run !== NONE ? [run, this.chosen.run] : [run], false);
    this.chart.ask();
  }

  /** @param {string} name */
  turnTo(name) {
    for (const tab of document.querySelectorAll('[role=tab]')) {
      const isOn = tab.id === `tab-${name}`;
      tab.setAttribute('aria-selected', String(isOn));
      tab.setAttribute('tabindex', isOn ? '0' : '-1');
      part(`panel-${tab.id.slice(4)}`).hidden = !isOn;
    }
  }

  /** The command beside what is chosen: in its row, or in the next row. @param {number} along @param {number} down */
  step(along, down) {
    const {chosen} = this, track = chosen ? chosen.track : this.active, {model} = track;
    if (!model.runs) return;
    this.turnTo('chosen');
    if (!chosen || chosen.run === NONE) return this.choose(track, model.runStart[0]);
    const at = track.rowOfRun[chosen.run] + down, isHere = at >= 0 && at < track.rows.length;
    const of = isHere ? track : this.tracks[this.tracks.indexOf(track) + down];
    if (!of) return;
    const row = of.rows[isHere ? at : down < 0 ? of.rows.length - 1 : 0];
    const place = down ? firstBehind(Array.from(row.runs, (it) => of.model.runFrom[it]), model.runFrom[chosen.run]) :
      row.runs.indexOf(chosen.run) + along;
    this.choose(of, of.model.runStart[row.runs[Math.max(0, Math.min(place, row.runs.length - 1))]]);
  }

  /** Folds a group of rows, or unfolds it. @param {Track} track @param {number} group */
  fold(track, group) {
    if (group === NONE) return this.say('lanes are not folded: choose folders or targets as rows');
    if (!track.turned.delete(group)) track.turned.add(group);
    this.chart.layOut();
    const {label, isFolded} = track.rows.find((it) => it.group === group && it.isHead);
    this.say(`${label} is ${isFolded ? 'folded' : 'unfolded'}`);
  }

  /** Folds or unfolds the group of the chosen command. */
  foldChosen() {
    const {track, run} = this.chosen || {track: this.active, run: NONE};
    if (run === NONE) return this.say('nothing is chosen');
    this.fold(track, track.rows[track.rowOfRun[run]].group);
    this.chart.bring(track, [run], false);
  }

  letGo() {
    this.chosen = this.finding = null;
    this.tracks.forEach((/** @type {Track} */ it) => it.hits.clear());
    part('query').value = '';
    this.changed('nothing is chosen');
  }

  /** What each key does. @return {Object<string, () => void>} */
  keys() {
    const {desk, model} = this.active, {chart} = this, wide = chart.view.width / 8, high = chart.height * 0.8;
    return {
      w: () => chart.zoom(0.7), s: () => chart.zoom(1 / 0.7), a: () => chart.pan(-wide), d: () => chart.pan(wide),
      f: () => this.fit(), '/': () => part('query').focus(), '?': () => part('keys').showModal(),
      ',': () => this.moveTo(desk.moment - 1), '.': () => this.moveTo(desk.moment + 1), n: () => this.nextOfChosen(),
      b: () => this.toBreak(), g: () => this.foldChosen(),
      u: () => this.turn(true), U: () => this.turnAll(true), r: () => this.turn(false),
      ArrowLeft: () => this.step(-1, 0), ArrowRight: () => this.step(1, 0),
      ArrowUp: () => this.step(0, -1), ArrowDown: () => this.step(0, 1),
      PageUp: () => chart.scrollTo(chart.scroll - high), PageDown: () => chart.scrollTo(chart.scroll + high),
      Home: () => this.moveTo(0), End: () => this.moveTo(model.count),
    };
  }

  /** @param {KeyboardEvent} event */
  key(event) {
    const target = /** @type {HTMLElement} */ (event.target), act = this.keys()[event.key];
    if (event.ctrlKey || event.metaKey || event.altKey || part('keys').open) return;
    if (event.key === 'Escape') {
      target.blur();
      this.letGo();
    } else if (act && !target.matches('select, input:not([type=range])')) {
      // Keys that move a page or a list do so, but where the chart has the focus.
      if (event.key.length > 1 && target !== this.chart.canvas && target !== document.body) return;
      event.preventDefault();
      act();
    }
  }

  fit() {
    if (this.chosen && this.chosen.run !== NONE) this.chart.bring(this.chosen.track, [this.chosen.run], true);
    else this.chart.show(0, this.chart.end);
  }

  /** @param {WheelEvent} event */
  wheel(event) {
    const {chart} = this;
    event.preventDefault();
    if (event.shiftKey || Math.abs(event.deltaX) > Math.abs(event.deltaY)) chart.pan(event.deltaX || event.deltaY);
    else if (event.ctrlKey || chart.whole <= chart.height) chart.zoom(Math.exp(event.deltaY / 300), event.offsetX);
    else chart.scrollTo(chart.scroll + event.deltaY);
  }

  /** @param {PointerEvent} event */
  point(event) {
    const tip = part('tip'), hit = this.chart.hit(event.offsetX, event.offsetY);
    tip.hidden = !hit || hit.run === NONE;
    if (!hit || hit.run === NONE) return;
    const {model} = hit.track, {run, count} = hit, [from, to] = [model.runFrom[run], model.runTo[run]];
    const events = model.eventsOf(run).map((it) => model.named(it));
    const time = model.isTimed ? [`${lasting(to - from)} from ${lasting(from)}`] : [];
    const many = `${count} commands stand here: zoom to see each`;
    tip.textContent = count > 1 ? many : [model.output(run), ...events, ...time].join('\n');
    tip.style.left = `${Math.min(event.offsetX + 12, this.chart.view.width / 2)}px`;
    tip.style.top = `${event.offsetY + 16}px`;
  }

  /** Has the chart follow the pointer, or takes a click where the pointer does not go. @param {PointerEvent} first */
  drag(first) {
    const {canvas} = this.chart, over = new AbortController(), {signal} = over;
    let last = first, isMoved = false;
    canvas.setPointerCapture(first.pointerId);
    canvas.addEventListener('pointermove', (it) => {
      isMoved = isMoved || Math.hypot(it.clientX - first.clientX, it.clientY - first.clientY) > 4;
      if (!isMoved) return;
      this.chart.pan(last.clientX - it.clientX);
      this.chart.scrollTo(this.chart.scroll + last.clientY - it.clientY);
      last = it;
    }, {signal});
    canvas.addEventListener('lostpointercapture', () => over.abort(), {signal});
    canvas.addEventListener('pointerup', () => isMoved || this.click(first.offsetX, first.offsetY), {signal});
  }

  /** @param {number} x @param {number} y */
  click(x, y) {
    const hit = this.chart.hit(x, y);
    if (!hit) return;
    if (hit.head !== NONE) this.fold(hit.track, hit.head);
    else if (hit.count > 1) this.chart.zoom(0.25, x);
    else {
      this.finding = null;
      this.choose(hit.track, hit.track.model.runStart[hit.run]);
      this.turnTo('chosen');
    }
  }

  listen() {
    const {chart} = this, {canvas} = chart;
    document.addEventListener('keydown', (event) => this.key(event));
    window.addEventListener('hashchange', () => this.goTo(location.hash));
    canvas.addEventListener('wheel', (event) => this.wheel(event), {passive: false});
    canvas.addEventListener('pointermove', (event) => this.point(event));
    canvas.addEventListener('pointerleave', () => { part('tip').hidden = true; });
    canvas.addEventListener('pointerdown', (event) => this.drag(event));
    new ResizeObserver(() => chart.measure()).observe(canvas);
    matchMedia('(prefers-color-scheme: dark)').addEventListener('change', () => chart.measure());
    part('whole').addEventListener('click', () => chart.show(0, chart.end));
    for (const [id, key] of BUTTONS) part(id).addEventListener('click', () => this.keys()[key]());
    part('moment').addEventListener('input', () => this.moveTo(Number(part('moment').value)));
    part('rows').querySelector('[value=target]').hidden = !this.tracks.some((/** @type {Track} */ it) =>
      it.model.data.edges.target.some((/** @type {number} */ target) => target !== NONE));
    part('rows').addEventListener('change', () => {
      chart.by = part('rows').value;
      this.tracks.forEach((/** @type {Track} */ it) => it.turned.clear());
      chart.layOut();
    });
    let timer = 0;
    part('query').addEventListener('input', () => {
      clearTimeout(timer);
      timer = setTimeout(() => this.search(), 150);
    });
    part('find').addEventListener('submit', (/** @type {Event} */ event) => {
      event.preventDefault();
      clearTimeout(timer);
      this.search();
      const first = part('panel-search').querySelector('li button:not([disabled])');
      if (first) first.focus();
    });
    for (const tab of document.querySelectorAll('[role=tab]')) {
      tab.addEventListener('click', () => this.turnTo(tab.id.slice(4)));
      tab.addEventListener('keydown', (/** @type {any} */ event) => {
        const shown = /** @type {any[]} */ ([...document.querySelectorAll('[role=tab]:not([hidden])')]);
        const by = {ArrowRight: 1, ArrowLeft: -1}[/** @type {string} */ (event.key)];
        if (by) shown[(shown.indexOf(tab) + by + shown.length) % shown.length].focus();
        if (by) this.turnTo(/** @type {HTMLElement} */ (document.activeElement).id.slice(4));
      });
    }
  }
}

/** The data of a block of the page, which is taken out of the document. @param {string} id */
async function read(id) {
  const block = part(`data-${id}`), letters = atob(block.textContent), bytes = new Uint8Array(letters.length);
  block.remove();
  for (let at = 0; at < bytes.length; at++) bytes[at] = letters.charCodeAt(at);
  return new Response(new Blob([bytes]).stream().pipeThrough(new DecompressionStream('deflate'))).json();
}

async function begin() {
  const page = new Page(await read('first'));
  Object.assign(window, {rebug: page});
  const now = (/** @type {string} */ state) => performance.mark(document.body.dataset.state = state);
  await new Promise((done) => requestAnimationFrame(() => setTimeout(done)));
  now('drawn');
  for (let at = 0; at < page.tracks.length; at++) page.addDetails(at, await read(`behind${at}`));
  now('whole');
}

begin().catch((why) => { part('said').textContent = `The page cannot be read: ${why}`; });
