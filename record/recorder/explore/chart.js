// Flags of a run, by which it is drawn.
const FAILED = 1, RACES = 2, IN_CONE = 4, IN_PAST = 8, UNDONE = 16, LATER = 32;
const CHOSEN = 64, HIT = 128, CRITICAL = 256, STOPPED = 512, RUNNING = 1024, DIRECT = 2048;
const COLOURS = ['paper', 'ink', 'line', 'ok', 'failed', 'stopped', 'race', 'chosen', 'cone', 'past', 'band'];
/** So many lines are drawn at most, the nearest first. */
const MOST_LINES = 200;
/** A view is at least so wide: a part of a millisecond, or of the way from one event to the next. */
const LEAST_VIEW = 0.02;

/** One recording in the chart. */
class Track {
  /** @param {Model} model */
  constructor(model) {
    this.model = model;
    this.desk = new Desk(model);
    this.details = /** @type {?Object<string, any>} */ (null);
    this.makerOf = /** @type {Map<string, number>} */ (new Map());
    this.rows = /** @type {Row[]} */ ([]);
    this.turned = /** @type {Set<number>} */ (new Set());
    this.rowOfRun = new Int32Array(model.runs);
    this.tops = new Float64Array(0);
    this.top = 0;
    this.height = 0;
    this.flags = new Uint16Array(model.runs);
    this.lasting = new Uint16Array(model.runs);
    this.hits = /** @type {Set<number>} */ (new Set());
    for (let run = 0; run < model.runs; run++) {
      this.lasting[run] = {failed: FAILED, stopped: STOPPED, running: RUNNING}[model.runState[run]] || 0;
      if (model.critical.has(run)) this.lasting[run] |= CRITICAL;
    }
    for (const it of model.data.findings) {
      if (it.matters) this.runsOf(it).forEach((run) => { this.lasting[run] |= RACES; });
    }
  }

  /** The runs of the commands of a finding. @param {Finding} it */
  runsOf(it) { return it.runs.map((number) => this.model.runAt(number)).filter((run) => run !== NONE); }

  /** @param {string} by */
  layOut(by) {
    this.rows = rowsOf(this.model, by, this.turned);
    this.rows.forEach((row, at) => row.runs.forEach((run) => { this.rowOfRun[run] = at; }));
  }
}

/** The canvas: lanes by time. It knows what is chosen, and asks its owner to choose something else. */
class Chart {
  /** @param {HTMLCanvasElement} canvas @param {Track[]} tracks @param {Page} page */
  constructor(canvas, tracks, page) {
    this.canvas = canvas;
    this.pen = /** @type {CanvasRenderingContext2D} */ (canvas.getContext('2d', {alpha: false}));
    this.tracks = tracks;
    this.page = page;
    this.end = Math.max(...tracks.map((it) => it.model.end));
    this.view = {from: 0, to: this.end, width: 1};
    this.scroll = 0;
    this.by = 'lanes';
    this.isAsked = false;
    this.toRight = this.toLeft = /** @type {?CanvasPattern} */ (null);
    this.drawn = /** @type {Set<string>} */ (new Set());
    this.measure();
  }

  /** Sizes by the font, so that the chart grows with the page, and where all stands by them. */
  measure() {
    const style = getComputedStyle(document.body);
    this.colours = Object.fromEntries(COLOURS.map((name) => [name, style.getPropertyValue(`--${name}`).trim()]));
    this.letter = parseFloat(style.fontSize);
    this.font = `${this.letter * 0.8}px monospace`;
    this.pen.font = this.font;
    this.letterWidth = this.pen.measureText('mmmmmmmmmm').width / 10;
    this.rowHeight = Math.round(this.letter * 1.25);
    this.axisHeight = Math.round(this.letter * 1.5);
    this.loadHeight = Math.round(this.letter * 2.5);
    const ratio = window.devicePixelRatio || 1, box = this.canvas.getBoundingClientRect();
    this.view.width = Math.max(50, box.width);
    this.height = Math.max(50, box.height);
    this.canvas.width = Math.round(this.view.width * ratio);
    this.canvas.height = Math.round(this.height * ratio);
    this.ratio = ratio;
    [this.toRight, this.toLeft] = [this.strokes(this.colours.cone, 1), this.strokes(this.colours.past, -1)];
    this.loads = null;
    this.layOut();
  }

  layOut() {
    let top = this.axisHeight;
    for (const track of this.tracks) {
      track.layOut(this.by);
      track.top = top;
      top += this.loadHeight + (this.tracks.length > 1 ? this.rowHeight : 0);
      track.tops = Float64Array.from(track.rows, (row) => {
        if (row.isHead) top += this.rowHeight;
        const place = top;
        top += this.rowHeight;
        return place;
      });
      top += this.rowHeight / 2;
      track.height = top - track.top;
    }
    this.whole = top;
    this.scrollTo(this.scroll);
  }

  /** @param {number} scroll */
  scrollTo(scroll) {
    this.scroll = Math.max(0, Math.min(scroll, this.whole - this.height));
    this.ask();
  }

  /** Shows from one time to another. @param {number} from @param {number} to */
  show(from, to) {
    const width = Math.min(Math.max(to - from, LEAST_VIEW), this.end * 1.1), middle = (from + to) / 2;
    this.view.from = Math.max(-this.end * 0.05, Math.min(middle - width / 2, this.end * 1.05 - width));
    this.view.to = this.view.from + width;
    this.loads = null;
    this.ask();
  }

  /** @param {number} factor @param {number} [x] */
  zoom(factor, x = this.view.width / 2) {
    const {from, to, width} = this.view, at = from + (to - from) * x / width;
    this.show(at - (at - from) * factor, at + (to - at) * factor);
  }

  /** @param {number} pixels */
  pan(pixels) {
    const time = pixels * (this.view.to - this.view.from) / this.view.width;
    this.show(this.view.from + time, this.view.to + time);
  }

  /** Brings runs of a track into the window. @param {Track} track @param {number[]} runs @param {boolean} isNear */
  bring(track, runs, isNear) {
    if (!runs.length) return;
    const {model} = track;
    const from = Math.min(...runs.map((it) => model.runFrom[it])), to = Math.max(...runs.map((it) => model.runTo[it]));
    const margin = Math.max((to - from) * 0.3, 1);
    if (isNear || from < this.view.from || to > this.view.to) this.show(from - margin, to + margin);
    const tops = runs.map((it) => track.tops[track.rowOfRun[it]]);
    const top = Math.min(...tops) - this.axisHeight - this.rowHeight * 2;
    const bottom = Math.max(...tops) + this.rowHeight * 2 - this.height;
    if (this.scroll > top) this.scrollTo(top);
    else if (this.scroll < bottom) this.scrollTo(Math.min(bottom, top));
  }

  /** Has the chart drawn at the next frame. */
  ask() {
    if (this.isAsked) return;
    this.isAsked = true;
    requestAnimationFrame(() => {
      this.isAsked = false;
      this.draw();
    });
  }

  /** @param {number} time */
  x(time) { return (time - this.view.from) * this.view.width / (this.view.to - this.view.from); }

  draw() {
    const {pen, colours} = this;
    pen.setTransform(this.ratio, 0, 0, this.ratio, 0, 0);
    pen.fillStyle = colours.paper;
    pen.fillRect(0, 0, this.view.width, this.height);
    pen.font = this.font;
    pen.textBaseline = 'middle';
    if (!this.loads) this.loads = this.tracks.map((it) => loadOf(it.model, this.view));
    this.tracks.forEach((track, at) => this.drawTrack(track, this.loads[at]));
    this.drawLines();
    this.drawAxis();
    for (const track of this.tracks) this.drawMoment(track);
  }

  drawAxis() {
    const {pen, colours, view} = this, step = stepOf((view.to - view.from) * 110 / view.width);
    pen.fillStyle = colours.paper;
    pen.fillRect(0, 0, view.width, this.axisHeight);
    pen.fillStyle = colours.ink;
    pen.strokeStyle = colours.line;
    pen.lineWidth = 0.5;
    for (let at = Math.ceil(Math.max(0, view.from) / step) * step; at <= Math.min(view.to, this.end); at += step) {
      const x = Math.round(this.x(at)) + 0.5;
      this.trace([[x, 0], [x, this.height]]);
      pen.fillText(this.tracks[0].model.isTimed ? lasting(at) : `event ${at}`, x + 4, this.axisHeight / 2);
    }
  }

  /** @param {Track} track @param {Uint32Array} load */
  drawTrack(track, load) {
    const {pen, colours} = this, top = track.top - this.scroll, isNamed = this.tracks.length > 1;
    const base = top + this.loadHeight + (isNamed ? this.rowHeight : 0);
    pen.fillStyle = colours.ink;
    if (isNamed) pen.fillText(track.model.data.name, 4, top + this.rowHeight / 2);
    if (base > 0 && top < this.height) {
      const points = /** @type {[number, number][]} */ ([]), most = load.reduce((one, it) => Math.max(one, it), 1);
      load.forEach((it, x) => {
        const y = base - it / most * (this.loadHeight - this.letter - 2);
        points.push([x, y], [x + 1, y]);
      });
      pen.fillStyle = colours.band;
      this.trace([[0, base], ...points, [this.view.width, base]], true);
      pen.fillStyle = colours.ink;
      pen.fillText(`at most ${most} at a time`, 4, base - this.loadHeight + this.letter / 2);
    }
    track.rows.forEach((row, at) => {
      const y = track.tops[at] - this.scroll;
      if (y - this.rowHeight > this.height || y + this.rowHeight < 0) return;
      pen.fillStyle = colours.ink;
      if (row.isHead) pen.fillText(`${row.isFolded ? '+' : '-'} ${row.label}`, 4, y - this.rowHeight / 2);
      this.drawRow(track, row, y);
    });
  }

  /** @param {Track} track @param {Row} row @param {number} y */
  drawRow(track, row, y) {
    const {pen, colours} = this, {model} = track, height = this.rowHeight - 3;
    bandsOf(model, row, this.view, track.flags, (left, right, run, count, some, every) => {
      const from = Math.max(left, -2), to = Math.min(right, this.view.width + 2), isGone = every & (UNDONE | LATER);
      const width = Math.max(1, to - from - (right - left > 3 ? 1 : 0)), {ok, band} = colours;
      pen.globalAlpha = row.isFolded && count === 1 && width > LEAST_BAR ? 0.8 : 1;
      if (some & RUNNING) pen.globalAlpha = 0.6;
      pen.fillStyle = some & FAILED ? colours.failed : every & STOPPED ? colours.stopped : count > 1 ? band : ok;
      if (isGone) {
        pen.globalAlpha = every & UNDONE ? 1 : 0.5;
        pen.strokeStyle = colours.ink;
        pen.lineWidth = 1;
        pen.setLineDash(every & UNDONE ? [4, 3] : [1, 2]);
        pen.strokeRect(from + 0.5, y + 0.5, Math.max(1, width - 1), height - 1);
        pen.setLineDash([]);
      } else {
        pen.fillRect(from, y, width, height);
      }
      this.drawMarks(from, y, width, height, some);
      pen.globalAlpha = 1;
      pen.fillStyle = isGone || count > 1 || some & STOPPED ? colours.ink : colours.paper;
      this.drawLabel(track, run, count, from, y + height / 2 + 1, width);
    });
  }

  /** Draws a line through points, or fills what it surrounds.
   * @param {[number, number][]} points @param {boolean} [isFilled] */
  trace(points, isFilled = false) {
    this.pen.beginPath();
    points.forEach(([x, y], at) => at ? this.pen.lineTo(x, y) : this.pen.moveTo(x, y));
    if (isFilled) this.pen.fill();
    else this.pen.stroke();
  }

  /** What is said without colour: a cross has failed, a triangle is in a finding, a bar below is of the critical chain,
   * an edge is chosen or found, strokes to the right rest on what is chosen, which rests on strokes to the left.
   * @param {number} x @param {number} y @param {number} width @param {number} height @param {number} flags */
  drawMarks(x, y, width, height, flags) {
    const {pen, colours} = this, size = Math.min(width, height) - 1;
    if (flags & (IN_CONE | IN_PAST) && !(flags & CHOSEN)) this.drawStrokes(x, y, Math.max(width, 2), height, flags);
    pen.strokeStyle = colours.ink;
    pen.lineWidth = 1.5;
    if (flags & FAILED && width >= 4) {
      this.trace([[x + 1, y + 1], [x + size, y + size]]);
      this.trace([[x + size, y + 1], [x + 1, y + size]]);
    }
    pen.fillStyle = colours.race;
    if (flags & RACES) this.trace([[x, y - 2], [x + 9, y - 2], [x, y + 7]], true);
    pen.fillStyle = colours.ink;
    if (flags & CRITICAL) pen.fillRect(x, y + height - 1, Math.max(1, width), 3);
    pen.strokeStyle = colours.chosen;
    pen.lineWidth = flags & CHOSEN ? 3 : 1.5;
    if (flags & (CHOSEN | HIT)) pen.strokeRect(x - 1, y - 1, width + 2, height + 2);
  }

  /** A pattern of strokes to the right or to the left. @param {string} colour @param {number} slant */
  strokes(colour, slant) {
    const side = Math.ceil(7 * this.ratio), tile = element('canvas', {width: side, height: side});
    const pen = tile.getContext('2d');
    pen.scale(side / 7, side / 7);
    [pen.strokeStyle, pen.lineWidth] = [colour, 1.5];
    for (const x of [-3.5, 3.5, 10.5]) pen.stroke(new Path2D(`M${x - slant * 7} 10.5 L${x + slant * 7} -3.5`));
    const pattern = pen.createPattern(tile, 'repeat');
    pattern.setTransform(new DOMMatrix().scale(7 / side));
    return pattern;
  }

  /** @param {number} x @param {number} y @param {number} width @param {number} height @param {number} flags */
  drawStrokes(x, y, width, height, flags) {
    const {pen, colours} = this, line = flags & DIRECT ? 2 : 1;
    pen.fillStyle = flags & IN_CONE ? this.toRight : this.toLeft;
    pen.fillRect(x, y, width, height);
    pen.strokeStyle = flags & IN_CONE ? colours.cone : colours.past;
    pen.lineWidth = line;
    if (width > 2 * line) pen.strokeRect(x + line / 2, y + line / 2, width - line, height - line);
  }

  /** The name in a bar: all of it, or its shortest end that no other output has, or nothing. A band has its count.
   * @param {Track} track @param {number} run @param {number} count @param {number} x @param {number} y
   * @param {number} width */
  drawLabel(track, run, count, x, y, width) {
    const most = Math.floor((width - 6) / this.letterWidth), name = track.model.output(run);
    const text = count > 1 ? `${count}` : name.length <= most ? name : track.model.label(run);
    if (text.length <= most) this.pen.fillText(text, x + 4, y);
  }

  /** The lines of what is chosen: from what it rests on, to what rests on it, and to the same command elsewhere. */
  drawLines() {
    const {pen, colours} = this, {chosen} = this.page;
    if (!chosen) return;
    const {track, run} = chosen;
    this.drawn.clear();
    pen.lineWidth = 2;
    pen.strokeStyle = pen.fillStyle = colours.past;
    pen.setLineDash([6, 3]);
    for (const other of chosen.past.slice(0, MOST_LINES)) this.drawLine(track, other, run);
    pen.strokeStyle = pen.fillStyle = colours.cone;
    pen.setLineDash([]);
    for (const other of chosen.future.slice(0, MOST_LINES)) this.drawLine(track, run, other);
    pen.strokeStyle = colours.chosen;
    pen.setLineDash([2, 4]);
    for (const it of chosen.same) this.trace([this.spot(track, run, false), this.spot(it.track, it.run, false)]);
    pen.setLineDash([]);
    const runs = this.page.finding ? track.runsOf(this.page.finding) : [];
    pen.strokeStyle = pen.fillStyle = colours.race;
    if (runs.length > 1) this.drawLine(track, runs[0], runs[1]);
  }

  /** Where a run begins or ends in the window.
   * @param {Track} track @param {number} run @param {boolean} isEnd @return {[number, number]} */
  spot(track, run, isEnd) {
    const {runFrom, runTo} = track.model, top = track.tops[track.rowOfRun[run]] - this.scroll;
    return [this.x(isEnd ? runTo[run] : runFrom[run]), top + this.rowHeight / 2];
  }

  /** Draws a line from one run to another, but where a line of two others would cover it.
   * @param {Track} track @param {number} from @param {number} to */
  drawLine(track, from, to) {
    const {pen} = this, {runFrom, runTo} = track.model, near = (/** @type {number[]} */ [x, y]) =>
      [Math.max(-9999, Math.min(x, 9999)), Math.max(-9999, Math.min(y, 9999))];
    const [x, y] = near(this.spot(track, from, runTo[from] <= runFrom[to]));
    const [end, below] = near(this.spot(track, to, false));
    const bend = Math.max(20, Math.abs(end - x) / 3), place = [x, y, end, below].map(Math.round).join(' ');
    const isAway = Math.max(y, below) < 0 || Math.min(y, below) > this.height || Math.max(x, end) < 0;
    if (isAway || this.drawn.has(place)) return;
    this.drawn.add(place);
    pen.beginPath();
    pen.moveTo(x, y);
    pen.bezierCurveTo(x + bend, y, end - bend, below, end, below);
    pen.stroke();
    this.trace([[end, below], [end - 7, below - 4], [end - 7, below + 4]], true);
  }

  /** @param {Track} track */
  drawMoment(track) {
    const {model, desk} = track;
    if (desk.moment === model.count) return;
    const x = Math.round(this.x(desk.moment ? model.at[desk.moment - 1] : 0));
    const top = Math.max(this.axisHeight, track.top - this.scroll);
    this.pen.fillStyle = this.colours.chosen;
    this.pen.fillRect(x - 1, top, 2, Math.max(0, track.top + track.height - this.scroll - top));
  }

  /** What stands at a place of the window: a run, how many stand there, or the head of a folder.
   * @param {number} x @param {number} y @return {?{track: Track, head: number, run: number, count: number}} */
  hit(x, y) {
    const place = y + this.scroll, track = this.tracks.find((it) => place > it.top && place < it.top + it.height);
    const at = track && y > this.axisHeight ? track.tops.findIndex((top) => place < top + this.rowHeight) : NONE;
    if (!track || at === NONE) return null;
    const row = track.rows[at], isHead = row.isHead && place > track.tops[at] - this.rowHeight;
    if (place < track.tops[at]) return isHead ? {track, head: row.group, run: NONE, count: 0} : null;
    let found = /** @type {any} */ (null);
    bandsOf(track.model, row, this.view, track.flags, (left, right, run, count) => {
      if (x >= left - 2 && x <= right + 2 && (!found || x >= left)) found = {track, head: NONE, run, count};
    });
    return found;
  }
}
