// The page: puts together what it knows, what it asks, and what it shows.
import {addressOf, readAddress, stateOf} from './address.js';
import {Asker, answersTo} from './asker.js';
import {MOST_LINES, Shown, drawGrid, drawHandles, drawRing} from './drawing.js';
import {handles, hint} from './editing.js';
import {Menu, fillExamples} from './menu.js';
import {Points, Table, nameOf} from './panel.js';
import {Pointer} from './pointer.js';
import {byRecord, number, text} from './records.js';
import {MOST_VIEWS, START, Store, allRows, head, panel, panelsOf, pointsNow, questionRows} from './state.js';
import {View} from './view.js';
import {say} from './words.js';

/** @typedef {import('./records.js').Point} Point */
/** @typedef {import('./state.js').State} State */

const LONGEST = 600000; // characters of a script that is put in the address

/** @param {string} id */
export const by = (id) => /** @type {HTMLElement} */ (document.getElementById(id));

/** Shows a text, where it is another one than before. @param {string} id @param {string} text */
function show(id, text) {
  const element = by(id);
  if (element.textContent !== text) element.textContent = text;
}

/** What is said where an answer is too long to be drawn whole. @param {import('./records.js').Answered} answered */
function left({lines: [line]}) {
  const [word, count] = line.split(',', 2);
  const most = {guards: MOST_VIEWS, sights: MOST_LINES}[word] ?? Infinity;
  if (!(Number(count) > most)) return '';
  const shown = most.toLocaleString('en');
  return word === 'guards' ? ` What the first ${shown} see is shown.` : ` The first ${shown} are drawn.`;
}

/** The coordinates of the data, for reading. @param {Point} point @param {import('./state.js').Frame} frame */
function inData(point, {origin, scale}) {
  const unit = number(scale);
  const digits = Math.max(0, Math.ceil(Math.log10(unit)));
  return point.map((c, k) => (c / unit + number(origin[k])).toFixed(Math.min(digits, 12))).join(', ');
}

export class App {
  constructor() {
    this.view = new View();
    /** What is on its way: the point that is held, the place of the mouse, and the pen of the keyboard.
     *  @type {{held: number | null, hover: Point | null, pen: Point | null, place: Point | null}} */
    this.ui = {held: null, hover: null, pen: null, place: null};
    this.store = new Store(START, () => this.stateChanged());
    this.asker = new Asker(() => this.answered(), (error) => this.failed(error));
    this.pointer = new Pointer(this, by('canvas'));
    this.points = new Points(this, by('points'));
    this.table = new Table(this, by('rows'));
    this.menu = new Menu(this);
    this.shown = new Shown(by('shown'));
    /** @type {Object<string, unknown[]>} */
    this.drawn = {}; // what the layer below shows
    this.marks = ''; // what the layer above shows
    this.isStale = false; // whether something changed since all was drawn
    this.frames = 0; // in which there were new answers
    this.timers = {};
    addEventListener('hashchange', () => this.addressChanged());
    new ResizeObserver(() => this.resized()).observe(by('canvas'));
  }

  /** Begins with the state of the address, with what was opened, or with an example. */
  async start() {
    const {opened, examples, who} = await (await fetch('start')).json();
    fillExamples(examples);
    by('who').textContent = `Answered by ${who}. Coordinates are whole numbers, and answers are exact.`;
    const read = readAddress(location.hash.slice(1));
    if (read) await this.take(read.rows, (answers) => stateOf(read, answers));
    else if (opened) await this.open(opened);
    else this.store.set(START, false);
    this.store.before = [];
    this.fit();
    document.documentElement.dataset.ready = 'yes';
  }

  /** Takes what was opened: a script, with the frame where it was made of data. */
  async open({records, frame, name, note}) {
    await this.take(records, (answers) => ({...this.store.state, ...panelsOf(records, answers), chosen: 0, drawing: false, points: {}, frame, name}));
    if (note) this.note(note);
    this.fit();
  }

  /** Asks a whole script, and goes on with the state that is made of its answers. @param {string[][]} rows @param {(answers: string[][]) => State} make */
  async take(rows, make) {
    try {
      const answers = rows.length ? byRecord(await answersTo(rows)) : [];
      Object.assign(this.ui, {held: null, hover: null, pen: null});
      this.store.set(make(answers));
    } catch (error) {
      this.note(error instanceof Error ? error.message : String(error));
    }
  }

  stateChanged() {
    const {state} = this.store;
    if (this.ui.held !== null && this.ui.held >= handles(state).length) this.ui.held = null;
    this.ask();
    this.later('address', 400, () => this.showAddress());
  }

  /** Puts the state in the address, where it is not too long for one. */
  showAddress() {
    const size = this.script().reduce((sum, row) => sum + text(row).length, 0);
    if (size < LONGEST) history.replaceState(null, '', `#${addressOf(this.store.state)}`);
  }

  /** The address was changed by hand. */
  async addressChanged() {
    const read = readAddress(location.hash.slice(1));
    if (!read) return;
    await this.take(read.rows, (answers) => stateOf(read, answers));
    this.fit();
  }

  /** The records of the question that is being asked. */
  now() {
    const {state} = this.store;
    return panel(state).closed || !panel(state).ring.length ? questionRows(state, this.ui.hover, this.asker.answered) : [];
  }

  /** Asks for all that is to be shown. */
  ask() {
    const {state} = this.store;
    const first = head(state);
    const kept = panel(state).closed || !panel(state).ring.length ? panel(state).kept : [];
    this.asker.want([...first, ...kept, ...this.now()], first.length);
    this.render();
  }

  /** There are new answers. What is asked may depend on them, as what guards see does. */
  answered() {
    if (this.asker.wanted.at(-1)?.[0] === 'guards') this.ask();
    else this.render();
  }

  /** @param {unknown} error @returns {void} */
  failed(error) {
    const status = /** @type {{status?: number}} */ (error)?.status;
    by('gone').hidden = error === null || status !== undefined;
    by('gone').textContent = error === null ? '' : 'The server does not answer: tools/explore was ended, or is stopped. What is drawn here stays, and is asked again as soon as the server is back.';
    if (status !== undefined) this.note(/** @type {Error} */ (error).message);
  }

  /** Shows all as it is, once for the next frame, however much changes before it. */
  render() {
    if (this.isStale) return;
    this.isStale = true;
    requestAnimationFrame(() => {
      this.isStale = false;
      this.draw();
    });
  }

  draw() {
    const {state} = this.store;
    const {answered, count} = this.asker;
    if (count !== this.countDrawn) this.frames += 1;
    this.countDrawn = count;
    this.renderBase();
    const {ring} = panel(state);
    this.shown.render(this.view, this.isOfRing() && !this.isOnlyOpen() ? answered : [], ring, state.version);
    this.renderHandles();
    this.points.render();
    this.table.render();
    this.menu.render();
    show('hint', hint(state));
    this.renderPlace();
    this.renderSaid();
  }

  /** What shows where the mouse and the keyboard are. */
  renderHandles() {
    const {store: {state}, ui: {held, pen, hover}} = this;
    const {ring, closed} = panel(state);
    const next = state.drawing && !closed && ring.length && hover ? [ring[ring.length - 1], hover] : [];
    const marks = drawHandles(this.view, handles(state), held, pen, next);
    if (marks !== this.marks) by('handles').innerHTML = marks;
    this.marks = marks;
  }

  /** The grid and the polygon are drawn anew only where they changed. */
  renderBase() {
    const {state} = this.store;
    const it = panel(state);
    const {left, top, scale, width, height} = this.view;
    const frame = [left, top, scale, width, height];
    this.renderPart('grid', frame, () => drawGrid(this.view));
    this.renderPart('ring', [...frame, it.ring, it.closed, state.drawing], () => drawRing(this.view, it, state.drawing));
  }

  /** Draws a part of the layer below, where what it depends on changed. @param {string} id @param {unknown[]} key @param {() => string} make */
  renderPart(id, key, make) {
    if (key.every((value, k) => value === this.drawn[id]?.[k])) return;
    this.drawn[id] = key;
    by(id).innerHTML = make();
  }

  /** Whether the answers are about a polygon with as many vertices as the one that is shown. */
  isOfRing() {
    const asked = this.asker.answered.find(({row}) => row[0] === 'polygon');
    return !asked || asked.row.length === 1 + 2 * panel(this.store.state).ring.length;
  }

  /** Whether nothing is wrong but the edge that would close the drawing now. */
  isOnlyOpen() {
    const {ring, closed} = panel(this.store.state);
    const polygon = this.asker.answered.find(({row}) => row[0] === 'polygon');
    const [word, cause, , edge] = polygon?.lines[0].split(',') ?? [];
    return !closed && word === 'bad' && cause === 'clash' && Number(edge) === ring.length - 1;
  }

  /** The answer in plain words, and aloud once it rests. */
  renderSaid() {
    const {state} = this.store;
    const words = this.words();
    show('said', words.text);
    by('answer').classList.toggle('refused', words.refused);
    this.later('aloud', 500, () => show('aloud', words.text));
    by('canvas').dataset.polygon = String(panel(state).ring.length);
  }

  /** What is to be said of all that was answered: what is wrong first, and else the last answer. */
  words() {
    const {state} = this.store;
    const {answered} = this.asker;
    if (this.asker.known() < this.asker.wanted.length && !answered.length) return {text: '…', refused: false};
    if (this.isOnlyOpen()) return {text: hint(state), refused: false};
    const polygon = answered.find(({row}) => row[0] === 'polygon');
    if (polygon?.lines[0].startsWith('bad,')) return {text: say(polygon, state.version), refused: true};
    const now = answered.slice(head(state).length + panel(state).kept.length);
    const guards = now.find(({row}) => row[0] === 'guards');
    const last = guards ?? now.at(-1) ?? polygon;
    return last ? {text: say(last, state.version) + left(last), refused: last.lines[0].startsWith('bad,')} : {text: hint(state), refused: false};
  }

  /** @param {number} k whether record k of the table is of the question that is being asked */
  isNow(k) {
    const {state} = this.store;
    return k >= head(state).length + panel(state).kept.length;
  }

  /** Which kept question record k of the table is. @param {number} k @returns {number | null} */
  keptPlace(k) {
    const place = k - head(this.store.state).length;
    return place >= 0 && place < panel(this.store.state).kept.length ? place : null;
  }

  /** All polygons and questions as records. */
  script() {
    return allRows(this.store.state, this.now());
  }

  /** Holds a point, as by the keyboard. @param {number} k */
  hold(k) {
    this.ui.held = k;
    this.ui.pen = null;
    this.render();
  }

  sayHeld() {
    const {state} = this.store;
    const {held} = this.ui;
    if (held !== null) by('aloud').textContent = `${nameOf(state, held)}: ${handles(state)[held].join(', ')}`;
  }

  /** @param {Point | null} point */
  showPlace(point) {
    this.ui.place = point;
    this.render();
  }

  renderPlace() {
    const {store: {state: {frame}}, ui: {place}} = this;
    const data = place && frame ? ` = ${inData(place, frame)}` : '';
    show('place', place ? place.map((c) => c.toLocaleString('en')).join(', ') + data : '');
  }

  /** Says something in a line below the script. @param {string} text */
  note(text) {
    by('note').textContent = text;
    this.later('note', 12000, () => { by('note').textContent = ''; });
  }

  fit() {
    const {state} = this.store;
    this.view.fit([...panel(state).ring, ...pointsNow(state)]);
    this.isFitted = true;
    this.render();
  }

  /** The user moved the picture. */
  viewed() {
    this.isFitted = false;
    this.render();
  }

  resized() {
    this.view.width = by('canvas').clientWidth;
    this.view.height = by('canvas').clientHeight;
    if (this.isFitted) this.fit();
    else this.render();
  }

  /** Does something once it was not asked for again for a while. @param {string} name @param {number} wait @param {() => void} act */
  later(name, wait, act) {
    clearTimeout(this.timers[name]);
    this.timers[name] = setTimeout(act, wait);
  }
}

const app = new App();
/** For the tests. */
Object.assign(globalThis, {app});
app.start().catch((error) => app.failed(error));
