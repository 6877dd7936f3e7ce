// What the page knows: polygons, what was asked of each, and the question that is being asked. A state is never changed; a new one
// takes its place, so that it can be undone.
import {asking, isRefused, pointsOf, text} from './records.js';

/** @typedef {import('./records.js').Point} Point */
/** @typedef {import('./records.js').Row} Row */
/** @typedef {import('./records.js').Answered} Answered */
/** How coordinates of the data became whole numbers. @typedef {{origin: [string, string], scale: string}} Frame */
/** A polygon, whether its drawing is finished, and the questions that were kept. @typedef {{ring: Point[], closed: boolean, kept: Row[]}} Panel */
/** @typedef {'inside'|'path'|'tree'|'see'|'kernel'|'hull'|'round'|'guards'|'sights'|'check'} Question */
/** @typedef {object} State
 *  @property {1 | 2} version
 *  @property {Panel[]} panels
 *  @property {number} chosen which polygon is shown
 *  @property {boolean} drawing whether the polygon is being drawn or changed
 *  @property {Question} question
 *  @property {Object<string, Point[]>} points the points of the questions, by their kind
 *  @property {Frame | null} frame
 *  @property {string} name of what was opened */

/** Which points a question has, and how many at most. @type {Object<Question, {points: string, most: number}>} */
export const QUESTIONS = {
  inside: {points: 'inside', most: 1},
  path: {points: 'path', most: 2},
  tree: {points: 'tree', most: 2},
  see: {points: 'see', most: 1},
  kernel: {points: '', most: 0},
  hull: {points: 'list', most: 64},
  round: {points: 'list', most: 64},
  guards: {points: '', most: 0},
  sights: {points: '', most: 0},
  check: {points: 'check', most: 16384},
};

/** The most guards of which it is asked what they see. */
export const MOST_VIEWS = 400;

/** @type {Point[]} */
const L = [[0, 0], [4, 0], [4, 2], [2, 2], [2, 4], [0, 4]];

/** What the page begins with where nothing is opened. @type {State} */
export const START = {
  version: 1, panels: [{ring: L, closed: true, kept: []}], chosen: 0, drawing: false, question: 'path',
  points: {path: [[1, 4], [4, 1]]}, frame: null, name: '',
};

/** @param {State} state */
export const panel = (state) => state.panels[state.chosen];

/** The state with another polygon or other kept questions. @param {State} state @param {Partial<Panel>} change @returns {State} */
export function withPanel(state, change) {
  const panels = state.panels.map((it, k) => (k === state.chosen ? {...it, ...change} : it));
  return {...state, panels};
}

/** The points of the question that is being asked. @param {State} state */
export const pointsNow = (state) => state.points[QUESTIONS[state.question].points] ?? [];

/** The state with other points of its question. @param {State} state @param {Point[]} points @returns {State} */
export function withPoints(state, points) {
  return {...state, points: {...state.points, [QUESTIONS[state.question].points]: points}};
}

/** @type {WeakMap<Point[], Row>} */
const rings = new WeakMap();

/** The record of a polygon. @param {Point[]} ring */
export function polygonRow(ring) {
  const row = rings.get(ring) ?? asking('polygon', ring);
  rings.set(ring, row);
  return row;
}

/** The records that say what the polygon is. While it is drawn it is asked about from three vertices on. @param {State} state @returns {Row[]} */
export function head(state) {
  const {ring, closed} = panel(state);
  const version = state.version === 2 ? [['geo', '2']] : [];
  return ring.length > (closed ? 0 : 2) ? [...version, polygonRow(ring)] : version;
}

/** The records of the question that is being asked, with the point under the mouse where one is still to be set.
 *  @param {State} state @param {Point | null} hover @param {Answered[]} answered @returns {Row[]} */
export function questionRows(state, hover, answered) {
  const {question} = state;
  const points = pointsNow(state);
  if (question === 'kernel' || question === 'sights') return [[question]];
  if (question === 'guards') return [['guards'], ...guardViews(state, answered)];
  if (question === 'tree') return treeRows(points, hover);
  const shown = question === 'path' && points.length === 1 && hover ? [...points, hover] : points;
  const least = question === 'path' ? 2 : 1;
  return shown.length >= least ? [asking(question, shown)] : [];
}

/** @param {Point[]} points @param {Point | null} hover @returns {Row[]} */
function treeRows([source, goal], hover) {
  if (!source) return [];
  const end = hover ?? goal;
  return end ? [asking('tree', [source]), asking('reach', [end])] : [asking('tree', [source])];
}

/** What each guard sees, once it is known which vertices are guards. @param {State} state @param {Answered[]} answered @returns {Row[]} */
function guardViews(state, answered) {
  const {ring, kept} = panel(state);
  const place = head(state).length + kept.length;
  const found = answered[place];
  const isSame = found?.row[0] === 'guards' && !isRefused(found.lines) && text(polygonRow(ring)) === polygonText(answered);
  return isSame ? found.lines[0].split(',').slice(2, 2 + MOST_VIEWS).map((k) => asking('see', [ring[Number(k)]])) : [];
}

/** @param {Answered[]} answered */
function polygonText(answered) {
  const found = answered.find(({row}) => row[0] === 'polygon');
  return found ? text(found.row) : '';
}

/** All polygons with their questions, as a script. @param {State} state @param {Row[]} now the records of the question that is asked @returns {Row[]} */
export function allRows(state, now) {
  const rows = state.panels.flatMap((it, k) => [
    ...(it.ring.length ? [polygonRow(it.ring)] : []), ...it.kept, ...(k === state.chosen ? now : []),
  ]);
  return [...(state.version === 2 ? [['geo', '2']] : []), ...rows];
}

/** The polygons of a script with what is asked of each. A polygon that is refused is one of its own where there is none before it.
 *  @param {Row[]} rows @param {string[][]} answers @returns {{version: 1 | 2, panels: Panel[]}} */
export function panelsOf(rows, answers) {
  const isTwo = answers.length > 0 && rows[0][0] === 'geo' && !isRefused(answers[0]);
  /** @type {Panel[]} */
  const panels = [{ring: [], closed: false, kept: []}];
  rows.forEach((row, k) => {
    if (k === 0 && isTwo) return;
    const last = panels[panels.length - 1];
    const points = row[0] === 'polygon' ? pointsOf(row) : null;
    const isNew = points?.length && (!isRefused(answers[k]) || !panels.some((it) => it.ring.length));
    if (isNew) panels.push({ring: points, closed: true, kept: []});
    else last.kept.push(row);
  });
  const shown = panels.filter((it) => it.ring.length || it.kept.length);
  return {version: isTwo ? 2 : 1, panels: shown.length ? shown : panels};
}

export class Store {
  /** @param {State} state @param {() => void} changed */
  constructor(state, changed) {
    this.state = state;
    this.changed = changed;
    /** @type {State[]} */
    this.before = [];
    /** @type {State[]} */
    this.after = [];
  }

  /** @param {State} state @param {boolean} kept whether the state so far can be come back to */
  set(state, kept = true) {
    if (kept) {
      this.before = [...this.before.slice(-199), this.state];
      this.after = [];
    }
    this.state = state;
    this.changed();
  }

  undo() {
    const state = this.before.pop();
    if (!state) return;
    this.after.push(this.state);
    this.set(state, false);
  }

  redo() {
    const state = this.after.pop();
    if (!state) return;
    this.before.push(this.state);
    this.set(state, false);
  }
}
