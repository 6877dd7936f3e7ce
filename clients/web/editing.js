// What a click, a drag or a key does to a state. The points that can be moved are the vertices while the polygon is drawn, and else the
// points of the question.
import {QUESTIONS, panel, pointsNow, withPanel, withPoints} from './state.js';

/** @typedef {import('./records.js').Point} Point */
/** @typedef {import('./state.js').State} State */
/** @typedef {import('./view.js').View} View */

/** @param {State} state */
export const handles = (state) => (state.drawing ? panel(state).ring : pointsNow(state));

/** @param {State} state @param {Point[]} points */
const withHandles = (state, points) => (state.drawing ? withPanel(state, {ring: points}) : withPoints(state, points));

/** @param {State} state @param {number} k @param {Point} point */
export function moved(state, k, point) {
  return withHandles(state, handles(state).map((it, at) => (at === k ? point : it)));
}

/** Sets one more point, or the first one anew where the question has all. Gives the number of the point, or null where none is set.
 *  @param {State} state @param {Point} point @param {boolean} hovers whether the goal of a tree follows the mouse
 *  @returns {[State, number | null]} */
export function added(state, point, hovers) {
  const points = handles(state);
  if (state.drawing) return panel(state).closed ? [state, null] : [withHandles(state, [...points, point]), points.length];
  const most = state.question === 'tree' && hovers ? 1 : QUESTIONS[state.question].most;
  if (!most || (points.length >= most && most > 2)) return [state, null];
  const kept = points.length < most ? points : [];
  return [withHandles(state, [...kept, point]), kept.length];
}

/** Puts a vertex on edge k. @param {State} state @param {number} k @param {Point} point */
export function inserted(state, k, point) {
  const {ring} = panel(state);
  return withPanel(state, {ring: [...ring.slice(0, k + 1), point, ...ring.slice(k + 1)]});
}

/** Whether a point can be taken away: a polygon keeps three. @param {State} state @param {number} k */
export function canRemove(state, k) {
  const least = state.drawing && panel(state).closed ? 3 : 0;
  return k >= 0 && k < handles(state).length && handles(state).length > least;
}

/** @param {State} state @param {number} k */
export const removed = (state, k) => (canRemove(state, k) ? withHandles(state, handles(state).filter((_, at) => at !== k)) : state);

/** The drawing as a polygon, where it has three vertices. @param {State} state */
export function finished(state) {
  const {ring, closed} = panel(state);
  return !closed && ring.length > 2 ? withPanel(state, {closed: true}) : state;
}

/** A page with nothing on it, on which a polygon is drawn. @param {State} state @returns {State} */
export function emptied(state) {
  return {...state, panels: [{ring: [], closed: false, kept: []}], chosen: 0, drawing: true, points: {}, frame: null, name: ''};
}

/** The nearest of the points that can be moved, within some pixels. @param {State} state @param {View} view @param {number} px @param {number} py
 *  @param {number} reach */
export function handleAt(state, view, px, py, reach) {
  let [found, least] = [/** @type {number | null} */ (null), reach];
  handles(state).forEach((point, k) => {
    const distance = view.distance(point, px, py);
    if (distance < least) [found, least] = [k, distance];
  });
  return found;
}

/** The nearest edge within some pixels. @param {State} state @param {View} view @param {number} px @param {number} py @param {number} reach */
export function edgeAt(state, view, px, py, reach) {
  const {ring} = panel(state);
  let [found, least] = [/** @type {number | null} */ (null), reach];
  ring.forEach((point, k) => {
    const distance = view.distanceToSegment(point, ring[(k + 1) % ring.length], px, py);
    if (distance < least) [found, least] = [k, distance];
  });
  return found;
}

/** What to do next. @param {State} state */
export function hint(state) {
  const {ring, closed} = panel(state);
  const count = pointsNow(state).length;
  if (state.drawing && !closed) {
    return ring.length < 3 ? 'Click to set the vertices of a polygon.' : 'Click the first vertex, or press Enter, to close the polygon.';
  }
  if (state.drawing) return 'Drag a vertex. Press on an edge to pull a new vertex out of it.';
  if (!ring.length) return 'Draw a polygon, open a file, or take an example.';
  const many = count ? 'Click more points, or drag them.' : 'Click some points.';
  return {
    inside: 'Click a point, or drag it.',
    path: ['Click where the way begins.', 'Click where it ends.', 'Drag either end, or click for another way.'][count],
    tree: count ? 'Move the mouse: the way to it follows. Click for another source.' : 'Click the source of the ways.',
    see: count ? 'Drag the viewpoint.' : 'Click a viewpoint.',
    kernel: 'The kernel: the points that see all of the polygon.',
    hull: many, round: many,
    guards: 'Vertices that see everything together, and what each sees.',
    sights: 'Pairs of vertices that see each other.',
    check: count ? 'Click the next point of the list.' : 'Click the points of a list, from one end to the other.',
  }[state.question];
}
