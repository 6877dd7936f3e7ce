// Answers as a picture. What is drawn is read from records and answers.
import {isRefused, pairs, pointsOf} from './records.js';

/** @typedef {import('./records.js').Point} Point */
/** @typedef {import('./records.js').Answered} Answered */
/** @typedef {import('./view.js').View} View */

const COLOURS = 7;
const OF_RING = new Set(['polygon', 'tree', 'guards', 'sights']); // answers that are drawn with vertices by their numbers
const MOST_ANSWERS = 2000; // that are drawn
const MOST_DOTS = 400; // vertices in sight that are drawn as dots
const MOST_NUMBERS = 60; // vertices that have their numbers beside them
/** The most pairs of vertices that are drawn. */
export const MOST_LINES = 20000;

/** Where answers are drawn. @typedef {{view: View, ring: Point[], version: 1 | 2}} Page */

/** @param {View} view @param {Point[]} points */
const chain = (view, points) => `M${points.map((point) => view.at(point)).join('L')}`;
/** The same in whole pixels, which is sooner written and drawn. @param {View} view @param {Point[]} points */
function coarse(view, points) {
  let way = 'M';
  for (const [x, y] of points) way += `${Math.round((x - view.left) * view.scale)} ${Math.round((view.top - y) * view.scale)}L`;
  return way.slice(0, -1);
}
/** @param {View} view @param {Point[][]} lines */
const lines = (view, lines) => lines.map((line) => chain(view, line)).join('');
/** @param {string} kind @param {string} way */
const path = (kind, way) => (way ? `<path class="${kind}" d="${way}"/>` : '');

/** Dots as one shape: pieces of no length with round ends. @param {View} view @param {string} kind @param {Point[]} points */
const dots = (view, kind, points) => path(kind, points.map((point) => `M${view.at(point)}h0`).join(''));

/** @param {View} view @param {string} kind @param {Point} point */
function cross(view, kind, point) {
  const [x, y] = view.place(point);
  return path(kind, `M${x - 6} ${y - 6}L${x + 6} ${y + 6}M${x - 6} ${y + 6}L${x + 6} ${y - 6}`);
}

/** @param {View} view @param {Point} point @param {string | number} text */
function label(view, point, text, dx = 8, dy = -8) {
  const [x, y] = view.place(point);
  return `<text x="${(x + dx).toFixed(1)}" y="${(y + dy).toFixed(1)}">${text}</text>`;
}

/** The answers in the picture, each as a group of shapes. What did not change is not drawn anew. */
export class Shown {
  /** @param {Element} layer */
  constructor(layer) {
    this.layer = layer;
    /** @type {{lines: string[], ring: Point[], colour: number, group: Element}[]} */
    this.groups = [];
    this.key = [];
  }

  /** The answers to all that was asked of a polygon. Guards stand on what they see. @param {View} view @param {Answered[]} answered
   *  @param {Point[]} ring @param {1 | 2} version */
  render(view, answered, ring, version) {
    const key = [view.left, view.top, view.scale, version];
    if (key.some((value, k) => value !== this.key[k])) this.cut(0);
    this.key = key;
    let count = 0;
    const coloured = answered.slice(0, MOST_ANSWERS).map((it) => ({it, colour: isRefused(it.lines) || !DRAWN[it.row[0]] ? -1 : count++ % COLOURS}));
    const isGuards = ({it}) => it.row[0] === 'guards';
    const ordered = [...coloured.filter((one) => !isGuards(one)), ...coloured.filter(isGuards)];
    ordered.forEach(({it, colour}, k) => this.put({view, ring, version}, it, colour, k));
    this.cut(ordered.length);
  }

  /** @param {Page} page @param {Answered} answered @param {number} colour @param {number} k */
  put(page, answered, colour, k) {
    const last = this.groups[k];
    const isSame = last?.lines === answered.lines && last.colour === colour;
    if (isSame && (last.ring === page.ring || !OF_RING.has(answered.row[0]))) return;
    const group = last?.group ?? document.createElementNS('http://www.w3.org/2000/svg', 'g');
    const word = answered.row[0];
    group.setAttribute('class', colour < 0 ? 'wrong' : `c${colour} ${word}`);
    group.innerHTML = colour >= 0 ? DRAWN[word](page, answered) : isRefused(answered.lines) ? drawRefusal(page, answered) : '';
    if (!last) this.layer.append(group);
    this.groups[k] = {lines: answered.lines, ring: page.ring, colour, group};
  }

  /** Takes the groups from a place on away. @param {number} count */
  cut(count) {
    while (this.groups.length > count) this.groups.pop()?.group.remove();
  }
}

/** What is wrong, where it is: the edges that clash, or the point outside. @param {Page} page @param {Answered} answered */
function drawRefusal({view, ring}, {row, lines: [line]}) {
  const [, cause, a, b] = line.split(',');
  if (cause === 'clash' && row[0] === 'polygon') {
    const edges = [Number(a), Number(b)].map((k) => [ring[k % ring.length], ring[(k + 1) % ring.length]]);
    const marks = edges.map(([p, q], k) => label(view, [p[0] + (q[0] - p[0]) * 0.3, p[1] + (q[1] - p[1]) * 0.3], [a, b][k])).join('');
    return path('edge', lines(view, edges)) + marks;
  }
  const point = cause === 'outside' ? pointsOf(row)?.[Number(a) - 1] : null;
  return point ? cross(view, 'cross', point) : '';
}

/** @type {Object<string, (page: Page, answered: Answered) => string>} */
const DRAWN = {
  inside: drawPlace, check: drawList, path: drawPath, reach: drawPath, pair: drawPath, tree: drawTree, see: drawView, kernel: drawKernel,
  hull: drawHull, round: drawRound, guards: drawGuards, sights: drawSights,
};

/** @param {Page} page @param {Answered} answered */
function drawPlace({view}, {row, lines: [place]}) {
  const [point] = pointsOf(row) ?? [];
  if (place === 'outside') return cross(view, 'cross', point);
  return dots(view, 'dot', [point]) + (place === 'edge' ? dots(view, 'hole', [point]) : '');
}

/** @param {Page} page @param {Answered} answered */
function drawPath({view, version}, {lines: [line]}) {
  const points = pairs(line.split(',').slice(2));
  const ends = [points[0], points[points.length - 1]];
  const touched = version === 2 ? dots(view, 'small', points.slice(1, -1)) + dots(view, 'small-hole', points.slice(1, -1)) : '';
  return path('way', chain(view, points)) + touched + dots(view, 'dot', ends) + dots(view, 'hole', ends.slice(0, 1));
}

/** @param {Page} page @param {Answered} answered */
function drawTree({view, ring}, {row, lines: told}) {
  const [source] = pointsOf(row) ?? [];
  const branches = [];
  for (let k = 1; k < told.length; k += 1) {
    const before = told[k].slice(told[k].lastIndexOf(',') + 1);
    if (before !== '-') branches.push([ring[k - 1], before === 's' ? source : ring[Number(before)]]);
  }
  return path(branches.length > MOST_DOTS ? 'branch many' : 'branch', lines(view, branches)) + dots(view, 'dot', [source]) + dots(view, 'hole', [source]);
}

/** What is seen. The parts follow each other round the viewpoint, so their ends in order go round all that is seen.
 *  @param {Page} page @param {Answered} answered */
function drawView({view}, {row, lines: told}) {
  const [viewpoint] = pointsOf(row) ?? [];
  const parts = told.slice(1).map((line) => pairs(line.split(',').slice(2)));
  const area = parts.length ? `${chain(view, parts.flat())}Z` : '';
  return path('seen', area) + path('part', lines(view, parts)) + dots(view, 'dot', [viewpoint]);
}

/** @param {Page} page @param {Answered} answered */
function drawKernel({view}, {lines: told}) {
  const corners = told.slice(1).map((line) => pairs(line.split(',').slice(1))[0]);
  return corners.length ? path('core', `${chain(view, corners)}Z`) + dots(view, 'dot', corners) : '';
}

/** @param {Page} page @param {Answered} answered */
function drawHull({view, version}, {row, lines: told}) {
  const sides = told.slice(1).map((line) => pairs(line.split(',').slice(4)));
  const touched = version === 2 ? sides.flatMap((side) => side.slice(1, -1)) : [];
  return path('way', lines(view, sides)) + dots(view, 'small', touched) + dots(view, 'small-hole', touched) + numbered(view, pointsOf(row) ?? []);
}

/** @param {View} view @param {Point[]} points */
function numbered(view, points) {
  return `${dots(view, 'dot', points)}<g class="numbers">${points.map((point, k) => label(view, point, k, 9, 16)).join('')}</g>`;
}

/** @param {Page} page @param {Answered} answered */
function drawRound({view}, {row, lines: [line]}) {
  const points = pointsOf(row) ?? [];
  const numbers = line.split(',').slice(2).map(Number);
  const others = points.filter((_, k) => !numbers.includes(k));
  const order = numbers.map((k, place) => label(view, points[k], `${place + 1}.`, 9, -9)).join('');
  return numbered(view, points) + dots(view, 'hole', others) + `<g class="strong">${order}</g>`;
}

/** @param {Page} page @param {Answered} answered */
function drawGuards({view, ring}, {lines: [line]}) {
  const numbers = line.split(',').slice(2).map(Number);
  const names = numbers.length <= 40 ? numbers.map((k) => label(view, ring[k], k, 11, -10)).join('') : '';
  return dots(view, numbers.length > MOST_NUMBERS ? 'small' : 'great', numbers.map((k) => ring[k])) + `<g class="strong">${names}</g>`;
}

/** @param {Page} page @param {Answered} answered */
function drawSights({view, ring}, {lines: told}) {
  const seen = told.slice(1, MOST_LINES + 1).map((line) => line.split(',').slice(1).map((k) => ring[Number(k)]));
  return path(seen.length > 300 ? 'sight many' : 'sight', lines(view, seen));
}

/** @param {Page} page @param {Answered} answered */
function drawList({view}, {row, lines: [line]}) {
  const points = pointsOf(row) ?? [];
  const [verdict, rule, at] = line.split(',');
  const place = Number(at);
  const broken = verdict === 'not' ? cross(view, 'cross wrong', points[place]) : '';
  const left = rule === 'leaves' && place + 1 < points.length ? path('edge wrong', chain(view, points.slice(place, place + 2))) : '';
  return path(verdict === 'taut' ? 'way' : 'way dashed', chain(view, points)) + left + dots(view, 'dot', points) + broken;
}

/** The polygon, with dots at its vertices where not too many are in sight, and their numbers where there is room.
 *  @param {View} view @param {import('./state.js').Panel} panel @param {boolean} isDrawing */
export function drawRing(view, {ring, closed}, isDrawing) {
  if (!ring.length) return '';
  const way = ring.length > MOST_DOTS ? coarse(view, ring) : chain(view, ring);
  const closing = ring.length > 2 ? path('closing', chain(view, [ring[ring.length - 1], ring[0]])) : '';
  const shape = closed ? path(ring.length > MOST_DOTS ? 'ring many' : 'ring', `${way}Z`) : path('ring open', way) + closing;
  const inSight = ring.filter((point) => view.hasInSight(point));
  const kind = isDrawing ? 'vertex held' : ring.length > MOST_NUMBERS ? 'vertex fine' : 'vertex';
  const vertices = inSight.length <= MOST_DOTS ? dots(view, kind, inSight) : '';
  return shape + vertices + `<g class="numbers">${numbers(view, ring)}</g>`;
}

/** The numbers of vertices, but for those that would stand on another one. @param {View} view @param {Point[]} ring */
function numbers(view, ring) {
  if (ring.length > MOST_NUMBERS) return '';
  const taken = [];
  return ring.map((point, k) => {
    const [x, y] = view.place(point);
    if (taken.some(([a, b]) => Math.abs(a - x) < 20 && Math.abs(b - y) < 12)) return '';
    taken.push([x, y]);
    return label(view, point, k, 6, -6);
  }).join('');
}

/** Lines of a grid with their coordinates. @param {View} view */
export function drawGrid(view) {
  const step = view.step();
  const [right, bottom] = [view.left + view.width / view.scale, view.top - view.height / view.scale];
  const texts = [];
  let way = '';
  for (let x = Math.ceil(view.left / step) * step + 0; x <= right; x += step) {
    const [px] = view.place([x, 0]);
    way += `M${px.toFixed(1)} 0v${view.height}`;
    texts.push(`<text class="across" x="${px.toFixed(1)}" y="${view.height - 6}">${x.toLocaleString('en')}</text>`);
  }
  for (let y = Math.ceil(bottom / step) * step + 0; y <= view.top; y += step) {
    const [, py] = view.place([0, y]);
    way += `M0 ${py.toFixed(1)}h${view.width}`;
    if (py < view.height - 24 && py > 12) texts.push(`<text x="6" y="${(py - 4).toFixed(1)}">${y.toLocaleString('en')}</text>`);
  }
  return path('grid', way) + `<g class="axis">${texts.join('')}</g>`;
}

/** The point that is held, the pen of the keyboard, and the next edge of a drawing. @param {View} view @param {Point[]} points
 *  @param {number | null} held @param {Point | null} pen @param {Point[]} next */
export function drawHandles(view, points, held, pen, next) {
  const halo = held !== null && points[held] ? dots(view, 'halo', [points[held]]) : '';
  const ring = halo + (next.length ? path('closing', chain(view, next)) : '');
  if (!pen) return ring;
  const [x, y] = view.place(pen);
  return ring + path('pen', `M${x - 11} ${y}h8M${x + 3} ${y}h8M${x} ${y - 11}v8M${x} ${y + 3}v8`);
}
