// The state in the address, behind its #: so a copied address brings it back.
import {pointsOf} from './records.js';
import {QUESTIONS, panel, panelsOf, pointsNow, polygonRow} from './state.js';

/** @typedef {import('./records.js').Row} Row */
/** @typedef {import('./state.js').State} State */

/** @param {Row} row */
const encoded = (row) => row.map(encodeURIComponent).join(',');
/** @param {string} line @returns {Row} */
const decoded = (line) => line.split(',').map(decodeURIComponent);

/** @param {State} state */
export function addressOf(state) {
  const rows = state.panels.flatMap((it) => [...(it.ring.length && it.closed ? [polygonRow(it.ring)] : []), ...it.kept]);
  const {ring, closed} = panel(state);
  const parts = {
    tool: state.drawing ? `draw,${state.question}` : state.question,
    version: state.version,
    polygon: state.chosen || '',
    points: pointsNow(state).join(','),
    drawn: closed ? '' : ring.join(','),
    frame: state.frame ? [...state.frame.origin, state.frame.scale].join(',') : '',
    script: rows.map(encoded).join(';'),
  };
  return Object.entries(parts).filter(([, value]) => value !== '').map((pair) => pair.join('=')).join('&');
}

/** The parts of an address and the script in it; null where it has none that can be read. @param {string} address */
export function readAddress(address) {
  try {
    const parts = Object.fromEntries(address.split('&').map((part) => part.split('=', 2)));
    if (!parts.tool) return null;
    const rows = (parts.script ?? '').split(';').filter(Boolean).map(decoded);
    return {parts, rows: parts.version === '2' ? [['geo', '2'], ...rows] : rows};
  } catch {
    return null;
  }
}

/** The state of an address, with the answers to its script. @param {{parts: Object<string, string>, rows: Row[]}} read
 *  @param {string[][]} answers @returns {State} */
export function stateOf({parts, rows}, answers) {
  const [tool, last] = parts.tool.split(',');
  const question = /** @type {import('./state.js').Question} */ ([tool, last, 'path'].find((word) => word in QUESTIONS));
  const found = panelsOf(rows, answers);
  const points = pointsIn(parts.points);
  const drawn = pointsIn(parts.drawn);
  const panels = drawn.length ? [...found.panels.filter((it) => it.ring.length), {ring: drawn, closed: false, kept: []}] : found.panels;
  return {
    version: found.version, panels, chosen: Math.min(Number(parts.polygon) || 0, panels.length - 1), drawing: tool === 'draw', question,
    points: {[QUESTIONS[question].points]: points.slice(0, QUESTIONS[question].most)}, frame: frameIn(parts.frame), name: '',
  };
}

/** @param {string | undefined} given */
const pointsIn = (given) => (given ? pointsOf(['', ...given.split(',')]) ?? [] : []);

/** @param {string | undefined} given @returns {import('./state.js').Frame | null} */
function frameIn(given) {
  const numbers = (given ?? '').split(',');
  if (numbers.length !== 3 || !numbers.every((it) => /^-?\d+([./]\d+)?$/.test(it))) return null;
  return {origin: [numbers[0], numbers[1]], scale: numbers[2]};
}
