// Answers in plain words.
import {isRefused} from './records.js';

/** @typedef {import('./records.js').Answered} Answered */

const LIMITS = {1: '1,000,000', 2: '8,388,607'};

/** What an answer says. @param {Answered} answered @param {1 | 2} version */
export function say({row, lines}, version) {
  if (isRefused(lines)) return sayRefusal(row[0], lines[0].split(','), version);
  const fields = lines[0].split(',');
  const told = SAID[row[0]];
  return told ? told(fields, lines, row) : lines[0];
}

/** @param {number} count @param {string} one @param {string} many */
const counted = (count, one, many = `${one}s`) => (count === 1 ? `one ${one}` : `${count.toLocaleString('en')} ${many}`);

/** @param {string[]} fields @param {number} most */
function points(fields, most = 6) {
  const count = fields.length >> 1;
  const point = (/** @type {number} */ k) => `(${fields[2 * k]},\u00a0${fields[2 * k + 1]})`;
  if (count <= most) return Array.from({length: count}, (_, k) => point(k)).join(' → ');
  return [...Array.from({length: most - 1}, (_, k) => point(k)), '…', point(count - 1)].join(' → ');
}

/** @param {string[]} fields */
function sayPath(fields) {
  const count = Number(fields[1]);
  if (count === 1) return `Both points are the same: ${points(fields.slice(2))}.`;
  if (count === 2) return `The way is straight: ${points(fields.slice(2))}.`;
  return `The way has ${count.toLocaleString('en')} points: ${points(fields.slice(2))}.`;
}

const RULES = {
  repeat: 'it is the same as the next point',
  leaves: 'it is outside, or the way to the next point leaves the polygon',
  not_reflex: 'the list bends there, and it is no inner corner of the polygon',
  straight: 'it is in line with the points before and after it',
  wrong_side: 'the list bends there on the wrong side of the corner, and could be pulled tighter',
};

/** @type {Object<string, (fields: string[], lines: string[], row: string[]) => string>} */
const SAID = {
  geo: () => 'The script is of version 2.',
  polygon: ([, count]) => `The polygon is simple and has ${Number(count).toLocaleString('en')} vertices.`,
  inside: ([place], _, [, x, y]) => `The point (${x}, ${y}) is ${{inside: 'inside', edge: 'on the edge', outside: 'outside'}[place]}.`,
  path: sayPath,
  reach: sayPath,
  pair: sayPath,
  tree: ([, count]) => `From the point there is a way to each of the ${Number(count).toLocaleString('en')} vertices.`,
  see: ([, count]) => `The point sees something of ${counted(Number(count), 'edge')}.`,
  kernel: ([, count]) => sayKernel(Number(count)),
  hull: ([, count]) => (count === '0' ? 'One point has no sides.' : `The relative hull has ${counted(Number(count), 'side')}.`),
  round: ([, count, ...numbers]) => (count === '0' ? 'One point has no sides.'
    : `${counted(Number(count), 'point')} start a side, in this order: ${numbers.join(', ')}.`),
  guards: ([, count, ...numbers]) => sayGuards(Number(count), numbers),
  sights: ([, count]) => `${counted(Number(count), 'pair')} of vertices see each other.`,
  check: ([verdict, rule, place]) => (verdict === 'taut' ? 'The list is taut: it is the path between its ends.'
    : `The list is not taut. Point ${place} breaks a rule: ${RULES[rule]}.`),
};

/** @param {number} count */
function sayKernel(count) {
  if (count === 0) return 'The kernel is empty: no point sees all of the polygon.';
  if (count === 1) return 'One point alone sees all of the polygon.';
  return count === 2 ? 'The kernel is a segment.' : `The kernel has ${count} corners. Each point of it sees all of the polygon.`;
}

/** @param {number} count @param {string[]} numbers */
function sayGuards(count, numbers) {
  const shown = numbers.length > 12 ? `${numbers.slice(0, 12).join(', ')} and more` : numbers.join(', ');
  return count === 1 ? `One guard sees everything: vertex ${shown}.` : `${count.toLocaleString('en')} guards see everything together: the vertices ${shown}.`;
}

const POINTS = {
  path: ['The first point', 'The second point'],
  pair: ['The first vertex', 'The second vertex'],
};

/** @param {string} word @param {string[]} fields @param {1 | 2} version */
function sayRefusal(word, [, cause, a, b], version) {
  const which = POINTS[word]?.[Number(a) - 1];
  return {
    word: 'This word is no command.',
    fields: 'The record has another count of fields than its command takes.',
    few: 'There are too few points: a polygon has three or more.',
    many: 'There are more points than the command takes.',
    number: `Field ${a} is no whole number.`,
    range: `Number ${a} of the record is beyond ${LIMITS[version]}, the limit of version ${version}.`,
    no_polygon: 'There is no polygon to ask about.',
    no_tree: 'There is no tree yet.',
    large: 'This takes polygons of at most 1,024 vertices.',
    index: `${which ?? `Number ${a}`} is no vertex of the polygon.`,
    outside: `${which ?? (a === '1' && word !== 'hull' && word !== 'round' ? 'The point' : `Point ${Number(a) - 1}`)} is outside the polygon.`,
    clash: `The polygon is not simple: edges ${a} and ${b} share a point where they must not, or one has equal ends.`,
  }[cause] ?? `Refused: ${cause}.`;
}
