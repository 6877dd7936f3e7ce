// Records of a script, and the answers to them. docs/MANUAL.md says what they mean.

/** A point in whole numbers. @typedef {[number, number]} Point */
/** A record: its word and its fields. @typedef {string[]} Row */
/** A record that was asked, and the lines that answer it. @typedef {{row: Row, lines: string[]}} Answered */

/** Answers whose first line says how many more follow. */
const LONG = new Set(['tree', 'see', 'kernel', 'hull', 'sights']);

/** @type {WeakMap<Row, string>} */
const texts = new WeakMap();

/** A record as a line of a script. @param {Row} row */
export function text(row) {
  let line = texts.get(row);
  if (line === undefined) {
    line = row.map(quoted).join(',');
    texts.set(row, line);
  }
  return line;
}

/** @param {string} field */
function quoted(field) {
  return /[",\r\n]|^\s|\s$/.test(field) ? `"${field.replaceAll('"', '""')}"` : field;
}

/** Records as a script. @param {Row[]} rows */
export const script = (rows) => rows.map((row) => `${text(row)}\n`).join('');

/** A record of points. @param {string} word @param {Point[]} points @returns {Row} */
export function asking(word, points = []) {
  const row = [word, ...points.flat().map(String)];
  texts.set(row, row.join(','));
  return row;
}

/** The points of a record, where its fields are whole numbers in pairs. @param {Row} row @returns {Point[] | null} */
export function pointsOf(row) {
  const fields = row.slice(1);
  if (fields.length % 2 || !fields.every((field) => /^[+-]?\d{1,15}$/.test(field))) return null;
  return pairs(fields);
}

/** Fields as points, for drawing: a fraction is rounded to what a picture can show. @param {string[]} fields @returns {Point[]} */
export function pairs(fields) {
  const points = [];
  for (let k = 0; k + 1 < fields.length; k += 2) points.push(/** @type {Point} */ ([number(fields[k]), number(fields[k + 1])]));
  return points;
}

/** A field as a number, for drawing. @param {string} field */
export function number(field) {
  const bar = field.indexOf('/');
  return bar < 0 ? Number(field) : Number(field.slice(0, bar)) / Number(field.slice(bar + 1));
}

/** The lines of some answers, by the record that they answer. @param {string} answers @returns {string[][]} */
export function byRecord(answers) {
  const lines = answers.split('\n');
  lines.pop();
  const found = [];
  for (let at = 0; at < lines.length;) {
    const [word, count] = lines[at].split(',', 2);
    const next = at + 1 + (LONG.has(word) ? Number(count) : 0);
    found.push(lines.slice(at, next));
    at = next;
  }
  return found;
}

/** Whether an answer is a refusal. @param {string[]} lines */
export const isRefused = (lines) => lines[0].startsWith('bad,');
