// What stands beside the picture: the points as numbers, and the script with its answers.
import {canRemove, handles, moved, removed} from './editing.js';
import {isRefused, text} from './records.js';
import {panel, withPanel} from './state.js';

/** @typedef {import('./main.js').App} App */
/** @typedef {import('./records.js').Answered} Answered */

const MOST_POINTS = 64; // rows with numbers
const FEW_POINTS = 9; // of more points, those near the one that is held
const MOST_ROWS = 300; // records in the table
const FEW_LINES = 8; // of an answer, before all are asked for
const MANY_LINES = 5000;
const MOST_BREAKS = 3000; // characters of a text that is broken at its commas

/** @param {string} name @param {Object<string, string>} [set] @param {(Node | string)[]} inside */
export function element(name, set = {}, ...inside) {
  const made = document.createElement(name);
  for (const [key, value] of Object.entries(set)) made.setAttribute(key, value);
  made.append(...inside);
  return made;
}

/** A record or an answer, which goes on in a new line behind a comma. @param {string} text */
function coded(text) {
  const made = element('code');
  if (text.length > MOST_BREAKS) made.textContent = text;
  else text.split(',').forEach((field, k) => made.append(...(k ? [',', element('wbr'), field] : [field])));
  return made;
}

/** The name of a point that can be moved. @param {import('./state.js').State} state @param {number} k */
export function nameOf(state, k) {
  if (state.drawing) return `Vertex ${k}`;
  return {path: ['Start', 'Goal'], tree: ['Source', 'Goal'], see: ['Viewpoint'], inside: ['Point']}[state.question]?.[k] ?? `Point ${k}`;
}

/** The points as numbers, which can be typed. */
export class Points {
  /** @param {App} app @param {HTMLElement} list */
  constructor(app, list) {
    this.app = app;
    this.list = list;
    /** @type {{item: HTMLElement, inputs: HTMLInputElement[], remove: HTMLButtonElement, name: HTMLElement}[]} */
    this.rows = [];
    this.first = 0;
  }

  render() {
    const {store: {state}, ui} = this.app;
    const points = handles(state);
    const count = points.length > MOST_POINTS ? FEW_POINTS : points.length;
    const around = Math.max(0, Math.min((ui.held ?? 0) - (FEW_POINTS >> 1), points.length - count));
    this.first = around;
    while (this.rows.length < count) this.rows.push(this.row(this.rows.length));
    while (this.rows.length > count) this.rows.pop()?.item.remove();
    this.rows.forEach((row, at) => this.fill(row, at + around, points[at + around]));
  }

  /** @param {number} at */
  row(at) {
    const name = element('span', {class: 'name'});
    const inputs = ['x', 'y'].map(() => /** @type {HTMLInputElement} */ (element('input', {type: 'number', step: '1', inputmode: 'numeric'})));
    const remove = /** @type {HTMLButtonElement} */ (element('button', {type: 'button', class: 'remove'}, '×'));
    const item = element('li', {}, name, ...inputs, remove);
    inputs.forEach((input) => input.addEventListener('input', () => this.typed(at, inputs)));
    inputs.forEach((input) => input.addEventListener('focus', () => this.app.hold(at + this.first)));
    remove.addEventListener('click', () => this.app.store.set(removed(this.app.store.state, at + this.first)));
    this.list.append(item);
    return {item, inputs, remove, name};
  }

  /** @param {typeof this.rows[0]} row @param {number} k @param {import('./records.js').Point} point */
  fill({item, inputs, remove, name}, k, point) {
    const {store: {state}, ui} = this.app;
    const label = nameOf(state, k);
    if (name.textContent !== label) {
      name.textContent = label;
      inputs.forEach((input, at) => input.setAttribute('aria-label', `${label}, ${'xy'[at]}`));
      remove.setAttribute('aria-label', `Remove ${label}`);
    }
    item.classList.toggle('held', ui.held === k);
    if (remove.disabled === canRemove(state, k)) remove.disabled = !remove.disabled;
    inputs.forEach((input, at) => {
      const isTyped = document.activeElement === input && (input.value === '' || Number(input.value) === point[at]);
      if (!isTyped && input.value !== String(point[at])) input.value = String(point[at]);
    });
  }

  /** @param {number} at @param {HTMLInputElement[]} inputs */
  typed(at, inputs) {
    const numbers = inputs.map((input) => (/^[+-]?\d{1,15}$/.test(input.value) ? Number(input.value) : null));
    if (numbers.includes(null)) return;
    this.app.store.set(moved(this.app.store.state, at + this.first, /** @type {[number, number]} */ (numbers)));
  }
}

/** The script and its answers, line by line. */
export class Table {
  /** @param {App} app @param {HTMLElement} body */
  constructor(app, body) {
    this.app = app;
    this.body = body;
    /** @type {{lines: string[] | null, line: HTMLElement, mark: string}[]} */
    this.lines = [];
    /** @type {Set<string>} */
    this.opened = new Set();
  }

  render() {
    const {wanted, answered} = this.app.asker;
    const count = Math.min(wanted.length, MOST_ROWS);
    while (this.lines.length > count) this.lines.pop()?.line.remove();
    for (let k = 0; k < count; k += 1) {
      const record = text(wanted[k]);
      const lines = answered[k] && text(answered[k].row) === record ? answered[k].lines : null;
      const last = this.lines[k];
      const mark = `${this.app.keptPlace(k)} ${this.app.isNow(k)} ${record}`;
      if (last && last.lines === lines && last.mark === mark) continue;
      const line = this.line(wanted[k], lines, k);
      if (last) last.line.replaceWith(line);
      else this.body.append(line);
      this.lines[k] = {lines, line, mark};
    }
    this.body.parentElement?.classList.toggle('cut', wanted.length > MOST_ROWS);
  }

  /** @param {string[]} row @param {string[] | null} lines @param {number} k */
  line(row, lines, k) {
    const record = text(row);
    const short = record.length > 100 ? `${record.slice(0, 90)}…` : record;
    const asked = element('td', {}, ...this.remover(k), coded(short));
    const told = element('td', {class: lines && isRefused(lines) ? 'refused' : ''}, ...(lines ? this.told(record, lines) : ['…']));
    return element('tr', {class: this.app.isNow(k) ? 'now' : ''}, asked, told);
  }

  /** @param {string} record @param {string[]} lines */
  told(record, lines) {
    const isOpen = this.opened.has(record);
    const shown = lines.slice(0, isOpen ? MANY_LINES : FEW_LINES).map((line) => (line.length > 2000 && !isOpen ? `${line.slice(0, 400)}…` : line));
    const code = coded(shown.join('\n'));
    if (lines.length <= FEW_LINES) return [code];
    const words = isOpen ? 'fewer lines' : `all ${lines.length.toLocaleString('en')} lines`;
    const button = element('button', {type: 'button', class: 'link'}, words);
    button.addEventListener('click', () => {
      if (!this.opened.delete(record)) this.opened.add(record);
      this.again();
    });
    return [code, button];
  }

  /** A button for a question that was kept. @param {number} k */
  remover(k) {
    const place = this.app.keptPlace(k);
    if (place === null) return [];
    const button = element('button', {type: 'button', class: 'remove', 'aria-label': 'Remove this question'}, '×');
    button.addEventListener('click', () => {
      const {store} = this.app;
      store.set(withPanel(store.state, {kept: panel(store.state).kept.filter((_, at) => at !== place)}));
    });
    return [button];
  }

  again() {
    this.lines.forEach(({line}) => line.remove());
    this.lines = [];
    this.render();
  }
}
