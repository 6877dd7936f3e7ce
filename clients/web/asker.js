// Asks the server. One question is on its way at a time, and the newest comes next; what lies between is never asked.
import {byRecord, isRefused, script, text} from './records.js';

/** @typedef {import('./records.js').Row} Row */
/** @typedef {import('./records.js').Answered} Answered */

const FIRST = 4096; // the most records of a first piece
const NEXT = 32; // and of another, unless very many are left
const PATIENCE = 6000; // milliseconds that the server may be silent

/** A refusal of the server, by its status. */
export class Refused extends Error {
  /** @param {number} status @param {string} message */
  constructor(status, message) {
    super(message);
    this.status = status;
  }
}

/** Sends a text to the server. @param {string} path @param {string | Blob} body @param {AbortSignal} [signal] */
export async function post(path, body, signal) {
  const reply = await fetch(path, {method: 'POST', body, signal});
  if (!reply.ok) throw new Refused(reply.status, (await reply.text()).trim());
  return reply;
}

/** The answers to a whole script, in a session of its own. @param {Row[]} rows */
export async function answersTo(rows) {
  const name = crypto.randomUUID();
  try {
    return await (await post(`begin/${name}`, script(rows))).text();
  } finally {
    post(`leave/${name}`, '').catch(() => {});
  }
}

export class Asker {
  /** @param {() => void} changed called when there are new answers
   *  @param {(error: unknown) => void} failed called when there are none, with the cause, and with null when all is well again */
  constructor(changed, failed) {
    this.name = crypto.randomUUID();
    this.count = 0; // of the answers that came
    /** @type {Answered[]} */
    this.answered = [];
    /** @type {Row[]} */
    this.wanted = [];
    this.head = 0; // how many of the wanted records say what the polygon is
    this.isGone = false;
    this.isBusy = false;
    this.isBegun = false;
    this.tree = ''; // the tree that the session has
    this.changed = changed;
    this.failed = failed;
    this.stop = new AbortController();
    setInterval(() => this.look(), 5000);
    addEventListener('pagehide', () => navigator.sendBeacon(`leave/${this.name}`));
  }

  /** Wants the answers to these records, of which the first ones say what the polygon is. @param {Row[]} rows @param {number} head */
  want(rows, head) {
    this.wanted = rows;
    this.head = head;
    this.run();
  }

  /** How many of the wanted records are answered. */
  known() {
    const most = Math.min(this.wanted.length, this.answered.length);
    let count = 0;
    while (count < most && text(this.wanted[count]) === text(this.answered[count].row)) count += 1;
    return count;
  }

  async run() {
    if (this.isBusy || this.isGone) return;
    this.isBusy = true;
    try {
      while (this.known() < this.wanted.length || this.answered.length > this.wanted.length) {
        if (this.known() < this.wanted.length) await this.ask();
        else this.cut();
      }
    } catch (error) {
      this.fail(error);
    } finally {
      this.isBusy = false;
    }
  }

  /** Leaves away what is not wanted any more. */
  cut() {
    this.answered = this.answered.slice(0, this.wanted.length);
    this.changed();
  }

  /** Asks the next piece. */
  async ask() {
    const known = this.known();
    const trees = this.treesBefore(known);
    const begins = !this.isBegun || known < this.head || trees === null;
    const from = begins ? 0 : known;
    const rows = this.wanted.slice(from, from + (begins || this.wanted.length - from > FIRST ? FIRST : NEXT));
    const first = begins ? [] : trees ?? [];
    const reply = await this.send(begins, script([...first, ...rows]));
    if (reply === null) return;
    const lines = byRecord(reply).slice(first.length);
    if (lines.length !== rows.length) throw new Refused(500, 'the answers are other than the questions');
    this.isBegun = true;
    if (begins) this.tree = '';
    const found = rows.map((row, k) => ({row, lines: lines[k]}));
    this.answered = [...this.answered.slice(0, from), ...found];
    for (const {row, lines: [line]} of [...first.map((row) => ({row, lines: ['tree']})), ...found]) {
      if (row[0] === 'tree' && !line.startsWith('bad,')) this.tree = text(row);
    }
    this.count += 1;
    this.changed();
  }

  /** The tree to ask again before the records from a place on, since the session has another one by now; null where the session has
   *  one and should have none. @param {number} known @returns {Row[] | null} */
  treesBefore(known) {
    const last = this.answered.slice(0, known).reverse().find(({row, lines}) => row[0] === 'tree' && !isRefused(lines));
    if (last) return text(last.row) === this.tree ? [] : [last.row];
    return this.tree ? null : [];
  }

  /** @param {boolean} begins @param {string} body @returns {Promise<string | null>} */
  async send(begins, body) {
    try {
      this.stop = new AbortController();
      const reply = await post(`${begins ? 'begin' : 'more'}/${this.name}`, body, this.stop.signal);
      return await reply.text();
    } catch (error) {
      if (!(error instanceof Refused) || (error.status !== 410 && error.status !== 429)) throw error;
      if (error.status === 410) this.forget();
      return null;
    }
  }

  /** Begins anew with the next question. */
  forget() {
    this.isBegun = false;
    this.tree = '';
  }

  /** @param {unknown} error */
  fail(error) {
    this.forget();
    if (!(error instanceof Refused)) {
      this.isGone = true;
      setTimeout(() => this.look(), 500);
    } else {
      this.answered = this.answered.slice(0, this.known());
      this.wanted = this.wanted.slice(0, this.answered.length);
    }
    this.failed(error);
  }

  /** Looks whether the server is there, and goes on where it came back. */
  async look() {
    const limit = new AbortController();
    const timer = setTimeout(() => limit.abort(), PATIENCE);
    try {
      const {session} = await (await post(`here/${this.name}`, '', limit.signal)).json();
      if (!session && !this.isBusy) this.forget();
      if (this.isGone) this.back();
    } catch (error) {
      this.stop.abort();
      if (!this.isBusy && !this.isGone) this.fail(error instanceof Refused ? new TypeError(error.message) : error);
      else if (this.isGone) setTimeout(() => this.look(), 1000);
    } finally {
      clearTimeout(timer);
    }
  }

  back() {
    this.isGone = false;
    this.answered = [];
    this.failed(null);
    this.run();
  }
}
