// The buttons and lists round the picture.
import {Refused, answersTo, post} from './asker.js';
import {addressOf} from './address.js';
import {emptied} from './editing.js';
import {element} from './panel.js';
import {script} from './records.js';
import {copy, picture, save} from './saving.js';
import {QUESTIONS, panel, withPanel, withPoints} from './state.js';

/** @typedef {import('./main.js').App} App */

const NO_FRAME = {origin: ['0', '0'], scale: '1'};
const LIMIT = 8388608; // bytes of a script
const UNREADABLE = 422; // the status of data that can't be read

/** @param {string} id */
const by = (id) => /** @type {HTMLInputElement} */ (document.getElementById(id));

/** @param {string} within @returns {HTMLInputElement[]} */
const inputs = (within) => [...document.querySelectorAll(`${within} input`)];

/** @param {{name: string, about: string}[]} examples */
export function fillExamples(examples) {
  by('examples').append(...examples.map(({name, about}) => element('option', {value: name}, about ? `${name}: ${about}` : name)));
}

export class Menu {
  /** @param {App} app */
  constructor(app) {
    this.app = app;
    this.polygons = '';
    const clicks = {
      new: () => this.change(emptied(app.store.state), true),
      open: () => by('file').click(),
      undo: () => app.store.undo(),
      redo: () => app.store.redo(),
      theme: () => this.theme(),
      nearer: () => { app.view.zoom(1.3); app.viewed(); },
      farther: () => { app.view.zoom(1 / 1.3); app.viewed(); },
      fit: () => app.fit(),
      clear: () => this.clear(),
      keep: () => this.keep(),
      'copy-script': () => this.copied('The script', () => script(app.script())),
      'copy-answers': () => this.copied('The answers', () => this.answers()),
      address: () => this.copied('The address', () => `${location.href.split('#')[0]}#${addressOf(app.store.state)}`),
      'save-script': () => save('geo.script', script(app.script()), 'text/csv'),
      'save-answers': () => this.tried(async () => save('geo.answers', await this.answers(), 'text/csv')),
      'save-geojson': () => this.tried(() => this.geojson()),
      'save-picture': () => this.picture(),
    };
    for (const [id, act] of Object.entries(clicks)) by(id).addEventListener('click', act);
    this.listen();
  }

  listen() {
    const {app} = this;
    by('file').addEventListener('change', () => this.file());
    by('examples').addEventListener('change', () => this.example());
    by('polygons').addEventListener('change', () => {
      this.change({...app.store.state, chosen: Number(by('polygons').value), points: {}}, true);
    });
    by('tools').addEventListener('change', (event) => this.tool(/** @type {HTMLInputElement} */ (event.target).value));
    by('tools').addEventListener('submit', (event) => event.preventDefault());
    document.querySelector('.version')?.addEventListener('change', (event) => {
      this.change({...app.store.state, version: /** @type {HTMLInputElement} */ (event.target).value === '2' ? 2 : 1});
    });
    addEventListener('keydown', (event) => this.key(event));
    addEventListener('dragover', (event) => event.preventDefault());
    addEventListener('drop', (event) => {
      event.preventDefault();
      this.read(event.dataTransfer?.files[0]);
    });
  }

  /** @param {KeyboardEvent} event */
  key(event) {
    if (!(event.ctrlKey || event.metaKey) || event.altKey || (event.target instanceof HTMLInputElement && event.target.type === 'number')) return;
    const isBack = event.key.toLowerCase() === 'z' && !event.shiftKey;
    const isForth = event.key.toLowerCase() === 'y' || (event.key.toLowerCase() === 'z' && event.shiftKey);
    if (!isBack && !isForth) return;
    event.preventDefault();
    if (isBack) this.app.store.undo();
    else this.app.store.redo();
  }

  /** @param {import('./state.js').State} state @param {boolean} [isOther] whether another polygon is shown */
  change(state, isOther = false) {
    Object.assign(this.app.ui, {held: null, hover: null, pen: null});
    this.app.store.set(state);
    if (isOther) this.app.fit();
  }

  /** @param {string} word */
  tool(word) {
    const {state} = this.app.store;
    if (word === 'draw') this.change({...state, drawing: true});
    else this.change({...state, drawing: false, question: /** @type {import('./state.js').Question} */ (word)});
  }

  clear() {
    const {state} = this.app.store;
    if (state.drawing) this.change(emptied(state));
    else this.change(withPoints(state, []));
  }

  /** Leaves the question in the picture. */
  keep() {
    const {app} = this;
    const rows = app.now();
    if (!rows.length) {
      app.note('There is no question to keep yet.');
      return;
    }
    const {state} = app.store;
    const next = withPanel(state, {kept: [...panel(state).kept, ...rows]});
    this.change(QUESTIONS[state.question].most ? withPoints(next, []) : next);
  }

  async file() {
    await this.read(by('file').files?.[0]);
    by('file').value = '';
  }

  /** Opens a file. Where its numbers do not come out whole, it is asked whether to round them. @param {File | undefined} file */
  async read(file) {
    if (!file) return;
    if (file.size > LIMIT) {
      this.app.note(`${file.name} has more than ${LIMIT.toLocaleString('en')} bytes.`);
      return;
    }
    await this.tried(async () => this.app.open({...await this.opened(file), name: file.name}));
  }

  /** What a file has. Where version 1 does not take it, version 2 may; and where neither does, it is asked whether to round.
   *  @param {File} file @returns {Promise<any>} */
  async opened(file) {
    /** @type {Refused | null} */
    let refused = null;
    for (let version = this.app.store.state.version; version <= 2; version += 1) {
      try {
        return await (await post(`open?version=${version}`, file)).json();
      } catch (error) {
        if (!(error instanceof Refused) || error.status !== UNREADABLE) throw error;
        refused ??= error;
      }
    }
    const mayRound = /--round|is beyond/.test(refused?.message ?? '');
    if (!mayRound || !confirm('The coordinates do not come out as whole numbers within the limit. Round them?')) throw refused;
    return (await post('open?version=2&round=yes', file)).json();
  }

  async example() {
    const name = by('examples').value;
    by('examples').value = '';
    if (name) await this.tried(async () => this.app.open(await (await fetch(`examples/${name}`)).json()));
  }

  /** @param {() => Promise<void>} act */
  async tried(act) {
    try {
      await act();
    } catch (error) {
      this.app.note(error instanceof Error ? error.message : String(error));
    }
  }

  /** @param {string} what @param {() => string | Promise<string>} make */
  copied(what, make) {
    return this.tried(async () => {
      this.app.note(await copy(await make()) ? `${what} is copied.` : `${what} could not be copied.`);
    });
  }

  /** The answers to the whole script. */
  answers() {
    const rows = this.app.script();
    const {answered} = this.app.asker;
    const isKnown = this.app.store.state.panels.length === 1 && answered.length === rows.length && this.app.asker.known() === rows.length;
    return isKnown ? answered.map(({lines}) => `${lines.join('\n')}\n`).join('') : answersTo(rows);
  }

  async geojson() {
    const {state} = this.app.store;
    const reply = await post('geojson', JSON.stringify({script: script(this.app.script()), frame: state.frame ?? NO_FRAME}));
    save('answers.geojson', await reply.text(), 'application/geo+json');
  }

  picture() {
    const {width, height} = this.app.view;
    const layers = /** @type {any} */ ([by('base'), by('shown')]);
    save('picture.svg', picture(layers, width, height), 'image/svg+xml');
  }

  theme() {
    const root = document.documentElement;
    const isDark = root.dataset.theme ? root.dataset.theme === 'dark' : matchMedia('(prefers-color-scheme: dark)').matches;
    root.dataset.theme = isDark ? 'light' : 'dark';
  }

  /** Shows which tool, version and polygon is chosen, and what can be undone. */
  render() {
    const {store} = this.app;
    const {state} = store;
    const tool = state.drawing ? 'draw' : state.question;
    inputs('#tools').forEach((input) => { input.checked = input.value === tool; });
    inputs('.version').forEach((input) => { input.checked = Number(input.value) === state.version; });
    by('undo').disabled = !store.before.length;
    by('redo').disabled = !store.after.length;
    by('points-title').textContent = state.drawing ? 'Vertices' : 'Points';
    by('clear').textContent = state.drawing ? 'Begin anew' : 'Clear';
    this.renderPolygons();
  }

  /** The list of polygons, where there are some. */
  renderPolygons() {
    const {state} = this.app.store;
    const names = state.panels.map(({ring}, k) => `Polygon ${k + 1} of ${state.panels.length}: ${ring.length.toLocaleString('en')} vertices`);
    if (names.join() !== this.polygons) {
      this.polygons = names.join();
      by('polygons').replaceChildren(...names.map((name, k) => element('option', {value: String(k)}, name)));
    }
    by('polygons').value = String(state.chosen);
    by('polygons-label').hidden = names.length < 2;
  }
}
