// The mouse, fingers and keys over the picture.
import {added, edgeAt, finished, handleAt, handles, inserted, moved, removed} from './editing.js';
import {QUESTIONS, panel, pointsNow} from './state.js';

/** @typedef {import('./records.js').Point} Point */
/** @typedef {import('./main.js').App} App */

const ARROWS = {ArrowLeft: [-1, 0], ArrowRight: [1, 0], ArrowUp: [0, 1], ArrowDown: [0, -1]};

export class Pointer {
  /** @param {App} app @param {HTMLElement} canvas */
  constructor(app, canvas) {
    this.app = app;
    this.canvas = canvas;
    this.isMoving = false; // a point
    this.isPanning = false;
    this.hasMoved = false; // whether this press changed something
    /** @type {DOMRect | null} */
    this.box = null; // where the picture is on the screen
    /** @type {Map<number, Point>} */
    this.fingers = new Map();
    for (const kind of ['scroll', 'resize', 'pointerdown']) addEventListener(kind, () => { this.box = null; }, {capture: true, passive: true});
    new ResizeObserver(() => { this.box = null; }).observe(canvas);
    canvas.addEventListener('pointerenter', () => { this.box = null; });
    canvas.addEventListener('pointerdown', (event) => this.down(event));
    canvas.addEventListener('pointermove', (event) => this.move(event));
    canvas.addEventListener('pointerup', (event) => this.up(event));
    canvas.addEventListener('pointercancel', (event) => this.up(event));
    canvas.addEventListener('pointerleave', () => this.leave());
    canvas.addEventListener('dblclick', () => this.close());
    canvas.addEventListener('wheel', (event) => this.wheel(event), {passive: false});
    canvas.addEventListener('keydown', (event) => this.key(event));
    canvas.addEventListener('contextmenu', (event) => event.preventDefault());
  }

  /** Where an event is, in pixels of the picture. Where the picture is on the screen is asked again only once it may have moved, since the
   *  browser lays out the page for it. @param {MouseEvent} event @returns {Point} */
  place(event) {
    this.box ??= this.canvas.getBoundingClientRect();
    return [event.clientX - this.box.left, event.clientY - this.box.top];
  }

  /** @param {PointerEvent} event */
  down(event) {
    this.canvas.focus({preventScroll: true});
    this.canvas.setPointerCapture(event.pointerId);
    const [px, py] = this.place(event);
    this.fingers.set(event.pointerId, [px, py]);
    this.app.ui.pen = null;
    this.isPanning = event.button === 1 || event.button === 2 || this.fingers.size > 1;
    if (this.isPanning) {
      if (this.isMoving && this.hasMoved) this.app.store.undo(); // the first of two fingers set no point
      this.isMoving = false;
    } else if (!this.press(px, py, event.pointerType === 'touch' ? 24 : 11, event.pointerType === 'mouse')) {
      this.app.ui.held = null;
      this.isPanning = true;
      this.app.render();
    }
  }

  /** Presses on a point, an edge or a free place. Says whether there is a point to move now. @param {number} px @param {number} py
   *  @param {number} reach @param {boolean} hovers */
  press(px, py, reach, hovers) {
    const {app} = this;
    const {state} = app.store;
    const point = app.view.whole(px, py);
    const held = handleAt(state, app.view, px, py, reach);
    const isOpen = state.drawing && !panel(state).closed;
    if (isOpen && held === 0 && panel(state).ring.length > 2) {
      this.close();
      return true;
    }
    if (held !== null) return this.hold(state, held, true);
    const edge = state.drawing && !isOpen ? edgeAt(state, app.view, px, py, reach * 0.8) : null;
    if (edge !== null) return this.hold(inserted(state, edge, point), edge + 1);
    const [next, place] = added(state, point, hovers);
    return place === null ? false : this.hold(next, place);
  }

  /** @param {import('./state.js').State} state @param {number} held @param {boolean} [isSame] whether nothing changed by now */
  hold(state, held, isSame = false) {
    this.isMoving = true;
    this.hasMoved = !isSame;
    this.app.ui.held = held;
    this.app.ui.hover = null;
    if (isSame) this.app.render();
    else this.app.store.set(state);
    return true;
  }

  /** @param {PointerEvent} event */
  move(event) {
    const [px, py] = this.place(event);
    const last = this.fingers.get(event.pointerId);
    const point = this.app.view.whole(px, py);
    this.app.showPlace(point);
    if (last && this.isPanning) this.pan(event.pointerId, last, [px, py]);
    else if (last && this.isMoving) this.drag(point);
    else if (!last && event.pointerType === 'mouse') this.hover(point, px, py);
    if (last) this.fingers.set(event.pointerId, [px, py]);
  }

  /** @param {Point} point */
  drag(point) {
    const {store, ui} = this.app;
    const now = ui.held === null ? undefined : handles(store.state)[ui.held];
    if (!now || (now[0] === point[0] && now[1] === point[1])) return;
    store.set(moved(store.state, ui.held, point), !this.hasMoved);
    this.hasMoved = true;
  }

  /** With two fingers the picture is moved and comes nearer. @param {number} id @param {Point} last @param {Point} now */
  pan(id, last, now) {
    const {view} = this.app;
    const other = [...this.fingers].find(([it]) => it !== id)?.[1];
    if (other) {
      const [before, after] = [last, now].map(([x, y]) => Math.hypot(x - other[0], y - other[1]) || 1);
      view.zoom(after / before, (now[0] + other[0]) / 2, (now[1] + other[1]) / 2);
      view.move((now[0] - last[0]) / 2, (now[1] - last[1]) / 2);
    } else {
      view.move(now[0] - last[0], now[1] - last[1]);
    }
    this.app.viewed();
  }

  /** @param {Point} point @param {number} px @param {number} py */
  hover(point, px, py) {
    const {store: {state}, ui, view} = this.app;
    this.canvas.classList.toggle('over', handleAt(state, view, px, py, 11) !== null);
    const {question} = state;
    const isOpen = state.drawing && !panel(state).closed;
    const follows = isOpen || (!state.drawing && (question === 'tree' || (question === 'path' && pointsNow(state).length === 1)));
    if (!follows || (ui.hover && ui.hover[0] === point[0] && ui.hover[1] === point[1])) return;
    ui.hover = point;
    this.app.ask();
  }

  /** @param {PointerEvent} event */
  up(event) {
    this.fingers.delete(event.pointerId);
    if (!this.fingers.size) this.isMoving = this.isPanning = false;
  }

  leave() {
    this.app.showPlace(null);
    if (!this.app.ui.hover) return;
    this.app.ui.hover = null;
    this.app.ask();
  }

  close() {
    const {store, ui} = this.app;
    const state = finished(store.state);
    this.isMoving = false;
    ui.held = null;
    if (state !== store.state) store.set(state);
  }

  /** @param {WheelEvent} event */
  wheel(event) {
    event.preventDefault();
    const [px, py] = this.place(event);
    this.app.view.zoom(Math.exp(-event.deltaY * (event.deltaMode ? 0.05 : 0.0015)), px, py);
    this.app.viewed();
  }

  /** @param {KeyboardEvent} event */
  key(event) {
    if (event.ctrlKey || event.metaKey || event.altKey) return;
    const act = this.action(event);
    if (!act) return;
    event.preventDefault();
    act();
  }

  /** What a key does. @param {KeyboardEvent} event @returns {(() => void) | null} */
  action({key, shiftKey}) {
    const {app} = this;
    const {ui} = app;
    if (key in ARROWS) return () => this.step(ARROWS[key].map((by) => by * (shiftKey ? 10 : 1)));
    return {
      Enter: () => this.enter(),
      ' ': () => this.enter(),
      PageDown: () => this.next(1),
      PageUp: () => this.next(-1),
      Delete: () => this.remove(),
      Backspace: () => this.remove(),
      Escape: () => { ui.held = null; ui.pen ??= this.middle(); app.render(); },
      '+': () => { app.view.zoom(1.25); app.viewed(); },
      '-': () => { app.view.zoom(0.8); app.viewed(); },
      0: () => app.fit(),
    }[key] ?? null;
  }

  middle() {
    return this.app.view.whole(this.app.view.width / 2, this.app.view.height / 2);
  }

  /** Moves the point that is held, and else the pen. @param {number[]} by */
  step([dx, dy]) {
    const {store, ui} = this.app;
    const point = ui.held === null ? null : handles(store.state)[ui.held];
    if (point) {
      store.set(moved(store.state, ui.held, [point[0] + dx, point[1] + dy]));
      this.app.showPlace(handles(store.state)[ui.held]);
    } else {
      const [x, y] = ui.pen ?? this.middle();
      ui.pen = [x + dx, y + dy];
      this.app.showPlace(ui.pen);
      this.app.render();
    }
  }

  /** Sets a point where the pen is. */
  enter() {
    const {store, ui} = this.app;
    const isDrawn = store.state.drawing && !panel(store.state).closed && panel(store.state).ring.length > 2;
    const first = panel(store.state).ring[0];
    if (isDrawn && (!ui.pen || (ui.pen[0] === first[0] && ui.pen[1] === first[1]))) {
      this.close();
      return;
    }
    ui.pen ??= this.middle();
    const [next, place] = added(store.state, ui.pen, false);
    if (place === null) return;
    const isOne = !store.state.drawing && QUESTIONS[store.state.question].most === 1;
    ui.held = isOne ? place : null;
    store.set(next);
  }

  /** @param {number} by */
  next(by) {
    const {store, ui} = this.app;
    const count = handles(store.state).length;
    if (!count) return;
    ui.held = ui.held === null ? (by > 0 ? 0 : count - 1) : (ui.held + by + count) % count;
    ui.pen = null;
    this.app.showPlace(handles(store.state)[ui.held]);
    this.app.sayHeld();
    this.app.render();
  }

  /** Takes away the point that is held, and else the last one. */
  remove() {
    const {store, ui} = this.app;
    const last = handles(store.state).length - 1;
    const isOpen = !store.state.drawing || !panel(store.state).closed;
    const place = ui.held ?? (isOpen ? last : -1);
    const next = removed(store.state, place);
    ui.held = null;
    if (next !== store.state) store.set(next);
  }
}
