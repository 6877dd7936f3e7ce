// The map between the picture and whole numbers. Nothing else is computed of coordinates here.

/** @typedef {import('./records.js').Point} Point */

const MARGIN = 44;
const NEAREST = 400; // pixels for one unit at most

export class View {
  constructor() {
    this.width = 600;
    this.height = 400;
    this.left = 0; // the coordinate at the left edge
    this.top = 0; // and at the upper one
    this.scale = 1; // pixels for one unit
  }

  /** Where a point comes in the picture. @param {Point} point @returns {Point} */
  place([x, y]) {
    return [(x - this.left) * this.scale, (this.top - y) * this.scale];
  }

  /** A point of the picture as text for SVG. @param {Point} point */
  at([x, y]) {
    return `${((x - this.left) * this.scale).toFixed(1)} ${((this.top - y) * this.scale).toFixed(1)}`;
  }

  /** Whether a point is in the picture. @param {Point} point */
  hasInSight([x, y]) {
    const [right, bottom] = [this.left + this.width / this.scale, this.top - this.height / this.scale];
    return x >= this.left && x <= right && y <= this.top && y >= bottom;
  }

  /** The whole numbers that are nearest to a place in the picture. @param {number} px @param {number} py @returns {Point} */
  whole(px, py) {
    return [Math.round(this.left + px / this.scale) + 0, Math.round(this.top - py / this.scale) + 0];
  }

  /** Shows all these points. @param {Point[]} points */
  fit(points) {
    if (!points.length) points = [[0, 0], [12, 8]];
    let [left, low] = points[0];
    let [right, high] = points[0];
    for (const [x, y] of points) {
      left = Math.min(left, x); right = Math.max(right, x);
      low = Math.min(low, y); high = Math.max(high, y);
    }
    const margin = Math.min(MARGIN, this.width / 9, this.height / 9);
    const across = Math.max(1, this.width - 2 * margin) / Math.max(right - left, 1e-9);
    const up = Math.max(1, this.height - 2 * margin) / Math.max(high - low, 1e-9);
    this.scale = Math.min(across, up, NEAREST);
    this.left = (left + right) / 2 - this.width / 2 / this.scale;
    this.top = (low + high) / 2 + this.height / 2 / this.scale;
  }

  /** Comes nearer, with one place of the picture where it is. @param {number} factor @param {number} px @param {number} py */
  zoom(factor, px = this.width / 2, py = this.height / 2) {
    const scale = Math.min(Math.max(this.scale * factor, 1e-5), NEAREST);
    this.left += px / this.scale - px / scale;
    this.top -= py / this.scale - py / scale;
    this.scale = scale;
  }

  /** @param {number} dx @param {number} dy in pixels */
  move(dx, dy) {
    this.left -= dx / this.scale;
    this.top += dy / this.scale;
  }

  /** How far apart two points are in the picture, in pixels. @param {Point} a @param {number} px @param {number} py */
  distance(a, px, py) {
    const [x, y] = this.place(a);
    return Math.hypot(x - px, y - py);
  }

  /** How far a segment is from a place in the picture. @param {Point} a @param {Point} b @param {number} px @param {number} py */
  distanceToSegment(a, b, px, py) {
    const [ax, ay] = this.place(a);
    const [bx, by] = this.place(b);
    const length = (bx - ax) ** 2 + (by - ay) ** 2;
    const along = length ? Math.min(1, Math.max(0, ((px - ax) * (bx - ax) + (py - ay) * (by - ay)) / length)) : 0;
    return Math.hypot(ax + along * (bx - ax) - px, ay + along * (by - ay) - py);
  }

  /** A step of 1, 2 or 5 times a power of ten, with lines of the grid some way apart. */
  step() {
    const least = 64 / this.scale;
    let step = 1;
    for (let k = 0; step < least; k += 1) step *= [2, 2.5, 2][k % 3];
    return step;
  }
}
