// The large drawing of a pattern: its position and zoom, and how wheel, fingers, buttons and keys change them. With a
// tool, which edits cells (editor.js), one finger or the main button of a mouse is the tool's.

import { boundStep, paint, sizeAt, sizeFor, stepOf } from './draw.js';
import { Wheel } from './wheel.js';

const LARGEST_AT_FIRST = 16;
/** How much larger than the pattern the view is when all of it is shown. */
const ROOM = 1.05;
/** By which factor two fingers have to move apart for one zoom step. */
const SPREAD_A_STEP = 1.35;

export class View {
  #pattern = { width: 0, height: 0, population: 0, rows: [] };
  #place = { column: 0, row: 0 };
  #left = 0;
  #top = 0;
  #size = 1;
  #asked = false;
  #pointers = new Map();
  #grid = true;
  #ages = null;
  #hasTool = false;
  /**
   * What gets the cells under the pointer, if it doesn't move the plane.
   * @typedef {(cell: [number, number]) => void} Act
   * @type {{ down: Act, move: Act, up: () => void, cancel: () => void } | null}
   */
  tool = null;
  /** Draws over the cells, if it is set. */
  over = (_context, _place) => {};
  /** The largest cell when all of a pattern is shown, in CSS pixels. */
  largest = LARGEST_AT_FIRST;
  /** The zoom step with its fraction, which adds up small movements. */
  #step = 0;
  /** Whether the whole pattern is kept in view; moving or zooming ends that. */
  following = true;

  /**
   * @param {HTMLCanvasElement} canvas
   * @param {AbortSignal} signal
   * @param {() => void} scrolled called when the wheel scrolls the page over the canvas
   */
  constructor(canvas, signal, scrolled = () => {}) {
    this.canvas = canvas;
    this.wheel = new Wheel(canvas, scrolled);
    canvas.redraw = () => this.#draw();
    const options = { signal };
    canvas.addEventListener('wheel', (event) => this.#wheel(event), { ...options, passive: false });
    canvas.addEventListener('pointerdown', (event) => this.#down(event), options);
    canvas.addEventListener('pointermove', (event) => this.#move(event), options);
    canvas.addEventListener('pointerup', (event) => this.#up(event), options);
    canvas.addEventListener('pointercancel', (event) => this.#up(event, true), options);
    const watch = new ResizeObserver(() => this.#resize());
    watch.observe(canvas);
    signal.addEventListener('abort', () => watch.disconnect());
    this.#resize();
  }

  get #scale() {
    return Math.min(window.devicePixelRatio || 1, 2);
  }

  #resize() {
    const width = Math.max(1, Math.round(this.canvas.clientWidth * this.#scale));
    const height = Math.max(1, Math.round(this.canvas.clientHeight * this.#scale));
    if (width === this.canvas.width && height === this.canvas.height) return;
    const middle = this.#middle();
    this.canvas.width = width;
    this.canvas.height = height;
    this.#look(middle);
    if (this.following) this.fit();
    else this.#draw();
  }

  /** The column and row of the plane in the middle. */
  #middle() {
    return {
      column: this.#left + this.canvas.width / this.#size / 2,
      row: this.#top + this.canvas.height / this.#size / 2,
    };
  }

  #look({ column, row }) {
    this.#left = column - this.canvas.width / this.#size / 2;
    this.#top = row - this.canvas.height / this.#size / 2;
  }

  #draw() {
    if (this.#asked) return;
    this.#asked = true;
    requestAnimationFrame(() => {
      this.#asked = false;
      paint(this.canvas, this.#pattern, {
        left: this.#left,
        top: this.#top,
        size: this.#size,
        place: this.#place,
        grid: this.#grid,
        ages: this.#ages,
      });
      this.over(this.canvas.getContext('2d'), { left: this.#left, top: this.#top, size: this.#size });
    });
  }

  /** Shows a pattern at a position on the plane or, if that is not known, around the middle of the view. */
  show(pattern, place) {
    const middle = this.#middle();
    this.#pattern = pattern;
    this.#ages = null;
    this.#place = place ?? {
      column: Math.round(middle.column - pattern.width / 2),
      row: Math.round(middle.row - pattern.height / 2),
    };
    if (this.following) this.#follow();
    this.#draw();
    return this.#place;
  }

  /** Moves the view, and makes cells smaller if necessary, so that the whole pattern is visible. */
  #follow() {
    const { width, height } = this.#pattern;
    const { column, row } = this.#place;
    const [wide, high] = [this.canvas.width / this.#size, this.canvas.height / this.#size];
    const inside = column >= this.#left && row >= this.#top
      && column + width <= this.#left + wide && row + height <= this.#top + high;
    if (width === 0 || inside) return;
    if (width + 2 > wide || height + 2 > high) {
      this.#setSize(sizeFor(width + 2, height + 2, this.canvas.width, this.canvas.height, this.#size));
    }
    this.#look({ column: column + width / 2, row: row + height / 2 });
  }

  /** Turns the ages of the cells on or off. */
  showAges(found) {
    const fits = found && found.width === this.#pattern.width && found.height === this.#pattern.height;
    this.#ages = fits ? found.ages : null;
    this.#draw();
  }

  /** Draws everything again. */
  redraw() {
    this.#draw();
  }

  showGrid(is) {
    this.#grid = is;
    this.#draw();
  }

  /** Shows the whole pattern, and follows it from now on. */
  fit() {
    this.following = true;
    const { width, height } = this.#pattern;
    this.#setSize(sizeFor(
      width * ROOM + 1,
      height * ROOM + 1,
      this.canvas.width,
      this.canvas.height,
      this.largest * this.#scale,
    ));
    this.#look({ column: this.#place.column + width / 2, row: this.#place.row + height / 2 });
    this.#draw();
  }

  #setSize(size) {
    this.#size = size;
    this.#step = stepOf(size);
  }

  /**
   * Makes cells larger or smaller by some steps, around a point of the canvas or its middle. Fractions of a step add
   * up.
   * @param {number} steps
   * @param {{x: number, y: number}} at
   */
  zoom(steps, at = { x: this.canvas.width / 2, y: this.canvas.height / 2 }) {
    this.following = false;
    this.#step = boundStep(this.#step + steps);
    const size = sizeAt(this.#step);
    this.#left += at.x / this.#size - at.x / size;
    this.#top += at.y / this.#size - at.y / size;
    this.#size = size;
    this.#draw();
  }

  /**
   * Makes cells larger or smaller by a whole step, as a button or a key does.
   * @param {1 | -1} direction
   */
  zoomStep(direction) {
    this.zoom((direction > 0 ? Math.floor(this.#step) : Math.ceil(this.#step)) + direction - this.#step);
  }

  /** Moves the view by a fraction of its width and height. */
  pan(columns, rows) {
    this.following = false;
    this.#left += columns * this.canvas.width / this.#size;
    this.#top += rows * this.canvas.height / this.#size;
    this.#draw();
  }

  #point(event) {
    const box = this.canvas.getBoundingClientRect();
    return { x: (event.clientX - box.left) * this.#scale, y: (event.clientY - box.top) * this.#scale };
  }

  /**
   * The cell at a point of the canvas.
   * @param {{x: number, y: number}} point
   * @returns {[number, number]}
   */
  #cellAt({ x, y }) {
    return [Math.floor(this.#left + x / this.#size), Math.floor(this.#top + y / this.#size)];
  }

  /** The cell in the middle. */
  get middleCell() {
    return this.#cellAt({ x: this.canvas.width / 2, y: this.canvas.height / 2 });
  }

  /** Moves the view just so far that a cell is seen. */
  see([column, row]) {
    const [wide, high] = [this.canvas.width / this.#size, this.canvas.height / this.#size];
    const inside = (at, begin, length) => Math.min(Math.max(begin, at + 2 - length), at - 1);
    this.#left = inside(column, this.#left, wide);
    this.#top = inside(row, this.#top, high);
    this.#draw();
  }

  #wheel(event) {
    const steps = this.wheel.steps(event);
    if (steps !== 0) this.zoom(steps, this.#point(event));
  }

  #down(event) {
    this.canvas.setPointerCapture(event.pointerId);
    this.#pointers.set(event.pointerId, this.#point(event));
    this.spread = 0;
    if (this.#hasTool) this.tool?.cancel();
    this.#hasTool = this.tool !== null && this.#pointers.size === 1 && event.button === 0;
    if (this.#hasTool) this.tool.down(this.#cellAt(this.#point(event)));
  }

  #up(event, isCancelled = false) {
    this.#pointers.delete(event.pointerId);
    if (this.#hasTool && isCancelled) this.tool?.cancel();
    else if (this.#hasTool) this.tool?.up();
    this.#hasTool = false;
  }

  /** One finger moves the plane, unless there is a tool; two zoom and move it. */
  #move(event) {
    const before = this.#pointers.get(event.pointerId);
    if (!before) return;
    const now = this.#point(event);
    this.#pointers.set(event.pointerId, now);
    const points = [...this.#pointers.values()];
    if (this.#hasTool) {
      this.tool?.move(this.#cellAt(now));
      return;
    }
    this.following = false;
    if (points.length === 1) {
      this.#left -= (now.x - before.x) / this.#size;
      this.#top -= (now.y - before.y) / this.#size;
      this.#draw();
      return;
    }
    const spread = Math.hypot(points[0].x - points[1].x, points[0].y - points[1].y);
    const middle = { x: (points[0].x + points[1].x) / 2, y: (points[0].y + points[1].y) / 2 };
    // Each finger moves the middle half as far as itself.
    this.#left -= (now.x - before.x) / 2 / this.#size;
    this.#top -= (now.y - before.y) / 2 / this.#size;
    this.spread ||= spread;
    this.zoom(Math.log(spread / this.spread) / Math.log(SPREAD_A_STEP), middle);
    this.spread = spread;
  }
}
