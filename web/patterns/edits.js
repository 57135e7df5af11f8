// Editing cells: each tool makes a new drawing, and steps can be undone. No function changes its arguments.

import { rowsOf } from './turns.js';
import { normal } from './rle.js';

/**
 * Cells anywhere on the plane: for each row that has some, its runs `[begin, end, begin, end, ..]`.
 * @typedef {ReadonlyMap<number, readonly number[]>} Plane
 */
/**
 * The cells from `left` up to `right` and from `top` up to `bottom`, without these two.
 * @typedef {{ left: number, top: number, right: number, bottom: number }} Box
 */
/**
 * The cells that are selected, with the box of the selection, and all others. The selected ones may cover others, which
 * are there again once the selection is moved.
 * @typedef {{ base: Plane, lifted: Plane, box: Box | null }} Drawing
 */

/** How many steps can be undone. */
const MOST_STEPS = 500;
/** @type {Plane} */
const NO_CELLS = new Map();
const NO_RUNS = /** @type {number[]} */ ([]);
/** @type {Drawing} */
export const EMPTY = { base: NO_CELLS, lifted: NO_CELLS, box: null };

/**
 * A row of two rows: `is` says of a cell whether it is live, from whether it is in each of them. Where runs begin and
 * end, a row changes between dead and live.
 * @param {readonly number[]} runs
 * @param {readonly number[]} otherRuns
 * @param {(inOne: boolean, inOther: boolean) => boolean} is
 */
function combinedRuns(runs, otherRuns, is) {
  const found = [];
  let [at, to] = [0, 0];
  while (at < runs.length || to < otherRuns.length) {
    const column = Math.min(runs[at] ?? Infinity, otherRuns[to] ?? Infinity);
    if (runs[at] === column) at += 1;
    if (otherRuns[to] === column) to += 1;
    if (is(at % 2 === 1, to % 2 === 1) !== (found.length % 2 === 1)) found.push(column);
  }
  return found;
}

/** The same of all rows. @param {Plane} plane @param {Plane} other @returns {Plane} */
function combined(plane, other, is) {
  const all = new Map();
  for (const row of new Set([...plane.keys(), ...other.keys()])) {
    const runs = combinedRuns(plane.get(row) ?? NO_RUNS, other.get(row) ?? NO_RUNS, is);
    if (runs.length > 0) all.set(row, runs);
  }
  return all;
}

/** @param {Plane} plane @param {Plane} other */
export const union = (plane, other) => combined(plane, other, (inOne, inOther) => inOne || inOther);
/** @param {Plane} plane @param {Plane} other */
export const without = (plane, other) => combined(plane, other, (inOne, inOther) => inOne && !inOther);
/** @param {Plane} plane @param {Plane} other */
const common = (plane, other) => combined(plane, other, (inOne, inOther) => inOne && inOther);

/** All cells of a drawing. @param {Drawing} drawing */
export const cellsIn = ({ base, lifted }) => (lifted.size === 0 ? base : union(base, lifted));

/** Whether a cell is live. @param {Plane} plane */
export const has = (plane, [column, row]) => (plane.get(row) ?? NO_RUNS).filter((at) => at <= column).length % 2 === 1;

/** All cells of a box. @param {Box} box @returns {Plane} */
const planeOfBox = ({ left, top, right, bottom }) => (
  new Map(Array.from({ length: bottom - top }, (_, row) => [row + top, [left, right]]))
);

/** The smallest box around cells; null without any. @param {Plane} plane @returns {Box | null} */
export function boxAround(plane) {
  if (plane.size === 0) return null;
  const [rows, runs] = [[...plane.keys()], [...plane.values()]];
  return {
    left: runs.reduce((least, row) => Math.min(least, row[0]), Infinity),
    top: rows.reduce((least, row) => Math.min(least, row), Infinity),
    right: runs.reduce((most, row) => Math.max(most, row.at(-1)), -Infinity),
    bottom: rows.reduce((most, row) => Math.max(most, row), -Infinity) + 1,
  };
}

/** The box between two cells, with both. @returns {Box} */
export const boxBetween = ([column, row], [toColumn, toRow]) => ({
  left: Math.min(column, toColumn),
  top: Math.min(row, toRow),
  right: Math.max(column, toColumn) + 1,
  bottom: Math.max(row, toRow) + 1,
});

/** @param {Box} box */
export const isIn = ({ left, top, right, bottom }, [column, row]) => (
  column >= left && column < right && row >= top && row < bottom
);

/** @param {Plane} plane @returns {Plane} */
const movedPlane = (plane, columns, rows) => (
  new Map([...plane].map(([row, runs]) => [row + rows, runs.map((column) => column + columns)]))
);

/** The cells of a plane one by one. @param {Plane} plane @returns {Generator<[number, number]>} */
function* eachCell(plane) {
  for (const [row, runs] of plane) {
    for (let at = 0; at < runs.length; at += 2) {
      for (let column = runs[at]; column < runs[at + 1]; column += 1) yield [column, row];
    }
  }
}

/** A pattern with its corner at a place. @returns {Plane} */
export const planeOf = (pattern, { column, row }) => (
  movedPlane(new Map([...pattern.rows.entries()].filter(([, runs]) => runs.length > 0)), column, row)
);

/** Cells as a pattern, and where its corner is. @param {Plane} plane */
export function patternOf(plane) {
  const box = boxAround(plane);
  const rows = new Map([...plane].sort(([row], [other]) => row - other));
  return { pattern: normal(rows), place: { column: box?.left ?? 0, row: box?.top ?? 0 } };
}

/** The cells of a straight line, with both ends. @returns {[number, number][]} */
export function lineBetween([column, row], [toColumn, toRow]) {
  const steps = Math.max(Math.abs(toColumn - column), Math.abs(toRow - row), 1);
  return Array.from({ length: steps + 1 }, (_, at) => [
    Math.round(column + (toColumn - column) * at / steps),
    Math.round(row + (toRow - row) * at / steps),
  ]);
}

// ---- the tools

/** The same cells with nothing selected. @param {Drawing} drawing @returns {Drawing} */
export const unselected = (drawing) => ({ base: cellsIn(drawing), lifted: NO_CELLS, box: null });

/** With some cells drawn or erased. @param {Drawing} drawing @param {Iterable<[number, number]>} cells */
export function drawn(drawing, cells, isLive) {
  const plainDrawing = unselected(drawing);
  return { ...plainDrawing, base: (isLive ? union : without)(plainDrawing.base, rowsOf(cells)) };
}

/** With the cells of a box selected. @param {Drawing} drawing @param {Box | null} box @returns {Drawing} */
export function selected(drawing, box) {
  const plainDrawing = unselected(drawing);
  if (!box) return plainDrawing;
  const lifted = common(plainDrawing.base, planeOfBox(box));
  return { base: without(plainDrawing.base, lifted), lifted, box };
}

/** With everything selected. @param {Drawing} drawing */
export const all = (drawing) => selected(drawing, boxAround(cellsIn(drawing)));
/** The same, unless something is selected. @param {Drawing} drawing */
const withSelection = (drawing) => (drawing.box ? drawing : all(drawing));

/** With the selection moved. @param {Drawing} drawing @returns {Drawing} */
export function moved(drawing, columns, rows) {
  const { base, lifted, box } = withSelection(drawing);
  if (!box) return drawing;
  const [left, right, top, bottom] = [box.left + columns, box.right + columns, box.top + rows, box.bottom + rows];
  return { base, lifted: movedPlane(lifted, columns, rows), box: { left, top, right, bottom } };
}

/** What a turn makes of a cell of a box with this width and height, from the corner. */
const IN_BOX = {
  turn: ([column, row], _width, height) => [height - 1 - row, column],
  columns: ([column, row], width) => [width - 1 - column, row],
  rows: ([column, row], _width, height) => [column, height - 1 - row],
};

/**
 * With the selection, or everything, turned clockwise or reflected. Its corner stays.
 * @param {Drawing} drawing
 * @param {'turn' | 'columns' | 'rows'} name
 * @returns {Drawing}
 */
export function turnedBy(drawing, name) {
  const { base, lifted, box } = withSelection(drawing);
  if (!box) return drawing;
  const [width, height] = [box.right - box.left, box.bottom - box.top];
  const cells = [...eachCell(lifted)].map(([column, row]) => {
    const [x, y] = IN_BOX[name]([column - box.left, row - box.top], width, height);
    return /** @type {[number, number]} */ ([x + box.left, y + box.top]);
  });
  const [right, bottom] = name === 'turn' ? [box.left + height, box.top + width] : [box.right, box.bottom];
  return { base, lifted: rowsOf(cells), box: { ...box, right, bottom } };
}

/** Without the selected cells. @param {Drawing} drawing @returns {Drawing} */
export const cleared = (drawing) => ({ ...drawing, lifted: NO_CELLS });

/** With a pattern at a place, which is selected. @param {Drawing} drawing @returns {Drawing} */
export function pasted(drawing, pattern, place) {
  const lifted = planeOf(pattern, place);
  return { base: cellsIn(drawing), lifted, box: boxAround(lifted) };
}

/** The drawing now, and those before and after it. */
export class History {
  /** @type {Drawing[]} */
  #past = [];
  /** @type {Drawing[]} */
  #future = [];
  now = EMPTY;

  /** A step that can be undone. @param {Drawing} next */
  put(next) {
    this.#past.push(this.now);
    if (this.#past.length > MOST_STEPS) this.#past.shift();
    this.#future = [];
    this.now = next;
  }

  get canUndo() {
    return this.#past.length > 0;
  }

  get canRedo() {
    return this.#future.length > 0;
  }

  undo() {
    if (!this.canUndo) return;
    this.#future.push(this.now);
    this.now = this.#past.pop();
  }

  redo() {
    if (!this.canRedo) return;
    this.#past.push(this.now);
    this.now = this.#future.pop();
  }
}
