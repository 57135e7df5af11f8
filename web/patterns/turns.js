// The turns and reflections of the plane, and whether two patterns are the same but for one of them and a move.

import { normal } from './rle.js';
import { cellsOf, isSame } from './pattern.js';

/**
 * A cell's column and row.
 * @typedef {[number, number]} Cell
 */

/**
 * All turns and reflections, each with how a member would call it.
 * @type {[string, (cell: Cell) => Cell][]}
 */
const NAMED_TURNS = [
  ['', ([x, y]) => [x, y]],
  ['turned by 90°', ([x, y]) => [-y, x]],
  ['turned by 180°', ([x, y]) => [-x, -y]],
  ['turned by 270°', ([x, y]) => [y, -x]],
  ['reflected left to right', ([x, y]) => [-x, y]],
  ['reflected top to bottom', ([x, y]) => [x, -y]],
  ['reflected in a diagonal', ([x, y]) => [y, x]],
  ['reflected in the other diagonal', ([x, y]) => [-y, -x]],
];
export const TURNS = NAMED_TURNS.map(([, turn]) => turn);

/**
 * The runs of cells in any order, by rows.
 * @param {Iterable<Cell>} cells
 * @returns {Map<number, number[]>}
 */
export function rowsOf(cells) {
  const columns = new Map();
  for (const [column, row] of cells) {
    if (!columns.has(row)) columns.set(row, new Set());
    columns.get(row).add(column);
  }
  const rows = new Map();
  for (const row of [...columns.keys()].sort((number, other) => number - other)) {
    const runs = [];
    for (const column of [...columns.get(row)].sort((number, other) => number - other)) {
      if (runs.at(-1) === column) runs[runs.length - 1] = column + 1;
      else runs.push(column, column + 1);
    }
    rows.set(row, runs);
  }
  return rows;
}

/**
 * A pattern after a turn, moved to the corner.
 * @param {object} pattern
 * @param {(cell: Cell) => Cell} turn
 */
export const turned = (pattern, turn) => (
  normal(rowsOf([...cellsOf(pattern)].map((cell) => turn(/** @type {Cell} */ (cell)))))
);

/** The sides of a box, in an order that a turn doesn't change. @param {{ width: number, height: number }} box */
export const sidesOf = ({ width, height }) => [Math.min(width, height), Math.max(width, height)].join();

/**
 * By which turn or reflection one pattern is another one, wherever they are: its name, which is empty if they are equal
 * without one; null if by none.
 * @param {object} pattern
 * @param {object} other
 * @returns {string | null}
 */
export function turnBetween(pattern, other) {
  if (pattern.population !== other.population || sidesOf(pattern) !== sidesOf(other)) return null;
  return NAMED_TURNS.find(([, turn]) => isSame(turned(pattern, turn), other))?.[0] ?? null;
}
