// Drawing patterns. Pictures are filled run by run in a byte buffer, so that the cost depends on the runs and not on
// the size of the field.

import { shadesOfAges, wordOf } from './shades.js';
import { paintShares } from './shares.js';

/**
 * The sizes of a cell, from one pixel on. Smaller cells may have any size, since a pixel then shows its share of live
 * cells.
 */
export const SIZES = [1, 2, 3, 4, 6, 8, 12, 16, 24, 32, 48];
/** The smallest size: even after the last generation, the widest pattern still fits on a phone. */
export const LEAST_SIZE = 1 / 16;
/** How many zoom steps halve a cell that is smaller than a pixel. */
const STEPS_A_HALF = 2;
const LEAST_STEP = STEPS_A_HALF * Math.log2(LEAST_SIZE);
const GAP_FROM = 6;
const GRID_FROM = 8;

/** The colors of the style sheet, which depend on the theme. */
export function colors() {
  const style = getComputedStyle(document.documentElement);
  const named = (name) => wordOf(style.getPropertyValue(name).trim());
  return {
    live: named('--live'),
    dead: named('--dead'),
    grid: named('--grid'),
    young: named('--young'),
    old: named('--old'),
  };
}

/**
 * The size at a zoom step: steps from 0 on are the sizes of SIZES, steps below 0 continuous smaller sizes.
 * @param {number} step
 */
export const sizeAt = (step) => (
  step < 0 ? 2 ** (step / STEPS_A_HALF) : SIZES[Math.min(Math.round(step), SIZES.length - 1)]
);

/**
 * The zoom step of a size; the greatest step if the size is larger.
 * @param {number} size
 */
export function stepOf(size) {
  if (size < 1) return STEPS_A_HALF * Math.log2(size);
  const found = SIZES.findIndex((zoomSize) => zoomSize >= size);
  return found < 0 ? SIZES.length - 1 : found;
}

/**
 * A step, limited to those that the zoom allows.
 * @param {number} step
 */
export const boundStep = (step) => Math.min(Math.max(step, LEAST_STEP), SIZES.length - 1);

/**
 * The greatest size, at most `most`, at which the columns and rows fit into a picture. Below one pixel it is exact.
 * @param {number} columns
 * @param {number} rows
 * @param {number} width
 * @param {number} height
 * @param {number} most
 */
export function sizeFor(columns, rows, width, height, most) {
  const fittingSize = Math.min(width / Math.max(1, columns), height / Math.max(1, rows), most);
  if (fittingSize < 1) return Math.max(fittingSize, LEAST_SIZE);
  return SIZES.filter((size) => size <= fittingSize).at(-1);
}

/** Puts the runs of a row into the lines of a picture that show it. */
function paintRow(words, width, runs, top, bottom, view, word) {
  const gap = view.size >= GAP_FROM ? 1 : 0;
  for (let at = 0; at < runs.length; at += 2) {
    const step = gap ? 1 : runs[at + 1] - runs[at];
    for (let column = runs[at]; column < runs[at + 1]; column += step) {
      const left = Math.floor((column + view.place.column - view.left) * view.size);
      const end = Math.floor((column + step + view.place.column - view.left) * view.size);
      // A cell smaller than a pixel is still visible.
      const from = Math.max(left, 0);
      const to = Math.min(Math.max(end - gap, left + 1), width);
      if (from < to) for (let row = top; row < bottom; row += 1) words.fill(word, row * width + from, row * width + to);
    }
  }
}

function paintGrid(words, width, height, view, word) {
  const first = (begin) => (Math.ceil(begin) - begin) * view.size - 1;
  for (let column = first(view.left); column < width; column += view.size) {
    const at = Math.round(column);
    if (at >= 0) for (let row = 0; row < height; row += 1) words[row * width + at] = word;
  }
  for (let row = first(view.top); row < height; row += view.size) {
    const at = Math.round(row);
    if (at >= 0) words.fill(word, at * width, (at + 1) * width);
  }
}

/** Puts the cells of a row into the lines of a picture, each in the color of its age; `ages` are those of the row. */
function paintAges(words, width, runs, top, bottom, view, ages, shades) {
  for (let at = 0; at < runs.length; at += 2) {
    for (let column = runs[at]; column < runs[at + 1]; column += 1) {
      paintRow(words, width, [column, column + 1], top, bottom, view, shades[ages[column]]);
    }
  }
}

/**
 * Draws a pattern on a canvas. A view has the column and row of the plane at the left and top edge, the size of a cell
 * in pixels, the place of the pattern's corner, and the ages of its cells if they are shown; only then are the shades
 * of young and old cells needed.
 * @param {{ live: number, dead: number, grid: number, young?: number, old?: number }} [shades]
 */
export function paint(canvas, pattern, view, shades = colors()) {
  const { width, height } = canvas;
  const context = canvas.getContext('2d', { alpha: false });
  const picture = context.createImageData(width, height);
  const words = new Uint32Array(picture.data.buffer);
  words.fill(shades.dead);
  if (view.grid !== false && view.size >= GRID_FROM) paintGrid(words, width, height, view, shades.grid);
  const gap = view.size >= GAP_FROM ? 1 : 0;
  if (view.size < 1) {
    paintShares(words, width, height, pattern, view, shades);
    context.putImageData(picture, 0, 0);
    return;
  }
  const aged = view.ages ? shadesOfAges(shades) : null;
  for (let row = 0; row < pattern.height; row += 1) {
    const top = Math.floor((row + view.place.row - view.top) * view.size);
    if (top >= height) break;
    const bottom = Math.max(Math.floor((row + 1 + view.place.row - view.top) * view.size) - gap, top + 1);
    if (bottom <= 0) continue;
    const lines = [Math.max(top, 0), Math.min(bottom, height)];
    if (aged) paintAges(words, width, pattern.rows[row], ...lines, view, view.ages.subarray(row * pattern.width), aged);
    else paintRow(words, width, pattern.rows[row], ...lines, view, shades.live);
  }
  context.putImageData(picture, 0, 0);
}

/** A small canvas that shows a whole pattern, with this size in CSS pixels. */
export function thumbnail(pattern, width, height, label) {
  const canvas = document.createElement('canvas');
  const scale = Math.min(window.devicePixelRatio || 1, 2);
  canvas.width = Math.round(width * scale);
  canvas.height = Math.round(height * scale);
  canvas.className = 'small';
  canvas.style.aspectRatio = `${width} / ${height}`;
  if (label) {
    canvas.setAttribute('role', 'img');
    canvas.setAttribute('aria-label', label);
  } else {
    canvas.setAttribute('aria-hidden', 'true');
  }
  const draw = () => {
    const size = sizeFor(pattern.width + 2, pattern.height + 2, canvas.width, canvas.height, 12 * scale);
    const left = pattern.width / 2 - canvas.width / size / 2;
    const top = pattern.height / 2 - canvas.height / size / 2;
    paint(canvas, pattern, { left, top, size, place: { column: 0, row: 0 }, grid: false });
  };
  draw();
  canvas.redraw = draw;
  return canvas;
}

// Everything on the page is redrawn when the theme changes.
addEventListener('recolored', () => {
  for (const canvas of document.querySelectorAll('canvas')) canvas.redraw?.();
});
