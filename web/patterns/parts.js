// Constellations: a cluster of a census may be several objects that do not change each other. This module separates
// such a cluster and names its parts. The page does this itself: it steps the whole and each part through all phases,
// and compares them.

import { limitOf, objectNames, patternOf } from './code.js';
import { cellsOf } from './pattern.js';
import { LIFE } from './rule.js';
import { TURNS } from './turns.js';

/** The limits for separating a cluster: with more cells, a longer period or more pieces it would take too long. */
const MOST_CELLS = 200;
const LONGEST_PERIOD = 60;
const MOST_PIECES = 24;
/** For how many milliseconds the page may be blocked at a time. */
const HELD = 20;

/** A cell is encoded as one number. A pattern stays within a few hundred columns and rows of its first cell. */
const WIDTH = 4096;
const FIRST = 1000;
const ROUND = [-WIDTH - 1, -WIDTH, -WIDTH + 1, -1, 1, WIDTH - 1, WIDTH, WIDTH + 1];

/** @typedef {Set<number>} Cells */
/**
 * @typedef {{code: string | null, name: string | null, cells: number, count: number}} Part objects that are equal, and
 *   how many of them there are
 */

/**
 * @param {object} pattern
 * @returns {Cells}
 */
const setOf = (pattern) => (
  new Set([...cellsOf(pattern)].map(([column, row]) => (row + FIRST) * WIDTH + column + FIRST))
);

/**
 * The next generation.
 * @param {Cells} cells
 * @param {typeof LIFE} rule
 */
function following(cells, rule = LIFE) {
  const counts = new Map();
  for (const cell of cells) for (const step of ROUND) counts.set(cell + step, (counts.get(cell + step) ?? 0) + 1);
  const next = new Set();
  for (const [cell, count] of counts) if (cells.has(cell) ? rule.survivals[count] : rule.births[count]) next.add(cell);
  return next;
}

/** @param {Cells} cells @param {Cells} other */
const isEqual = (cells, other) => cells.size === other.size && [...cells].every((cell) => other.has(cell));

/**
 * The generations from 0 to a period.
 * @param {Cells} cells
 * @param {number} period
 * @param {typeof LIFE} [rule]
 */
function phasesOf(cells, period, rule) {
  const phases = [cells];
  while (phases.length <= period) phases.push(following(phases.at(-1), rule));
  return phases;
}

/**
 * The pieces: cells that touch, at least at a corner, are in one piece.
 * @param {Cells} cells
 */
function piecesOf(cells) {
  const left = new Set(cells);
  const pieces = [];
  for (const start of cells) {
    if (!left.delete(start)) continue;
    const piece = [start];
    for (const cell of piece) for (const step of ROUND) if (left.delete(cell + step)) piece.push(cell + step);
    pieces.push(new Set(piece));
  }
  return pieces;
}

/**
 * Whether two pieces change each other, that is, evolve differently together than alone.
 * @param {Cells[]} phases the phases of one piece
 * @param {Cells[]} otherPhases
 */
function changes(phases, otherPhases) {
  let both = new Set([...phases[0], ...otherPhases[0]]);
  for (let at = 1; at < phases.length; at += 1) {
    both = following(both);
    const apart = [...phases[at], ...otherPhases[at]];
    if (both.size !== apart.length || apart.some((cell) => !both.has(cell))) return true;
  }
  return false;
}

/** Two pieces that change each other; nothing if there are none. */
function changing(phases) {
  for (let index = 0; index < phases.length; index += 1) {
    for (let otherIndex = index + 1; otherIndex < phases.length; otherIndex += 1) {
      if (changes(phases[index], phases[otherIndex])) return [index, otherIndex];
    }
  }
  return null;
}

/**
 * The objects in a cluster, each with its phases; null if it is one object.
 * @param {Cells} cells
 * @param {number} period
 * @returns {Cells[] | null}
 */
function objectsOf(cells, period) {
  let pieces = piecesOf(cells);
  if (pieces.length === 1 || pieces.length > MOST_PIECES) return null;
  for (;;) {
    const phases = pieces.map((piece) => phasesOf(piece, period));
    const pair = changing(phases);
    if (!pair) return isWhole(cells, phases, period) ? pieces : null;
    const [index, otherIndex] = pair;
    const joined = new Set([...pieces[index], ...pieces[otherIndex]]);
    pieces = [...pieces.filter((_, at) => at !== index && at !== otherIndex), joined];
    if (pieces.length === 1) return null;
  }
}

/** Whether the objects add up to the whole in every phase, and each is periodic. */
function isWhole(cells, phases, period) {
  return phases.every((objectPhases) => isEqual(objectPhases[0], objectPhases[period]))
    && phasesOf(cells, period).every((clusterCells, at) => (
      isEqual(clusterCells, new Set(phases.flatMap((objectPhases) => [...objectPhases[at]])))
    ));
}

/**
 * A text of the cells, wherever they are.
 * @param {[number, number][]} cells
 */
function textOf(cells) {
  const [left, top] = [0, 1].map((side) => Math.min(...cells.map((cell) => cell[side])));
  return cells.map(([column, row]) => (row - top) * WIDTH + column - left).sort((cell, other) => cell - other).join();
}

/** @param {Cells} cells @returns {[number, number][]} */
const placesOf = (cells) => [...cells].map((cell) => [cell % WIDTH, Math.floor(cell / WIDTH)]);

/** Whether a code names a still life or oscillator that is small enough to separate. */
function isParted(code) {
  const pattern = /^x[sp]/.test(code) && limitOf(code) <= LONGEST_PERIOD ? patternOf(code) : null;
  return pattern !== null && pattern.population <= MOST_CELLS;
}

/** Yields to the page if it was blocked for long; returns the time at which this began again. */
async function rested(begun) {
  if (performance.now() - begun < HELD) return begun;
  await new Promise((resolve) => { setTimeout(resolve); });
  return performance.now();
}

/**
 * The cells of the smallest phase of each object. One that is too large to step here has those of the phase that its
 * code spells.
 * @param {string[]} codes
 * @param {typeof LIFE} rule
 * @param {AbortSignal} signal
 * @returns {Promise<Map<string, number>>}
 */
export async function leastCells(codes, rule, signal) {
  const found = new Map();
  let begun = performance.now();
  for (const code of codes) {
    const [pattern, period] = [patternOf(code), limitOf(code)];
    if (pattern && period > 1 && period <= LONGEST_PERIOD && pattern.population <= MOST_CELLS) {
      found.set(code, Math.min(...phasesOf(setOf(pattern), period, rule).map(({ size }) => size)));
    }
    begun = await rested(begun);
    signal.throwIfAborted();
  }
  return found;
}

let known = null;

/** The codes of named objects, by the texts of all their phases in all orientations. */
function knownObjects() {
  known ??= objectNames().then(async (names) => {
    const found = new Map();
    let begun = performance.now();
    for (const code of names.keys()) {
      const cells = isParted(code) ? setOf(patternOf(code)) : null;
      const period = limitOf(code);
      if (!cells || objectsOf(cells, period)) continue;
      for (const phase of phasesOf(cells, period)) {
        for (const turn of TURNS) found.set(textOf(placesOf(phase).map(turn)), code);
      }
      begun = await rested(begun);
    }
    return found;
  });
  return known;
}

/**
 * The objects in a code's pattern in Conway's Life, the most frequent first; null if it is one object or was not
 * separated.
 * @param {string} code
 * @returns {Promise<Part[] | null>}
 */
export async function partsOf(code) {
  if (!isParted(code)) return null;
  const objects = objectsOf(setOf(patternOf(code)), limitOf(code));
  if (!objects) return null;
  const [byText, names] = await Promise.all([knownObjects(), objectNames()]);
  const parts = new Map();
  for (const object of objects) {
    const text = textOf(placesOf(object));
    const knownCode = byText.get(text) ?? null;
    const part = parts.get(knownCode ?? text) ?? {
      code: knownCode,
      name: knownCode ? names.get(knownCode) : null,
      cells: object.size,
      count: 0,
    };
    part.count += 1;
    parts.set(knownCode ?? text, part);
  }
  return [...parts.values()].sort((part, other) => other.count - part.count || other.cells - part.cells);
}

/** @param {string} name */
function pluralOf(name) {
  const [first, ...rest] = name.split(/ (?=with |on |and )/);
  return [first.replace(/loaf$/, 'loave').replace(/([^s])$/, '$1s'), ...rest].join(' ');
}

/**
 * `4 blinkers`, `blinker + block`; an object without a name appears as its number of cells.
 * @param {Part[]} parts
 */
export function partsText(parts) {
  const partText = ({ name, cells, count }) => {
    if (name) return count === 1 ? name : `${count} ${pluralOf(name)}`;
    return `${count === 1 ? 'an object' : `${count} objects`} of ${cells} cells`;
  };
  return parts.map(partText).join(' + ');
}

/**
 * The groups in a table: a text with the parts for each code that is a group, and how often each object is in groups.
 * @param {{code: string, count: number}[]} rows
 * @param {string} rule
 * @param {AbortSignal} signal
 * @returns {Promise<{texts: Map<string, string>, grouped: Map<string, number>}>}
 */
export async function groupsOf(rows, rule, signal) {
  const [texts, grouped] = [new Map(), new Map()];
  if (rule !== 'B3/S23') return { texts, grouped };
  let begun = performance.now();
  for (const { code, count } of rows) {
    const parts = await partsOf(code);
    for (const part of parts ?? []) {
      if (part.code) grouped.set(part.code, (grouped.get(part.code) ?? 0) + count * part.count);
    }
    if (parts) texts.set(code, partsText(parts));
    begun = await rested(begun);
    signal.throwIfAborted();
  }
  return { texts, grouped };
}
