// Codes (docs/FORMATS.md, Codes): what a code's text spells, the period that it names, and the names of well-known
// objects.

import { OBJECTS } from '../shared/files.js';

const ROWS = 5;
const FORM = /^x([spq])([1-9][0-9]{0,5})_([0-9a-z]+)$/;

/** The smallest limit under which a code can be opened; 1 if the text is not a code, so that the archive refuses it. */
export function limitOf(code) {
  const found = FORM.exec(code);
  return found && found[1] !== 's' ? Number(found[2]) : 1;
}

/** A row's columns, which ascend, as runs. */
function runsOf(columns) {
  const runs = [];
  for (const column of columns) {
    if (runs.at(-1) === column) runs[runs.length - 1] = column + 1;
    else runs.push(column, column + 1);
  }
  return runs;
}

/**
 * The pattern that the text of a code spells; null if it spells none. Only the archive says whether it is an object's
 * code.
 */
export function patternOf(code) {
  const text = FORM.exec(code)?.[3];
  if (!text) return null;
  const columns = [];
  let strip = 0;
  let column = 0;
  let population = 0;
  for (let at = 0; at < text.length; at += 1) {
    const byte = text[at];
    if (byte === 'z') [strip, column] = [strip + 1, 0];
    else if (byte === 'w') column += 2;
    else if (byte === 'x') column += 3;
    else if (byte === 'y') column += 4 + (parseInt(text[at += 1], 36) || 0);
    else {
      const bits = parseInt(byte, 32);
      for (let row = 0; row < ROWS; row += 1) {
        if ((bits >> row) & 1) {
          (columns[strip * ROWS + row] ??= []).push(column);
          population += 1;
        }
      }
      column += 1;
    }
  }
  if (population === 0) return null;
  const rows = Array.from(columns, (row) => runsOf(row ?? []));
  return { width: Math.max(...rows.map((runs) => runs.at(-1) ?? 0)), height: rows.length, population, rows };
}

let rows = null;
let names = null;

/**
 * The well-known objects of Conway's Life: of each its name, its code, and another name, which may be empty.
 * @returns {Promise<string[][]>}
 */
export function wellKnown() {
  rows ??= fetch(OBJECTS).then((reply) => (reply.ok ? reply.text() : '')).catch(() => '').then((text) => (
    text
      .split('\n')
      .filter((line) => line.includes(',') && !line.startsWith('#'))
      .slice(1)
      .map((line) => line.split(','))
  ));
  return rows;
}

/** The names of objects of Conway's Life by their codes. @returns {Promise<Map<string, string>>} */
export function objectNames() {
  names ??= wellKnown().then((all) => new Map(all.map(([name, code]) => [code, name])));
  return names;
}
