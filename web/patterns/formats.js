// Other forms of pattern files, which the pages send as RLE: plaintext (`.cells`), Life 1.05 and 1.06 (`.lif`), and
// bodies of RLE without a header. And texts that are not UTF-8.

import { LONGEST_SIDE, LONGEST_TEXT, MOST_COMMENTS } from '../shared/limits.js';
import { fileOf } from './writer.js';

/**
 * The name of a file's form, and the file as RLE.
 * @typedef {{ form: string, text: string }} Read
 */

/**
 * A cell's column and row.
 * @typedef {[number, number]} Cell
 */

/**
 * A pattern of cells, whose places may be negative and in any order. A cell that is too far from the corner stays too
 * far, but no farther than needed: so a file of two cells needs little memory.
 * @param {Cell[]} cells
 */
function patternOf(cells) {
  const [left, top] = [0, 1].map((side) => cells.reduce((least, cell) => Math.min(least, cell[side]), Infinity));
  const near = cells.map(([column, row]) => [Math.min(column - left, LONGEST_SIDE), Math.min(row - top, LONGEST_SIDE)]);
  near.sort((cell, other) => cell[1] - other[1] || cell[0] - other[0]);
  const found = { width: 0, height: near.length ? near.at(-1)[1] + 1 : 0, rows: /** @type {number[][]} */ ([]) };
  found.rows = Array.from({ length: found.height }, () => []);
  for (const [column, row] of near) {
    const runs = found.rows[row];
    if (runs.at(-1) === column) runs[runs.length - 1] = column + 1;
    else if (!(runs.at(-1) > column)) runs.push(column, column + 1);
    found.width = Math.max(found.width, column + 1);
  }
  return found;
}

/**
 * The cells of rows in which `*` and `O` are live, from a place on.
 * @param {string[]} rows
 * @param {Cell} place
 * @returns {Cell[]}
 */
const cellsOf = (rows, [left, top] = [0, 0]) => rows.flatMap((line, row) => (
  [...line].flatMap((cell, column) => (
    /[*Oo]/.test(cell) ? [/** @type {Cell} */ ([left + column, top + row])] : []
  ))
));

/** A text in pieces that are short enough for a comment. @param {string} text */
function piecesOf(text) {
  const pieces = [''];
  for (const word of text.split(/\s+/)) {
    const longer = `${pieces.at(-1)} ${word}`.trim();
    if (new TextEncoder().encode(longer).length <= LONGEST_TEXT) pieces.push((pieces.pop(), longer));
    else pieces.push(word);
  }
  return pieces;
}

/** Comments as `#C` lines, without blank ones at the end. @param {string[]} comments */
function commentLines(comments) {
  const lines = comments.flatMap(piecesOf);
  while (lines.at(-1) === '') lines.pop();
  return lines.slice(0, MOST_COMMENTS).map((line) => `#C ${line}`.trim());
}

/**
 * The `#` lines of the comments of plaintext, which may begin with `Name:` and `Author:`.
 * @param {string[]} comments
 */
function notesOf(comments) {
  const named = comments.map((comment) => /^(name|author)\s*:\s*(.*)$/i.exec(comment));
  const markedText = (key, mark) => named
    .filter((found) => found?.[1].toLowerCase() === key && found[2])
    .slice(0, 1)
    .map((found) => `${mark} ${found[2]}`);
  const unnamed = comments.filter((_, at) => !named[at]);
  return [...markedText('name', '#N'), ...markedText('author', '#O'), ...commentLines(unnamed)];
}

/**
 * Plaintext: comments after `!`, and rows of `.` and `O` (LifeWiki, Plaintext).
 * @param {string[]} lines
 * @returns {Read | null}
 */
function plaintext(lines) {
  const body = lines.filter((line) => !line.startsWith('!'));
  if (!body.every((line) => /^[.*Oo \t]*$/.test(line)) || !body.some((line) => /[.*O]/.test(line))) return null;
  const notes = notesOf(lines.filter((line) => line.startsWith('!')).map((line) => line.slice(1).trim()));
  return { form: 'plaintext', text: [...notes, fileOf(patternOf(cellsOf(body)), 'B3/S23')].join('\n') };
}

/**
 * Life 1.05: blocks of rows, each after its place, and a rule with the survivals first.
 * @param {string[]} lines
 * @returns {Read | null}
 */
function lifeBlocks(lines) {
  if (!/^#Life 1\.05\s*$/i.test(lines[0])) return null;
  const marked = (mark) => lines.filter((line) => line.startsWith(mark)).map((line) => line.slice(2).trim());
  const rule = marked('#R')[0] ?? 'B3/S23';
  /** @type {Cell[]} */
  const cells = [];
  let place = /** @type {Cell} */ ([0, 0]);
  for (const line of lines) {
    const block = /^#P\s*(-?[0-9]{1,9})?\s*(-?[0-9]{1,9})?/.exec(line);
    if (block) place = [Number(block[1] ?? 0), Number(block[2] ?? 0)];
    else if (!line.startsWith('#')) {
      if (!/^[.*\s]*$/.test(line)) return null;
      cells.push(...cellsOf([line], place));
      place = [place[0], place[1] + 1];
    }
  }
  const comments = commentLines([...marked('#D'), ...marked('#C')]);
  return {
    form: 'Life 1.05',
    text: [...comments, fileOf(patternOf(cells), /^B[0-8]*$/i.test(rule) ? `${rule}/S` : rule)].join('\n'),
  };
}

/** Life 1.06: a line for each cell with its column and row. @param {string[]} lines @returns {Read | null} */
function lifeList(lines) {
  if (!/^#Life 1\.06\s*$/i.test(lines[0])) return null;
  const places = lines.slice(1).map((line) => line.trim()).filter((line) => line !== '' && !line.startsWith('#'));
  if (!places.every((line) => /^[+-]?[0-9]{1,9}\s+[+-]?[0-9]{1,9}$/.test(line))) return null;
  return {
    form: 'Life 1.06',
    text: fileOf(patternOf(places.map((line) => /** @type {Cell} */ (line.split(/\s+/).map(Number)))), 'B3/S23'),
  };
}

/** A body of RLE whose header is missing. @param {string[]} lines @returns {Read | null} */
function bareBody(lines) {
  const at = lines.findIndex((line) => line.trim() !== '' && !line.startsWith('#'));
  const [body] = lines.slice(Math.max(at, 0)).join('\n').split('!');
  if (at < 0 || !/^[0-9bo$\s]*$/.test(body) || !/[bo]/.test(body)) return null;
  return { form: 'RLE without a header', text: [...lines.slice(0, at), 'x = 0, y = 0', ...lines.slice(at)].join('\n') };
}

/**
 * A text in another form, as RLE; null if it has none of these forms.
 * @param {string} text
 * @returns {Read | null}
 */
export function readOther(text) {
  const lines = text.replace(/^\ufeff/, '').split(/\r\n|\n|\r/);
  return lifeList(lines) ?? lifeBlocks(lines) ?? plaintext(lines) ?? bareBody(lines);
}

/**
 * Whether a text is a rule of a kind that the archive doesn't take: Generations (`23/3/8`, `B2/S/C3`), isotropic
 * (`B2-a/S12`), of larger neighbourhoods (`R5,..`), or with states of its own, such as LifeHistory.
 * @param {string} text
 */
export const isOtherRule = (text) => (
  /^[^/]*\/[^/]*\/|[cg][0-9]+$|[0-8]-?[aceijknqrtwyz]|^r[0-9]+,|history|super|wireworld/i
    .test(text.replace(/[ \t\r]/g, '').replace(/:.*/, ''))
);

/** What forums and chats put around a pattern: `[code]` and `[/code]`, or a fence of backticks. */
const OPENING = /^\s*(?:\[(?:code|rle|viewer)[^\]\n]*\]|```[a-z]*(?=[ \t]*\r?\n))[ \t]*\r?\n?/i;
const CLOSING = /(?:\[\/(?:code|rle|viewer)\]|```)\s*$/i;

/**
 * Where the text inside such marks begins and ends; null without them.
 * @param {string} text
 * @returns {[number, number] | null}
 */
export function insideMarks(text) {
  const opening = OPENING.exec(text);
  return opening && [opening[0].length, CLOSING.exec(text)?.index ?? text.length];
}

/** Whether a text can be a pattern: anything may be pasted on a page. @param {string} pastedText */
export function mayBePattern(pastedText) {
  const text = pastedText.slice(...insideMarks(pastedText) ?? []);
  return /^\s*(#|x\s*=)/i.test(text) || readOther(text) !== null;
}

/**
 * A text whose bytes are not UTF-8, read as windows-1252, which has the letters of Latin-1; null for UTF-8.
 * @param {Uint8Array} bytes
 * @returns {string | null}
 */
export function readOld(bytes) {
  try {
    new TextDecoder('utf-8', { fatal: true }).decode(bytes);
    return null;
  } catch {
    return new TextDecoder('windows-1252').decode(bytes);
  }
}
