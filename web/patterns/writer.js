// Writing pattern files: the canonical text of a pattern, and where a file that is saved or copied comes from.

import { LONGEST_LINE, LONGEST_TEXT, MOST_COMMENTS } from '../shared/limits.js';
import { joined, withTexts } from './names.js';
import { LIFE, ruleText } from './rule.js';

/** The items of a body: runs, and the row ends between rows with live cells. */
function itemsOf(pattern) {
  const items = [];
  const item = (count, tag) => items.push(`${count === 1 ? '' : count}${tag}`);
  let row = 0;
  for (const [at, runs] of pattern.rows.entries()) {
    if (runs.length === 0) continue;
    if (at > row) item(at - row, '$');
    row = at;
    let column = 0;
    for (let place = 0; place < runs.length; place += 2) {
      if (runs[place] > column) item(runs[place] - column, 'b');
      item(runs[place + 1] - runs[place], 'o');
      column = runs[place + 1];
    }
  }
  return [...items, '!'];
}

/**
 * The canonical text of a pattern (docs/FORMATS.md, Pattern files), without texts.
 * @param {{ width: number, height: number, rows: ArrayLike<number>[] }} pattern
 * @param {string} rule
 */
export function fileOf(pattern, rule) {
  const lines = [''];
  for (const item of itemsOf(pattern)) {
    if (lines.at(-1).length + item.length <= LONGEST_LINE) lines.push(lines.pop() + item);
    else lines.push(item);
  }
  return `x = ${pattern.width}, y = ${pattern.height}, rule = ${rule}\n${lines.join('\n')}\n`;
}

/**
 * A file with other cells. The lines before its header stay, so without any of them it is empty if no cell is live.
 * @param {{ bytes: Uint8Array, record: { rule: object } } | null} file null for none
 * @param {{ width: number, height: number, population: number, rows: ArrayLike<number>[] }} pattern
 * @returns {Uint8Array}
 */
export function withPattern(file, pattern) {
  // One character a byte, as below.
  const place = file ? new TextDecoder('latin1').decode(file.bytes).search(/^[ \t\r]*x/im) : 0;
  const head = file?.bytes.subarray(0, place) ?? new Uint8Array();
  if (head.length === 0 && pattern.population === 0) return head;
  return joined(head, new TextEncoder().encode(fileOf(pattern, ruleText(file?.record.rule ?? LIFE))));
}

/**
 * Where a generation of a deposit comes from.
 * @param {number} number
 * @param {number} at
 * @param {string} url its address
 */
export const originOf = (number, at, url) => (
  `${at === 0 ? 'Deposit' : `Generation ${at} of deposit`} ${number}, ${url}`
);

/**
 * A file with a `#C` line about its origin in front of its header, and with a name if it has none. The line is left out
 * if the archive would refuse it.
 * @param {Uint8Array} bytes a file from the archive, or one that `fileOf` wrote
 * @param {{ name?: string | null, author?: string | null, comments?: string[] }} record the record of the file
 * @param {{ title: string | null, origin: string }} from
 * @returns {Uint8Array}
 */
export function withOrigin(bytes, { name = null, comments = [] }, { title, origin }) {
  const named = withTexts(bytes, { name, author: '' }, title ?? '', '');
  const line = new TextEncoder().encode(`#C ${origin}\n`);
  if (comments.includes(origin) || comments.length >= MOST_COMMENTS || line.length > LONGEST_TEXT + 4) return named;
  // One character a byte, so that a place in the text is a place in the bytes.
  const place = new TextDecoder('latin1').decode(named).search(/^x/m);
  return joined(named.subarray(0, place), line, named.subarray(place));
}
