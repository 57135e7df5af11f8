// A file as a member gives it: what the page reads of it, what it changes so that the archive takes it, and what it
// says about that.

import { element } from '../shared/dom.js';
import { insideMarks, isOtherRule, readOld, readOther } from './formats.js';
import { MOST_COMMENTS } from '../shared/limits.js';
import { Refused } from '../requests/refusals.js';
import { Fault, readFile } from './rle.js';
import { ruleNamed } from './rules.js';

/** The numbers of the faults of a file without a header, and of one whose rule can't be read. */
const NO_HEADER = 3;
const BAD_RULE = 5;
const encoded = (text) => new TextEncoder().encode(text);

/**
 * @typedef {object} Given
 * @property {Uint8Array} bytes what to send, without a name and an author that the member adds
 * @property {object | null} record the record of the file; null if it has a fault
 * @property {Fault | null} fault
 * @property {string | null} line the line that has the fault, if it can be shown
 * @property {boolean} isOld whether the file is not UTF-8
 * @property {string[]} notes the changes that the page made
 */

/**
 * What to do about a file: `asOld`, if it is not UTF-8, to read it as windows-1252; `isCut` to leave out comments.
 * @typedef {{ asOld: boolean, isCut: boolean }} Choices
 */

/** A file without some of its lines. @param {Uint8Array} bytes @param {{ begin: number, text: string }[]} lines */
function without(bytes, lines) {
  let place = 0;
  const parts = lines.map(({ begin, text }) => {
    const part = bytes.subarray(place, begin);
    place = begin + text.length + 1;
    return [...part];
  });
  return Uint8Array.from([...parts.flat(), ...bytes.subarray(place)]);
}

/** The line that has a fault, if it can be shown; `before` lines of the text come before the bytes. */
function lineOf(bytes, number, before) {
  if (number === 0) return null;
  const line = new TextDecoder().decode(bytes).split('\n')[number - 1] ?? '';
  return `Line ${before + number}: ${line.length > 80 ? `${line.slice(0, 80)}…` : line}`;
}

/**
 * A file whose rule has a name, with the rule in digits.
 * @param {Uint8Array} bytes
 * @param {number} number of the line that has the rule
 */
function withDigits(bytes, number) {
  const lines = new TextDecoder('latin1').decode(bytes).split('\n');
  const [, before, name] = /^(.*(?:#r|rule\s*=))\s*([^\r]*?)\s*$/i.exec(lines[number - 1]);
  const rule = ruleNamed(name);
  lines[number - 1] = `${before} ${rule}`;
  return {
    bytes: Uint8Array.from(lines.join('\n'), (byte) => byte.charCodeAt(0)),
    note: `The rule ${name} is sent as ${rule}.`,
  };
}

/** Reads a file of the archive's form. @param {Uint8Array} bytes @param {Choices} choices */
function readOwn(bytes, choices) {
  try {
    return readDigits(bytes, choices);
  } catch (error) {
    if (!(error instanceof Fault) || error.number !== BAD_RULE || !ruleNamed(error.rule)) throw error;
    const named = withDigits(bytes, error.line);
    const read = readDigits(named.bytes, choices);
    return { ...read, notes: [named.note, ...read.notes] };
  }
}

/** The same, if its rule is in digits. @param {Uint8Array} bytes @param {Choices} choices */
function readDigits(bytes, { isCut }) {
  const record = readFile(bytes, { isCut });
  if (record.left.length === 0) return { bytes, record, notes: [] };
  const all = record.left.length + MOST_COMMENTS;
  return {
    bytes: without(bytes, record.left),
    record,
    notes: [`Of its ${all} comments the first ${MOST_COMMENTS} are sent.`],
  };
}

/** Reads a file of any form. */
function readAny(bytes, choices) {
  try {
    return readOwn(bytes, choices);
  } catch (error) {
    const other = error instanceof Fault && error.number === NO_HEADER
      ? readOther(new TextDecoder().decode(bytes))
      : null;
    if (!other) throw error;
    return readConverted(other, choices);
  }
}

/**
 * Reads the RLE that was made of another form. Its lines are not those of the file, so a fault has no line.
 * @param {import('./formats.js').Read} other
 * @param {Choices} choices
 */
function readConverted(other, choices) {
  try {
    const read = readOwn(encoded(other.text), choices);
    return { ...read, notes: [`Read as ${other.form}, and sent as RLE.`, ...read.notes] };
  } catch (error) {
    throw error instanceof Fault ? Object.assign(error, { line: 0 }) : error;
  }
}

/** The note if marks around a pattern, such as `[code]`, are left out. */
const MARKED = 'The marks around the pattern are not sent.';

/**
 * @param {Uint8Array} bytes
 * @param {Choices} choices
 * @returns {Given}
 */
export function readGiven(bytes, choices) {
  const old = readOld(bytes);
  const utf8Bytes = old !== null && choices.asOld ? encoded(old) : bytes;
  const isOld = old !== null;
  const text = new TextDecoder('latin1').decode(utf8Bytes);
  const inside = insideMarks(text);
  const patternBytes = inside ? utf8Bytes.slice(...inside) : utf8Bytes;
  try {
    const read = readAny(patternBytes, choices);
    return { ...read, isOld, fault: null, line: null, notes: [...(inside ? [MARKED] : []), ...read.notes] };
  } catch (error) {
    if (!(error instanceof Fault)) throw error;
    const before = inside ? text.slice(0, inside[0]).split('\n').length - 1 : 0;
    const line = lineOf(patternBytes, error.line, before);
    return { bytes: patternBytes, record: null, isOld, fault: error, line, notes: [] };
  }
}

/** What a file with a rule of another kind says: its digits would not help. */
const OTHER_RULE = 'Generations, isotropic and LifeHistory rules are not taken: '
  + 'the archive takes rules of two states that only count the live neighbours of a cell, like B3/S23.';

/** The refusal that the archive would give for a fault. @param {Fault} fault */
export const refusedBy = (fault) => Object.assign(
  new Refused('bad-pattern', 7, fault.number),
  { sentence: isOtherRule(fault.rule) ? OTHER_RULE : '' },
);

/** A button that leaves out the comments beyond those that the archive takes. @param {() => void} act */
export const cutButton = (act) => (
  element('button', { type: 'button', class: 'cut', click: act }, `Send the first ${MOST_COMMENTS} comments`)
);

/**
 * The question how to read a file that is not UTF-8.
 * @param {string} id
 * @param {boolean} checked
 * @param {string} label
 * @param {(checked: boolean) => void} act
 */
export function oldChoice(id, checked, label, act) {
  const box = element('input', { id, type: 'checkbox', checked, change: () => act(box.checked) });
  return element('p', { class: 'check' }, box, element('label', { for: id }, ` ${label}`));
}
