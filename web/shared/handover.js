// What one page passes to another: files to deposit, and a note about the last deposit.

import { element } from './dom.js';

let files = null;
let note = null;

/**
 * Stores files for the page that deposits them.
 * @param {(File | Blob)[]} newFiles
 */
export function passFiles(newFiles) {
  files = newFiles;
}

/** The files that were passed, once; nothing if there are none. */
export function passedFiles() {
  const passed = files;
  files = null;
  return passed;
}

/**
 * Stores a note for the page of a deposit, and the member's name that was typed, if any.
 * @param {number} number
 * @param {string} text
 * @param {string | null} typed
 */
export function keepNote(number, text, typed) {
  note = { number, text, typed };
}

/**
 * The note of a deposit, once, and the name that was typed for it; an empty one if it has none.
 * @param {number} number
 * @returns {{ line: HTMLElement, typed?: string | null }}
 */
export function noteOf(number) {
  const ownNote = note?.number === number ? note : null;
  note = null;
  return { line: element('p', { class: 'note', role: 'status' }, ownNote?.text ?? ''), typed: ownNote?.typed };
}
