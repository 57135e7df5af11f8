// The files of a folder, and adding a name, an author and the folder to a file (docs/FORMATS.md, Pattern files): `#N`,
// `#O` and `#C` before its first line.

import { LONGEST_TEXT, MOST_COMMENTS } from '../shared/limits.js';

const bytesOf = (text) => new TextEncoder().encode(text);

/** Bytes one after the other. @param {Uint8Array[]} parts */
export function joined(...parts) {
  const all = new Uint8Array(parts.reduce((sum, part) => sum + part.length, 0));
  let place = 0;
  for (const part of parts) {
    all.set(part, place);
    place += part.length;
  }
  return all;
}

/** A text as one line of at most LONGEST_TEXT bytes, never cut inside a character. */
function oneLine(text) {
  const plain = text.replace(/[\r\n\t]+/g, ' ').trim();
  return new TextDecoder().decode(bytesOf(plain).subarray(0, LONGEST_TEXT)).replace(/\ufffd+$/, '').trim();
}

/** What a page says if a folder has none of these. */
export const NO_FILES = 'There is no pattern file in this folder: their names end in .rle, .cells, .lif or .life.';

/** The path of a file in the dropped folder, or its name. */
export const pathOf = (file) => file.webkitRelativePath || file.relativePath || file.name;

/** The pattern files of a folder, ordered by path: those with an ending of a form that formats.js reads. */
export const patternsOf = (files) => files
  .filter(({ name }) => /\.(rle|cells|lif|life)$/i.test(name))
  .sort((file, other) => (pathOf(file) < pathOf(other) ? -1 : 1));

/** The name of a file without folders and extension: `gosper-gun` for `guns/gosper-gun.rle`. */
export const baseName = (name) => oneLine(name.split('/').at(-1).replace(/\.(rle|cells|lif|life|txt)$/i, ''));

/**
 * The folders in the path of a file: `jslife/guns` for `jslife/guns/gun30.rle`, and '' without one.
 * @param {string} path
 */
export const folderOf = (path) => path.split('/').slice(0, -1).join('/');

/**
 * A comment with the folders of a path, or '' if it has none, or the file has it or as many comments as the archive
 * takes.
 */
function folderComment(comments, folder) {
  const text = folder ? oneLine(`Folder: ${folder}`) : '';
  return comments.includes(text) || comments.length >= MOST_COMMENTS ? '' : text;
}

/**
 * A file with a name and an author added, if they are given and its record has none, and with the folder as a comment,
 * if one is given.
 */
export function withTexts(bytes, record, name, author, folder = '') {
  const added = {
    '#N': record.name === null ? oneLine(name) : '',
    '#O': record.author === null ? oneLine(author) : '',
    '#C': folderComment(record.comments ?? [], folder),
  };
  const lines = Object.entries(added).map(([sign, text]) => (text ? `${sign} ${text}\n` : '')).join('');
  return lines === '' ? bytes : joined(bytesOf(lines), bytes);
}

/** The files of a dropped entry: the file itself, or all files in the folder and its subfolders. */
export async function filesOf(entry, folder = '') {
  if (entry.isFile) {
    const file = await new Promise((resolve, reject) => { entry.file(resolve, reject); });
    return [Object.assign(file, { relativePath: folder + file.name })];
  }
  const reader = entry.createReader();
  const found = [];
  for (;;) {
    const entries = await new Promise((resolve, reject) => { reader.readEntries(resolve, reject); });
    if (entries.length === 0) {
      return patternsOf((await Promise.all(found.map((child) => filesOf(child, `${folder}${entry.name}/`)))).flat());
    }
    found.push(...entries);
  }
}
