// ZIP files (PKWARE, APPNOTE.TXT 6.3): files one after the other without compression, then a directory of them.

import { crc32 } from './crc.js';

const [FILE, ENTRY, END] = [0x04034b50, 0x02014b50, 0x06054b50];
/** Version 2.0 of the format, and the flag that says that names are in UTF-8. */
const [VERSION, UTF8] = [20, 0x0800];

/** Little-endian numbers, each with its size of 2 or 4 bytes. @param {[number, number][]} numbers */
function packed(numbers) {
  const bytes = new Uint8Array(numbers.reduce((sum, [size]) => sum + size, 0));
  const view = new DataView(bytes.buffer);
  let place = 0;
  for (const [size, number] of numbers) {
    if (size === 2) view.setUint16(place, number, true);
    else view.setUint32(place, number, true);
    place += size;
  }
  return bytes;
}

/** A time as the format has it: in steps of two seconds, from 1980 on. @param {Date} time */
const timeOf = (time) => (
  ((time.getFullYear() - 1980) << 25 | (time.getMonth() + 1) << 21 | time.getDate() << 16
    | time.getHours() << 11 | time.getMinutes() << 5 | time.getSeconds() >> 1) >>> 0
);

/**
 * A ZIP file.
 * @param {{ name: string, bytes: Uint8Array }[]} files at most 65,535, with less than 4 GiB in all
 * @param {Date} time when they were made
 * @returns {Blob}
 */
export function zipOf(files, time) {
  /** @type {Uint8Array[]} */
  const content = [];
  /** @type {Uint8Array[]} */
  const directory = [];
  let place = 0;
  for (const { name, bytes } of files) {
    const path = new TextEncoder().encode(name);
    /** @type {[number, number][]} */
    const facts = [
      [2, VERSION], [2, UTF8], [2, 0], [4, timeOf(time)], [4, crc32(bytes)], [4, bytes.length], [4, bytes.length],
      [2, path.length], [2, 0],
    ];
    const head = packed([[4, FILE], ...facts]);
    content.push(head, path, bytes);
    directory.push(packed([[4, ENTRY], [2, VERSION], ...facts, [2, 0], [2, 0], [2, 0], [4, 0], [4, place]]), path);
    place += head.length + path.length + bytes.length;
  }
  const size = directory.reduce((sum, { length }) => sum + length, 0);
  const end = packed([[4, END], [2, 0], [2, 0], [2, files.length], [2, files.length], [4, size], [4, place], [2, 0]]);
  return new Blob([...content, ...directory, end], { type: 'application/zip' });
}
