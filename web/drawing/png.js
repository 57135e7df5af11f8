// PNG pictures and animations of patterns (PNG Specification, third edition, with APNG): one bit a pixel, compressed by
// the browser, with texts about the origin.

import { crc32 } from '../shared/crc.js';

const SIGNATURE = Uint8Array.of(137, 80, 78, 71, 13, 10, 26, 10);
/** From this size on there is a gap of a pixel between cells. */
const GAP_FROM = 6;
/** The bits of a byte, the first pixel first. */
const BITS = [128, 64, 32, 16, 8, 4, 2, 1];

/** Numbers of four bytes each. @param {number[]} numbers */
export function words(...numbers) {
  const bytes = new Uint8Array(4 * numbers.length);
  const view = new DataView(bytes.buffer);
  for (const [at, number] of numbers.entries()) view.setUint32(4 * at, number);
  return bytes;
}

/** Some bytes after another. @param {Uint8Array[]} parts */
function joined(...parts) {
  const all = new Uint8Array(parts.reduce((sum, { length }) => sum + length, 0));
  let place = 0;
  for (const part of parts) {
    all.set(part, place);
    place += part.length;
  }
  return all;
}

/**
 * A chunk of a file.
 * @param {string} type
 * @param {Uint8Array[]} parts
 */
export function chunk(type, ...parts) {
  const data = joined(new TextEncoder().encode(type), ...parts);
  return joined(words(data.length - 4), data, words(crc32(data)));
}

/** A chunk with a text in UTF-8. */
const textChunk = (name, text) => chunk('iTXt', new TextEncoder().encode(`${name}\0\0\0\0\0${text}`));

/** Bytes in zlib's format. @param {Uint8Array} bytes @returns {Promise<Uint8Array>} */
export async function compressed(bytes) {
  const stream = new Blob([bytes])
    .stream()
    .pipeThrough(new /** @type {any} */ (globalThis).CompressionStream('deflate'));
  return new Uint8Array(await new Response(stream).arrayBuffer());
}

/** Makes the pixels of a row's cells dark in a line of bits after its filter. */
function darken(line, runs, left, size) {
  const gap = size >= GAP_FROM ? 1 : 0;
  for (let at = 0; at < runs.length; at += 2) {
    for (let column = runs[at]; column < runs[at + 1]; column += 1) {
      const begin = (column + left) * size;
      for (let pixel = begin; pixel < begin + size - gap; pixel += 1) line[1 + (pixel >> 3)] &= ~BITS[pixel & 7];
    }
  }
}

/**
 * The lines of a picture before compression. A border of one cell is around the box.
 * @param {{ rows: ArrayLike<number>[] }} pattern
 * @param {{ column: number, row: number }} place of the pattern's corner in the box
 * @param {{ width: number, height: number, size: number }} box in cells, and the pixels of a cell
 */
export function linesOf(pattern, place, { width, height, size }) {
  const length = 1 + Math.ceil((width + 2) * size / 8);
  const lines = new Uint8Array(length * (height + 2) * size).fill(255);
  for (let at = 0; at < lines.length; at += length) lines[at] = 0;
  const gap = size >= GAP_FROM ? 1 : 0;
  for (const [row, runs] of pattern.rows.entries()) {
    const begin = (row + place.row + 1) * size * length;
    const line = lines.subarray(begin, begin + length);
    darken(line, runs, place.column + 1, size);
    for (let copy = 1; copy < size - gap; copy += 1) lines.set(line, begin + copy * length);
  }
  return lines;
}

/** The head of a picture of one bit a pixel. */
export const headChunk = ({ width, height, size }) => (
  chunk('IHDR', words((width + 2) * size, (height + 2) * size), Uint8Array.of(1, 0, 0, 0, 0))
);

/**
 * A file with a head, texts, and the chunks of its pictures.
 * @param {Uint8Array} head
 * @param {Record<string, string | null>} texts by the keywords of the specification
 * @param {Uint8Array[]} pictures
 */
export function fileWith(head, texts, pictures) {
  const chunks = Object.entries(texts).filter(([, text]) => text).map(([name, text]) => textChunk(name, text));
  return new Blob([SIGNATURE, head, ...chunks, ...pictures, chunk('IEND')], { type: 'image/png' });
}

/** A pattern as a file. */
export async function pngOf(pattern, box, texts) {
  return fileWith(
    headChunk(box),
    texts,
    [chunk('IDAT', await compressed(linesOf(pattern, { column: 0, row: 0 }, box)))],
  );
}

/** A half word of two bytes. @param {number} number */
const half = (number) => Uint8Array.of(number >> 8, number & 255);

/** The chunk before a frame: the whole picture, for some milliseconds. It takes the place of the frame before. */
function frameChunk(place, { width, height, size }, time) {
  return chunk(
    'fcTL',
    words(place, (width + 2) * size, (height + 2) * size, 0, 0),
    half(time),
    half(1000),
    Uint8Array.of(0, 0),
  );
}

/**
 * Patterns in one box as an animation without end. A program that knows no animations shows the first.
 * @param {{ pattern: { rows: ArrayLike<number>[] }, place: { column: number, row: number } }[]} frames
 * @param {{ width: number, height: number, size: number }} box in cells, and the pixels of a cell
 * @param {number} time of a frame, in milliseconds
 * @param {Record<string, string | null>} texts
 * @param {AbortSignal} signal
 */
export async function apngOf(frames, box, time, texts, signal) {
  const pictures = [chunk('acTL', words(frames.length, 0))];
  let place = 0;
  for (const [at, { pattern, place: corner }] of frames.entries()) {
    // One after the other, since the lines of all frames together may be large.
    const data = await compressed(linesOf(pattern, corner, box));
    signal.throwIfAborted();
    pictures.push(frameChunk(place, box, time), at === 0 ? chunk('IDAT', data) : chunk('fdAT', words(place + 1), data));
    place += at === 0 ? 1 : 2;
  }
  return fileWith(headChunk(box), texts, pictures);
}
