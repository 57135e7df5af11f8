// The SHA-256 sum of bytes (FIPS 180-4) as 64 digits. Browsers offer it only on pages with TLS, which a club's may not
// have.

const rotated = (word, by) => (word >>> by) | (word << (32 - by));

/** The first 32 bits of the fractional part of a root of each of the first primes. */
function fractions(count, root) {
  const words = [];
  for (let number = 2; words.length < count; number += 1) {
    let prime = true;
    for (let factor = 2; factor * factor <= number; factor += 1) prime &&= number % factor !== 0;
    if (prime) words.push(((number ** (1 / root)) % 1) * 2 ** 32 | 0);
  }
  return words;
}

const ROUNDS = fractions(64, 3);
const BEGIN = fractions(8, 2);

function padded(bytes) {
  const room = new Uint8Array(Math.ceil((bytes.length + 9) / 64) * 64);
  room.set(bytes);
  room[bytes.length] = 0x80;
  new DataView(room.buffer).setUint32(room.length - 4, bytes.length * 8);
  return new DataView(room.buffer);
}

/** The 64 words of a block. */
function schedule(words, view, begin) {
  for (let at = 0; at < 16; at += 1) words[at] = view.getInt32(begin + at * 4);
  for (let at = 16; at < 64; at += 1) {
    const [early, late] = [words[at - 15], words[at - 2]];
    const small = rotated(early, 7) ^ rotated(early, 18) ^ (early >>> 3);
    const large = rotated(late, 17) ^ rotated(late, 19) ^ (late >>> 10);
    words[at] = (words[at - 16] + small + words[at - 7] + large) | 0;
  }
}

/** The digest of fewer than 2^29 bytes. */
export function sumOf(bytes) {
  const view = padded(bytes);
  const words = new Int32Array(64);
  const state = [...BEGIN];
  for (let begin = 0; begin < view.byteLength; begin += 64) {
    schedule(words, view, begin);
    let [a, b, c, d, e, f, g, h] = state;
    for (let at = 0; at < 64; at += 1) {
      const first = (
        h + (rotated(e, 6) ^ rotated(e, 11) ^ rotated(e, 25)) + ((e & f) ^ (~e & g)) + ROUNDS[at] + words[at]
      ) | 0;
      const second = ((rotated(a, 2) ^ rotated(a, 13) ^ rotated(a, 22)) + ((a & b) ^ (a & c) ^ (b & c))) | 0;
      [h, g, f, e, d, c, b, a] = [g, f, e, (d + first) | 0, c, b, a, (first + second) | 0];
    }
    [a, b, c, d, e, f, g, h].forEach((word, at) => { state[at] = (state[at] + word) | 0; });
  }
  return state.map((word) => (word >>> 0).toString(16).padStart(8, '0')).join('');
}
