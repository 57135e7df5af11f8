// The search index (docs/FORMATS.md, The search index). It may be 15 minutes old, and nothing about it is proved. If
// the club has no index, the pages work without it.

import { element } from '../shared/dom.js';
import { Refused } from './refusals.js';

const PLACE = '/index/';
/** For how many milliseconds a list of blocks is reused. */
const FRESH = 60_000;
/**
 * How many blocks are requested at once. Over HTTP/2 each counts as a connection, and the gateway allows a client a
 * hundred.
 */
const TOGETHER = 8;
export const BLOCK = 1000;
const NONE = { counts: { deposits: 0, censuses: 0 }, blocks: { deposits: [], censuses: [], objects: [] } };

async function jsonOf(name) {
  try {
    const reply = await fetch(PLACE + name);
    if (reply.ok) return await reply.json();
  } catch {
    // As further down.
  }
  throw Object.assign(new Refused('no-reply'), { isRead: true });
}

let head = null;
let headAt = -Infinity;

/** The list of all blocks; null if there is no index, or one with another version. */
export function indexHead() {
  if (performance.now() - headAt > FRESH) {
    headAt = performance.now();
    head = jsonOf('index.json').then((found) => (found.version === 1 ? found : null), () => null);
  }
  return head;
}

/** The note about the index, shown wherever it is used. */
export function indexNote(head) {
  return element('p', { class: 'hint' },
    `From the search index of ${head.made.slice(0, 10)}, ${head.made.slice(11, 16)} UTC. `
      + 'It may be 15 minutes old, and nothing about it is proved. '
      + 'The pages that it links to show the archive’s own answers.',
  );
}

/** The day of each row of a block. */
function daysOf(block, count) {
  const days = [];
  for (const [at, [from, day]] of block.seen.entries()) {
    const end = block.seen[at + 1]?.[0] ?? block.first + count;
    days.push(...Array(end - from).fill(day));
  }
  return days;
}

/** Letters whose accent can't be removed by decomposition. */
const PLAIN = { ß: 'ss', ø: 'o', ł: 'l', đ: 'd', æ: 'ae', œ: 'oe', ð: 'd', þ: 'th', ı: 'i' };

/** A text in lower case and without accents, for searching. */
export const folded = (text) => text
  .normalize('NFKD')
  .replace(/\p{M}/gu, '')
  .toLowerCase()
  .replace(/[ßøłđæœðþı]/g, (letter) => PLAIN[letter]);

/** The deposits of a block that were not withdrawn, each with the texts to search. */
function depositsOf(block) {
  const withdrawn = new Set(block.withdrawn);
  const days = daysOf(block, block.name.length);
  const [authors, members] = [block.author, block.member].map((column) => column.of.map(folded));
  return block.name.map((name, at) => ({
    id: block.first + at,
    name,
    author: block.author.of[block.author.at[at]],
    member: block.member.of[block.member.at[at]],
    rule: block.rule.of[block.rule.at[at]],
    population: block.cells[at],
    width: block.width[at],
    height: block.height[at],
    day: days[at],
    search: { name: folded(name), author: authors[block.author.at[at]], member: members[block.member.at[at]] },
  })).filter(({ id }) => !withdrawn.has(id));
}

function censusesOf(block) {
  const days = daysOf(block, block.deposit.length);
  return block.deposit.map((deposit, at) => ({
    id: block.first + at,
    deposit,
    generation: block.generation[at],
    limit: block.limit[at],
    clusters: block.clusters[at],
    unresolved: block.unresolved[at],
    steady: block.steady[at] === 1,
    day: days[at],
  }));
}

const READ = {
  deposits: depositsOf,
  censuses: censusesOf,
  objects: (block) => block,
  comments: ({ first, text }) => ({ first, text: text.map(folded) }),
};
const blocks = new Map();

/** A parsed block, requested once. If it did not arrive, it is requested again the next time. */
function blockOf(kind, name) {
  if (!blocks.has(name)) {
    blocks.set(name, jsonOf(name).then(READ[kind]).catch((error) => {
      blocks.delete(name);
      headAt = -Infinity;
      throw error;
    }));
  }
  return blocks.get(name);
}

/** All blocks of a kind, the newest first, as they arrive: `came(block, how many have arrived, how many there are)`. */
export async function eachBlock(kind, came, signal) {
  // An older index has no comments.
  const names = (((await indexHead()) ?? NONE).blocks[kind] ?? []).toReversed();
  // They are handled in order, while the next few are being loaded.
  const asked = [];
  for (const at of names.keys()) {
    for (const name of names.slice(asked.length, at + TOGETHER)) {
      asked.push(blockOf(kind, name));
      asked.at(-1).catch(() => {});
    }
    const block = await asked[at];
    signal.throwIfAborted();
    came(block, at + 1, names.length);
  }
}

/** A deposit or a census from the index, or null. */
async function rowOf(kind, id) {
  const name = ((await indexHead()) ?? NONE).blocks[kind][Math.floor((id - 1) / BLOCK)];
  if (!name) return null;
  const rows = await blockOf(kind, name).catch(() => []);
  return rows.find((row) => row.id === id) ?? null;
}

export const indexedDeposit = (id) => rowOf('deposits', id);
export const indexedCensus = (id) => rowOf('censuses', id);

/** All deposits, the newest first; `came` gets how many blocks have arrived, and how many there are. */
export async function allDeposits(came, signal) {
  const found = [];
  await eachBlock('deposits', (block, number, all) => {
    for (let at = block.length - 1; at >= 0; at -= 1) found.push(block[at]);
    came(number, all);
  }, signal);
  return found;
}

/**
 * Adds comments to deposits; only searches need them.
 * @param {object[]} rows all deposits
 * @param {AbortSignal} signal
 */
export async function addComments(rows, signal) {
  const texts = new Map();
  await eachBlock('comments', ({ first, text }) => text.forEach((comment, at) => {
    if (comment) texts.set(first + at, comment);
  }), signal);
  for (const row of rows) row.search.comment = texts.get(row.id) ?? '';
}

/**
 * All objects in the censuses of a rule, the most frequent first: the count of each, its deposits, and its first
 * census.
 * @param {string} rule
 * @param {AbortSignal} signal
 */
export async function objectsOfRule(rule, signal) {
  const censuses = new Map();
  await eachBlock('censuses', (block) => { for (const row of block) censuses.set(row.id, row); }, signal);
  const found = new Map();
  await eachBlock('objects', (block) => {
    for (const [code, places] of Object.entries(block.rules[rule] ?? {})) {
      const object = found.get(code) ?? { code, count: 0, censuses: 0, deposits: new Set(), first: null };
      for (let at = 0; at < places.length; at += 2) {
        addPlace(object, censuses.get(block.first + places[at]), places[at + 1]);
      }
      found.set(code, object);
    }
  }, signal);
  return [...found.values()].sort((object, other) => other.count - object.count || (object.code < other.code ? -1 : 1));
}

/** Adds a census, with its count of an object. */
function addPlace(object, census, count) {
  object.count += count;
  object.censuses += 1;
  if (!census) return;
  object.deposits.add(census.deposit);
  if (!object.first || census.id < object.first.id) object.first = census;
}

/**
 * The rules that have objects, each with the least number of different objects, the greatest number first.
 * @param {AbortSignal} signal
 * @returns {Promise<[string, number][]>}
 */
export async function rulesWithObjects(signal) {
  /** @type {Map<string, Set<string>>} */
  const codes = new Map();
  await eachBlock('objects', (block) => {
    for (const [rule, objects] of Object.entries(block.rules)) {
      codes.set(rule, new Set([...codes.get(rule) ?? [], ...Object.keys(objects)]));
    }
  }, signal);
  const sizes = /** @type {[string, number][]} */ ([...codes].map(([rule, ruleCodes]) => [rule, ruleCodes.size]));
  return sizes.sort((size, other) => other[1] - size[1]);
}

/** Censuses with a property, the newest first. */
export async function censusesWith(is, signal) {
  const found = [];
  await eachBlock('censuses', (block) => found.push(...block.filter(is).reverse()), signal);
  return found;
}

/** The censuses that have an object of a rule, the newest first, each with how often it has it. */
export async function censusesOfObject(rule, code, signal) {
  const found = [];
  await eachBlock('objects', (block) => {
    const places = block.rules[rule]?.[code] ?? [];
    for (let at = places.length - 2; at >= 0; at -= 2) {
      found.push({ id: block.first + places[at], count: places[at + 1] });
    }
  }, signal);
  return found;
}

// ---- searching

/**
 * A query: words, a member, an author, a rule, and ranges `[least, greatest]` of cells, of the longer side, and of
 * days.
 */
export const NOTHING = { text: '', member: '', author: '', rule: '', cells: ['', ''], side: ['', ''], day: ['', ''] };

/** How well a word matches a deposit; 0 if it does not. */
function fit(word, { search, id }) {
  const at = search.name.indexOf(word);
  if (at === 0 || (at > 0 && /[^\p{L}\p{N}]/u.test(search.name[at - 1]))) return 50;
  if (at > 0) return 20;
  if (search.member === word || String(id) === word) return 40;
  if (search.author.includes(word)) return 10;
  if (search.member.includes(word)) return 5;
  return search.comment?.includes(word) ? 1 : 0;
}

const within = (value, [least, greatest]) => (least === '' || value >= least) && (greatest === '' || value <= greatest);

/** How well a deposit matches a query; 0 if it does not. */
function rank(row, asked) {
  if (asked.member && row.member !== asked.member) return 0;
  if (asked.author && !row.search.author.includes(asked.author)) return 0;
  if (asked.rule && row.rule !== asked.rule) return 0;
  if (!within(row.population, asked.cells) || !within(Math.max(row.width, row.height), asked.side)
    || !within(row.day, asked.day)) return 0;
  let sum = 1;
  for (const word of asked.words) {
    const found = fit(word, row);
    if (found === 0) return 0;
    sum += found;
  }
  if (asked.text === '') return sum;
  if (row.search.name === asked.text) return sum + 1000;
  return row.search.name.startsWith(asked.text) ? sum + 500 : sum;
}

/** The deposits that match a query, the best first; equal ones by age, the newest first. */
export function search(rows, query) {
  const text = folded(query.text.trim());
  const number = (part) => (part === '' ? '' : Number(part));
  const asked = {
    ...query,
    text,
    words: text.split(/\s+/).filter(Boolean),
    author: folded(query.author.trim()),
    cells: query.cells.map(number),
    side: query.side.map(number),
  };
  const found = [];
  for (const row of rows) {
    const sum = rank(row, asked);
    if (sum > 0) found.push({ row, sum });
  }
  return found.sort((match, other) => other.sum - match.sum || other.row.id - match.row.id).map(({ row }) => row);
}
