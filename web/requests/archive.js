// Requests to the archive's routes (docs/API.md). If no reply comes, reads are retried, and deposits are sent again
// with the same token. A census is not, since it may be what keeps the archive busy; it is only sent again if the
// gateway refused it for its rate.

import { indexHead } from './index.js';
import { keepSetting, setting } from '../shared/storage.js';
import { LONGEST_LIST } from '../shared/limits.js';
import { Refused, refusalOf } from './refusals.js';
import { readFile } from '../patterns/rle.js';
import { rulePart } from '../patterns/rule.js';

const TOGETHER = 4;
const PAUSES = [500, 1000, 2000];
const SEND_PAUSES = [1000, 2000, 4000];
/** For how many milliseconds a census that is refused for its rate is sent again: enough for a class of 50. */
const CENSUS_PATIENCE = 300_000;

const pause = (time, signal) => new Promise((resolve, reject) => {
  const stopped = () => reject(signal.reason);
  if (signal?.aborted) stopped();
  setTimeout(() => {
    signal?.removeEventListener('abort', stopped);
    resolve();
  }, time);
  signal?.addEventListener('abort', stopped, { once: true });
});

/** Lets a few requests run at once; the others wait in order. */
const line = { going: 0, waiting: [] };

async function inLine(act, signal) {
  if (line.going >= TOGETHER) await new Promise((resolve) => line.waiting.push(resolve));
  else line.going += 1;
  try {
    signal?.throwIfAborted();
    return await act();
  } finally {
    const next = line.waiting.shift();
    if (next) next();
    else line.going -= 1;
  }
}

/** One request: the bytes of the reply, or its refusal; `no-reply` if none came. */
async function askOnce(path, options) {
  let reply;
  let bytes;
  try {
    reply = await fetch(path, options);
    bytes = new Uint8Array(await reply.arrayBuffer());
  } catch (error) {
    if (options.signal?.aborted) throw options.signal.reason;
    throw new Refused('no-reply');
  }
  if (reply.status === 200 || reply.status === 201) return bytes;
  const refused = refusalOf(reply.status, new TextDecoder().decode(bytes));
  // The field for a member's name then says who logs in (member.js).
  if (refused.name === 'password') keepSetting('login', setting('login') ?? '');
  refused.wait = Number(reply.headers.get('retry-after') ?? 0) * 1000;
  throw refused;
}

/** Sends a request, and again after each pause as long as it did not reach the archive or had no effect. */
async function askAgain(path, options, pauses, onWait = (_error) => {}) {
  for (let tries = 0; ; tries += 1) {
    try {
      return await askOnce(path, options);
    } catch (error) {
      const again = ['no-reply', 'too-many-requests', 'unavailable'].includes(error.name);
      if (!again || tries === pauses.length) throw error;
      onWait(error);
      await pause(Math.max(pauses[tries], error.name === 'too-many-requests' ? error.wait : 0), options.signal);
    }
  }
}

function failRead(error) {
  if (error instanceof Refused) error.isRead = true;
  throw error;
}

const read = (path, signal) => inLine(() => askAgain(path, { signal }, PAUSES).catch(failRead), signal);

function parsed(bytes, key) {
  try {
    const value = JSON.parse(new TextDecoder().decode(bytes));
    if (key in value) return value;
  } catch {
    // As further down.
  }
  throw new Refused('unknown');
}

function recordOf(bytes) {
  try {
    return readFile(bytes, { ours: true });
  } catch {
    throw new Refused('unknown');
  }
}

/** The file of a deposit as bytes, and its record. */
export async function deposit(number, signal) {
  const bytes = await read(`/deposits/${number}`, signal);
  return { bytes, record: recordOf(bytes) };
}

/** A generation of a deposit as bytes, and its record. */
export async function generation(number, at, signal) {
  const bytes = await read(`/deposits/${number}/at/${at}`, signal);
  return { bytes, record: recordOf(bytes) };
}

/** Up to LONGEST_LIST deposits with a greater number, in ascending order. */
export async function depositsAfter(number, signal) {
  return parsed(await read(`/deposits/after/${number}`, signal), 'deposits').deposits;
}

/** For how many milliseconds the gateway may cache a list, and how often to ask for a row that is missing in it. */
const LIST_KEPT = 1100;
const ROW_TRIES = 3;

/**
 * The row of a deposit and that of the next one, if there is one. The gateway caches a list for up to two seconds, so a
 * list that was requested just before the deposit lacks it. Therefore the list begins one deposit earlier than the
 * search for the last one does, and is requested again.
 * @param {number} number
 * @param {AbortSignal} signal
 */
export async function depositRows(number, signal) {
  for (let tries = 1; ; tries += 1) {
    const rows = await depositsAfter(Math.max(0, number - 2), signal);
    const found = (id) => rows.find((row) => row.id === id) ?? null;
    if (found(number) || tries === ROW_TRIES) return { row: found(number), next: found(number + 1) };
    await pause(LIST_KEPT, signal);
  }
}

export async function kind(number, limit, signal) {
  return parsed(await read(`/deposits/${number}/kind/${limit}`, signal), 'kind');
}

export async function census(number, signal) {
  return parsed(await read(`/censuses/${number}`, signal), 'rows');
}

/** How often an object occurs in all censuses of its rule. */
export async function total(rule, code, limit, signal) {
  return parsed(await read(`/objects/${rulePart(rule)}/${encodeURIComponent(code)}/${limit}`, signal), 'total').total;
}

// The greatest number of a deposit seen so far: numbers only grow.
let seen = 0;

/**
 * The numbers at which to request lists to find the last deposit: at first far apart, then between the known bounds.
 */
function probes(low, high) {
  if (high === Infinity) return [10, 100, 1000, 10_000].map((lists) => low + lists * LONGEST_LIST);
  return [1, 2, 3, 4].map((part) => Math.floor(low + (high - low) * part / 5));
}

/**
 * The greatest number of a deposit, 0 for an empty archive. No route gives it, so it is searched for with lists, four
 * at a time, from a number that was seen or that the index has.
 */
export async function lastDeposit(signal) {
  let low = Math.max(seen, (await indexHead())?.counts.deposits ?? 0);
  let high = Infinity;
  for (let begins = [low]; low < high; begins = probes(low, high)) {
    const lists = await Promise.all(begins.map((begin) => depositsAfter(begin, signal)));
    for (const [at, rows] of lists.entries()) {
      if (rows.length === 0) high = Math.min(high, begins[at]);
      else low = Math.max(low, rows.at(-1).id);
      if (rows.length > 0 && rows.length < LONGEST_LIST) high = low;
    }
  }
  seen = low;
  return low;
}

const sent = (member, token, body, signal) => ({
  method: 'POST',
  headers: { 'x-member': member, 'x-token': token },
  body,
  signal,
});

/**
 * Deposits a file, and returns its number. If no reply comes, it is sent again with the same token, and `onWait` is
 * called.
 */
export async function sendDeposit(member, token, bytes, onWait, signal) {
  const number = parsed(
    await askAgain('/deposits', sent(member, token, bytes, signal), SEND_PAUSES, onWait),
    'deposit',
  ).deposit;
  seen = Math.max(seen, number);
  return number;
}

/**
 * Requests a census, and returns its number. If the gateway refuses it for its rate, it never reached the archive:
 * `onWait` is called with the milliseconds until it is sent again.
 */
export async function sendCensus(member, token, number, at, limit, onWait, signal) {
  const end = performance.now() + CENSUS_PATIENCE;
  for (;;) {
    try {
      const path = `/deposits/${number}/censuses/${at}/${limit}`;
      return parsed(await askOnce(path, sent(member, token, null, signal)), 'census').census;
    } catch (error) {
      if (error.name !== 'too-many-requests' || performance.now() > end) throw error;
      const wait = Math.max(error.wait, PAUSES[0]);
      onWait(wait);
      await pause(wait, signal);
    }
  }
}
