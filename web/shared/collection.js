// The address of a collection: an ordered list of deposits, with a title and captions, which is stored nowhere else.
//
//     /l/~Lesson_3,4,7at30~A_gun.2C_later
//
// is titled "Lesson 3", and has deposit 4, and generation 30 of deposit 7 with the caption "A gun, later". A text has
// `_` for a space, and `.` with two hexadecimal digits for each other sign of ASCII. So browsers, gateways and chats
// find no slash, dot or end of the address in it.

import { GENERATION_LIMIT } from './limits.js';

/**
 * A generation of a deposit; 0 is the deposit itself.
 * @typedef {{ number: number, at: number, caption: string }} Item
 */
/** @typedef {{ title: string, items: Item[] }} Collection */

export const MOST_ITEMS = 500;
export const LONGEST_CAPTION = 120;
/** Gateways refuse an address of more than 8,192 bytes, and some chats cut shorter ones. */
export const LONGEST_ADDRESS = 6000;

const ITEM = /^([0-9]{1,15})(?:at([0-9]{1,4}))?(?:~(.*))?$/i;

/** A text as one line without signs that can't be seen. @param {string} text */
export const captionOf = (text) => (
  [...text.replace(/[\p{Cc}\p{Cs}\p{Zl}\p{Zp}]+/gu, ' ')].slice(0, LONGEST_CAPTION).join('').trim()
);

/** @param {string} text */
const encoded = (text) => encodeURIComponent(captionOf(text))
  .replace(/[!'()*~._]/g, (sign) => `%${sign.charCodeAt(0).toString(16).toUpperCase()}`)
  .replaceAll('%20', '_')
  .replace(/%(?=[0-7])/g, '.');

/** @param {string} text @throws {URIError} if it was cut or changed */
const decoded = (text) => (
  captionOf(decodeURIComponent(text.replaceAll('_', ' ').replace(/\.([0-7][0-9A-F])/gi, '%$1')))
);

/** @param {Item} item */
const itemText = ({ number, at, caption }) => (
  `${number}${at === 0 ? '' : `at${at}`}${caption ? `~${encoded(caption)}` : ''}`
);

/** The address of a collection. @param {Collection} collection */
export function collectionAddress({ title, items }) {
  const parts = [...(title ? [`~${encoded(title)}`] : []), ...items.map(itemText)];
  return parts.length === 0 ? '/l' : `/l/${parts.join(',')}`;
}

/** @param {string} part @returns {Item | null} null if it can't be read */
function itemOf(part) {
  const [, number, at = '0', caption = ''] = ITEM.exec(part) ?? [];
  if (!(Number(number) > 0) || Number(at) > GENERATION_LIMIT) return null;
  try {
    return { number: Number(number), at: Number(at), caption: decoded(caption) };
  } catch {
    return null;
  }
}

/**
 * The collection of an address, and how many of its parts can't be read: an address may have been cut.
 * @param {string} list the part of the address after `/l/`
 * @returns {Collection & { unread: number }}
 */
export function readCollection(list) {
  const parts = list.split(',').filter(Boolean);
  let title = '';
  if (parts[0]?.startsWith('~')) {
    try {
      title = decoded(parts[0].slice(1));
      parts.shift();
    } catch {
      // Then it counts as a part that can't be read.
    }
  }
  const items = parts.map(itemOf).filter(Boolean).slice(0, MOST_ITEMS);
  return { title, items, unread: parts.length - items.length };
}

/** A deposit as a member types it: `7`, `#7`, `7 at 30`, or an address. */
const TYPED = /^(?:.*\/d\/|#)?([0-9]{1,15})(?:(?:\/at\/| ?at ?)([0-9]{1,4}))?\/?$/i;

/** The items that a text names: a deposit, a generation, or all of another collection. @param {string} text */
export function itemsNamed(text) {
  const list = text.trim().split('/l/')[1];
  if (list) return readCollection(list).items;
  const [, number, at = '0'] = TYPED.exec(text.trim()) ?? [];
  const item = number && itemOf(at === '0' ? number : `${number}at${at}`);
  return item ? [item] : [];
}
