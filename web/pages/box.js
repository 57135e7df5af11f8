// The search box in the head of each page: the address that its text leads to, and what it names besides deposits.

import { censusAddress, depositAddress, memberAddress, objectAddress } from '../shared/address.js';
import { patternOf, wellKnown } from '../patterns/code.js';
import { element, isMember } from '../shared/dom.js';
import { thumbnail } from '../drawing/draw.js';
import { folded } from '../requests/index.js';
import { readRule, ruleText } from '../patterns/rule.js';
import { ruleNamed } from '../patterns/rules.js';

const CODE = /^x[spq][1-9][0-9]{0,5}_[0-9a-z]+$/;
/** What codes begin with, and the objects of a period. Both lead to the list of objects. */
const BEGINNING = /^x[spq][1-9][0-9]{0,5}_?$/;
const PERIOD = /^period\s*([1-9][0-9]{0,3})$/;
/** An object in the addresses of Catagolue, or the end of one. */
const PLACE = /(?:^|\/)(x[spq][1-9][0-9]{0,5}_[0-9a-z]+)\/(b[0-8]*s[0-8]*)\/?$/;
const DEPOSIT = /^(?:#|no\.?|deposit)?\s*#?\s*([0-9]{1,15})$/i;
const CENSUS = /^(?:census|c)\s*#?\s*([0-9]{1,15})$/i;
const MEMBER = /^member\s+([a-z0-9-]+)$/i;
/** A rule as it is written in searches: with a digit or a slash, since "bs" is a word. */
const RULE = /[0-9/]/;
const SIDE = 48;
const MOST_OBJECTS = 8;

/** The canonical text of a rule; nothing if the text is not a rule. */
function ruleOf(text) {
  const rule = RULE.test(text) && text.length > 2 ? readRule(text) : 'bad-rule';
  return typeof rule === 'string' ? null : ruleText(rule);
}

/**
 * The address that a text leads to: an object by its code, a deposit or a census by its number, the deposits of a rule
 * or a member, the objects whose codes begin so or that have a period, or a search.
 * @param {string} typedText
 */
export function addressOf(typedText) {
  const text = typedText.trim();
  if (text === '') return '/find';
  const [word, ruleWord = ''] = text.split(/\s+(?=\S+$)/);
  if (CODE.test(text.toLowerCase())) return objectAddress('B3/S23', text.toLowerCase());
  if (CODE.test(word.toLowerCase()) && ruleOf(ruleWord)) return objectAddress(ruleOf(ruleWord), word.toLowerCase());
  const [, code, rule] = PLACE.exec(text.toLowerCase()) ?? [];
  if (code && ruleOf(rule)) return objectAddress(ruleOf(rule), code);
  const [deposit, census] = [DEPOSIT, CENSUS].map((form) => form.exec(text)?.[1]);
  if (deposit) return depositAddress(Number(deposit));
  if (census) return censusAddress(Number(census));
  const member = MEMBER.exec(text)?.[1].toLowerCase();
  if (isMember(member ?? '')) return memberAddress(member);
  if (ruleOf(text)) return `/find?${new URLSearchParams({ rule: ruleOf(text) })}`;
  const objects = text.toLowerCase();
  if (BEGINNING.test(objects)) return `/o?${new URLSearchParams({ text: objects })}`;
  const period = PERIOD.exec(objects)?.[1];
  if (period) return `/o?${new URLSearchParams({ kind: 'p', period })}`;
  return `/find?${new URLSearchParams({ text })}`;
}

/** Whether an address is a search for words. @param {string} address */
export const isSearch = (address) => address.startsWith('/find?text=');

/**
 * How well a name fits a text: 3 for the name itself, 2 for its beginning, 1 for the beginning of a word of it, else 0.
 */
function fitOf(name, text) {
  if (name === text || name === text.replace(/s$/, '') || name === text.replace(/ves$/, 'f')) return 3;
  if (name.startsWith(text)) return 2;
  // A sign in the text stands for any sign in the name, so "r-pentomino" is found by "r pentomino". Names of objects
  // have no letters of other scripts.
  if (!/^[a-z0-9][ -~]*$/.test(text)) return 0;
  return new RegExp(`(^|[^a-z0-9])${text.replace(/[^a-z0-9]/g, '[^a-z0-9]')}`).test(name) ? 1 : 0;
}

/** The objects of Conway's Life that have such a name, the best first. */
async function namedObjects(text) {
  const found = [];
  for (const [name, code, also] of await wellKnown()) {
    const fit = Math.max(fitOf(folded(name), text), also ? fitOf(folded(also), text) : 0);
    if (fit > 0) found.push({ code, name, fit });
  }
  return found
    .sort((object, other) => other.fit - object.fit || object.name.length - other.name.length)
    .slice(0, MOST_OBJECTS);
}

/**
 * A link to an object with its drawing.
 * @param {{code: string, name: string | null, rule?: string, detail?: string}} object
 */
export function objectLink({ code, name, rule = 'B3/S23', detail }) {
  const pattern = patternOf(code);
  return element('a', { class: 'object-link', href: objectAddress(rule, code) },
    pattern ? thumbnail(pattern, SIDE, SIDE) : null,
    element('span', {},
      element('strong', {}, name ?? element('code', {}, code)),
      element('small', {}, detail ?? (name ? element('code', {}, code) : '')),
    ),
  );
}

/**
 * What a text names besides deposits: objects, a rule, a member; a line for each.
 * @param {string} typedText
 * @param {string[]} members the names of members who have deposits
 */
export async function namedLines(typedText, members) {
  const text = folded(typedText.trim());
  if (text === '') return [];
  const objects = await namedObjects(text);
  const rule = ruleNamed(text);
  const lines = [];
  if (objects.length > 0) {
    lines.push(element('section', { class: 'named', id: 'named-objects' },
      element('h2', {}, 'Objects'),
      element('div', { class: 'object-links' }, objects.map((object) => objectLink(object))),
    ));
  }
  if (rule) {
    lines.push(element('p', { class: 'named' },
      'Rule: ',
      element('a', { href: `/find?${new URLSearchParams({ rule })}` }, `${typedText.trim()}, ${rule}`),
      ' · ',
      element('a', { href: `/o/${rule.replace('/', '-')}` }, 'its objects'),
    ));
  }
  if (members.includes(text)) {
    lines.push(element('p', { class: 'named' }, 'Member: ', element('a', { href: memberAddress(text) }, text)));
  }
  return lines;
}
