// The most frequent objects of Conway's Life in all censuses, as links.

import { objectLink } from './box.js';
import { objectNames } from '../patterns/code.js';
import { element, plural, withCommas } from '../shared/dom.js';
import { indexHead, objectsOfRule } from '../requests/index.js';
import { partsOf, partsText } from '../patterns/parts.js';

const LIFE = 'B3/S23';
const SHOWN = 10;

/**
 * A section with the most frequent objects; nothing if there are none, or no index.
 * @param {AbortSignal} signal
 * @returns {Promise<HTMLElement[]>}
 */
export async function frequentParts(signal) {
  if (!await indexHead()) return [];
  const [objects, names] = await Promise.all([objectsOfRule(LIFE, signal), objectNames()]);
  if (objects.length === 0) return [];
  const links = await Promise.all(objects.slice(0, SHOWN).map(async ({ code, count }) => {
    const parts = names.has(code) ? null : await partsOf(code);
    return objectLink({ code, name: names.get(code) ?? (parts ? partsText(parts) : null), detail: withCommas(count) });
  }));
  return [element('section', { id: 'frequent' },
    element('h2', {}, 'Most frequent objects'),
    element('div', { class: 'object-links' }, links),
    element('p', {}, element('a', { href: '/o' }, `All ${plural(objects.length, 'object')}`)),
  )];
}
