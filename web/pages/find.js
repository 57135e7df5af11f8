// The page that searches, and that of an object by its code, with its count in all censuses.

import { objectAddress } from '../shared/address.js';
import { total } from '../requests/archive.js';
import { limitOf, objectNames, patternOf } from '../patterns/code.js';
import { addLater, copyButton, element, plural } from '../shared/dom.js';
import { thumbnail } from '../drawing/draw.js';
import { indexHead } from '../requests/index.js';
import { objectFacts, objectParts } from './object.js';
import { partsOf, partsText } from '../patterns/parts.js';
import { rulePart, ruleOfAddress } from '../patterns/rule.js';
import { occurrences } from './censuses.js';
import { formOf, results } from './search.js';

export async function findPage(page, query) {
  const words = [...new URLSearchParams(query)].map(([name, value]) => (name === 'text' ? value : `${name} ${value}`));
  page.title([...words, query ? 'Found' : 'Find'].join(' · '));
  const head = await indexHead();
  page.root.append(
    element('h1', { tabindex: -1 }, query ? 'Found' : 'Find'),
    ...(head ? [formOf(query)] : [element('p', { class: 'empty' },
      'This archive has no search index, so deposits can’t be searched by name. '
        + 'Codes, numbers and members work without one: xq4_153, #7, census 3, member ann.',
    )]),
  );
  if (query) {
    await results(page, query);
    return;
  }
  page.root.append(
    element('h2', {}, 'A haul'),
    element('p', {},
      'The objects in random soups, as counted by ',
      element('code', {}, 'life-haul'),
      ': ',
      element('a', { href: '/haul' }, 'show a table'),
      '.',
    ),
  );
  if (head) {
    page.root.append(
      element('h2', {}, 'Lists'),
      element('p', { class: 'row' },
        element('a', { href: '/c' }, 'All censuses'),
        element('a', { href: '/index/feed.xml' }, 'New deposits as a feed'),
      ),
    );
  }
}

/** The parts of a group, each with a link to its page. */
function groupPart(parts) {
  const partLink = (part) => (
    part.code ? element('a', { href: objectAddress('B3/S23', part.code) }, partsText([part])) : partsText([part])
  );
  return element('p', { class: 'group' },
    'A group of objects that do not change each other: ',
    ...parts.flatMap((part, at) => [at === 0 ? '' : ' + ', partLink(part)]),
    '. The archive counts it as one object. ',
    element('a', { href: '/about#census' }, 'Why?'),
  );
}

/**
 * Has the archive confirm the parts of a group: it gives the total of an object's code, and refuses any other text.
 * @param {import('../patterns/parts.js').Part[]} parts
 * @param {AbortSignal} signal
 */
async function confirmedParts(parts, signal) {
  const coded = parts.filter(({ code }) => code);
  const counts = await Promise.all(coded.map(({ code }) => total('B3/S23', code, limitOf(code), signal)));
  const texts = coded.map(({ name }, at) => `${name} ${plural(counts[at], 'time')}`);
  return texts.length === 0
    ? []
    : [element('p', { class: 'hint', id: 'parts' }, `On their own, the archive has counted: ${texts.join(', ')}.`)];
}

/** An object by its code: the archive gives the total of a code that it can open, and refuses any other text. */
export async function codePage(page, givenRule, givenCode) {
  const code = decodeURIComponent(givenCode).toLowerCase();
  const rule = ruleOfAddress(decodeURIComponent(givenRule));
  page.title(code);
  const heading = element('h1', { tabindex: -1 }, element('code', {}, code));
  page.root.append(heading);
  const limit = limitOf(code);
  const count = await total(rule, code, limit, page.signal);
  const plain = rulePart(rule).replace('S', '/S');
  const name = plain === 'B3/S23' ? (await objectNames()).get(code) : null;
  const group = plain === 'B3/S23' ? await partsOf(code) : null;
  const called = [name, group ? partsText(group) : null].filter(Boolean).join(': ');
  if (called) {
    page.title(`${called} (${code})`);
    heading.replaceChildren(called, element('small', {}, ' ', element('code', {}, code)));
  }
  const url = location.origin + objectAddress(plain, code);
  const pattern = patternOf(code);
  const picture = element('div', { class: 'picture' }, thumbnail(pattern, 320, 200, `The object ${code}`));
  const parts = element('div', { class: 'object-parts' });
  const alone = element('div');
  const period = code.startsWith('xs') ? 1 : limit;
  const facts = objectFacts(code, period, pattern);
  page.root.append(
    element('div', { class: 'object' },
      element('div', {}, picture),
      element('div', {},
        facts.list,
        ...(group ? [groupPart(group), alone] : []),
        element('p', { class: 'total' },
          element('strong', {}, plural(count, 'time')),
          ` in all censuses of deposits under ${plain}.`,
        ),
      ),
    ),
    element('section', { class: 'share' },
      element('h2', {}, 'Share'),
      element('p', { class: 'row' },
        element('a', { class: 'address', href: url }, url),
        copyButton('Copy the address', () => url, page.say),
      ),
      parts,
    ),
  );
  page.say(`${code}: ${plural(count, 'time')} in all censuses.`);
  addLater(page, parts, objectParts(
    pattern,
    code,
    period,
    plain,
    picture,
    page,
    { title: called, name, isGroup: group !== null, listener: facts.listener },
  ));
  if (group) addLater(page, alone, confirmedParts(group, page.signal));
  const occurs = element('div');
  page.root.append(occurs);
  addLater(page, occurs, occurrences(page, plain, code));
}
