// The first page: what this is, with a pattern that plays; the club's choice, the newest deposits, and the most
// frequent objects.

import { collectionAddress, readCollection } from '../shared/collection.js';
import { element, plural } from '../shared/dom.js';
import { load } from '../shared/groups.js';
import { indexHead } from '../requests/index.js';
import { cards, deposits } from './list.js';

/** Examples for the search box, one of each kind, and where they lead. */
const EXAMPLES = [
  ['loaf', '/find?text=loaf'],
  ['xq4_153', '/o/B3-S23/xq4_153'],
  ['B36/S23', '/find?rule=B36%2FS23'],
  ['#1', '/d/1'],
];

/** How many deposits of the club's choice are shown: a row of them. */
const CHOSEN = 6;
/** What plays if the club has chosen nothing. */
const FIRST = { number: 1, at: 0, caption: '' };

/** Waits until the page is idle, so that the deposits are drawn first. Browsers that can't tell get a short pause. */
const idle = () => new Promise((resolve) => {
  if (globalThis.requestIdleCallback) requestIdleCallback(resolve, { timeout: 1000 });
  else setTimeout(resolve, 200);
});

/** Adds the most frequent objects, whose files are loaded after the deposits. */
async function addFrequent(page, place) {
  try {
    await idle();
    const { frequentParts } = await load('lazyPages');
    const parts = await frequentParts(page.signal);
    if (!page.signal.aborted) place.replaceChildren(...parts);
  } catch {
    // The page is complete without them.
  }
}

/** The club's choice, from the setting CHOSEN, which the gateway writes into the page. */
function chosenCollection() {
  const { content } = /** @type {HTMLMetaElement} */ (document.querySelector('meta[name=chosen]'));
  return readCollection(content.split('/l/')[1] ?? '');
}

/** A section with the club's choice, if the club has made one. */
function chosenPart(page, { title, items }) {
  if (items.length === 0) return '';
  const rows = items.slice(0, CHOSEN).map(({ number, at, caption }) => ({ id: number, at, name: caption }));
  return element('section', { id: 'chosen' },
    element('h2', {}, title || 'Chosen'),
    cards(page, rows),
    element('p', {},
      element('a', { href: collectionAddress({ title, items }) }, `All ${plural(items.length, 'deposit')} in a row`),
    ),
  );
}

/** Plays the first of these deposits that there is, once the page is idle. */
async function play(page, places, items) {
  try {
    await idle();
    const { Playing } = await load('lazyPages');
    const playing = new Playing(page, places);
    if (await playing.show(items)) playing.run();
    else places.play.hidden = true;
  } catch {
    // The page is complete without it.
    places.play.hidden = true;
  }
}

/** The first page of the archive. */
export async function homePage(page) {
  const examples = EXAMPLES.flatMap(([text, href]) => [' ', element('a', { class: 'example', href }, text)]);
  const frequent = element('div', { class: 'frequent' });
  const chosen = chosenCollection();
  const places = {
    seen: element('div', { class: 'seen' }),
    line: element('p', { class: 'hint' }),
    play: element('a', { class: 'button main', id: 'play-it' }, 'Play'),
  };
  page.root.append(
    element('div', { class: 'welcome' },
      element('div', {},
        element('h1', { tabindex: -1 }, 'A club’s archive of Game of Life patterns'),
        element('p', { class: 'lead' },
          'Play a pattern, count its objects, and cite any generation by an address that never changes. '
            + 'Whenever you stop, the generation shown comes from a program that is proved correct. ',
          element('a', { href: '/about' }, 'About this archive'),
        ),
        element('p', { class: 'row' },
          places.play,
          element('a', { class: 'button', id: 'deposit-yours', href: '/new' }, 'Deposit yours'),
        ),
        element('p', { class: 'examples' }, 'Try the search box:', examples),
      ),
      element('div', { class: 'playing' }, places.seen, places.line),
    ),
    chosenPart(page, chosen),
  );
  const lastNumber = await deposits(page);
  if (lastNumber === 0) page.root.querySelector('.examples a[href="/d/1"]').remove();
  page.root.append(frequent);
  play(page, places, chosen.items.length > 0 ? chosen.items : [FIRST]);
  if ((await indexHead())?.counts.censuses > 0) addFrequent(page, frequent);
}
