// The deposits: the newest, those after a number, those of a member.

import { afterAddress, depositAddress, go, memberAddress } from '../shared/address.js';
import { deposit, depositsAfter, generation, lastDeposit } from '../requests/archive.js';
import { element, plural, withCommas } from '../shared/dom.js';
import { thumbnail } from '../drawing/draw.js';
import { allDeposits, indexHead, indexNote } from '../requests/index.js';
import { entryState, keepEntryState } from '../shared/storage.js';
import { LONGEST_LIST } from '../shared/limits.js';

const SHOWN = 24;
const WIDTH = 176;
const HEIGHT = 120;
/** How many lists are requested at once when searching for the deposits of a member. */
const TOGETHER = 4;

/** Draws a deposit on its card once it is near the screen, and adds its name. */
function drawLater(page) {
  const watch = new IntersectionObserver((entries) => {
    for (const { isIntersecting, target } of entries) {
      if (isIntersecting) {
        watch.unobserve(target);
        /** @type {any} */ (target).draw();
      }
    }
  }, { rootMargin: '200px' });
  page.signal.addEventListener('abort', () => watch.disconnect());
  return watch;
}

/**
 * A deposit as a card. Of a row that is not from a list only the number is known, and a generation, if it is of one.
 * @param {any} page
 * @param {{ id: number, at?: number, name?: string, member?: string, population?: number, rule?: string }} row
 * @param {IntersectionObserver} watch
 */
function card(page, row, watch) {
  const { id, at = 0, name: known, member, population, rule } = row;
  const picture = element('div', { class: 'picture' });
  const name = element('strong', {}, known || `Deposit ${id}`);
  const facts = [
    `No. ${id}${at ? `, generation ${withCommas(at)}` : ''}`,
    member,
    population === undefined ? null : plural(population, 'cell'),
    rule === 'B3/S23' ? null : rule,
  ].filter(Boolean).join(' · ');
  const item = element('li', {},
    element('a', { href: depositAddress(id, at) }, picture, name, element('span', { class: 'facts' }, facts)),
  );
  item.draw = async () => {
    try {
      const { record } = await deposit(id, page.signal);
      const { pattern } = at === 0 ? record : (await generation(id, at, page.signal)).record;
      picture.replaceChildren(thumbnail(pattern, WIDTH, HEIGHT));
      if (record.name && !(at && known)) name.replaceChildren(record.name);
    } catch (error) {
      if (page.signal.aborted) return;
      if (error.name === 'withdrawn') item.remove();
      else picture.replaceChildren(error.name === 'unavailable' ? 'unavailable' : 'not drawn');
    }
  };
  watch.observe(item);
  return item;
}

export function cards(page, rows) {
  const watch = drawLater(page);
  return element('ul', { class: 'cards' }, rows.map((row) => card(page, row, watch)));
}

/** The links to older and newer deposits, which have keys. */
function pager(page, older, newer) {
  page.keys['['] = () => { if (older) go(older); };
  page.keys[']'] = () => { if (newer) go(newer); };
  return element('nav', { class: 'pager', 'aria-label': 'More deposits' },
    older ? element('a', { href: afterAddress(0) }, 'Oldest') : null,
    older ? element('a', { href: older, rel: 'next' }, '← Older') : null,
    newer ? element('a', { href: newer, rel: 'prev' }, 'Newer →') : null,
    newer ? element('a', { href: '/d' }, 'Newest') : null,
  );
}

/** `j` and `k` go from card to card. */
export function walk(page) {
  const by = (step) => () => {
    const links = [...page.root.querySelectorAll('.cards a')];
    const at = links.indexOf(document.activeElement);
    links[Math.min(Math.max(at < 0 ? 0 : at + step, 0), links.length - 1)]?.focus();
  };
  page.keys.j = by(1);
  page.keys.k = by(-1);
}

/** The first deposits of a list as cards, and a button that shows more. */
export function shownRows(page, rows) {
  const list = element('div');
  const moreButton = element('button', { type: 'button', class: 'more' });
  let shown = 0;
  const show = (number) => {
    list.append(cards(page, rows.slice(shown, shown + number)));
    shown = Math.min(shown + number, rows.length);
    moreButton.hidden = shown >= rows.length;
    const next = Math.min(SHOWN, rows.length - shown);
    moreButton.textContent = `Show ${withCommas(next)} more of ${withCommas(rows.length)}`;
  };
  moreButton.addEventListener('click', () => {
    show(SHOWN);
    keepEntryState({ shown });
  });
  show(entryState().shown ?? SHOWN);
  walk(page);
  return [list, element('p', {}, moreButton)];
}

const nothing = () => element('p', { class: 'empty' },
  'This list is still empty. ',
  element('a', { href: '/new' }, 'Make a deposit'),
  ' and be the first.',
);

/**
 * The deposits after a number, the greatest first; without a number, the newest. Returns the greatest number of all.
 */
export async function deposits(page, digits) {
  // The first page has its own heading.
  const isFirst = page.root.querySelector('h1') !== null;
  page.title(isFirst ? '' : `Deposits${digits === undefined ? '' : ` after ${withCommas(Number(digits))}`}`);
  page.root.append(isFirst ? element('h2', {}, 'Newest deposits') : element('h1', { tabindex: -1 }, 'Deposits'));
  const lastNumber = await lastDeposit(page.signal);
  const after = digits === undefined ? Math.max(0, lastNumber - SHOWN) : Number(digits);
  const rows = (await depositsAfter(after, page.signal)).slice(0, SHOWN).reverse();
  walk(page);
  if (rows.length === 0) {
    page.root.append(lastNumber === 0 ? nothing() : element('p', { class: 'empty' },
      `There is no deposit after ${withCommas(after)}; the newest is `,
      element('a', { href: depositAddress(lastNumber) }, withCommas(lastNumber)),
      '.',
    ));
    return lastNumber;
  }
  const [first, end] = [rows.at(-1).id, rows[0].id];
  page.root.append(
    element('p', { class: 'count' },
      `${withCommas(first)} to ${withCommas(end)} of ${withCommas(Math.max(lastNumber, end))}`,
    ),
    cards(page, rows),
    pager(
      page,
      after > 0 ? afterAddress(Math.max(0, after - SHOWN)) : null,
      end < lastNumber ? afterAddress(after + SHOWN) : null,
    ),
    isFirst
      ? ''
      : element('p', {}, element('a', { href: '/l' }, 'Make a collection'), ' of deposits in an order of yours'),
  );
  page.say(`${plural(rows.length, 'deposit')}, ${first} to ${end}.`);
  return lastNumber;
}

/** The deposits after a number, list by list up to the newest one. */
async function newer(after, signal) {
  const found = [];
  for (;;) {
    const rows = await depositsAfter(found.at(-1)?.id ?? after, signal);
    found.push(...rows);
    if (rows.length < LONGEST_LIST) return found;
  }
}

/** All deposits of a member, the newest first: from the index, and newer ones from the archive's lists. */
async function indexedOf(head, member, message, signal) {
  const since = await newer(head.counts.deposits, signal);
  const all = await allDeposits((number, of) => {
    if (number < of) message.replaceChildren(`Reading the index: ${withCommas(number)} of ${withCommas(of)} blocks…`);
  }, signal);
  return [...since.reverse(), ...all].filter((row) => row.member === member);
}

/** The same without an index: searches all lists. */
async function listedOf(member, message, signal) {
  const found = [];
  for (let before = await lastDeposit(signal) + 1; before > 1; before -= TOGETHER * LONGEST_LIST) {
    message.replaceChildren(
      `Searching the lists: ${plural(found.length, 'deposit')} so far, ${withCommas(before - 1)} left to search…`,
    );
    const begins = Array.from({ length: TOGETHER }, (_, at) => before - 1 - (at + 1) * LONGEST_LIST)
      .filter((begin) => begin > -LONGEST_LIST);
    const lists = await Promise.all(begins.map((begin) => (
      depositsAfter(Math.max(0, begin), signal)
        .then((rows) => rows.filter((row) => row.id <= begin + LONGEST_LIST).reverse())
    )));
    found.push(...lists.flat().filter((row) => row.member === member));
  }
  return found;
}

/** The deposits of a member, the newest first; with a number, those before it. */
export async function depositsOf(page, member, before = Infinity) {
  page.title(`Deposits of ${member}`);
  const message = element('p', { class: 'count' }, 'Looking…');
  page.root.append(element('h1', { tabindex: -1 }, `Deposits of ${member}`), message);
  const head = await indexHead();
  const all = head ? await indexedOf(head, member, message, page.signal) : await listedOf(member, message, page.signal);
  const rows = all.filter((row) => row.id < Number(before));
  message.replaceChildren(rows.length === 0 ? 'None.' : plural(rows.length, 'deposit'));
  page.root.append(...shownRows(page, rows), ...(head ? [indexNote(head)] : []));
  page.say(`${plural(rows.length, 'deposit')} of ${member}.`);
}
