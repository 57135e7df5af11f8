// Finds the page for an address, and handles keys. An address names what is shown: `/d/7/at/30`, `/c/3`,
// `/o/B3-S23/xq4_153`.

import { go, memberAddress } from './shared/address.js';
import { againButton, element, isMember, refusal } from './shared/dom.js';
import { load } from './shared/groups.js';
import { entryState, keepEntryState, keepSetting, setting } from './shared/storage.js';
import { passFiles } from './shared/handover.js';
import { homePage } from './pages/home.js';
import { deposits, depositsOf } from './pages/list.js';
import { Refused } from './requests/refusals.js';

/** A page of a group. */
const lazyPage = (name, begin) => async (page, ...parts) => {
  const module = await load(name);
  if (!page.signal.aborted) await module[begin](page, ...parts);
};

// addresses: written by tools/make-tables from docs/addresses.csv
const ADDRESSES = {
  home: /^\/$/i,
  deposits: /^\/d$/i,
  after: /^\/d\/after\/([0-9]{1,15})$/i,
  member: /^\/d\/of\/([a-z0-9-]{1,32})(?:\/before\/([0-9]{1,15}))?$/i,
  deposit: /^\/d\/([0-9]{1,15})(?:\/at\/([0-9]{1,15}))?$/i,
  new: /^\/new$/i,
  find: /^\/find$/i,
  censuses: /^\/c$/i,
  census: /^\/c\/([0-9]{1,15})$/i,
  haul: /^\/haul$/i,
  objects: /^\/o(?:\/([^/]+))?$/i,
  code: /^\/o\/([^/]+)\/([^/]+)$/i,
  compare: /^\/compare$/i,
  collection: /^\/l$/i,
  list: /^\/l\/(.+)$/i,
  about: /^\/about$/i,
};
// end of addresses

/**
 * Each page: its address, its link in the head, and the function that shows it.
 * @type {[RegExp, string, (page: Page, ...parts: any[]) => unknown][]}
 */
const PAGES = [
  [ADDRESSES.home, 'deposits', homePage],
  [ADDRESSES.deposits, 'deposits', (page) => deposits(page)],
  [ADDRESSES.after, 'deposits', deposits],
  [ADDRESSES.member, 'deposits', (page, member, before) => depositsOf(page, member.toLowerCase(), before)],
  [ADDRESSES.deposit, 'deposits', lazyPage('deposit', 'depositPage')],
  [ADDRESSES.new, 'new', lazyPage('lazyPages', 'depositForm')],
  [ADDRESSES.find, 'find', (page) => lazyPage('lazyPages', 'findPage')(page, location.search.slice(1))],
  [ADDRESSES.censuses, 'find', lazyPage('lazyPages', 'censusesPage')],
  [ADDRESSES.census, 'find', lazyPage('lazyPages', 'censusPage')],
  [ADDRESSES.haul, 'find', lazyPage('lazyPages', 'haulPage')],
  [ADDRESSES.objects, 'objects', lazyPage('lazyPages', 'catalogPage')],
  [ADDRESSES.code, 'objects', lazyPage('lazyPages', 'codePage')],
  [ADDRESSES.compare, 'deposits', lazyPage('lazyPages', 'comparePage')],
  [ADDRESSES.collection, 'deposits', lazyPage('lazyPages', 'collectionPage')],
  [ADDRESSES.list, 'deposits', lazyPage('lazyPages', 'collectionPage')],
  [ADDRESSES.about, 'about', lazyPage('lazyPages', 'aboutPage')],
];

const main = document.getElementById('main');
const status = document.getElementById('status');
const keysDialog = /** @type {HTMLDialogElement} */ (document.getElementById('keys'));
const myLink = /** @type {HTMLAnchorElement} */ (document.getElementById('mine'));
const box = /** @type {HTMLInputElement} */ (document.getElementById('box'));
let current = null;

/** What a page gets: its root element, its abort signal, a function for status messages, and its keys. */
class Page {
  root = element('div', { class: 'page' });
  keys = {};
  #end = new AbortController();

  get signal() {
    return this.#end.signal;
  }

  end() {
    this.#end.abort(new DOMException('another page', 'AbortError'));
  }

  /** Sets the title of the window. Without a text it is the name of the site. */
  title(text) {
    document.title = text ? `${text} · Life archive` : 'Life archive';
  }

  say(text) {
    status.textContent = text;
  }

  /** Shows that a drop or a paste had nothing for these pages. */
  sayNothing(text) {
    this.root.querySelector('.nothing')?.remove();
    this.root.prepend(element('p', { class: 'refusal nothing', role: 'alert' }, text));
  }
}

/** Refusals after which the same address may work later. */
const NO_REPLIES = ['no-reply', 'unavailable', 'too-many-requests'];

function fail(page, error) {
  if (page.signal.aborted) return;
  const refused = error instanceof Refused ? error : new Refused('unknown');
  if (refused !== error) console.error(error);
  if (!page.root.querySelector('h1')) {
    const heading = NO_REPLIES.includes(refused.name) ? 'No reply' : 'Not found';
    page.title(heading);
    page.root.append(element('h1', { tabindex: -1 }, heading));
  }
  page.root.append(
    ...[refusal(refused), againButton(refused, show)].filter(Boolean),
    element('p', {}, element('a', { href: '/' }, 'The newest deposits')),
  );
}

/** After how many milliseconds with nothing to show a page says that it is waiting. */
const WAITING = 400;
/** How many milliseconds after the last scroll the position is stored. */
const STILL = 100;
let scrolled = null;

/** Tells screen readers that a page is waiting; the style sheet shows it to others. */
function sayWaiting(page) {
  setTimeout(() => {
    if (current === page && main.hasAttribute('aria-busy')) page.say('Waiting for the archive…');
  }, WAITING);
}

/** A path without slashes at its end. */
const withoutSlash = (path) => path.replace(/(.)\/+$/, '$1');

/** The page for a path; nothing if no page has this path. */
const pageOf = (path) => PAGES.find(([form]) => form.test(withoutSlash(path)));

/** The current path. An old address, after `#`, is replaced by its new one, and a slash at the end is dropped. */
async function pathNow(page) {
  const path = withoutSlash(location.pathname);
  if (path !== location.pathname) history.replaceState(history.state, '', path + location.search + location.hash);
  if (path !== '/' || location.hash === '') return path;
  const { newAddress } = await load('lazyPages');
  page.signal.throwIfAborted();
  const address = newAddress(location.hash.slice(1));
  if (address) history.replaceState(history.state, '', address);
  return address ? location.pathname : location.hash;
}

/** Marks the link to the current part of the site. */
function markLinks(part) {
  for (const link of /** @type {NodeListOf<HTMLElement>} */ (document.querySelectorAll('nav [data-page]'))) {
    if (link.dataset.page === part) link.setAttribute('aria-current', 'page');
    else link.removeAttribute('aria-current');
  }
}

/** A link to the deposits of the member who last used this browser. */
function markMember() {
  const member = setting('member');
  myLink.hidden = !isMember(member ?? '');
  if (!myLink.hidden) myLink.href = memberAddress(member);
}

/** The search box shows the words of the current search, and is empty on other pages. */
function fillBox(path) {
  box.value = path === '/find' ? new URLSearchParams(location.search).get('text') ?? '' : '';
}

/** The link of a page by which it was left before, if there is one, and otherwise its heading. */
const focusOf = (page, followed) => (
  [...page.root.querySelectorAll('a')].find((link) => link.getAttribute('href') === followed)
    ?? page.root.querySelector('h1')
);

async function show() {
  const { scroll = 0, followed } = entryState();
  clearTimeout(scrolled);
  current?.end();
  const page = current = new Page();
  main.replaceChildren(page.root);
  main.setAttribute('aria-busy', 'true');
  scrollTo(0, 0);
  sayWaiting(page);
  try {
    const path = await pathNow(page);
    page.signal.throwIfAborted();
    const [form, part, begin] = pageOf(path) ?? [];
    markLinks(part);
    markMember();
    fillBox(path);
    if (!form) throw new Refused('no-such-page');
    await begin(page, ...form.exec(path).slice(1));
  } catch (error) {
    fail(page, error);
  }
  if (current !== page) return;
  main.removeAttribute('aria-busy');
  focusOf(page, followed)?.focus({ preventScroll: true });
  scrollTo(0, scroll);
  if (scroll === 0 && location.hash) document.getElementById(location.hash.slice(1))?.scrollIntoView();
}

// ---- keys

const GLOBAL = {
  l: () => go('/'),
  n: () => go('/new'),
  f: () => go('/find'),
  '?': () => keysDialog.showModal(),
  '/': () => (/** @type {HTMLInputElement | null} */ (document.getElementById('search-text')) ?? box).select(),
};

/** Whether letters, digits and signs are commands: who dictates, or types by mistake, can turn them off. */
const areCommands = () => setting('letters') !== 'off';

/**
 * Whether the focused element handles a key itself: a field handles every key, a button or link those that press it.
 */
function isTaken(event) {
  const at = event.target;
  if (event.ctrlKey || event.metaKey || event.altKey || keysDialog.open) return true;
  if (event.key.length === 1 && event.key !== ' ' && !areCommands()) return true;
  if (at.matches('input[type=range]')) return event.key.startsWith('Arrow') || ['Home', 'End'].includes(event.key);
  if (at.matches('input, textarea, select')) return true;
  return at.matches('button, summary, a') && [' ', 'Enter'].includes(event.key);
}

document.addEventListener('keydown', (event) => {
  if (isTaken(event)) return;
  const name = event.shiftKey && event.key.startsWith('Arrow') ? `shift ${event.key}` : event.key;
  const act = current?.keys[name] ?? GLOBAL[name];
  if (!act) return;
  event.preventDefault();
  act();
});

// ---- files dropped on any page

/** What a table of a haul begins with, by which it is known on any page. */
const HAUL = '# root ';

async function takeFiles(files) {
  try {
    const isHaul = await files[0].slice(0, HAUL.length).text() === HAUL;
    if (current.acceptFiles && (!isHaul || location.pathname === '/haul')) {
      current.acceptFiles(files);
      return;
    }
    passFiles(files);
    go(isHaul ? '/haul' : '/new');
  } catch (error) {
    fail(current, error);
  }
}

/**
 * The files of a drop, and the pattern files of its folders. A drop's data exist only during its event, so they are
 * read before any await.
 */
async function dropped({ items, files: droppedFiles }) {
  const [entries, files] = [[...items].map((item) => item.webkitGetAsEntry?.()), [...droppedFiles]];
  if (!entries.some((entry) => entry?.isDirectory)) return files;
  const { NO_FILES, filesOf } = await load('lazyPages');
  const found = (await Promise.all(entries.filter(Boolean).map((entry) => filesOf(entry)))).flat();
  if (found.length === 0) current.sayNothing(NO_FILES);
  return found;
}

/** Accepts a drag if it has files, and returns whether it does. */
function takesDrag(event) {
  if (![...event.dataTransfer.types].includes('Files')) return false;
  event.preventDefault();
  document.body.classList.toggle('dragging', event.type !== 'drop');
  return true;
}

// If the page changes during a drag, only `dragenter` comes before the drop.
document.addEventListener('dragenter', takesDrag);
document.addEventListener('dragover', takesDrag);
document.addEventListener('dragleave', (event) => {
  if (!event.relatedTarget) document.body.classList.remove('dragging');
});
document.addEventListener('drop', (event) => {
  if (takesDrag(event)) {
    dropped(event.dataTransfer).then((files) => {
      if (files.length > 0) takeFiles(files);
    }, (error) => fail(current, error));
  }
});
document.addEventListener('paste', (event) => {
  if (event.target instanceof Element && event.target.matches('input, textarea')) return;
  const files = [...event.clipboardData.files];
  const text = event.clipboardData.getData('text/plain');
  if (files.length > 0) takeFiles(files);
  else pasted(text).catch((error) => fail(current, error));
});

/** Takes a text if it can be a pattern. */
async function pasted(text) {
  const { mayBePattern } = await load('lazyPages');
  if (mayBePattern(text)) await takeFiles([new Blob([text])]);
  else current.sayNothing('There is no pattern on the clipboard.');
}

// ---- the theme, and whether letters are commands, which this browser remembers

const theme = /** @type {HTMLSelectElement} */ (document.getElementById('theme'));
const keptTheme = () => { theme.value = ['light', 'dark'].includes(setting('theme')) ? setting('theme') : 'system'; };
theme.addEventListener('change', () => {
  keepSetting('theme', theme.value === 'system' ? null : theme.value);
  dispatchEvent(new CustomEvent('theme', { detail: theme.value }));
});
const letters = /** @type {HTMLSelectElement} */ (document.getElementById('letters'));
const keptLetters = () => { letters.value = areCommands() ? 'on' : 'off'; };
letters.addEventListener('change', () => keepSetting('letters', letters.value === 'off' ? 'off' : null));
for (const kept of [keptTheme, keptLetters]) {
  addEventListener('storage', kept);
  kept();
}

// ---- the search box

document.getElementById('search').addEventListener('submit', async (event) => {
  event.preventDefault();
  try {
    const { addressOf } = await load('lazyPages');
    go(addressOf(box.value));
  } catch (error) {
    fail(current, error);
  }
});

document.getElementById('keys-button').addEventListener('click', () => keysDialog.showModal());
document.getElementById('skip').addEventListener('click', () => main.focus());
history.scrollRestoration = 'manual';
addEventListener('scroll', () => {
  clearTimeout(scrolled);
  scrolled = setTimeout(() => keepEntryState({ scroll: scrollY }), STILL);
}, { passive: true });
addEventListener('popstate', show);
// Links to pages are handled here, unless they open in another tab or window.
document.addEventListener('click', (event) => {
  const link = event.target instanceof Element && event.target.closest('a');
  if (!link?.href || event.defaultPrevented || event.button !== 0
    || event.ctrlKey || event.metaKey || event.shiftKey || event.altKey) return;
  if (link.origin !== location.origin || link.hasAttribute('download') || !pageOf(link.pathname)) return;
  event.preventDefault();
  if (main.contains(link)) keepEntryState({ followed: link.getAttribute('href') });
  go(link.pathname + link.search + link.hash);
});
show();
