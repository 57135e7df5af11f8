// Loads groups of pages: a visit loads a group with the first page that needs it.

import { Refused } from '../requests/refusals.js';
import { draft, keepDraft } from './storage.js';

/** The groups. Each further group splits shared modules into more files, so there are few. */
const GROUPS = {
  deposit: () => import('../pages/deposit.js'),
  lazyPages: () => import('../pages/lazyPages.js'),
};

/** The pauses before a group is requested again, in milliseconds, as for the archive. */
const PAUSES = [500, 1000, 2000];

/** Where the window remembers the group for which it loaded the whole page again. */
const LOADED_AGAIN = 'loaded-again';

/** Whether the site answers. */
const isThere = () => fetch('/', { method: 'HEAD', cache: 'no-store' }).then(({ ok }) => ok, () => false);

/**
 * Loads the whole page again, once for a group. A browser that remembers nothing would do so without end, so it
 * doesn't.
 */
async function loadAgain(name) {
  if (draft(LOADED_AGAIN) === name) return;
  keepDraft(LOADED_AGAIN, name);
  if (draft(LOADED_AGAIN) !== name) return;
  location.reload();
  await new Promise(() => {});
}

/**
 * The module of a group. If the site answers but has no such file, it was upgraded since the page was loaded, or the
 * browser remembers that the file once failed (Firefox does). Then only loading the page again helps.
 * @param {keyof typeof GROUPS} name
 * @returns {Promise<any>}
 */
export async function load(name) {
  for (let tries = 0; ; tries += 1) {
    try {
      const found = await GROUPS[name]();
      keepDraft(LOADED_AGAIN, null);
      return found;
    } catch (error) {
      if (!(error instanceof TypeError)) throw error;
    }
    if (tries > 0 && await isThere()) await loadAgain(name);
    if (tries === PAUSES.length) throw Object.assign(new Refused('no-reply'), { isRead: true });
    await new Promise((resolve) => setTimeout(resolve, PAUSES[tries]));
  }
}
