// The addresses of the pages (docs/GUIDE.md, The web pages), and opening one without a full reload.

import { ruleAddress } from '../patterns/rule.js';

export const depositAddress = (number, at = 0) => `/d/${number}${at === 0 ? '' : `/at/${at}`}`;
export const afterAddress = (number) => `/d/after/${number}`;
export const memberAddress = (member) => `/d/of/${member}`;
export const censusAddress = (number) => `/c/${number}`;
export const objectAddress = (rule, code) => `/o/${ruleAddress(rule)}/${encodeURIComponent(code)}`;

/** Opens a page and adds it to the window's history. */
export function go(address) {
  if (address === location.pathname + location.search) history.replaceState(null, '', address);
  else history.pushState(null, '', address);
  dispatchEvent(new PopStateEvent('popstate'));
}
