// Old addresses of the pages, which were after `#`; each redirects to its new one.

import { censusAddress } from '../shared/address.js';

/**
 * The old addresses, after `#`, and the new ones.
 * @type {[RegExp, (...parts: string[]) => string][]}
 */
const OLD = [
  [/^(?:deposits)?$/i, () => '/'],
  [/^deposits\/(after\/[0-9]+|of\/[a-z0-9-]+(?:\/before\/[0-9]+)?)$/i, (rest) => `/d/${rest}`],
  [/^deposit\/([0-9]+(?:\/at\/[0-9]+)?)$/i, (rest) => `/d/${rest}`],
  [/^censuses$/i, () => '/c'],
  [/^census\/([0-9]+)$/i, (number) => censusAddress(number)],
  [/^code\/([^/]+)\/([^/]+)$/i, (code, rule) => `/o/${rule}/${code}`],
  [/^(new|haul|find(?:\?.*)?)$/i, (same) => `/${same}`],
];

/** The address that replaced an old one; null if the text was never an address. */
export function newAddress(old) {
  const [form, made] = OLD.find(([form]) => form.test(old)) ?? [];
  return form ? made(...form.exec(old).slice(1)) : null;
}
