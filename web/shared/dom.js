// Creating elements, and parts that several pages share.

import { LONGEST_MEMBER } from './limits.js';
import { nameOf, Refused, sentenceOf } from '../requests/refusals.js';

/** An element with attributes (a function is a listener, `true` an attribute without a value) and children. */
export function element(tag, attributes = {}, ...inside) {
  const made = document.createElement(tag);
  for (const [name, value] of Object.entries(attributes)) {
    if (typeof value === 'function') {
      made.addEventListener(name, value);
    } else if (value !== false && value !== null && value !== undefined) {
      made.setAttribute(name, value === true ? '' : value);
    }
  }
  made.append(...inside.flat().filter((part) => part !== null && part !== undefined && part !== false));
  return made;
}

const ICONS = {
  first: 'M3 3h2v10H3zM13 3v10L6 8z',
  back: 'M12 2v12L3 8z',
  less: 'M10 3 5 8l5 5',
  play: 'M4 2v12l9-6z',
  more: 'm6 3 5 5-5 5',
  pause: 'M4 3h3v10H4zM9 3h3v10H9z',
  full: 'M2 6V2h4M10 2h4v4M14 10v4h-4M6 14H2v-4',
};

/** An icon for a button, which also has a name; its path is one of those above, or `path`. */
export function icon(name, path = ICONS[name]) {
  const named = (tag, attributes) => {
    const made = document.createElementNS('http://www.w3.org/2000/svg', tag);
    for (const [key, value] of Object.entries(attributes)) made.setAttribute(key, value);
    return made;
  };
  const drawing = named('svg', { viewBox: '0 0 16 16', class: `icon ${name}`, 'aria-hidden': 'true' });
  drawing.append(named('path', { d: path }));
  return drawing;
}

/** A number with thousands separators. */
export const withCommas = (number) => number.toLocaleString('en');

/** `1 cell`, `2 cells`. */
export const plural = (number, noun, nouns = `${noun}s`) => `${withCommas(number)} ${number === 1 ? noun : nouns}`;

/** A field of a form with its label. */
export function field(label, input, hint) {
  const message = hint ? element('small', { id: `${input.id}-hint` }, hint) : null;
  if (message) input.setAttribute('aria-describedby', message.id);
  return element('p', { class: 'field' }, element('label', { for: input.id }, label), input, message);
}

/** Why something was refused, and what to do; with the line of the file, if it is known. */
export function refusal(error, advice) {
  if (!(error instanceof Refused)) throw error;
  return element('div', { class: 'refusal', role: 'alert' },
    element('p', {}, sentenceOf(error)),
    advice ? element('p', {}, advice) : null,
    element('p', { class: 'name' }, element('code', {}, nameOf(error))),
  );
}

/** A button that copies a text, even on pages without TLS, where browsers have no clipboard. */
export function copyButton(label, text, say) {
  const copy = async () => {
    const value = text();
    try {
      await navigator.clipboard.writeText(value);
    } catch {
      const room = element('textarea', { class: 'aside', 'aria-hidden': 'true' });
      room.value = value;
      document.body.append(room);
      room.select();
      document.execCommand('copy');
      room.remove();
    }
    say('Copied.');
  };
  return element('button', { type: 'button', click: copy }, label);
}

/** A button that tries again, if that may help; otherwise nothing. */
export function againButton(error, again) {
  const may = error.isRead && ['no-reply', 'unavailable', 'too-many-requests'].includes(error.name);
  const button = () => element('button', { type: 'button', class: 'again', click: again }, 'Try again');
  return may ? element('p', {}, button()) : null;
}

/** Adds parts to a page once they arrive. A page is complete without the index, so a failure is not reported. */
export function addLater(page, place, coming) {
  coming.then((parts) => { if (!page.signal.aborted) place.append(...parts); }, () => {});
}

const MEMBER = new RegExp(`^[a-z0-9-]{1,${LONGEST_MEMBER}}$`);
export const isMember = (text) => MEMBER.test(text);
