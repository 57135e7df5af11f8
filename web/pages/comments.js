// The comments of a deposit, below its picture: the first lines, and a button that shows all.

import { element, withCommas } from '../shared/dom.js';

const FIRST = 3;

/**
 * Comments without the scripts of LifeViewer, such as `[[ AUTOSTART ]]`, and without the lines that only had these.
 * @param {string[]} comments
 */
export function withoutScripts(comments) {
  // A script may span several lines. Its place is marked by a character that no line has.
  const rest = comments.join('\n').replace(/\[\[[^]*?\]\]/g, (script) => script.replace(/[^\n]+/g, '\r'));
  return rest
    .split('\n')
    .filter((line) => !/^[ \r]*\r[ \r]*$/.test(line))
    .map((line) => line.replaceAll('\r', '').trim());
}

/**
 * The comments as one block with the lines of the file; nothing if there are none.
 * @param {string[]} fileComments
 * @returns {HTMLElement | null}
 */
export function commentsPart(fileComments) {
  const comments = withoutScripts(fileComments);
  if (comments.length === 0) return null;
  const text = element('p', { class: 'comment', id: 'comments-text' });
  const show = (lines) => text.replaceChildren(lines.join('\n'));
  const part = element('section', { class: 'comments', 'aria-label': 'Comments' }, text);
  // One more line takes no more room than the button would.
  if (comments.length <= FIRST + 1) {
    show(comments);
    return part;
  }
  const button = element('button', {
    type: 'button',
    class: 'quiet',
    id: 'all-comments',
    'aria-expanded': 'false',
    'aria-controls': text.id,
  });
  const fold = (isOpen) => {
    show(isOpen ? comments : comments.slice(0, FIRST));
    button.setAttribute('aria-expanded', String(isOpen));
    button.replaceChildren(isOpen ? `The first ${FIRST} lines` : `All ${withCommas(comments.length)} lines`);
  };
  button.addEventListener('click', () => fold(button.getAttribute('aria-expanded') !== 'true'));
  fold(false);
  part.append(button);
  return part;
}
