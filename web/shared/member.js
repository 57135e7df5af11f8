// The member under whose name the pages deposit: a field or, if the club checks passwords, the name that logs in. A
// page learns of passwords from a refusal, or from a deposit that is another member's than the one that was typed.

import { element, field, isMember } from './dom.js';
import { keepSetting, setting } from './storage.js';
import { LONGEST_MEMBER } from './limits.js';

/** The setting of a club with passwords: the name that logs in; empty if it is not known yet. */
const LOGIN = 'login';
/** The name that a request carries if nobody typed one: the gateway replaces it. */
const ANYBODY = 'member';

export const rememberMember = (name) => keepSetting('member', name);

/** Says in place of the field whose deposits these will be. */
function loginPart(login, another) {
  return element('p', { class: 'login' },
    'This club checks passwords. Your deposits are stored for the member that you log in as',
    login ? [', last time ', element('strong', {}, login)] : '',
    '. ',
    element('button', { type: 'button', class: 'quiet', click: another }, 'Type a name'),
  );
}

/**
 * A field for a member's name, filled with the last one, which only this browser remembers, if it may store anything.
 * @param {string} id
 * @param {string} [hint]
 */
export function memberPart(id, hint) {
  const lower = () => { if (input.value !== input.value.toLowerCase()) input.value = input.value.toLowerCase(); };
  const input = element('input', {
    id,
    name: 'member',
    required: true,
    maxlength: LONGEST_MEMBER,
    autocomplete: 'username',
    autocapitalize: 'none',
    spellcheck: 'false',
    input: lower,
  });
  const [kept, login] = [setting('member') ?? '', setting(LOGIN)];
  const part = element('div');
  let isTyped = login === null;
  const type = () => {
    isTyped = true;
    keepSetting(LOGIN, null);
    input.value = kept;
    part.replaceChildren(field('Member', input, hint));
    input.focus();
  };
  input.value = isTyped ? kept : isMember(kept) ? kept : ANYBODY;
  part.append(isTyped ? field('Member', input, hint) : loginPart(login, type));
  return { part, input, typed: () => (isTyped ? input.value : null) };
}

/**
 * Compares the member of a deposit, as the archive has it, with the name that was typed, if any.
 * @param {string | null} typed
 * @param {string} owner
 * @returns {string | null} what to say if they differ
 */
export function learnMember(typed, owner) {
  if (owner === typed && setting(LOGIN) === null) return null;
  keepSetting(LOGIN, owner);
  rememberMember(owner);
  return typed === null || owner === typed
    ? null
    : `This club checks passwords: it is stored for ${owner}, who logged in, not for ${typed}.`;
}
