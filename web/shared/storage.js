// What this browser stores, if it may: settings permanently; unfinished work until the window is closed; and for each
// page its scroll position, and the link by which it was left.

function read(store, name) {
  try {
    return store()[name] ?? null;
  } catch {
    return null;
  }
}

function write(store, name, value) {
  try {
    if (value === null) store().removeItem(name);
    else store().setItem(name, value);
  } catch {
    // Then it is not remembered.
  }
}

const [forGood, forWindow] = [() => localStorage, () => sessionStorage];

export const setting = (name) => read(forGood, name);
export const keepSetting = (name, value) => write(forGood, name, value);
export const draft = (name) => read(forWindow, name);
export const keepDraft = (name, value) => write(forWindow, name, value);

/** The draft of the last copy, on any page: not every browser lets a page read its clipboard. */
export const COPIED = 'copied';

/** The draft of the address of the collection that was edited last. */
export const COLLECTION = 'collection';

/** The data stored with an entry in the window's history, so that going back finds the page as it was left. */
export const entryState = () => history.state ?? {};
export const keepEntryState = (changes) => history.replaceState({ ...history.state, ...changes }, '');
