// What can't wait for the modules: the theme, before anything is drawn, and loading early what a deposit's page needs.
// This is a plain script, so that it runs first.

// The theme: light, dark, or that of the system.
{
  const dark = matchMedia('(prefers-color-scheme: dark)');
  const kept = () => {
    try {
      return localStorage.theme;
    } catch {
      return null;
    }
  };
  const set = (wanted) => {
    document.documentElement.dataset.theme = wanted === 'light' || wanted === 'dark'
      ? wanted
      : dark.matches ? 'dark' : 'light';
    dispatchEvent(new Event('recolored'));
  };
  dark.addEventListener('change', () => set(kept()));
  // Chosen on this page, or on another page in this browser.
  addEventListener('theme', (/** @type {CustomEvent} */ event) => set(event.detail));
  addEventListener('storage', () => set(kept()));
  set(kept());
}

// Preloads the deposit's file, and the modules of its page, which imports would discover only one after the other.
// deploy/bundle lists them in index.html.
{
  const ask = (attributes) => document.head.append(Object.assign(document.createElement('link'), attributes));
  // addresses: written by tools/make-tables from docs/addresses.csv
  const ADDRESS = /^\/d\/([0-9]{1,15})(?:\/at\/([0-9]{1,15}))?$/i;
  // end of addresses
  const number = ADDRESS.exec(location.pathname)?.[1];
  if (number) {
    ask({ rel: 'preload', as: 'fetch', crossOrigin: 'anonymous', href: `/deposits/${Number(number)}` });
    for (const href of document.currentScript.dataset.deposit.split(' ').filter(Boolean)) {
      ask({ rel: 'modulepreload', href });
    }
  }
}
