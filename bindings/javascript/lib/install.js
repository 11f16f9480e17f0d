/** A page on the global object of node, for tests that look for `document` and its like there. */
import { createPage } from "./page/index.js";

export const EMPTY = "<!DOCTYPE html><html><head></head><body></body></html>";
export const ADDRESS = "http://localhost/";

/** Names that the page has in the host's place, beside its interfaces; of any other that both have, the host's stays. */
const REPLACED = new Set(["navigator", "FormData", "structuredClone"]);

const hostNames = () => new Map(Object.entries(Object.getOwnPropertyDescriptors(globalThis)));

/** A page's interfaces are functions with a prototype that is an interface's, whose name they have. */
const isInterface = (window, name) => window[name]?.prototype?.[Symbol.toStringTag] === name;

function restore(name, before) {
  if (before.has(name)) Object.defineProperty(globalThis, name, before.get(name));
  else delete globalThis[name];
}

/**
 * Puts a page on the global object: `window` is that object then. Timers, `console`, `URL` and what else the host has stay the host's. Returns a function
 * that takes all of it away again. The options are those of `createPage`, and `html`.
 */
export function install({ html = EMPTY, url = ADDRESS, ...options } = {}) {
  const before = hostNames();
  const window = createPage(html, { ...options, url, global: globalThis });
  for (const name of before.keys()) if (!REPLACED.has(name) && !isInterface(window, name)) restore(name, before);
  const names = Object.getOwnPropertyNames(globalThis);
  return () => {
    window.close();
    for (const name of names) restore(name, before);
  };
}
