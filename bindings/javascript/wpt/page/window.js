// What a window has beside the standard's interfaces: its frames, its place, timers, listeners of what the page itself tells, a parser.
import { parse } from "../../lib/index.js";
import { parseXML } from "./parsing.js";

const own = (value) => ({ value, configurable: true, writable: true, enumerable: true });
const got = (get) => ({ get, configurable: true, enumerable: true });

function place(page) {
  const { href, protocol, host, hostname, port, pathname, search, hash, origin } = page.url;
  return { href, protocol, host, hostname, port, pathname, search, hash, origin, toString: () => href };
}

function timers(page) {
  const after = (handler, values) => () => {
    page.run(() => (typeof handler === "function" ? handler.apply(page.global, values) : page.evaluate(String(handler), page.url.pathname)));
    page.step();
  };
  return {
    setTimeout: own((handler, wait, ...values) => Number(setTimeout(after(handler, values), wait))),
    setInterval: own((handler, wait, ...values) => Number(setInterval(after(handler, values), wait))),
    clearTimeout: own((timer) => clearTimeout(timer)),
    clearInterval: own((timer) => clearInterval(timer)),
    requestAnimationFrame: own((handler) => Number(setTimeout(after(handler, [0]), 16))),
    queueMicrotask: own(queueMicrotask),
  };
}

function listening(page) {
  page.listeners = new Map();
  const of = (type) => page.listeners.get(type) ?? page.listeners.set(type, []).get(type);
  return {
    addEventListener: own((type, listener) => void of(type).push(listener)),
    removeEventListener: own((type, listener) => void page.listeners.set(type, of(type).filter((it) => it !== listener))),
    postMessage: own((data) => void setTimeout(() => page.fire("message", { data }))),
  };
}

function around(page) {
  const { global, frames } = page;
  const numbered = [0, 1, 2, 3].map((at) => [at, got(() => frames.windows()[at])]);
  return {
    window: own(global),
    self: own(global),
    frames: own(global),
    parent: own(page.parent?.global ?? global),
    top: own(page.parent?.global.top ?? global),
    opener: own(null),
    length: got(() => frames.windows().length),
    ...Object.fromEntries(numbered),
    location: own(place(page)),
    console: own(console),
    performance: own(performance),
    onload: own(null),
    onerror: own(null),
  };
}

// A selection as far as tests of live ranges use one: it holds a range.
function selection() {
  let ranges = [];
  return {
    addRange(range) { if (!ranges.length) ranges = [range]; },
    removeAllRanges() { ranges = []; },
    getRangeAt: (at) => ranges[at],
    get rangeCount() { return ranges.length; },
  };
}

// DOMParser: a Document of its own for each text, whose scripts do not run. A text that is no XML throws here, and makes no Document with the error.
function parser(page) {
  const { implementation } = page.document;
  function emptied(document) {
    document.replaceChildren();
    return document;
  }
  return class DOMParser {
    parseFromString(text, type) {
      if (type === "text/html") return parse(String(text), { document: emptied(implementation.createHTMLDocument()) });
      const made = implementation.createDocument(null, null, null);
      parseXML(made, String(text), () => {});
      return made;
    }
  };
}

export function completeWindow(page) {
  Object.defineProperties(page.global, { ...around(page), ...timers(page), ...listening(page) });
  const selected = selection();
  Object.defineProperties(page.global, { getSelection: own(() => selected), DOMParser: own(parser(page)) });
  Object.defineProperty(page.global, "reportResults", { value: page.host.results, configurable: true });
}
