// What documents and elements of a page have beside the core: the parts of a page, ids and class names, reflected attributes, frames, markup.
// A name that the player has already is left as it is.
import { parseFragment, serialize } from "../../lib/index.js";

function* below(node) {
  for (let child = node.firstChild; child; child = child.nextSibling) {
    if (child.nodeType !== 1) continue;
    yield child;
    yield* below(child);
  }
}

const elementsWhere = (node, isMeant) => [...below(node)].filter(isMeant);
const childNamed = (node, name) => [...node.childNodes].find((child) => child.localName === name) ?? null;
const withClass = (name) => (element) => (element.getAttribute("class") ?? "").split(/\s+/).includes(name);

// What one part of a selector means: a name, ids, classes and attributes.
function compound(written) {
  const [, name, signs] = /^([\w-]+|\*)?((?:[#.][\w-]+|\[[\w-]+(?:=["']?[^\]"']*["']?)?\])*)$/.exec(written) ?? [];
  if (signs === undefined) throw new Error("not in this profile: selectors");
  const tests = [...signs.matchAll(/([#.[])([\w-]+)(?:=["']?([^\]"']*))?/g)].map(([, sign, its, value]) => {
    if (sign === "#") return (element) => element.getAttribute("id") === its;
    if (sign === ".") return withClass(its);
    return (element) => (value === undefined ? element.hasAttribute(its) : element.getAttribute(its) === value);
  });
  return (element) => (!name || name === "*" || element.localName === name) && tests.every((test) => test(element));
}

// What a simple selector means: parts with spaces between, each somewhere above the next; and several with commas between.
function meantBy(selector) {
  const ways = selector.split(",").map((way) => way.trim().split(/\s+/).map(compound).reverse());
  const above = (element, [test, ...others]) => {
    if (!test) return true;
    let found = element;
    while (found && !(test(found) && above(found.parentElement, others))) found = found.parentElement;
    return Boolean(found);
  };
  return (element) => ways.some(([last, ...others]) => last(element) && above(element.parentElement, others));
}

function reflected(name) {
  return {
    get() { return this.getAttribute(name) ?? ""; },
    set(value) { this.setAttribute(name, value); },
  };
}

// An attribute that is an address; its property is absolute, by the page's own address.
function address(name) {
  return {
    get() {
      const written = this.getAttribute(name);
      if (written === null) return "";
      try {
        return new URL(written, pageOf(this)?.url).href;
      } catch {
        return written;
      }
    },
    set(value) { this.setAttribute(name, value); },
  };
}

// The page of each document that is one.
const pages = new WeakMap();
const pageOf = (node) => pages.get(node.ownerDocument ?? node);

const method = (value) => ({ value, writable: true });
const getter = (get) => ({ get });

const inTrees = {
  getElementsByTagName: method(function (name) { return elementsWhere(this, (element) => name === "*" || element.localName === String(name).toLowerCase() || element.tagName === name); }),
  getElementsByClassName: method(function (name) { return elementsWhere(this, withClass(name)); }),
  querySelector: method(function (selector) { return elementsWhere(this, meantBy(String(selector)))[0] ?? null; }),
  querySelectorAll: method(function (selector) { return elementsWhere(this, meantBy(String(selector))); }),
};

const inDocuments = {
  ...inTrees,
  getElementById: method(function (id) { return elementsWhere(this, (element) => element.getAttribute("id") === id)[0] ?? null; }),
  head: getter(function () { return this.documentElement && childNamed(this.documentElement, "head"); }),
  body: getter(function () { return this.documentElement && childNamed(this.documentElement, "body"); }),
  title: getter(function () { return elementsWhere(this, (element) => element.localName === "title")[0]?.textContent ?? ""; }),
  defaultView: getter(function () { return pageOf(this)?.global ?? null; }),
  readyState: getter(function () { return pageOf(this)?.readyState ?? "complete"; }),
  location: getter(function () { return pageOf(this)?.global.location ?? null; }),
  currentScript: getter(() => null),
  addEventListener: method(function (type, listener) { pageOf(this)?.global.addEventListener(type, listener); }),
};

// The core has no CDATA sections: a Text stands for one, since most tests that make one only need text.
const standingIn = {
  createCDATASection: { configurable: true, enumerable: true, ...method(function (data) { return this.createTextNode(data); }) },
};

const inElements = {
  ...inTrees,
  id: reflected("id"),
  className: reflected("class"),
  ...Object.fromEntries(["name", "title", "lang", "content", "type"].map((name) => [name, reflected(name)])),
  href: address("href"),
  src: {
    get: address("src").get,
    set(value) {
      this.setAttribute("src", value);
      pageOf(this)?.frames.leave(this);
    },
  },
  // (as far as names and values are counted and shown)
  attributes: getter(function () { return this.getAttributeNames().map((name) => ({ name, value: this.getAttribute(name) })); }),
  style: { get() { return styleOf(this); }, set() {} },
  innerHTML: {
    get() { return [...this.childNodes].map(markupOf).join(""); },
    set(markup) { this.replaceChildren(parseFragment(String(markup), this)); },
  },
  contentWindow: getter(function () { return pageOf(this)?.frames.of(this)?.global ?? null; }),
  contentDocument: getter(function () { return pageOf(this)?.frames.of(this)?.document ?? null; }),
};

// A fragment of its own around a copy, so that a Text is written too.
function markupOf(node) {
  const around = node.ownerDocument.createDocumentFragment();
  around.append(node.cloneNode(true));
  return serialize(around);
}

const styles = new WeakMap();
const styleOf = (element) => styles.get(element) ?? styles.set(element, {}).get(element);

function complete(prototype, members) {
  for (const [name, member] of Object.entries(members)) {
    if (!(name in prototype)) Object.defineProperty(prototype, name, { configurable: true, enumerable: true, ...member });
  }
}

export function completeDocuments(page) {
  pages.set(page.document, page);
  complete(page.global.Document.prototype, inDocuments);
  Object.defineProperties(page.global.Document.prototype, standingIn);
  complete(page.global.Element.prototype, inElements);
  complete(page.global.DocumentFragment.prototype, { ...inTrees, getElementById: inDocuments.getElementById });
}
