/** What Documents have of a page (HTML Standard, section 3.1): its parts by name, who has the focus, events to be made. */
import { Document, documentKnown, documentOf, HTML, Node, pageOf, realmOf, refuse } from "./core.js";
import { importing, inDocuments as attributesInDocuments, inNodes as attributesInNodes } from "./attributes.js";
import { createEvent } from "./events.js";
import { handlerAttributes } from "./handlers.js";
import { listOf } from "./html/collections.js";
import { copyState } from "./html/states.js";
import { inTrees } from "./selectors.js";
import { getSelection } from "./selection.js";

/** Colours of old, which the body's attributes have. */
const ofBody = (name) => ({
  type: "DOMString or empty",
  get: (document) => document.body?.getAttribute(name) ?? "",
  set: (document, value) => document.body?.setAttribute(name, value),
});

const COLOURS = { bgColor: "bgcolor", fgColor: "text", linkColor: "link", vlinkColor: "vlink", alinkColor: "alink" };

const two = (number) => `${number}`.padStart(2, "0");

/** When the page was changed is not known, so it is now, by the standard's form. */
function lastModified() {
  const now = new Date();
  const date = [now.getMonth() + 1, now.getDate()].map(two).join("/");
  return `${date}/${now.getFullYear()} ${[now.getHours(), now.getMinutes(), now.getSeconds()].map(two).join(":")}`;
}

/** A Document that keeps no cookies: none is read, and one that is set is dropped. */
const cookie = { type: "DOMString", get: () => "", set: () => undefined };

const domain = {
  type: "DOMString",
  get: (document) => hostOf(documentKnown(document).url),
  set: () => refuse("SecurityError", "a page without a network can't be of another domain"),
};

function hostOf(url) {
  try {
    return new URL(url).hostname;
  } catch {
    return "";
  }
}

const base = { cloneNode: Node.operations.cloneNode[1], importNode: Document.operations.importNode[1] };

/** The list of all elements that a selector means, of a Document. */
const listed = (name, selector) => [name, (document) => listOf(document, name, () => [...document.querySelectorAll(selector)])];

const LISTS = [
  ["forms", "form"],
  ["images", "img"],
  ["scripts", "script"],
  ["embeds", "embed"],
  ["plugins", "embed"],
  ["links", "a[href],area[href]"],
  ["anchors", "a[name]"],
];

const titleOf = (document) => document.getElementsByTagNameNS(HTML, "title")[0] ?? null;

function setTitle(document, text) {
  const there = titleOf(document);
  const title = there ?? document.head?.appendChild(document.createElement("title"));
  if (title) title.textContent = text;
}

const title = {
  type: "DOMString",
  get: (document) => (titleOf(document)?.textContent ?? "").replace(/[\t\n\f\r ]+/g, " ").trim(),
  set: setTitle,
};

const dir = {
  type: "DOMString",
  get: (document) => document.documentElement?.dir ?? "",
  set: (document, value) => document.documentElement && void (document.documentElement.dir = value),
};

/** What only a window's Document has. */
const ofWindow = (get) => (document) => (pageOf(document)?.document === document ? get(pageOf(document)) : null);

/** The address that others in a Document are relative to: that of its first `base`, where it has one. */
function baseURI(node) {
  const document = documentOf(node);
  const { url } = documentKnown(document);
  const written = pageOf(document) && document.getElementsByTagNameNS(HTML, "base")[0]?.getAttribute("href");
  if (!written) return url;
  try {
    return new URL(written, url).href;
  } catch {
    return url;
  }
}

// ---- Copies: what the page keeps of a node goes with it.

function* pairs(node, copy) {
  yield [node, copy];
  for (let [one, other] = [node.firstChild, copy.firstChild]; one; [one, other] = [one.nextSibling, other.nextSibling]) yield* pairs(one, other);
}

function copied(node, copy, isDeep) {
  if (!realmOf(node).hasKept) return copy;
  for (const [one, other] of isDeep ? pairs(node, copy) : [[node, copy]]) copyState(one, other);
  return copy;
}

const cloneNode = (node, isDeep) => copied(node, base.cloneNode(node, isDeep), isDeep);
const importNode = (document, node, isDeep) => copied(node, base.importNode(document, node, isDeep), isDeep);

export const inNodes = { attributes: { baseURI }, operations: { ...attributesInNodes, cloneNode: [["boolean = false"], cloneNode] } };

const byName = (document, name) => pageOf(document).still([...document.querySelectorAll("[name]")].filter((it) => it.namespaceURI === HTML && it.getAttribute("name") === name));

export const inDocuments = {
  attributes: {
    ...handlerAttributes,
    ...Object.fromEntries(LISTS.map(([name, selector]) => listed(name, selector))),
    ...Object.fromEntries(Object.entries(COLOURS).map(([name, attribute]) => [name, ofBody(attribute)])),
    applets: (document) => listOf(document, "applets", () => []),
    title,
    dir,
    cookie,
    domain,
    lastModified,
    defaultView: ofWindow((page) => page.window),
    location: ofWindow((page) => page.location),
    activeElement: (document) => pageOf(document)?.focused(document) ?? document.body ?? document.documentElement,
    readyState: (document) => (pageOf(document)?.document === document ? pageOf(document).readyState : "complete"),
    currentScript: () => null,
    hidden: () => false,
    visibilityState: () => "visible",
    referrer: () => "",
    designMode: () => "off",
    scrollingElement: (document) => document.documentElement,
    fullscreenElement: () => null,
    fullscreenEnabled: () => false,
    rootElement: (document) => (document.documentElement?.localName === "svg" ? document.documentElement : null),
    pointerLockElement: () => null,
  },
  operations: {
    ...attributesInDocuments,
    ...inTrees,
    importNode: importing(importNode),
    createEvent: [["DOMString"], (document, word) => createEvent(realmOf(document), word)],
    getElementsByName: [["DOMString"], byName],
    getSelection: [[], getSelection],
    ...Object.fromEntries(["clear", "captureEvents", "releaseEvents"].map((name) => [name, [[], () => undefined]])),
    hasFocus: [[], (document) => pageOf(document)?.document === document],
  },
};
