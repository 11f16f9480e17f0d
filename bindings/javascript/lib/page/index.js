/** A page for tests: a window whose Document is the core's, with events, markup, selectors, styles, forms, and no network, scripts or layout. */
import { createWindow, parse } from "../index.js";
import { Attr, inElements as attributesInElements, NamedNodeMap } from "./attributes.js";
import { addMembers, DocumentFragment, isElement, makeInterface, realmOf, Thing } from "./core.js";
import { inDocuments, inNodes } from "./documents.js";
import { EVENT_TABLES } from "./events.js";
import { HTMLFormControlsCollection, HTMLOptionsCollection, RadioNodeList } from "./html/collections.js";
import { makeInterfaces } from "./html/interfaces.js";
import { DOMRect, DOMRectReadOnly, elementMembers, inRanges } from "./html/members.js";
import { ValidityState } from "./html/validity.js";
import { DOMParser, inElements as markupInElements, inRanges as markupInRanges, XMLSerializer } from "./markup.js";
import { Page } from "./page.js";
import { History, Location, Navigator } from "./places.js";
import { inElements as selectorsInElements, inTrees } from "./selectors.js";
import { Selection } from "./selection.js";
import { EventTarget } from "./targets.js";
import { DOMStringMap, DOMTokenList } from "./tokens.js";
import { completeWindow, Window } from "./window.js";

const TABLES = [
  ...[EventTarget, Window, ...EVENT_TABLES, Attr, NamedNodeMap, DOMTokenList, DOMStringMap, DOMParser, XMLSerializer, Selection],
  ...[Location, History, Navigator, DOMRectReadOnly, DOMRect, HTMLFormControlsCollection, HTMLOptionsCollection, RadioNodeList, ValidityState],
];

/** What the package's interfaces have besides. */
function complete(realm) {
  const { Node, Document, Range, Text } = realm.interfaces;
  const add = (name, is, ...members) => members.forEach((it) => addMembers(realm, { name, is, ...it }));
  Object.setPrototypeOf(Node.prototype, realm.interfaces.EventTarget.prototype);
  Object.setPrototypeOf(Node, realm.interfaces.EventTarget);
  const is = (Interface) => (it) => it instanceof Interface;
  add("Node", is(Node), inNodes);
  add("Document", is(Document), inDocuments);
  add("DocumentFragment", DocumentFragment.is, { operations: inTrees });
  add("Element", isElement, attributesInElements, markupInElements, { operations: selectorsInElements }, elementMembers.every);
  add("Text", is(Text), { attributes: { assignedSlot: () => null } });
  add("Range", is(Range), { operations: { ...markupInRanges, ...inRanges } });
}

/** Names that are another interface's a second time. */
const SECOND = { HTMLDocument: "Document" };

function putInterfaces(realm, window) {
  for (const [name, value] of Object.entries(realm.interfaces)) Object.defineProperty(window, name, { value, writable: true, configurable: true });
  for (const [name, its] of Object.entries(SECOND)) Object.defineProperty(window, name, { value: realm.interfaces[its], writable: true, configurable: true });
}

function makeTables(realm) {
  for (const table of TABLES) realm.interfaces[table.name] = makeInterface(realm, table, Thing);
  makeInterfaces(realm);
  complete(realm);
}

const shown = (fault) => console.error(fault);

/** How the text of a handler's attribute becomes a function, where a page has it so. */
function compiler(realm) {
  return (text, element, type) => new realm.global.Function(...(type === "error" ? ["event", "source", "lineno", "colno", "error"] : ["event"]), text);
}

/** A window to put a page on: an object of the page's own, or the global object that is given. */
function emptyWindow({ global, beside, url }, report) {
  return createWindow({ global, beside, url, report, refuses: false, empty: true });
}

/**
 * Creates a window with a page of HTML. Its options are:
 *
 * - `url`: the page's address;
 * - `global`: the global object of a context, which becomes the window;
 * - `beside`: another window, whose nodes may be inserted into this one;
 * - `report`: a function that takes exceptions of listeners and observers if the window's `error` event was not canceled. The default shows them on the
 *   console;
 * - `handlers`: if true, texts of attributes such as `onclick` are compiled and run; otherwise they are not.
 */
export function createPage(html = "", { url = "about:blank", report = shown, handlers = false, global, beside } = {}) {
  let page;
  const window = emptyWindow({ global, beside, url }, (fault) => page.report(fault));
  const realm = realmOf(window.document);
  makeTables(realm);
  page = new Page(window, realm, { url, report, compile: handlers ? compiler(realm) : null });
  completeWindow(page);
  putInterfaces(realm, window);
  if (!global) Object.setPrototypeOf(window, realm.interfaces.Window.prototype);
  parse(`${html}`, { document: window.document });
  page.readyState = "complete";
  return window;
}
