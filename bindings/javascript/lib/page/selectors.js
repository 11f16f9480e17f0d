/** Selectors: a text is read by selectors/reading.js and compiled by selectors/rules.js; here elements that fit are looked for. */
import {
  after,
  DOCUMENT,
  documentKnown,
  documentOf,
  ELEMENT,
  elementsOfClass,
  elementsOfName,
  isOfKind,
  itsOf,
  Missing,
  numbersIn,
  onlyBelow,
  realmOf,
  refuse,
  rootOf,
  small,
  stillNodeList,
  wrap,
} from "./core.js";
import { NoSelector, readSelector } from "./selectors/reading.js";
import { askFrom, plainTest, testOf } from "./selectors/rules.js";

// ---- Selectors that were read, and are kept.

const MOST = 1000;
const kept = new Map();

/** A name, an id or a class alone. */
const PLAIN = /^[ \t\n\f\r]*([#.]?)(-?[a-zA-Z_][\w-]*)[ \t\n\f\r]*$/;
const WORDS = { "#": "id", ".": "class" };

function plainRule(text) {
  const [, sign, name] = PLAIN.exec(text) ?? [];
  if (name === undefined) return null;
  return sign === "" ? { type: "tag", name, namespace: null } : { type: "attribute", name: WORDS[sign], value: name, ignoreCase: "quirks" };
}

/** The id, the class or the name that each element has which a selector finds, if there is one. */
function handleOf(list, { isHtml, isQuirky }) {
  if (list.length !== 1) return null;
  const simple = list[0].slice(list[0].findLastIndex((it) => COMBINATORS.has(it.type)) + 1);
  const word = (name) => simple.find((it) => it.ignoreCase === "quirks" && it.name === name);
  const type = simple.find((it) => it.type === "tag" && it.namespace === null && (!isHtml || it.name === small(it.name)));
  const [id, its] = [isQuirky ? undefined : word("id"), word("class")];
  if (id) return { type: "id", name: id.value };
  return its ? { type: "class", name: its.value } : (type ?? null);
}

const COMBINATORS = new Set(["child", "descendant", "adjacent", "sibling"]);

class Selector {
  constructor(text, mode) {
    const plain = plainRule(text);
    const list = plain ? [[plain]] : readSelector(text);
    this.handle = handleOf(list, mode);
    this.test = plain ? plainTest(plain, mode) : testOf(list, mode);
    /** Whether nothing but the handle is asked. */
    this.isHandle = this.handle !== null && list[0].length === 1;
  }
}

function made(text, mode) {
  try {
    return new Selector(text, mode);
  } catch (fault) {
    if (fault instanceof NoSelector) return refuse("SyntaxError", `'${text}' is not a valid selector: ${fault.message}`);
    if (fault instanceof Missing) return refuse("NotSupportedError", fault.message);
    throw fault;
  }
}

function compiled(node, text) {
  const { isHtml, isQuirky = false } = documentKnown(documentOf(node));
  const key = `${Number(isHtml)}${Number(isQuirky)}${text}`;
  const found = kept.get(key);
  if (found !== undefined) return found;
  if (kept.size >= MOST) kept.delete(kept.keys().next().value);
  const selector = made(text, { isHtml, isQuirky });
  kept.set(key, selector);
  return selector;
}

// ---- Where elements are looked for.

/** Whether the lists of a node are worth to be kept: those of a Document, and of an element that a program asks is gone through. */
const hasLists = (node) => isOfKind(node, DOCUMENT);

/** The elements below a Document that have a selector's class or name, by a list that follows edits; null if there is no such list. */
function byList(node, { handle }) {
  if (handle === null || handle.type === "id" || !hasLists(node)) return null;
  return numbersIn(handle.type === "class" ? elementsOfClass(node, handle.name) : elementsOfName(node, "*", handle.name));
}

/** What the object of the only element of an id knows in the tree of a node: null if there is none, undefined if there are more, or if that is not known. */
function byId(node, { handle }) {
  if (handle?.type !== "id") return undefined;
  return itsOf(node).session.knowsIds ? onlyBelow(itsOf(rootOf(node)), handle.name) : undefined;
}

function isBelow(its, node) {
  const root = itsOf(node);
  for (let it = its.parent(); it !== null; it = it.parent()) if (it === root) return true;
  return false;
}

/** The element that has an id and fits below a node, as a list of one or of none; undefined if ids do not tell. */
function withId(node, selector) {
  const found = byId(node, selector);
  if (found === undefined) return undefined;
  return found !== null && isBelow(found, node) && selector.test(found) ? [found.object] : [];
}

/** Returns the first elements below a node that fit, at most `most` of them. */
function fitting(root, { test }, most) {
  const found = [];
  for (let it = after(root, root); it !== null; it = after(it, root)) {
    if (it.kind === ELEMENT && test(it) && found.push(it.object) === most) return found;
  }
  return found;
}

/** The elements of a list that fit. */
function among(node, numbers, { test, isHandle }) {
  const { session } = itsOf(node);
  const found = [];
  for (const number of numbers) {
    const object = wrap(session, number);
    if (isHandle || test(itsOf(object))) found.push(object);
  }
  return found;
}

function querySelector(node, text) {
  const selector = compiled(node, text);
  const root = itsOf(node);
  askFrom(root);
  const found = withId(node, selector) ?? fitting(root, selector, 1);
  return found[0] ?? null;
}

function querySelectorAll(node, text) {
  const selector = compiled(node, text);
  const root = itsOf(node);
  askFrom(root);
  const numbers = byList(node, selector);
  const found = numbers ? among(node, numbers, selector) : (withId(node, selector) ?? fitting(root, selector, Infinity));
  return stillNodeList(realmOf(node), found);
}

function matches(element, text) {
  const its = itsOf(element);
  const { test } = compiled(element, text);
  askFrom(its);
  return test(its);
}

function closest(element, text) {
  const { test } = compiled(element, text);
  const its = itsOf(element);
  askFrom(its);
  for (let it = its; it !== null && it.kind === ELEMENT; it = it.parent()) if (test(it)) return it.object;
  return null;
}

const SELECTOR = ["DOMString"];

/** What Documents, fragments and elements have. */
export const inTrees = { querySelector: [SELECTOR, querySelector], querySelectorAll: [SELECTOR, querySelectorAll] };

/** What elements have besides. */
export const inElements = {
  ...inTrees,
  matches: [SELECTOR, matches],
  webkitMatchesSelector: [SELECTOR, matches],
  closest: [SELECTOR, closest],
};
