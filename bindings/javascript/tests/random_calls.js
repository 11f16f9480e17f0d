// Random calls of all interfaces: `node --expose-gc tests/random_calls.js COUNT [SEED]`. A refusal has to be one of the standard's; nothing else may
// be thrown. A node's parent and siblings have to agree with the node, and the links that objects cache have to be those of the core.
import assert from "node:assert/strict";
import { setImmediate as turn } from "node:timers/promises";

import { native, out } from "../lib/core.js";
import { createDocument, DOMException, MutationObserver, NodeFilter, StaticRange } from "../lib/index.js";
import { inElements, inTrees } from "../lib/page/selectors.js";
import { itsOf, numberOf, sessionOf } from "../lib/wrappers.js";

const [count = "300000", seed = "1"] = process.argv.slice(2);
const MOST = 400;

// A generator of numbers by a seed (the multiplier is of Lehmer's kind, modulo a prime).
let state = Number(seed);
const upTo = (limit) => {
  state = (state * 48271) % 2147483647;
  return state % limit;
};
const any = (list) => list[upTo(list.length)];

const TEXTS = ["", "a", "some text", "\ud83d\ude00", "\ud800", "x".repeat(300), "\u0000", "]]>"];
const NAMES = ["p", "B", "a:b", "", "1", "x y", "é", "a\uFDD01p", "longer-name"];
const NAMESPACES = [null, "", "http://www.w3.org/1999/xhtml", "n"];
const CLASSES = ["on", "on off", " off\ton ", "", "offon"];
const TAGS = ["p", "b", "*", "a:b", "longer-name"];
const OFFSETS = [0, 1, 2, 5, 100, -1, 2 ** 32, 1.5];
const MOVES = ["parentNode", "firstChild", "lastChild", "previousSibling", "nextSibling", "previousNode", "nextNode"];

let document = createDocument();
const nodes = [document];
const ranges = [];
const traversals = [];
const observers = [];
const node = () => any(nodes);
const maybe = () => any([null, node(), node()]);
const keep = (list, made) => {
  if (made && list.length < MOST) list.push(made);
  else if (made) list[upTo(list.length)] = made;
};
const filter = () => any([null, null, () => 1 + upTo(3), { acceptNode: () => 1 + upTo(3) }]);

const MAKING = [
  () => document.createElement(any(NAMES)),
  () => document.createElementNS(any(NAMESPACES), any(NAMES)),
  () => document.createTextNode(any(TEXTS)),
  () => document.createComment(any(TEXTS)),
  () => document.createProcessingInstruction(any(NAMES), any(TEXTS)),
  () => document.implementation.createDocumentType(any(NAMES), any(TEXTS), any(TEXTS)),
  () => document.createDocumentFragment(),
  () => document.implementation.createHTMLDocument(any(TEXTS)),
  () => node().cloneNode(upTo(2) === 1),
  () => document.importNode(node(), upTo(2) === 1),
];

const CHANGING = [
  () => node().appendChild(node()),
  () => node().insertBefore(node(), maybe()),
  () => node().replaceChild(node(), node()),
  () => node().firstChild && node().removeChild(node().firstChild),
  () => node().remove?.(),
  () => node().append?.(node(), any(TEXTS), node()),
  () => node().prepend?.(any(TEXTS), node()),
  () => node().before?.(node(), any(TEXTS)),
  () => node().after?.(node()),
  () => node().replaceWith?.(node(), any(TEXTS)),
  () => node().replaceChildren?.(...any([[], [node()], [node(), any(TEXTS)]])),
  () => node().normalize(),
  () => (node().textContent = any(TEXTS)),
  () => (node().nodeValue = any(TEXTS)),
  () => document.adoptNode(node()),
  () => keep(nodes, node().splitText?.(any(OFFSETS))),
  () => node().insertData?.(any(OFFSETS), any(TEXTS)),
  () => node().replaceData?.(any(OFFSETS), any(OFFSETS), any(TEXTS)),
  () => node().deleteData?.(any(OFFSETS), any(OFFSETS)),
  () => node().setAttribute?.(any(NAMES), any(TEXTS)),
  () => node().setAttributeNS?.(any(NAMESPACES), any(NAMES), any(TEXTS)),
  () => node().toggleAttribute?.(any(NAMES)),
  () => node().removeAttribute?.(any(NAMES)),
  () => node().setAttribute?.("class", any(CLASSES)),
  () => node().setAttribute?.("id", any(["one", "two", ""])),
  () => node().removeAttribute?.(any(["class", "id"])),
  () => node().toggleAttribute?.(any(["class", "id", "p"])),
];

const RANGING = [
  () => keep(ranges, document.createRange()),
  () => any(ranges).setStart(node(), any(OFFSETS)),
  () => any(ranges).setEnd(node(), any(OFFSETS)),
  () => any(ranges).selectNode(node()),
  () => any(ranges).selectNodeContents(node()),
  () => any(ranges).collapse(upTo(2) === 1),
  () => any(ranges).deleteContents(),
  () => keep(nodes, any(ranges).extractContents()),
  () => keep(nodes, any(ranges).cloneContents()),
  () => any(ranges).insertNode(node()),
  () => any(ranges).surroundContents(node()),
  () => any(ranges).compareBoundaryPoints(upTo(5), any(ranges)),
  () => any(ranges).comparePoint(node(), any(OFFSETS)),
  () => any(ranges).isPointInRange(node(), any(OFFSETS)),
  () => any(ranges).intersectsNode(node()),
  () => keep(nodes, any(ranges).commonAncestorContainer),
  () => keep(nodes, any(ranges).startContainer),
  () => `${any(ranges)}`,
  () => ranges.splice(upTo(ranges.length), 1),
];

const WATCHING = [
  () => keep(traversals, document.createNodeIterator(node(), any([NodeFilter.SHOW_ALL, 1, 4, 0x85]), filter())),
  () => keep(traversals, document.createTreeWalker(node(), any([NodeFilter.SHOW_ALL, 1, 4, 0x85]), filter())),
  () => keep(nodes, any(traversals)[any(MOVES)]?.()),
  () => keep(nodes, any(traversals)[any(["nextNode", "previousNode"])]()),
  () => (any(traversals).currentNode = node()),
  () => traversals.splice(upTo(traversals.length), 1),
  () => observers.length < 20 && observers.push(new MutationObserver(() => {})),
  () => any(observers).observe(node(), { childList: upTo(2) === 1, attributes: upTo(2) === 1, characterData: true, subtree: upTo(2) === 1 }),
  () => any(observers).takeRecords(),
  () => any(observers).disconnect(),
  () => upTo(50) === 0 && new StaticRange({ startContainer: node(), startOffset: 0, endContainer: node(), endOffset: 1 }),
];

const ASKING = [
  () => node().textContent,
  () => node().isEqualNode(maybe()),
  () => node().contains(maybe()),
  () => node().compareDocumentPosition(node()),
  () => keep(nodes, node().getRootNode()),
  () => keep(nodes, node().childNodes[upTo(4)]),
  () => node().children?.length,
  () => node().getElementsByTagName?.("*").length,
  () => node().getAttributeNames?.(),
  () => node().getAttribute?.(any(NAMES)),
  fits,
  agrees,
  agrees,
  agrees,
  filled,
  agreesOnAttributes,
  agreesOnData,
  agreesOnIterator,
  () => agreesOnLists(any(lists)),
  () => agreesOnLists(any(lists)),
  () => agreesOnLists(any(lists)),
  () => agreesOnSelectors(),
  () => keepLists(),
];

/** A node's parent and siblings agree with the node. */
function fits() {
  const it = node();
  const { parentNode, nextSibling, previousSibling } = it;
  if (nextSibling) assert.equal(nextSibling.previousSibling, it);
  if (previousSibling) assert.equal(previousSibling.nextSibling, it);
  else if (parentNode) assert.equal(parentNode.firstChild, it);
  if (!nextSibling && parentNode) assert.equal(parentNode.lastChild, it);
  if (parentNode) assert.equal(parentNode.ownerDocument ?? parentNode, it.ownerDocument);
}

const numberOrNone = (it) => (it === null ? native.HP_NONE : numberOf(it));

/** What a node's object says of those beside it is what the core says; a child by its index is asked for ahead of what may be known by it. */
function agrees(it = node()) {
  const { childNodes } = it;
  const { length } = childNodes;
  const some = length ? upTo(length) : 0;
  const child = numberOrNone(childNodes[some] ?? null);
  const { parentNode, previousSibling, nextSibling, firstChild, lastChild } = it;
  const said = [parentNode, previousSibling, nextSibling, firstChild, lastChild].map(numberOrNone);
  const { index } = sessionOf(it);
  assert.equal(native.hp_links(index, numberOf(it)), native.HP_OK);
  assert.deepEqual([...out.subarray(2, 7)], said);
  if (it.nodeType === 1 || it.nodeType === 9 || it.nodeType === 11) assert.equal(out[7], length);
  if (length) {
    assert.equal(native.hp_child_at(index, numberOf(it), some), native.HP_OK);
    assert.equal(out[0], child);
  }
  assert.equal((native.hp_root(index, numberOf(it)), out[0]), numberOf(it.getRootNode()));
}

/** A text that is set in a node, which may be known to have no child, agrees at once. */
function filled() {
  const it = any([node(), document.createElement("p")]);
  it.textContent = any(TEXTS);
  agrees(it);
}

// ---- The caches beside the core have to agree with the core.

function agreesOnAttributes() {
  const it = node();
  if (it.nodeType !== 1) return;
  const values = it.getAttributeNames().map((name) => it.getAttribute(name));
  const { index } = sessionOf(it);
  assert.equal(native.hp_attribute_names(index, numberOf(it)), native.HP_OK);
  native.hp_count(index);
  const names = Array.from({ length: out[0] }, (_, at) => native.hp_name_at(index, at));
  const known = itsOf(it).values;
  assert.deepEqual(known.filter((_, at) => at % 2 === 0).map((name) => name.core), names);
  const said = names.map((name) => (native.hp_get_attribute(index, numberOf(it), name), native.hp_text(index)));
  assert.deepEqual(known.filter((_, at) => at % 2 === 1), said);
  // (a name with capitals is not found by itself on an element of HTML)
  const isPlain = names.length === new Set(it.getAttributeNames()).size && !names.some((name) => /[A-Z]/.test(name));
  if (isPlain) assert.deepEqual(values, said);
}

function agreesOnData() {
  const it = node();
  if (it.data === undefined) return;
  const { index } = sessionOf(it);
  native.hp_data(index, numberOf(it));
  assert.equal(it.data, native.hp_text(index));
  assert.equal(it.data, it.nodeValue);
}

/** Where an iterator came to is where the core has it, which is asked once a tree has changed. */
function agreesOnIterator() {
  const it = any(traversals);
  if (it?.referenceNode === undefined) return;
  for (let steps = upTo(6); steps > 0; steps--) it[any(["nextNode", "nextNode", "previousNode"])]();
  const { referenceNode, pointerBeforeReferenceNode } = it;
  document.createElement("p").append("x");
  assert.equal(it.referenceNode, referenceNode);
  assert.equal(it.pointerBeforeReferenceNode, pointerBeforeReferenceNode);
}

/** Lists that are kept over edits, with how their elements are found from link to link. */
const lists = [];

function below(top) {
  const found = [];
  for (let it = top.firstChild; it; it = it.nextSibling) found.push(it, ...below(it));
  return found.filter((it) => it.nodeType === 1);
}

const wordsIn = (it) => (it.getAttribute("class") ?? "").split(/[\t ]+/);
const qualified = (it) => (it.prefix === null ? it.localName : `${it.prefix}:${it.localName}`);

/** Keeps a list of a node of each kind. */
function keepLists() {
  const top = node();
  if (!top.children) return;
  const tag = any(TAGS);
  const isTag = (it) => tag === "*" || qualified(it) === tag;
  keep(lists, { top, list: top.children, read: () => [...top.childNodes].filter((it) => it.nodeType === 1) });
  if (!top.getElementsByTagName) return;
  keep(lists, { top, list: top.getElementsByTagName(tag), read: () => below(top).filter(isTag) });
  keep(lists, { top, list: top.getElementsByClassName("on"), read: () => below(top).filter((it) => wordsIn(it).includes("on")) });
}

function agreesOnLists(kept) {
  if (!kept) return;
  const { list, read } = kept;
  const due = read();
  assert.equal(list.length, due.length);
  assert.deepEqual([...list].map(numberOf), due.map(numberOf));
}

const SELECTORS = [
  [".on", (it) => wordsIn(it).includes("on")],
  ["p.on", (it) => it.localName === "p" && wordsIn(it).includes("on")],
  ["#one", (it) => it.getAttribute("id") === "one"],
  ["p > *", (it) => it.parentNode?.nodeType === 1 && it.parentNode.localName === "p"],
  ["* + .off", (it) => it.previousElementSibling !== null && wordsIn(it).includes("off")],
  [":first-child", (it) => it.previousElementSibling === null],
  [":nth-last-child(2)", (it) => it.nextElementSibling !== null && it.nextElementSibling.nextElementSibling === null],
];

function agreesOnSelectors() {
  const top = any([document, node()]);
  if (!top.children) return;
  const [text, fits] = any(SELECTORS);
  const due = below(top).filter(fits);
  const found = inTrees.querySelectorAll[1](top, text);
  assert.deepEqual([...found].map(numberOf), due.map(numberOf), text);
  assert.equal(inTrees.querySelector[1](top, text), due[0] ?? null);
  if (due.length) assert.equal(inElements.matches[1](due[0], text), true);
}

const GROUPS = [MAKING, CHANGING, CHANGING, RANGING, WATCHING, ASKING];

/** Makes a call; answers whether it was refused. */
function call(group) {
  try {
    const made = any(group)();
    if (group === MAKING) keep(nodes, made);
    return false;
  } catch (fault) {
    if (!(fault instanceof DOMException || fault instanceof TypeError)) throw fault;
    if (fault instanceof DOMException) assert.notEqual(fault.code, 0, fault.name);
    return true;
  }
}

/** Drops half of the objects that are held, and sometimes begins with another Document. */
async function letGo() {
  for (const list of [nodes, ranges, traversals, lists]) list.splice(0, Math.ceil(list.length / 2));
  document = upTo(3) ? document : createDocument();
  nodes.push(document);
  keep(ranges, document.createRange());
  keep(traversals, document.createTreeWalker(document));
  await turn();
  globalThis.gc?.();
  await turn();
}

let refused = 0;
observers.push(new MutationObserver(() => {}));
for (let at = 0; at < Number(count); at++) {
  if (at % 2000 === 0) await letGo();
  if (call(any(GROUPS))) refused++;
}
await letGo();
process.stdout.write(`${count} calls, ${refused} of them refused\n`);
