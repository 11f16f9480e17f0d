/** Element: its names, its attributes, and the elements below it. */
import { attributesKept, hasWord, keepRemoved, keepSet, namesKept, valueKept, valueOfName, wordsKept } from "./attributes.js";
import { check, ELEMENT, lent, native, out, Refusal, wordsOf } from "./core.js";
import { elementById, holdersOf, noteId } from "./ids.js";
import { followingCollection } from "./lists.js";
import { attributeName, elementByNumber, extractedAttribute, HTML, markedAttribute, plainAttribute, small } from "./names.js";
import {
  childNode,
  createText,
  documentOf,
  firstChildOf,
  insertBefore,
  isOfDocument,
  nameKnown,
  nameOf,
  nextOf,
  parentNode,
  parentOf,
  siblings,
  tagName,
} from "./nodes.js";
import { known } from "./webidl.js";
import { isNode, itsOf, keptOf, kindOf, numberOf, sessionOf } from "./wrappers.js";

const { value, setValue } = native;

export const isElement = (it) => isNode(it) && kindOf(it) === ELEMENT;

const isOfHtml = (element) => nameOf(element).namespace === HTML && isOfDocument(element).isHtml;

const CAPITALS = /[A-Z]/;

/** The name of an attribute as the standard looks for it: in small letters for an element of HTML in a Document of HTML. */
const sought = (element, name) => (CAPITALS.test(name) && isOfHtml(element) ? small(name) : name);

/** The names of all attributes, in their order. */
export const names = (element) => namesKept(itsOf(element));

/** The name of the first attribute with a qualified name. Only where a session has marked attributes can it differ from the plain one. */
function byQualified(element, qualified) {
  const session = sessionOf(element);
  const plain = attributeName(session, plainAttribute(session, qualified));
  if (!session.hasMarkedAttributes) return plain;
  return names(element).find((it) => it.qualified === qualified) ?? plain;
}

function byNamespace(element, namespace, local) {
  const its = namespace === "" ? null : namespace;
  return names(element).find((it) => it.namespace === its && it.local === local);
}

/** The value of an attribute by its qualified name. */
export const getAttribute = (element, name) => valueKept(itsOf(element), sought(element, name));

const hasAttribute = (element, name) => getAttribute(element, name) !== null;

const ID = "id";
const CLASS = "class";

/** The id of an element, or null; all attributes are not read for it. */
const idOf = (its, name) => (its.values === null ? lent(value(its.session.index, its.number, name.number)) : valueOfName(its, name));

/** Changes an attribute of an element, by its name; `keep` updates the cached attributes. */
function change(element, name, does, keep) {
  const its = itsOf(element);
  const { session } = its;
  const before = name.core === ID ? idOf(its, name) : null;
  const answer = does(session, its.number);
  keep(its, name, answer);
  if (name.core === ID) noteId(its, before, idOf(its, name));
  if (name.core === CLASS) session.reclassed(its);
  session.altered();
  return answer;
}

/** Sets an attribute of an element, by its name. It is apart from `change`, since most changes are of this kind. */
function setNamed(element, name, text) {
  const its = itsOf(element);
  const { session } = its;
  const before = name.core === ID ? idOf(its, name) : null;
  const status = setValue(session.index, its.number, name.number, text);
  if (status !== 0) check(status);
  keepSet(its, name, text);
  if (name.core === ID) noteId(its, before, text);
  if (name.core === CLASS) session.reclassed(its);
  session.altered();
}

export const setAttributeMarked = (element, core, text) => setNamed(element, attributeName(sessionOf(element), core), text);

/** Sets an attribute by its qualified name. */
export const setAttribute = (element, name, text) => setNamed(element, byQualified(element, sought(element, name)), text);

/** Sets an attribute by its qualified name in small letters. */
export const setPlain = (element, name, text) => setNamed(element, byQualified(element, name), text);

function setAttributeNS(element, namespace, qualified, text) {
  const session = sessionOf(element);
  const name = extractedAttribute(session, namespace, qualified);
  const there = byNamespace(element, name.namespace, name.local);
  setNamed(element, there ?? attributeName(session, markedAttribute(session, name)), text);
}

function removeNamed(element, name) {
  change(element, name, (session, number) => check(native.hp_remove_attribute(session.index, number, name.core)), keepRemoved);
}

export const removeAttribute = (element, name) => removeNamed(element, byQualified(element, sought(element, name)));

const FORCE = { false: 0, true: 1 };
const NO_FORCE = 2;

function keepToggled(its, name, isThere) {
  if (!isThere) keepRemoved(its, name);
  else if (valueOfName(its, name) === null) keepSet(its, name, "");
}

function toggleAttribute(element, name, force) {
  const wanted = force === undefined ? NO_FORCE : FORCE[Boolean(force)];
  const does = (session, number, its) => {
    check(native.hp_toggle_attribute(session.index, number, its.core, wanted));
    return out[0] === 1;
  };
  const its = byQualified(element, sought(element, name));
  return change(element, its, (session, number) => does(session, number, its), keepToggled);
}

/** An attribute that stands for a property of text. */
const reflected = (name) => ({
  type: "DOMString",
  get: (element) => valueKept(itsOf(element), name) ?? "",
  set: (element, text) => setPlain(element, name, text),
});

/** All attributes, with their names and values, in their order. */
export function attributesOf(element) {
  const known = attributesKept(itsOf(element));
  return names(element).map((name, at) => ({ ...name, value: known[2 * at + 1] }));
}

// ---- Elements below a node.

/** The numbers of the elements below a node whose names fit, in tree order. */
function byName(node, fits) {
  const session = sessionOf(node);
  const told = Array.from(wordsOf(native.elements(session.index, numberOf(node))));
  const found = [];
  // (the node itself is none of them)
  for (let at = kindOf(node) === ELEMENT ? 2 : 0; at < told.length; at += 2) {
    if (fits(elementByNumber(session, told[at + 1]))) found.push(told[at]);
  }
  return found;
}

/** A list of a node, which is the same each time it is asked for with the same words. */
function listOf(node, key, make) {
  const lists = (keptOf(node).lists ??= new Map());
  if (!lists.has(key)) lists.set(key, make());
  return lists.get(key);
}

const named = (node, key, fits) => listOf(node, key, () => followingCollection(node, () => byName(node, fits), (its) => fits(nameKnown(its))));

function getElementsByTagName(node, qualified) {
  const { isHtml } = isOfDocument(node);
  const ofHtml = isHtml ? small(qualified) : qualified;
  const fits = qualified === "*" ? () => true : (name) => name.qualified === (name.namespace === HTML ? ofHtml : qualified);
  return named(node, `tag ${Number(isHtml)}${qualified}`, fits);
}

export function getElementsByTagNameNS(node, namespace, local) {
  const its = namespace === "" ? null : namespace;
  const fits = (name) => (its === "*" || name.namespace === its) && (local === "*" || name.local === local);
  return named(node, `name ${JSON.stringify([its, local])}`, fits);
}

/** Whether a value has all of some words. */
const hasWords = (value, wanted) => wanted.every((word) => hasWord(value, word));

export function getElementsByClassName(node, text) {
  const as = isOfDocument(node).isQuirky ? small : (value) => value;
  const wanted = wordsKept(as(text));
  const name = attributeName(sessionOf(node), CLASS);
  const number = numberOf(node);
  const fits = (value) => wanted.length > 0 && hasWords(as(value), wanted);
  const read = () => holdersOf(sessionOf(node), number, CLASS).filter(([its, value]) => its !== number && fits(value)).map(([its]) => its);
  const make = () => followingCollection(node, read, (its) => fits(valueOfName(its, name) ?? ""), { isByClasses: true });
  return listOf(node, `class ${Number(as === small)}${text}`, make);
}

/** What Documents and elements have. */
export const elementsBelow = {
  getElementsByTagName: [["DOMString"], getElementsByTagName],
  getElementsByTagNameNS: [["DOMString?", "DOMString"], getElementsByTagNameNS],
  getElementsByClassName: [["DOMString"], getElementsByClassName],
};

/** What Documents and fragments have. */
export const byId = { getElementById: [["DOMString"], elementById] };

// ---- Insertion beside an element.

const SYNTAX_ERROR = 12;

/** By the word for the position: the parent of the inserted node, and the child before which it is inserted. */
const PLACES = new Map(Object.entries({
  beforebegin: (element) => [parentOf(element), element],
  afterbegin: (element) => [element, firstChildOf(element)],
  beforeend: (element) => [element, null],
  afterend: (element) => [parentOf(element), nextOf(element)],
}));

function insertAdjacent(element, where, node) {
  const placed = PLACES.get(small(where));
  if (!placed) throw new Refusal(SYNTAX_ERROR, `'${where}' is not one of ${[...PLACES.keys()].join(", ")}`);
  const [parent, child] = placed(element);
  return parent && insertBefore(parent, node, child);
}

export const Element = known({
  name: "Element",
  parent: "Node",
  is: isElement,
  attributes: {
    namespaceURI: (element) => nameOf(element).namespace,
    prefix: (element) => nameOf(element).prefix,
    localName: (element) => nameOf(element).local,
    tagName,
    id: reflected("id"),
    className: reflected("class"),
    ...siblings,
    ...parentNode.attributes,
  },
  operations: {
    hasAttributes: [[], (element) => names(element).length > 0],
    getAttributeNames: [[], (element) => names(element).map((it) => it.qualified)],
    getAttribute: [["DOMString"], getAttribute],
    getAttributeNS: [
      ["DOMString?", "DOMString"],
      (element, namespace, local) => {
        const found = byNamespace(element, namespace, local);
        return found ? valueOfName(itsOf(element), found) : null;
      },
    ],
    setAttribute: [["DOMString", "DOMString"], setAttribute],
    setAttributeNS: [["DOMString?", "DOMString", "DOMString"], setAttributeNS],
    removeAttribute: [["DOMString"], removeAttribute],
    removeAttributeNS: [
      ["DOMString?", "DOMString"],
      (element, namespace, local) => {
        const found = byNamespace(element, namespace, local);
        if (found) removeNamed(element, found);
      },
    ],
    toggleAttribute: [["DOMString", "any = undefined"], toggleAttribute],
    hasAttribute: [["DOMString"], hasAttribute],
    hasAttributeNS: [["DOMString?", "DOMString"], (element, namespace, local) => byNamespace(element, namespace, local) !== undefined],
    insertAdjacentElement: [["DOMString", "Element"], insertAdjacent],
    insertAdjacentText: [["DOMString", "DOMString"], (element, where, data) => void insertAdjacent(element, where, createText(documentOf(element), data))],
    ...elementsBelow,
    ...childNode.operations,
    ...parentNode.operations,
  },
  hidden: [...childNode.hidden, ...parentNode.hidden],
});
