/**
 * Attr and NamedNodeMap over the core's attributes (DOM Standard, section 4.9). Names, values and order are the core's; an Attr is an object that stands
 * for one of them as long as the element has it, and keeps its value when it has left.
 */
import {
  adoptNode,
  ATTRIBUTE,
  attributeNames,
  attributesKept,
  converted,
  convertible,
  createComment,
  documentOf,
  Element,
  HTML,
  isNode,
  documentKnown,
  itsOf,
  keptOf,
  known,
  makeThing,
  Node,
  otherNodes,
  pageOf,
  realmOf,
  refuse,
  refuseOther,
  small,
  stillNodeList,
  thingOf,
} from "./core.js";
import { typeChanged } from "./html/inputs.js";
import { isNamed } from "./html/states.js";
import { borrow, knownOf, makeLegacy } from "./legacy.js";
import { styleChanged } from "./styles.js";
import { alsoTarget } from "./targets.js";

/** The value that an element has now of an attribute of a namespace and a local name. */
function valueNow(its, { namespace, local }) {
  const known = attributesKept(its);
  for (let at = 0; at < known.length; at += 2) if (known[at].local === local && known[at].namespace === namespace) return known[at + 1];
  return "";
}

/** What an Attr knows: its name, its element or none, and its value where it has none. */
class AttrIs {
  element = null;
  standIn = null;

  constructor(document, name, value) {
    this.document = document;
    this.name = name;
    this.kept = value;
  }

  get value() {
    const { element, name } = this;
    return element === null ? this.kept : valueNow(itsOf(element), name);
  }
}

const attrOf = (it) => thingOf(it, AttrIs);
const isAttr = (it) => attrOf(it) !== undefined;

alsoTarget(isAttr);
otherNodes(isAttr, standInOf);

// ---- The Attr objects that were asked for, of each element, by namespace and local name.

const keyOf = ({ namespace, local }) => (namespace === null ? local : `${namespace} ${local}`);

function attrFor(element, name) {
  const its = (keptOf(element).attrs ??= new Map());
  const key = keyOf(name);
  const found = its.get(key);
  if (found !== undefined) return found;
  const known = new AttrIs(documentOf(element), name, "");
  known.element = element;
  const made = makeThing(realmOf(element), "Attr", known);
  its.set(key, made);
  return made;
}

/** Has the Attr of a name, where somebody holds it, keep its value, since the element is about to lose it. */
function release(element, name) {
  const its = keptOf(element).attrs;
  const attr = its?.get(keyOf(name));
  if (!attr) return;
  const known = attrOf(attr);
  known.kept = known.value;
  known.document = documentOf(element);
  known.element = null;
  its.delete(keyOf(name));
}

const isOfHtml = (element) => element.namespaceURI === HTML && documentKnown(documentOf(element)).isHtml;
const sought = (element, qualified) => (/[A-Z]/.test(qualified) && isOfHtml(element) ? small(qualified) : qualified);

function byQualified(element, qualified) {
  const its = sought(element, qualified);
  return attributeNames(element).find((name) => name.qualified === its);
}

function byNamespace(element, namespace, local) {
  const its = namespace === "" ? null : namespace;
  return attributeNames(element).find((name) => name.namespace === its && name.local === local);
}

/** The node of the core that is in an Attr's place in ranges, in traversals and for observers: a comment, which has no parent and takes no children. */
function standInOf(attr) {
  const its = attrOf(attr);
  if (its.standIn === null) {
    its.standIn = createComment(its.element ? documentOf(its.element) : its.document, "");
    keptOf(its.standIn).standsFor = attr;
    itsOf(its.standIn).kind = ATTRIBUTE;
  }
  return its.standIn;
}

const orNull = (element, name) => (name ? attrFor(element, name) : null);

// ---- Changes. Each goes to the core by the element's own operations, and then those follow that stand on attributes.

const base = Element.operations;

/** Which attributes something of the page follows: styles, types of inputs, handlers. */
const FOLLOWED = /^(?:style$|type$|on)/i;
const FOLLOWING = { style: styleChanged, type: (element) => isNamed(element, "input") && typeChanged(element) };

/** The letters that such names begin with: most names need no further look. */
const LETTERS = new Set([..."stoSTO"].map((it) => it.charCodeAt(0)));

/** Tells the page that an attribute of a name has changed. */
function changed(element, name) {
  if (!LETTERS.has(name.charCodeAt(0)) || !FOLLOWED.test(name)) return;
  const its = small(name);
  if (Object.hasOwn(FOLLOWING, its)) FOLLOWING[its](element);
  else pageOf(element)?.handlers.changed(element, its);
}

export function setAttributeOf(element, qualified, value) {
  base.setAttribute[1](element, qualified, value);
  changed(element, qualified);
}

function setAttributeNS(element, namespace, qualified, value) {
  base.setAttributeNS[1](element, namespace, qualified, value);
  changed(element, qualified);
}

export function removeAttributeOf(element, qualified) {
  const name = keptOf(element).attrs ? byQualified(element, qualified) : undefined;
  if (name) release(element, name);
  base.removeAttribute[1](element, qualified);
  changed(element, qualified);
}

function removeAttributeNS(element, namespace, local) {
  const name = keptOf(element).attrs ? byNamespace(element, namespace, local) : undefined;
  if (name) release(element, name);
  base.removeAttributeNS[1](element, namespace, local);
  changed(element, local);
}

function toggleAttribute(element, qualified, force) {
  const name = keptOf(element).attrs ? byQualified(element, qualified) : undefined;
  const isLeaving = name && (force === undefined || !force);
  if (isLeaving) release(element, name);
  const answer = base.toggleAttribute[1](element, qualified, force);
  changed(element, qualified);
  return answer;
}

function setAttributeNode(element, attr) {
  const its = attrOf(attr);
  if (its.element !== null && its.element !== element) refuse("InUseAttributeError", "the attribute belongs to another element: remove it there first");
  const { namespace, local, qualified } = its.name;
  const there = byNamespace(element, namespace, local);
  const old = there ? attrFor(element, there) : null;
  if (old === attr) return attr;
  if (there) release(element, there);
  const { value } = its;
  base.setAttributeNS[1](element, namespace, qualified, value);
  its.element = element;
  its.document = documentOf(element);
  (keptOf(element).attrs ??= new Map()).set(keyOf(its.name), attr);
  changed(element, qualified);
  return old;
}

function removeAttributeNode(element, attr) {
  const its = attrOf(attr);
  if (its.element !== element) refuse("NotFoundError", "the attribute does not belong to this element");
  removeAttributeNS(element, its.name.namespace, its.name.local);
  return attr;
}

// ---- NamedNodeMap.

class MapIs {
  constructor(element) {
    this.element = element;
  }

  get length() {
    return attributesKept(itsOf(this.element)).length / 2;
  }

  at(index) {
    return orNull(this.element, attributesKept(itsOf(this.element))[2 * index]);
  }

  names() {
    const isPlain = isOfHtml(this.element);
    return [...new Set(attributeNames(this.element).map((it) => it.qualified))].filter((name) => !isPlain || small(name) === name);
  }

  named(qualified) {
    return orNull(this.element, byQualified(this.element, qualified));
  }
}

const mapOf = (it) => knownOf(it, MapIs);
const attributes = (element) => (keptOf(element).attributes ??= makeLegacy(realmOf(element), "NamedNodeMap", new MapIs(element)));

const OF_NAMESPACE = ["DOMString?", "DOMString"];

function removed(element, name) {
  if (!name) refuse("NotFoundError", "there is no such attribute");
  return removeAttributeNode(element, attrFor(element, name));
}

export const NamedNodeMap = known({
  name: "NamedNodeMap",
  is: (it) => mapOf(it) !== undefined,
  attributes: { length: (map) => mapOf(map).length },
  operations: {
    item: [["unsigned long"], (map, index) => mapOf(map).at(index)],
    getNamedItem: [["DOMString"], (map, name) => orNull(mapOf(map).element, byQualified(mapOf(map).element, name))],
    getNamedItemNS: [OF_NAMESPACE, (map, ...words) => orNull(mapOf(map).element, byNamespace(mapOf(map).element, ...words))],
    setNamedItem: [["Attr"], (map, attr) => setAttributeNode(mapOf(map).element, attr)],
    setNamedItemNS: [["Attr"], (map, attr) => setAttributeNode(mapOf(map).element, attr)],
    removeNamedItem: [["DOMString"], (map, name) => removed(mapOf(map).element, byQualified(mapOf(map).element, name))],
    removeNamedItemNS: [OF_NAMESPACE, (map, ...words) => removed(mapOf(map).element, byNamespace(mapOf(map).element, ...words))],
  },
  finish: (realm, made) => borrow(realm, made.prototype, [Symbol.iterator]),
});

// ---- Attr, which is a Node that the core does not have.

function setValue(attr, value) {
  const its = attrOf(attr);
  const { element, name } = its;
  if (element === null) its.kept = value;
  else setAttributeNS(element, name.namespace, name.qualified, value);
}

const value = { type: "DOMString", get: (attr) => attrOf(attr).value, set: setValue };
const orEmpty = { type: "DOMString?", get: value.get, set: (attr, text) => setValue(attr, text ?? "") };
const none = () => null;
const named = (part) => (attr) => attrOf(attr).name[part];

/** A copy of an Attr, for a Document. */
function copyFor(document, attr) {
  const { name, value: its } = attrOf(attr);
  return makeThing(realmOf(document), "Attr", new AttrIs(document, name, its));
}

const copy = (attr) => copyFor(attrOf(attr).document, attr);

function isEqual(attr, other) {
  if (!isAttr(other)) return false;
  const [one, another] = [attrOf(attr), attrOf(other)];
  return keyOf(one.name) === keyOf(another.name) && one.value === another.value;
}

const isSame = (attr, other) => attr === other;
const childless = () => refuse("HierarchyRequestError", "an attribute has no children");
const DISCONNECTED = 1 | 32 | 4;
const PRECEDING = 2;
const CONTAINS = 8;
const CONTAINED = 16 | 4;
const CONTAINING = CONTAINS | PRECEDING;
const WITHIN = 8 | 16;
/** Two attributes of one element, whose order the implementation says. */
const [AHEAD, BEHIND] = [32 | 4, 32 | 2];

/** Where an Attr is, seen from a node: its element stands for it, and holds it. */
function positionFrom(node, attr) {
  const { element } = attrOf(attr);
  if (element === null) return DISCONNECTED;
  const position = element === node ? CONTAINED : comparePosition(node, element);
  return (position & CONTAINS) === 0 ? position : PRECEDING;
}

/** Where a node is, seen from an Attr. */
function positionOf(attr, other) {
  const { element } = attrOf(attr);
  if (attr === other) return 0;
  if (isAttr(other)) return positionOfAttr(attr, other);
  if (element === null) return DISCONNECTED;
  const position = element === other ? CONTAINING : comparePosition(element, other);
  return (position & 16) === 0 ? position : 4;
}

/** The same of another Attr: those of an element are in their order, and none is within another's element. */
function positionOfAttr(attr, other) {
  const [{ element, name }, { element: its, name: itsName }] = [attrOf(attr), attrOf(other)];
  if (element === null || its === null) return DISCONNECTED;
  if (element !== its) return comparePosition(element, its) & ~WITHIN;
  const keys = attributeNames(element).map(keyOf);
  return keys.indexOf(keyOf(name)) < keys.indexOf(keyOf(itsName)) ? AHEAD : BEHIND;
}

/** An Attr says of itself what a node of the core is asked. */
const asNode = {
  attributes: {
    nodeType: () => 2,
    nodeName: named("qualified"),
    nodeValue: orEmpty,
    textContent: orEmpty,
    baseURI: (attr) => attrOf(attr).document.baseURI,
    isConnected: () => false,
    ownerDocument: (attr) => (attrOf(attr).element ? documentOf(attrOf(attr).element) : attrOf(attr).document),
    parentNode: none,
    parentElement: none,
    childNodes: (attr) => stillNodeList(realmOf(attrOf(attr).document), []),
    firstChild: none,
    lastChild: none,
    previousSibling: none,
    nextSibling: none,
  },
  operations: {
    getRootNode: [["any = undefined"], (attr) => attr],
    hasChildNodes: [[], () => false],
    normalize: [[], () => undefined],
    cloneNode: [["boolean = false"], copy],
    isEqualNode: [["Node or Attr?"], isEqual],
    isSameNode: [["Node or Attr?"], isSame],
    contains: [["Node or Attr?"], isSame],
    compareDocumentPosition: [["Node or Attr"], positionOf],
    lookupPrefix: [["DOMString?"], (attr, namespace) => attrOf(attr).element?.lookupPrefix(namespace) ?? null],
    lookupNamespaceURI: [["DOMString?"], (attr, prefix) => attrOf(attr).element?.lookupNamespaceURI(prefix) ?? null],
    isDefaultNamespace: [["DOMString?"], (attr, namespace) => attrOf(attr).element?.isDefaultNamespace(namespace) ?? namespace === null],
    insertBefore: [["Node or Attr", "Node or Attr?"], childless],
    appendChild: [["Node or Attr"], childless],
    replaceChild: [["Node or Attr", "Node or Attr"], childless],
    removeChild: [["Node or Attr"], () => refuse("NotFoundError", "an attribute has no children")],
  },
};

export const Attr = known({
  name: "Attr",
  parent: "Node",
  is: isAttr,
  attributes: {
    namespaceURI: named("namespace"),
    prefix: named("prefix"),
    localName: named("local"),
    name: named("qualified"),
    value,
    ownerElement: (attr) => attrOf(attr).element,
    specified: () => true,
    ...asNode.attributes,
  },
  operations: asNode.operations,
});

/** A name that an attribute may have, by the element of a trial that has it. */
function nameOn(document, give) {
  const trial = document.createElementNS(null, "a");
  give(trial);
  return attributeNames(trial)[0];
}

function created(document, give) {
  return makeThing(realmOf(document), "Attr", new AttrIs(document, nameOn(document, give), ""));
}

const [, comparePosition] = Node.operations.compareDocumentPosition;

convertible("Node or Attr", (value) => (isNode(value) || isAttr(value) ? value : refuseOther("a Node or Attr", value)));
convertible("Node or Attr?", (value) => (value === null || value === undefined ? null : converted("Node or Attr", value)));

/** A question of a node about another, which an Attr answers in its own way. */
function about(name, ofAttr) {
  const [[type], ask] = Node.operations[name];
  return [[type.replace("Node", "Node or Attr")], (node, other) => (isAttr(other) ? ofAttr(node, other) : ask(node, other))];
}

const never = () => false;

/** What nodes answer about an Attr. */
export const inNodes = {
  contains: about("contains", never),
  isEqualNode: about("isEqualNode", never),
  isSameNode: about("isSameNode", never),
  compareDocumentPosition: about("compareDocumentPosition", positionFrom),
};

/** Brings a node, or an Attr without its element, into a Document. */
function adopt(document, node) {
  if (!isAttr(node)) return adoptNode(document, node);
  const its = attrOf(node);
  if (its.element !== null) removeAttributeNode(its.element, node);
  its.document = document;
  return node;
}

/** Makes of a function that copies nodes into a Document one that copies an Attr too. */
export const importing = (importNode) => [["Node or Attr", "boolean = false"], (document, node, isDeep) => (isAttr(node) ? copyFor(document, node) : importNode(document, node, isDeep))];

/** What Documents have of attributes. */
export const inDocuments = {
  adoptNode: [["Node or Attr"], adopt],
  createAttribute: [
    ["DOMString"],
    (document, local) => created(document, (trial) => base.setAttribute[1](trial, documentKnown(document).isHtml ? small(local) : local, "")),
  ],
  createAttributeNS: [OF_NAMESPACE, (document, ...words) => created(document, (trial) => base.setAttributeNS[1](trial, ...words, ""))],
};

/** What elements have of attributes. */
export const inElements = {
  attributes: { attributes },
  operations: {
    setAttribute: [["DOMString", "DOMString"], setAttributeOf],
    setAttributeNS: [["DOMString?", "DOMString", "DOMString"], setAttributeNS],
    removeAttribute: [["DOMString"], removeAttributeOf],
    removeAttributeNS: [OF_NAMESPACE, removeAttributeNS],
    toggleAttribute: [["DOMString", "any = undefined"], toggleAttribute],
    getAttributeNode: [["DOMString"], (element, name) => orNull(element, byQualified(element, name))],
    getAttributeNodeNS: [OF_NAMESPACE, (element, ...words) => orNull(element, byNamespace(element, ...words))],
    setAttributeNode: [["Attr"], setAttributeNode],
    setAttributeNodeNS: [["Attr"], setAttributeNode],
    removeAttributeNode: [["Attr"], removeAttributeNode],
  },
};
