/** Node, and what Documents, fragments and elements have in common: children that are elements, and several nodes at once. */
import { check, COMMENT, DOCTYPE, DOCUMENT, ELEMENT, FRAGMENT, INSTRUCTION, lent, native, out, TEXT, wordsOf } from "./core.js";
import { noteIdsBelow } from "./ids.js";
import { elementName, HTML } from "./names.js";
import { areEqual } from "./rows.js";
import { followingCollection, liveNodeList } from "./lists.js";
import { known } from "./webidl.js";
import {
  arrived,
  departed,
  detach,
  documentIs,
  documentOf,
  firstChildOf,
  forgetEnds,
  isKnownEmpty,
  isNode,
  isOfParents,
  itsOf,
  keptOf,
  kindOf,
  lastChildOf,
  nameKnown,
  nextOf,
  numberIn,
  numberInOrNone,
  numberOf,
  objectOf,
  parentOf,
  previousOf,
  replaced,
  rootOf,
  sessionOf,
  settle,
  stateOf,
  wrapBare,
  wrapDocument,
  wrapMade,
  wrappedBelow,
  wrappedChildOf,
} from "./wrappers.js";

export { documentOf, firstChildOf, lastChildOf, nameKnown, nextOf, parentOf, previousOf };

// (calls that are made often, by names of their own: the engine then knows them)
const { data, content, element, nodeName: nameNumberOf, hp_append_child, hp_insert_before, hp_remove_child, hp_remove, hp_create_text, hp_set_data } = native;

// ---- Questions.

/** The children of a node by their numbers. */
export function childNumbers(node) {
  return isOfParents(node) ? Array.from(wordsOf(native.children(sessionOf(node).index, numberOf(node)))) : [];
}

/** A part of a node's name, which never changes. */
export function namePart(node, part) {
  const names = (keptOf(node).names ??= []);
  if (names[part] === undefined) {
    check(nameNumberOf(sessionOf(node).index, numberOf(node), part));
    names[part] = native.nameOf(out[0]);
  }
  return names[part];
}

/** What an element's name says. */
export const nameOf = (node) => nameKnown(itsOf(node));

/** What the session knows of a node's Document. */
export function isOfDocument(node) {
  const document = documentOf(node);
  return documentIs(sessionOf(document), numberOf(document));
}

function nodeName(node) {
  switch (kindOf(node)) {
    case ELEMENT:
      return tagName(node);
    case DOCTYPE:
    case INSTRUCTION:
      return namePart(node, 0);
    default:
      return NAMES[kindOf(node)];
  }
}

const NAMES = { [TEXT]: "#text", [COMMENT]: "#comment", [DOCUMENT]: "#document", [FRAGMENT]: "#document-fragment" };

/** An element's qualified name, in capitals for one of HTML in a Document of HTML. */
export function tagName(node) {
  const name = nameOf(node);
  return name.namespace === HTML && isOfDocument(node).isHtml ? name.capital : name.qualified;
}

const isOfData = (kind) => kind === TEXT || kind === COMMENT || kind === INSTRUCTION;

export const hasData = (node) => isOfData(kindOf(node));

/** A text that is longer is not kept beside its node. */
const LONGEST_KEPT = 1000;

/** Whether the data of a text is known without asking. */
const hasKept = (its) => its.values !== null && its.stamp === its.session.links;

/** The data of a text, a comment or an instruction, kept until it changes. */
export const dataOf = (node) => textOf(itsOf(node));

const textOf = (its) => (hasKept(its) ? its.values : readText(its));

function readText(its) {
  const text = lent(data(its.session.index, its.number));
  its.fresh();
  if (text.length <= LONGEST_KEPT) its.values = text;
  return text;
}

/** Says that the data of a node has changed. */
export const dataChanged = (node) => void (itsOf(node).values = null);

export function setData(node, text) {
  const its = itsOf(node);
  const status = hp_set_data(its.session.index, its.number, text);
  if (status !== 0) check(status);
  its.values = hasKept(its) && text.length <= LONGEST_KEPT ? text : null;
  its.session.changed();
}

const textContent = (node) => (hasData(node) ? dataOf(node) : lent(content(sessionOf(node).index, numberOf(node))));

/** Puts a text into a node that has no child: to observers and ranges it is the same as if all children were replaced. */
function fill(node, text) {
  if (text === "") return;
  const session = sessionOf(node);
  check(hp_create_text(session.index, numberOf(documentOf(node)), text));
  const number = out[0];
  const status = hp_append_child(session.index, numberOf(node), number);
  if (status !== 0) session.leave(number);
  check(status);
  forgetEnds(node);
  session.movedTexts();
}

function setTextContent(node, text) {
  if (hasData(node)) return setData(node, text ?? "");
  const kind = kindOf(node);
  // (a Document keeps its children, and a doctype has none)
  if (kind !== ELEMENT && kind !== FRAGMENT) return undefined;
  return isKnownEmpty(node) ? fill(node, text ?? "") : replaceByText(node, text ?? "");
}

function replaceByText(node, text) {
  const session = sessionOf(node);
  const gone = childNumbers(node);
  // (lists of elements stay as they are where only texts leave)
  const losesElements = session.lists.length > 0 && elementNumbers(node).length > 0;
  check(native.hp_set_text_content(session.index, numberOf(node), text));
  left(node, gone);
  if (losesElements) session.moved();
  else session.movedTexts();
}

/** Children that have left a parent, by their numbers: those that have wrappers are roots now, the others go where nothing holds them. */
function left(parent, numbers) {
  const its = itsOf(parent);
  const { session } = its;
  const document = its.document();
  const gone = [];
  for (const number of numbers) {
    const child = session.marks.has(number) ? its.child(number) : undefined;
    if (child) gone.push(child);
    else session.leave(number);
  }
  for (const it of gone) it.loosen(document);
  its.forgetChildren(gone);
}

/** A call that answers a number about two nodes of one session. */
function compared(call, node, other) {
  check(native[call](sessionOf(node).index, numberOf(node), other === null ? native.HP_NONE : numberOf(other)));
  return out[0];
}

const isBeside = (node, other) => other === null || sessionOf(node) === sessionOf(other);
const DISCONNECTED = 1 | 32;

function comparePosition(node, other) {
  if (isBeside(node, other)) return compared("hp_compare_position", node, other);
  return DISCONNECTED | (sessionOf(node).index < sessionOf(other).index ? 4 : 2);
}

/**
 * Returns whether two nodes are equal. The core has namespaces and prefixes in its names (see names.js), and the standard does not compare an attribute's
 * prefix. If an attribute has a prefix, or if the nodes are of two sessions, whose marks differ, the rows are compared, without attributes' prefixes.
 */
function isEqual(node, other) {
  if (other === null) return false;
  if (!isBeside(node, other)) return areEqual(node, other);
  return compared("hp_is_equal", node, other) === 1 || (sessionOf(node).hasPrefixedAttributes && areEqual(node, other));
}

// ---- Changes: each is a call of the module, and then the wrappers follow.

/** Says that a node came into a parent from another, null for none. */
function cameFrom(session, its, from, to) {
  if (its.kind === FRAGMENT) session.moved();
  else session.movedOne(its, from, to);
}

export function insertBefore(parent, node, child) {
  const to = itsOf(parent);
  const its = itsOf(node);
  const { session } = to;
  const status = hp_insert_before(session.index, to.number, numberIn(session, node), numberInOrNone(session, child));
  if (status !== 0) check(status);
  const from = its.parent();
  arrived(node, parent, child);
  cameFrom(session, its, from, to);
  return node;
}

export function appendChild(parent, node) {
  const to = itsOf(parent);
  const its = itsOf(node);
  const { session } = to;
  const status = hp_append_child(session.index, to.number, numberIn(session, node));
  if (status !== 0) check(status);
  const from = its.parent();
  its.cameInto(to, null);
  cameFrom(session, its, from, to);
  return node;
}

export function replaceChild(parent, node, child) {
  const to = itsOf(parent);
  const its = itsOf(node);
  const { session } = to;
  check(native.hp_replace_child(session.index, to.number, numberIn(session, node), numberIn(session, child)));
  const from = its.parent();
  replaced(node, parent, child);
  if (node !== child) session.movedOne(itsOf(child), to, null);
  cameFrom(session, its, from, to);
  return child;
}

export function removeChild(parent, child) {
  const from = itsOf(parent);
  const { session } = from;
  check(hp_remove_child(session.index, from.number, numberIn(session, child)));
  departed(child);
  session.movedOne(itsOf(child), from, null);
  return child;
}

export function remove(node) {
  const its = itsOf(node);
  const { session } = its;
  check(hp_remove(session.index, its.number));
  const from = its.parent();
  if (from) departed(node);
  session.movedOne(its, from, null);
}

function replaceAll(parent, node) {
  const to = itsOf(parent);
  const its = node && itsOf(node);
  const { session } = to;
  const gone = childNumbers(parent);
  check(native.hp_replace_children(session.index, to.number, numberInOrNone(session, node)));
  if (its !== null && its.kind !== FRAGMENT) its.unlink();
  left(parent, gone);
  if (its === null) to.bare();
  else if (its.kind === FRAGMENT) its.cameFrom(to, null);
  else to.only(its);
  session.moved();
}

const NO_FILTER = new Uint32Array(0);
const NO_NAMES = new Uint8Array(0);
const CHILDREN_BELOW = Uint8Array.of(1, 2, 2, 1, 2, 2, 0);

/** The numbers of those that leave parents while a change is made under a node, by the parents' numbers, as an observer of the facade's own tells them. */
function leaving(session, number, change) {
  const probe = session.probe();
  check(native.hp_observe(session.index, probe, number, CHILDREN_BELOW, NO_NAMES, NO_FILTER));
  try {
    change();
    check(native.hp_take_records(session.index, probe));
    check(native.hp_count(session.index));
    return removedIn(wordsOf(native.records(session.index, 0, out[0])));
  } finally {
    native.hp_disconnect(session.index, probe);
  }
}

function removedIn(told) {
  const found = [];
  for (let at = 0; at < told.length; ) {
    const target = told[at + 1];
    const added = told[at + 2];
    const removed = told[at + 3];
    found.push({ target, numbers: Array.from(told.subarray(at + 6 + added, at + 6 + added + removed)) });
    at += 6 + added + removed;
  }
  return found;
}

/** Makes a change under a node, and updates the wrappers of the children that it removes from given parents. */
export function following(ancestor, parents, change) {
  const session = sessionOf(ancestor);
  const document = documentOf(ancestor);
  const byNumber = new Map([...parents].map((it) => [numberOf(it), it]));
  const gone = new Set();
  for (const { target, numbers } of leaving(session, numberOf(ancestor), change)) {
    const parent = byNumber.get(target);
    for (const number of numbers) {
      const wrapper = parent && session.marks.has(number) ? wrappedChildOf(parent, number) : undefined;
      if (wrapper) gone.add(wrapper);
      else session.leave(number);
    }
  }
  detach(gone, document);
  for (const it of gone) settle(it);
  session.renewed();
}

function normalize(node) {
  const session = sessionOf(node);
  following(node, wrappedBelow(node), () => check(native.hp_normalize(session.index, numberOf(node))));
}

/** A copy for a Document, made by a call that answers its number. */
function copied(node, document, call, ...given) {
  const session = sessionOf(node);
  check(native[call](session.index, ...given));
  const copy = out[0];
  const made = kindOf(node) === DOCUMENT ? wrapDocument(session, copy, { ...isOfDocument(node), inert: undefined }) : wrapMade(document, copy, kindOf(node));
  noteIdsBelow(session, copy);
  return made;
}

/** Elements may have contents of their own, as templates of HTML have: copies of them go with a deep copy. */
function withContents(node, copy, deep) {
  if (deep && sessionOf(node).hasContents) copyContents(node, copy);
  return copy;
}

function copyContents(node, copy) {
  const { contents } = keptOf(node);
  if (contents) setContents(copy, importNode(inertDocument(documentOf(copy)), contents, true));
  for (let from = firstChildOf(node), to = firstChildOf(copy); from && to; from = nextOf(from), to = nextOf(to)) copyContents(from, to);
}

/** The Document of the contents of a Document's templates, which no window shows; that of such a Document is itself. */
export function inertDocument(document) {
  const session = sessionOf(document);
  const its = documentIs(session, numberOf(document));
  if (its.isInert) return document;
  if (!its.inert) {
    check(native.hp_new_document(session.index));
    its.inert = wrapDocument(session, out[0], { realm: its.realm, isHtml: its.isHtml, contentType: its.contentType, url: "about:blank", isInert: true });
  }
  return its.inert;
}

/** Gives an element contents that are empty. */
export function emptyContents(node) {
  setContents(node, createFragment(inertDocument(documentOf(node))));
  return contentsOf(node);
}

/** Gives a template its contents, a fragment, which goes into the Document of such contents. */
export const setTemplateContents = (node, fragment) => setContents(node, adoptNode(inertDocument(documentOf(node)), fragment));

/** Gives an element contents, a fragment. */
export function setContents(node, fragment) {
  keptOf(node).contents = fragment;
  sessionOf(node).hasContents = true;
}

/** The contents of an element, or null. */
export const contentsOf = (node) => keptOf(node).contents ?? null;

export const cloneNode = (node, deep) => withContents(node, copied(node, documentOf(node), "hp_clone_node", numberOf(node), Number(deep)), deep);
export const importNode = (document, node, deep) =>
  withContents(node, copied(node, document, "hp_import_node", numberOf(document), numberIn(sessionOf(document), node), Number(deep)), deep);

export function adoptNode(document, node) {
  const session = sessionOf(document);
  check(native.hp_adopt_node(session.index, numberOf(document), numberIn(session, node)));
  departed(node);
  detach([node], document);
  session.moved();
  return node;
}

// ---- Making nodes in a Document.

/** The object of a node of a kind, which a call has just made. */
function created(document, kind, status, name) {
  if (status !== 0) check(status);
  return wrapBare(document, out[0], kind, name);
}

const indexOf = (document) => sessionOf(document).index;

/** An element of a name that the session knows. */
export const createElementNamed = (document, name) => created(document, ELEMENT, element(indexOf(document), numberOf(document), name.number), name);

export const createElementMarked = (document, core) => createElementNamed(document, elementName(sessionOf(document), core));
export const createText = (document, text) => created(document, TEXT, hp_create_text(indexOf(document), numberOf(document), text));
export const createComment = (document, text) => created(document, COMMENT, native.hp_create_comment(indexOf(document), numberOf(document), text));
export const createInstruction = (document, target, text) =>
  created(document, INSTRUCTION, native.hp_create_pi(indexOf(document), numberOf(document), target, text));
export const createDoctype = (document, name, publicId, systemId) =>
  created(document, DOCTYPE, native.hp_create_doctype(indexOf(document), numberOf(document), name, publicId, systemId));
export const createFragment = (document) => created(document, FRAGMENT, native.hp_create_fragment(indexOf(document), numberOf(document)));

// ---- Several nodes at once, as the standard composes them of single steps.

/** Nodes and texts as one node: a fragment where they are several. */
function oneOf(document, given) {
  const nodes = given.map((it) => (isNode(it) ? it : createText(document, it)));
  if (nodes.length === 1) return nodes[0];
  const fragment = createFragment(document);
  for (const it of nodes) appendChild(fragment, it);
  return fragment;
}

/** The nearest sibling in a direction that is none of some nodes. */
function viable(node, direction, given) {
  let found = direction(node);
  while (found && given.includes(found)) found = direction(found);
  return found;
}

function before(node, ...given) {
  const parent = parentOf(node);
  if (!parent) return;
  const previous = viable(node, previousOf, given);
  const come = oneOf(documentOf(node), given);
  insertBefore(parent, come, previous ? nextOf(previous) : firstChildOf(parent));
}

function after(node, ...given) {
  const parent = parentOf(node);
  if (!parent) return;
  const next = viable(node, nextOf, given);
  insertBefore(parent, oneOf(documentOf(node), given), next);
}

function replaceWith(node, ...given) {
  const parent = parentOf(node);
  if (!parent) return;
  const next = viable(node, nextOf, given);
  const come = oneOf(documentOf(node), given);
  if (parentOf(node) === parent) replaceChild(parent, come, node);
  else insertBefore(parent, come, next);
}

const SEVERAL = ["...(Node or DOMString)"];

/** What elements, doctypes and character data have. */
export const childNode = {
  operations: {
    before: [SEVERAL, before],
    after: [SEVERAL, after],
    replaceWith: [SEVERAL, replaceWith],
    remove: [[], remove],
  },
  hidden: ["before", "after", "replaceWith", "remove"],
};

/** The nearest element from a node on, in a direction. */
function elementFrom(node, direction) {
  let found = node;
  while (found && kindOf(found) !== ELEMENT) found = direction(found);
  return found;
}

/** What elements and character data have. */
export const siblings = {
  previousElementSibling: (node) => elementFrom(previousOf(node), previousOf),
  nextElementSibling: (node) => elementFrom(nextOf(node), nextOf),
};

/** The children of a node that are elements, by their numbers. */
const elementNumbers = (node) => Array.from(wordsOf(native.elementChildren(sessionOf(node).index, numberOf(node))));

/** What Documents, fragments and elements have. */
export const parentNode = {
  attributes: {
    children: (node) => (keptOf(node).children ??= followingCollection(node, () => elementNumbers(node), () => true, { areChildren: true })),
    firstElementChild: (node) => elementFrom(firstChildOf(node), nextOf),
    lastElementChild: (node) => elementFrom(lastChildOf(node), previousOf),
    childElementCount: (node) => wordsOf(native.elementChildren(sessionOf(node).index, numberOf(node))).length,
  },
  operations: {
    append: [SEVERAL, (node, ...given) => void appendChild(node, oneOf(documentOf(node), given))],
    prepend: [SEVERAL, (node, ...given) => void insertBefore(node, oneOf(documentOf(node), given), firstChildOf(node))],
    replaceChildren: [SEVERAL, (node, ...given) => replaceAll(node, given.length ? oneOf(documentOf(node), given) : null)],
  },
  hidden: ["append", "prepend", "replaceChildren"],
};

const childNodes = (node) => (keptOf(node).childNodes ??= liveNodeList(node, () => childNumbers(node)));

// ---- What node's console shows of a node.

const MOST_SHOWN = 60;
const clipped = (text) => JSON.stringify(text.length > MOST_SHOWN ? `${text.slice(0, MOST_SHOWN)}..` : text);

const SHOWN = {
  [ELEMENT]: (node) => `<${[tagName(node).toLowerCase(), ...shownAttributes(node)].join(" ")}>`,
  [TEXT]: (node) => `#text ${clipped(dataOf(node))}`,
  [COMMENT]: (node) => `<!--${clipped(dataOf(node)).slice(1, -1)}-->`,
  [INSTRUCTION]: (node) => `<?${namePart(node, 0)} ${clipped(dataOf(node)).slice(1, -1)}>`,
  [DOCTYPE]: (node) => `<!DOCTYPE ${namePart(node, 0)}>`,
};

function shownAttributes(node) {
  return node.getAttributeNames().map((name) => `${name}=${clipped(node.getAttribute(name))}`);
}

/** A node as a line, with how many children it has. */
function inspected() {
  if (!isNode(this)) return Object.prototype.toString.call(this);
  try {
    const its = (SHOWN[kindOf(this)] ?? nodeName)(this);
    const count = childNumbers(this).length;
    return count ? `${its} (${count} ${count === 1 ? "child" : "children"})` : its;
  } catch {
    // (of a session that is closed)
    return Object.prototype.toString.call(this);
  }
}

// ---- Getters that are called most. Each has its own code, which an engine puts where it is called.

const isNow = (its) => its !== null && its.stamp === its.session.links;

const quickFirst = (general) => ({
  operation() {
    const its = stateOf(this);
    const found = isNow(its) ? its.first : undefined;
    return found === undefined ? general.call(this) : found && found.object;
  },
});

const quickLast = (general) => ({
  operation() {
    const its = stateOf(this);
    const found = isNow(its) ? its.last : undefined;
    return found === undefined ? general.call(this) : found && found.object;
  },
});

const quickNext = (general) => ({
  operation() {
    const its = stateOf(this);
    const found = isNow(its) ? its.next : undefined;
    return found === undefined ? general.call(this) : found && found.object;
  },
});

const quickPrevious = (general) => ({
  operation() {
    const its = stateOf(this);
    const found = isNow(its) ? its.previous : undefined;
    return found === undefined ? general.call(this) : found && found.object;
  },
});

const quickParent = (general) => ({
  operation() {
    const its = stateOf(this);
    if (its === null) return general.call(this);
    const found = its.parent();
    return found && found.object;
  },
});

const quickType = (general) => ({
  operation() {
    const its = stateOf(this);
    return its === null ? general.call(this) : its.kind;
  },
});

/** The value of a Text whose data is kept. */
export const quickText = (general) => ({
  operation() {
    const its = stateOf(this);
    return isNow(its) && its.kind === TEXT && its.values !== null ? its.values : general.call(this);
  },
});

export const Node = known({
  name: "Node",
  is: isNode,
  constants: {
    ELEMENT_NODE: 1,
    ATTRIBUTE_NODE: 2,
    TEXT_NODE: 3,
    CDATA_SECTION_NODE: 4,
    ENTITY_REFERENCE_NODE: 5,
    ENTITY_NODE: 6,
    PROCESSING_INSTRUCTION_NODE: 7,
    COMMENT_NODE: 8,
    DOCUMENT_NODE: 9,
    DOCUMENT_TYPE_NODE: 10,
    DOCUMENT_FRAGMENT_NODE: 11,
    NOTATION_NODE: 12,
    DOCUMENT_POSITION_DISCONNECTED: 1,
    DOCUMENT_POSITION_PRECEDING: 2,
    DOCUMENT_POSITION_FOLLOWING: 4,
    DOCUMENT_POSITION_CONTAINS: 8,
    DOCUMENT_POSITION_CONTAINED_BY: 16,
    DOCUMENT_POSITION_IMPLEMENTATION_SPECIFIC: 32,
  },
  attributes: {
    nodeType: { read: (its) => its.kind, quick: quickType },
    nodeName,
    baseURI: (node) => isOfDocument(node).url,
    isConnected: (node) => kindOf(rootOf(node)) === DOCUMENT,
    ownerDocument: (node) => (kindOf(node) === DOCUMENT ? null : documentOf(node)),
    parentNode: { read: (its) => objectOf(its.parent()), quick: quickParent },
    parentElement: (node) => {
      const parent = parentOf(node);
      return parent && kindOf(parent) === ELEMENT ? parent : null;
    },
    childNodes,
    firstChild: { read: (its) => objectOf(its.firstChild()), quick: quickFirst },
    lastChild: { read: (its) => objectOf(its.lastChild()), quick: quickLast },
    previousSibling: { read: (its) => objectOf(its.previousSibling()), quick: quickPrevious },
    nextSibling: { read: (its) => objectOf(its.nextSibling()), quick: quickNext },
    nodeValue: {
      type: "DOMString?",
      read: (its) => (isOfData(its.kind) ? textOf(its) : null),
      quick: quickText,
      set: (node, text) => void (hasData(node) && setData(node, text ?? "")),
    },
    textContent: { type: "DOMString?", get: textContent, set: setTextContent },
  },
  operations: {
    getRootNode: [["any = undefined"], rootOf],
    hasChildNodes: [[], (node) => firstChildOf(node) !== null],
    normalize: [[], normalize],
    cloneNode: [["boolean = false"], cloneNode],
    isEqualNode: [["Node?"], isEqual],
    isSameNode: [["Node?"], (node, other) => node === other],
    compareDocumentPosition: [["Node"], comparePosition],
    contains: [["Node?"], (node, other) => isBeside(node, other) && compared("hp_contains", node, other) === 1],
    insertBefore: [["Node", "child Node?"], insertBefore],
    appendChild: [["Node"], appendChild],
    replaceChild: [["Node", "child Node"], replaceChild],
    removeChild: [["child Node"], removeChild],
  },
  finish(realm, made) {
    const shown = { value: inspected, writable: true, configurable: true };
    Object.defineProperty(made.prototype, Symbol.for("nodejs.util.inspect.custom"), shown);
  },
});
