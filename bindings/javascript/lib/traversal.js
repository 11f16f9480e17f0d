/**
 * NodeIterator, TreeWalker and NodeFilter.
 *
 * A walker goes over the tree by the standard's steps, from wrapper to wrapper. The core moves iterators before removals. Without a filter of the program's,
 * the core's own iterator moves. With a filter, which the core can't call, the iterator is moved in the core to the node that the filter accepted.
 */
import { ATTRIBUTE, beforeChange, check, native, NONE, out, Refusal } from "./core.js";
import { known, refuseType } from "./webidl.js";
import { itsOf, makeThing, numberIn, numberOf, realmOf, sessionOf, thingOf, wrap } from "./wrappers.js";

const NO_BYTES = new Uint8Array(0);
const NO_NUMBERS = new Uint32Array(0);
const ALL = 0xffffffff;
const ACCEPT = 1;
const REJECT = 2;
const SKIP = 3;
// The bit of a position that says a node follows another.
const FOLLOWING = 4;

function createdBy(call, root, show) {
  const session = sessionOf(root);
  check(native[call](session.index, numberOf(root), show, NO_BYTES, NO_NUMBERS, NO_BYTES));
  return out[0];
}

/** The object that a program sees of a node, which may stand for an attribute. */
const objectOf = (node) => node && (node.kept?.standsFor ?? node.object);

/** The base of iterators and walkers: root, kinds of nodes to show, filter, and whether the filter is being called. Nodes are here by their states. */
class Traversal {
  isAsking = false;

  constructor(root, show, filter) {
    this.session = sessionOf(root);
    this.root = itsOf(root);
    this.show = show;
    this.filter = filter;
  }

  /** What the filter says of a node. */
  verdict(node) {
    if (this.isAsking) this.refuse();
    if (((this.show >>> (node.kind - 1)) & 1) === 0) return SKIP;
    return this.filter === null ? ACCEPT : this.filtered(node);
  }

  refuse() {
    throw new Refusal(native.HP_INVALID_STATE_ERROR, "the filter is being called: it may not use its own iterator or walker");
  }

  filtered(node) {
    this.isAsking = true;
    try {
      return this.asked(objectOf(node));
    } catch (fault) {
      throw isRevoked(this.filter) ? new Refusal(native.HP_TYPE_ERROR, "the filter is a revoked proxy") : fault;
    } finally {
      this.isAsking = false;
    }
  }

  asked(node) {
    const { filter } = this;
    if (typeof filter === "function") return Number(filter.call(undefined, node)) & 0xffff;
    const accept = filter.acceptNode;
    if (typeof accept !== "function") refuseType("acceptNode is no function");
    return Number(accept.call(filter, node)) & 0xffff;
  }
}

/** Returns whether a value is a revoked proxy, on which each operation throws. */
function isRevoked(it) {
  try {
    return Array.isArray(it) && false;
  } catch {
    return true;
  }
}

// ---- Tree order.

/** The node that follows all below a node, within a root. */
function following(root, node) {
  for (let it = node; it !== null && it !== root; it = it.parent()) {
    const sibling = it.nextSibling();
    if (sibling !== null) return sibling;
  }
  return null;
}

/** The node after another one in tree order, within a root, or null. */
const nodeAfter = (node, root) => node.firstChild() ?? following(root, node);

/** The node before another one in tree order, within a root, or null. */
function nodeBefore(node, root) {
  if (node === root) return null;
  let found = node.previousSibling();
  if (found === null) return node.parent();
  for (let last = found.lastChild(); last !== null; last = found.lastChild()) found = last;
  return found;
}

// ---- Iterators.

/** Where the iterator that moved last came to, whether its pointer is ahead of that, and the count of the session until which both hold. */
const cursor = { iterator: null, node: null, isBefore: false, structure: -1 };

/** The steps that this iterator has still to make in the core, all in one direction: they are made before the tree changes. */
const due = { iterator: null, isBack: false, steps: 0 };

function makeSteps() {
  const { iterator, isBack, steps } = due;
  due.iterator = null;
  native.iterate(iterator.session.index, iterator.number, Number(isBack), steps);
}

class IteratorIs extends Traversal {
  constructor(root, show, filter) {
    super(root, show, filter);
    // (the core has another kind of node in an attribute's place)
    this.number = createdBy("hp_create_iterator", root, filter === null && this.root.kind !== ATTRIBUTE ? show : ALL);
  }

  /** Has the cursor be where the core has the iterator. */
  place() {
    if (cursor.iterator === this && cursor.structure === this.session.structure) return;
    beforeChange(null);
    check(native.hp_iterator(this.session.index, this.number));
    const number = out[1];
    const isBefore = out[2] === 1;
    this.keep(cursor.iterator === this && cursor.node.number === number ? cursor.node : itsOf(wrap(this.session, number)), isBefore);
  }

  keep(node, isBefore) {
    cursor.iterator = this;
    cursor.node = node;
    cursor.isBefore = isBefore;
    cursor.structure = this.session.structure;
  }

  /** Notes that the iterator has come to a node by a number of steps; the core makes these before the tree changes. */
  went(course, node, steps) {
    if (due.iterator !== this || due.isBack !== course.isBefore) {
      beforeChange(makeSteps);
      due.iterator = this;
      due.isBack = course.isBefore;
      due.steps = 0;
    }
    due.steps += steps;
    this.keep(node, course.isBefore);
  }

  get reference() {
    this.place();
    return cursor.node;
  }

  get isBefore() {
    this.place();
    return cursor.isBefore;
  }

  /** Moves in the core by a call. */
  move(call) {
    const status = call(this.session.index, this.number);
    if (status !== 0) check(status);
    return out[0];
  }

  /** Moves the core's iterator to a node by at most `steps` steps, or, if the filter has moved the reference meanwhile, from there. */
  follow(course, wanted, steps) {
    let at = NONE;
    for (let count = 0; count < steps && at !== wanted; count++) at = this.move(course.call);
    if (at === wanted) return;
    const call = this.isAhead(wanted) ? FORTH.call : BACK.call;
    at = this.move(call);
    while (at !== wanted && at !== NONE) at = this.move(call);
    // (one step more where it came from the other side)
    if (call !== course.call) this.move(course.call);
  }

  /** Whether a node is within the root. */
  has(node) {
    check(native.hp_contains(this.session.index, this.root.number, node.number));
    return out[0] === 1;
  }

  /** Whether a node comes behind the reference. */
  isAhead(number) {
    check(native.hp_iterator(this.session.index, this.number));
    check(native.hp_compare_position(this.session.index, out[1], number));
    return (out[0] & FOLLOWING) !== 0;
  }
}

const iteratorOf = (it) => thingOf(it, IteratorIs);

/** The courses of an iterator: its call, the node beside another one in tree order, and whether the pointer is ahead of a node that it comes to. */
const FORTH = { call: native.hp_next_node, beside: nodeAfter, isBefore: false };
const BACK = { call: native.hp_previous_node, beside: nodeBefore, isBefore: true };

/** By the standard's steps, without a filter of the program's. */
function plain(its, course) {
  its.place();
  const { node: reference, isBefore } = cursor;
  let node = isBefore === course.isBefore ? course.beside(reference, its.root) : reference;
  while (node !== null && ((its.show >>> (node.kind - 1)) & 1) === 0) node = course.beside(node, its.root);
  if (node !== null) its.went(course, node, 1);
  return node;
}

/** The same with one: the pointer moves once the filter has taken a node. One that the filter removed is answered, and the pointer stays ahead of it. */
function filtered(its, course) {
  its.place();
  const { node: reference, isBefore, structure } = cursor;
  const passed = [];
  let node = isBefore === course.isBefore ? course.beside(reference, its.root) : reference;
  while (node !== null && its.verdict(node) !== ACCEPT) {
    passed.push(node);
    node = course.beside(node, its.root);
  }
  if (node === null) return null;
  if (structure === its.session.structure && cursor.iterator === its) {
    its.went(course, node, passed.length + 1);
    return node;
  }
  const to = its.has(node) ? node : passed.findLast((it) => its.has(it));
  if (!to) return node;
  its.follow(course, to.number, passed.length + 1);
  its.keep(to, course.isBefore);
  return node;
}

function traverse(iterator, course) {
  const its = iteratorOf(iterator);
  if (its.isAsking) its.refuse();
  return objectOf(its.filter === null ? plain(its, course) : filtered(its, course));
}

export function createNodeIterator(document, root, show, filter) {
  const its = new IteratorIs(root, show, filter);
  const made = makeThing(realmOf(document), "NodeIterator", its);
  its.session.releaseWith("hp_release_iterator", made, its.number);
  return made;
}

export const NodeIterator = known({
  name: "NodeIterator",
  is: (it) => iteratorOf(it) !== undefined,
  attributes: {
    root: (it) => objectOf(iteratorOf(it).root),
    referenceNode: (it) => objectOf(iteratorOf(it).reference),
    pointerBeforeReferenceNode: (it) => iteratorOf(it).isBefore,
    whatToShow: (it) => iteratorOf(it).show,
    filter: (it) => iteratorOf(it).filter,
  },
  operations: {
    nextNode: [[], (it) => traverse(it, FORTH)],
    previousNode: [[], (it) => traverse(it, BACK)],
    detach: [[], () => undefined],
  },
});

// ---- Walkers.

class WalkerIs extends Traversal {
  constructor(root, show, filter) {
    super(root, show, filter);
    this.current = this.root;
  }

  set(node) {
    this.current = node;
    return node;
  }
}

const walkerOf = (it) => thingOf(it, WalkerIs);

/** The courses over children and siblings. */
const FORWARDS = { first: (node) => node.firstChild(), next: (node) => node.nextSibling() };
const BACKWARDS = { first: (node) => node.lastChild(), next: (node) => node.previousSibling() };

/** The standard's steps over the children of the current node, from either end. */
function traverseChildren(its, { first, next }) {
  let node = first(its.current);
  while (node !== null) {
    const verdict = its.verdict(node);
    if (verdict === ACCEPT) return its.set(node);
    const child = verdict === SKIP ? first(node) : null;
    node = child ?? upFrom(its, node, next);
  }
  return null;
}

/** The sibling of a node or of one above it, short of the current node and of the root. */
function upFrom(its, node, next) {
  for (let it = node; it !== null; ) {
    const sibling = next(it);
    if (sibling !== null) return sibling;
    it = it.parent();
    if (it === its.root || it === its.current) return null;
  }
  return null;
}

/** The standard's steps over siblings, in either direction. */
function traverseSiblings(its, course) {
  let node = its.current;
  while (node !== null && node !== its.root) {
    const found = among(its, node, course);
    if (found !== null) return its.set(found);
    node = node.parent();
    if (node === null || node === its.root || its.verdict(node) === ACCEPT) return null;
  }
  return null;
}

/** The first that is accepted among the siblings of a node and, below those that are skipped, their children. */
function among(its, start, { first, next }) {
  let node = start;
  let sibling = next(node);
  while (sibling !== null) {
    node = sibling;
    const verdict = its.verdict(node);
    if (verdict === ACCEPT) return node;
    sibling = verdict === REJECT ? null : first(node);
    sibling ??= nextShortOf(node, start, next);
  }
  return null;
}

/** The sibling of a node or of one above it, up to where the start's siblings are. */
function nextShortOf(node, start, next) {
  const above = start.parent();
  for (let it = node; it !== null && it !== above; it = it.parent()) {
    const sibling = next(it);
    if (sibling !== null) return sibling;
    if (it.parent() === above) return null;
  }
  return null;
}

function toParent(its) {
  let node = its.current;
  while (node !== null && node !== its.root) {
    node = node.parent();
    if (node !== null && its.verdict(node) === ACCEPT) return its.set(node);
  }
  return null;
}

/** The deepest last descendant of a node that no verdict hides, with its verdict. */
function lastBelow(its, start) {
  let node = start;
  let verdict = its.verdict(node);
  for (let child = node.lastChild(); verdict !== REJECT && child !== null; child = node.lastChild()) {
    node = child;
    verdict = its.verdict(node);
  }
  return { node, verdict };
}

/** Goes backwards over a node's preceding siblings and their descendants; returns the node at which that ends, and its verdict. */
function backwards(its, start) {
  let last = { node: start, verdict: SKIP };
  for (let it = start.previousSibling(); it !== null && last.verdict !== ACCEPT; it = last.node.previousSibling()) last = lastBelow(its, it);
  return last;
}

function toPrevious(its) {
  let node = its.current;
  while (node !== null && node !== its.root) {
    const last = backwards(its, node);
    if (last.verdict === ACCEPT) return its.set(last.node);
    node = last.node === its.root ? null : last.node.parent();
    if (node !== null && its.verdict(node) === ACCEPT) return its.set(node);
  }
  return null;
}

function toNext(its) {
  let node = its.current;
  let verdict = ACCEPT;
  while (node !== null) {
    const child = verdict === REJECT ? null : node.firstChild();
    node = child ?? following(its.root, node);
    if (node === null) return null;
    verdict = its.verdict(node);
    if (verdict === ACCEPT) return its.set(node);
  }
  return null;
}

/** The moves. */
const STEPS = {
  parentNode: toParent,
  firstChild: (its) => traverseChildren(its, FORWARDS),
  lastChild: (its) => traverseChildren(its, BACKWARDS),
  previousSibling: (its) => traverseSiblings(its, BACKWARDS),
  nextSibling: (its) => traverseSiblings(its, FORWARDS),
  previousNode: toPrevious,
  nextNode: toNext,
};

const walked = (steps) => [[], (walker) => objectOf(steps(walkerOf(walker)))];

export const createTreeWalker = (document, root, show, filter) => makeThing(realmOf(document), "TreeWalker", new WalkerIs(root, show, filter));

function setCurrent(walker, node) {
  const its = walkerOf(walker);
  numberIn(its.session, node);
  its.set(itsOf(node));
}

export const TreeWalker = known({
  name: "TreeWalker",
  is: (it) => walkerOf(it) !== undefined,
  attributes: {
    root: (it) => objectOf(walkerOf(it).root),
    whatToShow: (it) => walkerOf(it).show,
    filter: (it) => walkerOf(it).filter,
    currentNode: { type: "Node or other", get: (it) => objectOf(walkerOf(it).current), set: setCurrent },
  },
  operations: Object.fromEntries(Object.entries(STEPS).map(([move, steps]) => [move, walked(steps)])),
});

/** NodeFilter, which is no interface of objects but of callbacks. */
export const FILTER_CONSTANTS = {
  FILTER_ACCEPT: ACCEPT,
  FILTER_REJECT: REJECT,
  FILTER_SKIP: SKIP,
  SHOW_ALL: ALL,
  SHOW_ELEMENT: 0x1,
  SHOW_ATTRIBUTE: 0x2,
  SHOW_TEXT: 0x4,
  SHOW_CDATA_SECTION: 0x8,
  SHOW_ENTITY_REFERENCE: 0x10,
  SHOW_ENTITY: 0x20,
  SHOW_PROCESSING_INSTRUCTION: 0x40,
  SHOW_COMMENT: 0x80,
  SHOW_DOCUMENT: 0x100,
  SHOW_DOCUMENT_TYPE: 0x200,
  SHOW_DOCUMENT_FRAGMENT: 0x400,
  SHOW_NOTATION: 0x800,
};
