/**
 * The objects of nodes, and of ranges, traversals and observers: the same object for the same node as long as a program can reach it.
 *
 * A wrapper has one field: its state, a NodeIs, which is of one form for all interfaces, so that an engine reads them all in the same way.
 *
 * A wrapper's parent has a wrapper too, and the two hold each other. So the properties that a program sets on a node live as long as it holds any node of
 * the tree. A root holds its Document. The session holds roots alone, weakly, and frees a tree when its root's wrapper is gone. Any other wrapper is found
 * from its parent's.
 *
 * A wrapper caches its links to the wrappers beside it once they were read: undefined is a link that was not read, null is none. Two wrappers both cache the
 * link between them, or neither does. The same holds for a parent and its first or last child. A change of one place updates the links around it. Any other
 * change invalidates all links of its session, by a count that grows.
 */
import { check, DOCUMENT, ELEMENT, FRAGMENT, native, NONE, OK, out, Refusal, Session, soon, words } from "./core.js";
import { elementByNumber } from "./names.js";

export let isNode, itsOf, stateOf;

const { hp_links } = native;
const PARENT_AT = 2;
const PREVIOUS_AT = 3;
const NEXT_AT = 4;
const FIRST_AT = 5;
const LAST_AT = 6;

/** Up to this many wrapped children are searched one by one. More are moved into a table by number when one is first looked for. */
const FEW = 8;

/** The bits of a state: a node's kind, and whether it is a child, is found by its number, is held until the program waits, has a table of children. */
const KIND_BITS = 15;
const CHILD = 16;
const KNOWN = 32;
const HELD = 64;
const TABLED = 128;

// ---- A cache of the nodes that were made or found last, by number. It is held until the program waits, and then until the next garbage collection.
//
// An entry holds its whole tree, and a collection that has begun before the program waits does not free the cache. So the cache has two tables. When the
// program waits, and MOST_MADE objects were made since the last time, the newer table replaces the older one, whose trees are then held no longer.

const PLACES = 32768;
const MASK = PLACES - 1;
/** After this many new objects the newer table replaces the older one. */
const MOST_MADE = 8192;
let recent = null;
let older = null;
let tables = null;
let tablesHeld = null;
/** How many objects were made since then. */
let madeCount = 0;
/** The last node that was read ahead of a walk, and how many were read at once. */
let frontier = null;
let readAtOnce = 0;

function recentNow() {
  tables = tablesHeld?.deref() ?? null;
  if (tables === null) {
    tables = { recent: null, older: null };
    tablesHeld = new WeakRef(tables);
  }
  tables.recent ??= new Array(PLACES);
  ({ recent, older } = tables);
  soon(releaseRecent);
  return recent;
}

/** Holds the cache weakly from now on, and drops the older table if enough objects were made. */
function releaseRecent() {
  if (tables !== null && madeCount >= MOST_MADE) {
    tables.older = recent;
    tables.recent = null;
    madeCount = 0;
  }
  recent = older = tables = frontier = null;
}

/** Returns the state of a number's node if the cache has it, otherwise undefined. */
export function recall(session, number) {
  const it = (recent ?? recentNow())[number & MASK];
  return it !== undefined && it.number === number && it.session === session ? it : recallOlder(session, number);
}

function recallOlder(session, number) {
  if (older === null) return undefined;
  const it = older[number & MASK];
  if (it === undefined || it.number !== number || it.session !== session) return undefined;
  recent[number & MASK] = it;
  return it;
}

const remember = (its) => void ((recent ?? recentNow())[its.number & MASK] = its);

Session.forgetRecent = () => {
  recent = older = tables = tablesHeld = frontier = null;
};

const mayHaveChildren = (kind) => kind === ELEMENT || kind === DOCUMENT || kind === FRAGMENT;

/** Returns the first and last child of a node of a kind that was not asked: null if it can't have children, otherwise undefined. */
const endsOf = (kind) => (mayHaveChildren(kind) ? undefined : null);

/** The state of a node's object. It has other nodes by their states. */
class NodeIs {
  /** A child has its parent from the start, and the sibling before it if that is known: an engine writes these faster into a new object. */
  constructor(session, number, state, name, end, above, previous) {
    // (the fields that a walk reads are first, and so together in memory)
    this.session = session;
    // The links to its neighbours, and the count of the session for which they are valid.
    this.stamp = session.links;
    this.first = end;
    this.next = undefined;
    this.object = null;
    // The parent, or the Document of a root.
    this.above = above;
    this.state = state;
    // What an element's name says (see names.js), and its attributes (see attributes.js); of a text its data, as long as the links hold.
    this.name = name;
    this.values = null;
    this.previous = previous;
    this.last = end;
    this.number = number;
    this.kept = null;
    // The wrapped children in no order: the first, and for each the one behind it and the one ahead of it; or a table of them.
    this.below = null;
    this.behind = null;
    this.ahead = null;
    session.marks.add(number);
  }

  get kind() {
    return this.state & KIND_BITS;
  }

  set kind(kind) {
    this.state = (this.state & ~KIND_BITS) | kind;
  }

  /** The realm of its interface: that of the session, unless another one is kept. */
  get realm() {
    return this.kept?.realm ?? this.session.realm;
  }

  // ---- The wrapped children of a parent.

  leave() {
    const { above, ahead, behind } = this;
    if ((above.state & TABLED) !== 0) above.below.delete(this.number);
    else if (ahead === null) above.below = behind;
    if (ahead !== null) ahead.behind = behind;
    if (behind !== null) behind.ahead = ahead;
    this.ahead = this.behind = this.above = null;
    this.state &= ~CHILD;
  }

  enter(parent) {
    this.above = parent;
    this.state |= CHILD;
    this.join(parent);
  }

  /** Comes among the wrapped children of its parent. */
  join(parent) {
    if ((parent.state & TABLED) !== 0) parent.below.set(this.number, this);
    else this.chain(parent);
  }

  /** Puts it ahead of the wrapped children of a parent that has no table. */
  chain(parent) {
    const first = parent.below;
    this.behind = first;
    if (first !== null) first.ahead = this;
    parent.below = this;
  }

  place(parent) {
    if ((this.state & CHILD) !== 0) {
      if (this.above === parent) return;
      this.leave();
    }
    this.enter(parent);
  }

  /** Makes a root of it, of a Document. */
  loosen(document) {
    if ((this.state & CHILD) !== 0) this.leave();
    this.above = document;
    if ((this.state & (KNOWN | HELD)) !== 0) return;
    this.state |= HELD;
    this.session.hold(this);
  }

  /** Has the session find it by its number. */
  know() {
    if ((this.state & KNOWN) !== 0) return;
    this.state |= KNOWN;
    this.session.know(this.object, this.number);
  }

  /** Returns the state of a wrapped child by its number, or undefined. */
  child(number) {
    if ((this.state & TABLED) !== 0) return this.below.get(number);
    let it = this.below;
    for (let count = 0; it !== null && count < FEW; it = it.behind, count++) if (it.number === number) return it;
    if (it === null) return undefined;
    this.tabulate();
    return this.below.get(number);
  }

  tabulate() {
    const table = new Map();
    for (const it of this.wrapped()) {
      table.set(it.number, it);
      it.ahead = it.behind = null;
    }
    this.below = table;
    this.state |= TABLED;
  }

  /** Returns the state of a child by its number; makes its wrapper if there is none. */
  childOf(number) {
    const { session } = this;
    const found = session.marks.has(number) ? this.child(number) : undefined;
    if (found !== undefined) return found;
    // (the number was marked where its wrapper is gone, or stands elsewhere, which only a session that has spoken can have)
    const made = makeOf(session, number, this.realm);
    made.enter(this);
    return made;
  }

  /** Returns the state of the child of a row (see below), with valid links, behind a sibling, null for none; makes its wrapper if there is none. */
  adopted(row, previous) {
    const { session, realm } = this;
    const number = words[row + NUMBER];
    const found = session.marks.has(number) ? this.child(number) : undefined;
    if (found !== undefined) return found.goingOn(previous);
    const kind = words[row + KIND];
    const name = kind === ELEMENT ? elementByNumber(session, words[row + NAME]) : null;
    // (the cache of nodes gets those alone that have several children: a write into it takes long, and the others are found from these)
    const made = new NodeIs(session, number, kind | CHILD, name, endsOf(kind), this, previous);
    makerOf(kind, realm, name).make(made);
    made.join(this);
    if (realm !== session.realm) made.kept = { realm };
    return made;
  }

  /** Keeps which sibling it follows, null for none, with valid links; returns itself. */
  goingOn(previous) {
    this.fresh();
    this.previous = previous;
    return this;
  }

  root() {
    let it = this;
    while ((it.state & CHILD) !== 0) it = it.above;
    return it;
  }

  document() {
    const root = this.root();
    return root.kind === DOCUMENT ? root : root.above;
  }

  // ---- Links.

  /** Has the links be those of now. */
  fresh() {
    const { links } = this.session;
    if (this.stamp === links) return;
    this.stamp = links;
    this.first = this.last = endsOf(this.kind);
    this.next = this.previous = undefined;
    if (this.kind !== ELEMENT) this.values = null;
  }

  /** Keeps that a sibling follows this one. */
  link(next) {
    this.fresh();
    next.fresh();
    this.next = next;
    next.previous = this;
  }

  /** Keeps that this is the first child of its parent, or the last. */
  lead() {
    this.fresh();
    this.above.fresh();
    this.above.first = this;
    this.previous = null;
  }

  trail() {
    this.fresh();
    this.above.fresh();
    this.above.last = this;
    this.next = null;
  }

  parent() {
    return (this.state & CHILD) !== 0 ? this.above : null;
  }

  firstChild() {
    return this.stamp === this.session.links && this.first !== undefined ? this.first : this.askFirst();
  }

  lastChild() {
    return this.stamp === this.session.links && this.last !== undefined ? this.last : this.askLast();
  }

  nextSibling() {
    return this.stamp === this.session.links && this.next !== undefined ? this.next : this.askNext();
  }

  previousSibling() {
    return this.stamp === this.session.links && this.previous !== undefined ? this.previous : this.askPrevious();
  }

  /** Asks the module for a link: a child of the parent that is given. */
  ask(at, parent) {
    check(hp_links(this.session.index, this.number));
    const number = out[at];
    return number === NONE ? null : parent.childOf(number);
  }

  /** Asks the module for a link forward. If that node has no wrapper, the nodes after it in tree order are read with it. */
  askForth(at, parent) {
    const { session } = this;
    check(hp_links(session.index, this.number));
    const number = out[at];
    if (number === NONE) return null;
    const found = session.marks.has(number) ? parent.child(number) : undefined;
    return found ?? readAhead(this, parent, number);
  }

  askNext() {
    if ((this.state & CHILD) === 0) return null;
    const next = this.askForth(NEXT_AT, this.above);
    if (next) this.link(next);
    else this.trail();
    return next;
  }

  askPrevious() {
    if ((this.state & CHILD) === 0) return null;
    const previous = this.ask(PREVIOUS_AT, this.above);
    if (previous) previous.link(this);
    else this.lead();
    return previous;
  }

  /** Keeps that there is no child, where there is none. */
  isEmpty(found) {
    if (found) return false;
    this.fresh();
    this.first = this.last = null;
    return true;
  }

  askFirst() {
    if (!mayHaveChildren(this.kind)) return null;
    const first = this.askForth(FIRST_AT, this);
    if (!this.isEmpty(first)) first.lead();
    return first;
  }

  askLast() {
    if (!mayHaveChildren(this.kind)) return null;
    const last = this.ask(LAST_AT, this);
    if (!this.isEmpty(last)) last.trail();
    return last;
  }

  /** Forgets the links to one that leaves its place, and joins its neighbours where both are known. */
  unlink() {
    if ((this.state & CHILD) === 0 || this.stamp !== this.session.links) return;
    const { above: parent, previous, next } = this;
    if (previous && next) previous.link(next);
    else {
      const isAlone = previous === null && next === null;
      if (previous) previous.next = next === null ? null : undefined;
      else if (previous === null) parent.first = isAlone ? null : next;
      if (next) next.previous = previous === null ? null : undefined;
      else if (next === null) parent.last = isAlone ? null : previous;
    }
    this.previous = this.next = undefined;
  }

  /** Links a new child to its two neighbours, as far as they are known: null for none, undefined for an unknown one. */
  between(previous, next) {
    if (previous) previous.link(this);
    else if (previous === null) this.lead();
    if (next) this.link(next);
    else if (next === null) this.trail();
  }

  /** Invalidates the links across a gap into which unknown nodes were inserted. */
  forgetSeam(previous, next) {
    if (previous) previous.next = undefined;
    else if (previous === null) this.first = undefined;
    if (next) next.previous = undefined;
    else if (next === null) this.last = undefined;
  }

  // ---- What a change has moved.

  /** It came into a parent ahead of a child, or at the end. */
  cameInto(parent, child) {
    if (this.kind === FRAGMENT) this.cameFrom(parent, child);
    else if (child === null && (this.state & CHILD) === 0) this.cameLast(parent);
    else this.cameBefore(parent, child);
  }

  /** A root came behind the last child, which is done at once, as it is most of what building a tree does. */
  cameLast(parent) {
    parent.fresh();
    this.fresh();
    this.enter(parent);
    const { last } = parent;
    if (last === undefined) return;
    if (last === null) parent.first = this;
    else last.next = this;
    this.previous = last;
    this.next = null;
    parent.last = this;
  }

  cameBefore(parent, child) {
    this.unlink();
    this.place(parent);
    parent.fresh();
    if (child !== null) child.fresh();
    this.fresh();
    this.between(child === null ? parent.last : child.previous, child);
  }

  /** The children of this fragment came into a parent. */
  cameFrom(parent, child) {
    parent.fresh();
    if (child !== null) child.fresh();
    this.fresh();
    for (const it of this.wrapped()) {
      it.fresh();
      if (it.previous === null) it.previous = undefined;
      if (it.next === null) it.next = undefined;
      it.place(parent);
    }
    this.first = this.last = null;
    parent.forgetSeam(child === null ? parent.last : child.previous, child);
  }

  wentFrom(document) {
    this.unlink();
    this.loosen(document);
  }

  tookPlaceOf(parent, child) {
    this.unlink();
    child.fresh();
    parent.fresh();
    const { previous, next } = child;
    child.wentFrom(parent.document());
    if (this.kind === FRAGMENT) {
      this.cameFrom(parent, null);
      parent.first = parent.last = undefined;
      parent.forgetSeam(previous, next);
      return;
    }
    this.place(parent);
    this.fresh();
    parent.forgetSeam(previous, next);
    this.between(previous, next);
  }

  /** The wrapped children. */
  wrapped() {
    if ((this.state & TABLED) !== 0) return [...this.below.values()];
    const found = [];
    for (let it = this.below; it !== null; it = it.behind) found.push(it);
    return found;
  }

  clear() {
    if ((this.state & CHILD) !== 0) this.leave();
    this.values = null;
  }

  /** Keeps that its children are no longer what they were, and that those which had objects have left. */
  forgetChildren(gone) {
    this.fresh();
    this.first = this.last = undefined;
    for (const it of gone) it.previous = it.next = undefined;
  }

  /** Keeps that one child is the only one; its links to siblings of before were mended. */
  only(child) {
    this.fresh();
    child.fresh();
    child.place(this);
    child.previous = child.next = null;
    this.first = this.last = child;
  }

  /** Keeps that it has no child. */
  bare() {
    this.stamp = this.session.links;
    this.first = this.last = null;
  }
}

// ---- Reading ahead of a walk.

const FEWEST = 4;
const MOST_AT_ONCE = 256;

/** Whether a walk goes on from where the last reading ended. */
function isGoingOn(its) {
  for (let it = frontier; it !== null; it = it.parent()) if (it === its) return true;
  return false;
}

/** Reads a child of a parent by its number, and the nodes after it in tree order up to the parent's end: few nodes first, more as a walk goes on. */
function readAhead(its, parent, number) {
  const { session } = parent;
  readAtOnce = isGoingOn(its) ? Math.min(4 * readAtOnce, MOST_AT_ONCE) : FEWEST;
  check(native.nodesFrom(session.index, parent.number, number, readAtOnce));
  return linked(parent, out[0] >>> 2, out[1], out[2] === NONE);
}

/** The columns of a row: a node's number, its parent's, its kind, and the number of its name. */
const [NUMBER, PARENT, KIND, NAME, ROW] = [0, 1, 2, 3, 4];

/** Makes objects of rows in tree order, and links them; returns the first one's state. All links are then those of now. */
function linked(parent, from, count, isWhole) {
  parent.fresh();
  const first = parent.adopted(from, undefined);
  let last = first;
  for (let row = from + ROW; row < from + count; row += ROW) {
    const number = words[row + PARENT];
    const before = last.number === number ? null : up(last, number);
    const above = before === null ? last : before.above;
    last = above.adopted(row, before);
    if (before === null) above.first = last;
    else before.next = last;
    if (before !== null && before.previous === null) remember(above);
  }
  // (which has both forgotten once the program waits)
  if (recent === null) recentNow();
  madeCount += count / ROW;
  frontier = last;
  if (isWhole) up(last, parent.number).trail();
  return first;
}

/** Goes from a node without children up to a child of a parent, by the parent's number; keeps that each node which it leaves is a last child. */
function up(its, parent) {
  let it = its;
  for (it.first = it.last = null; it.above.number !== parent; it = it.above) {
    it.next = null;
    it.above.last = it;
  }
  return it;
}

Session.settle = (its) => {
  its.state &= ~HELD;
  if ((its.state & CHILD) === 0) its.know();
};

/** Returns the object that is given, or a new one. */
function Given(object) {
  return object;
}

/** The state of the node whose object is being made. */
let coming = null;

/**
 * An object of a node, of whatever interface: a class of a realm stands between. An object that is given becomes that of the node. The field is set as it is
 * made, which an engine does faster than a second write.
 */
export class Wrapper extends Given {
  #its = coming;

  constructor(object) {
    super(object);
  }

  /** What makes objects of an interface, whose class stands between this one and its objects. */
  static makerOf(Between) {
    return new Maker(Between, this === Wrapper);
  }

  static {
    isNode = (it) => typeof it === "object" && it !== null && #its in it;
    itsOf = (node) => node.#its;
    // (a look-up that fails is rare: asking first whether there is the field takes as long as reading it)
    stateOf = (it) => {
      try {
        return it.#its;
      } catch {
        return null;
      }
    };
  }
}

/** What makes objects of an interface: bare ones of its prototype, which an engine makes faster than those of a class with classes above it. */
class Maker {
  constructor(Between, isBare) {
    this.Between = Between;
    this.Bare = isBare ? function () {} : null;
    if (isBare) this.Bare.prototype = Between.prototype;
  }

  make(its) {
    coming = its;
    its.object = this.Bare === null ? new this.Between() : new Wrapper(new this.Bare());
    coming = null;
  }
}

export const objectOf = (its) => (its === null ? null : its.object);

export const sessionOf = (node) => itsOf(node).session;
export const numberOf = (node) => itsOf(node).number;
export const kindOf = (node) => itsOf(node).kind;
export const realmOf = (node) => itsOf(node).realm;
export const keptOf = (node) => (itsOf(node).kept ??= {});

/** The node that a program sees in place of one: another one if that is a stand-in. */
export const seenOf = (node) => itsOf(node).kept?.standsFor ?? node;

/** The parent's wrapper, or null. */
export const parentOf = (node) => objectOf(itsOf(node).parent());

/** The wrapper of the root. */
export const rootOf = (node) => itsOf(node).root().object;

/** The Document of a node. */
export const documentOf = (node) => itsOf(node).document().object;

export const nextOf = (node) => objectOf(itsOf(node).nextSibling());
export const previousOf = (node) => objectOf(itsOf(node).previousSibling());
export const firstChildOf = (node) => objectOf(itsOf(node).firstChild());
export const lastChildOf = (node) => objectOf(itsOf(node).lastChild());

/** Whether it is known, without asking, that a node has no child. */
export function isKnownEmpty(node) {
  const its = itsOf(node);
  return its.stamp === its.session.links && its.first === null;
}

/** The child at an index, as far as the links to it are known; undefined where they are not. */
export function knownChildAt(node, index) {
  const its = itsOf(node);
  const { links } = its.session;
  let it = its.stamp === links ? its.first : undefined;
  for (let at = 0; at < index && it; at++) it = it.stamp === links ? it.next : undefined;
  return it && it.object;
}

/** Forgets which child is the first and which the last, where one came in that is not known. */
export function forgetEnds(node) {
  const its = itsOf(node);
  its.first = its.last = undefined;
}

/** The wrapper of a child of a node by its number, or undefined. */
export const wrappedChildOf = (parent, number) => itsOf(parent).child(number)?.object;

/** What an element's name says, by what its object knows. */
export const nameKnown = (its) => its.name ?? (its.name = nameAsked(its.session, its.number));

/** What the name of an element says, which may be known already. */
function nameAsked(session, number) {
  check(native.nodeName(session.index, number, 0));
  return elementByNumber(session, out[0]);
}

/** What makes a node's object in a realm, which may tell elements apart by their names. */
const makerOf = (kind, realm, name) => (name !== null && realm.elementMaker !== null ? realm.elementMaker(name) : realm.kinds[kind]);

const isOfXML = (session, number, kind) => kind === DOCUMENT && documentIs(session, number).isXMLDocument;

/** Makes an object of a node; returns its state. */
function make(session, number, kind, realm, name = null) {
  const known = name === null && kind === ELEMENT && realm.elementMaker ? nameAsked(session, number) : name;
  const its = new NodeIs(session, number, kind, known, endsOf(kind), null, undefined);
  if (realm !== session.realm) its.kept = { realm };
  (isOfXML(session, number, kind) ? realm.makers.XMLDocument : makerOf(kind, realm, known)).make(its);
  remember(its);
  madeCount++;
  return its;
}

/** The same for a node that has none, of whatever kind it is. */
function makeOf(session, number, realm) {
  check(hp_links(session.index, number));
  const isEmpty = out[FIRST_AT] === NONE;
  const made = make(session, number, out[0], realm);
  if (isEmpty) made.bare();
  return made;
}

/** The object that stands for a node of the core, found by its number alone. */
export const wrap = (session, number) => recall(session, number)?.object ?? session.known(number) ?? wrapAnew(session, number);

/** The same, or null for none. */
export const wrapOrNull = (session, number) => (number === NONE ? null : wrap(session, number));

/** The object of a node of the core, which may be found near another that has one: as its child, its parent or its sibling. */
export function wrapNear(node, number) {
  if (number === numberOf(node)) return node;
  const parent = parentOf(node);
  if (parent && number === numberOf(parent)) return parent;
  return wrap(sessionOf(node), number);
}

/** The object of a node, which may be a sibling of another one that has an object. */
function wrapBeside(node, number) {
  const its = itsOf(node);
  const { session, above } = its;
  if ((its.state & CHILD) === 0) return wrap(session, number);
  check(hp_links(session.index, number));
  return out[PARENT_AT] === above.number ? above.childOf(number).object : wrap(session, number);
}

/** The same where there may be no such node. */
export const wrapNext = (node, session, number) => (node === null || sessionOf(node) !== session ? wrap(session, number) : wrapBeside(node, number));

/** What the session knows of a Document. One that a line has made is as the first. */
export function documentIs(session, number) {
  const its = session.documents.get(number);
  if (its) return its;
  const made = { ...session.documents.get(0) };
  session.documents.set(number, made);
  return made;
}

/** The numbers from a node up to the nearest that is kept, or to the root, and the wrapper of the last of them. */
function wayTo(session, number) {
  const way = [];
  for (let at = number; ; ) {
    const found = recall(session, at)?.object ?? session.known(at);
    if (found) return { way, above: found };
    check(hp_links(session.index, at));
    if (out[PARENT_AT] === NONE) return { way, above: makeRoot(session, at, out[0], out[1]) };
    way.push(at);
    at = out[PARENT_AT];
  }
}

function makeRoot(session, number, kind, document) {
  const made = make(session, number, kind, documentIs(session, document).realm);
  made.know();
  if (kind !== DOCUMENT) made.loosen(itsOf(wrap(session, document)));
  return made.object;
}

/** Makes the wrappers from the root, or from the nearest one that is kept, down to the node, and returns the node's. */
function wrapAnew(session, number) {
  const { way, above } = wayTo(session, number);
  let it = itsOf(above);
  while (way.length > 0) it = it.childOf(way.pop());
  // (the way to its siblings is then as short)
  it.parent()?.know();
  remember(it);
  return it.object;
}

/** The object of a child of a node by its number. */
export const wrapChild = (parent, number) => itsOf(parent).childOf(number).object;

/** The object of a node that was just made for a Document, and has no parent. */
export function wrapMade(document, number, kind) {
  const above = itsOf(document);
  const made = make(above.session, number, kind, above.realm);
  made.loosen(above);
  return made.object;
}

/** The same, of a node that has no child either; of an element with what its name says. */
export function wrapBare(document, number, kind, name = null) {
  const above = itsOf(document);
  const made = make(above.session, number, kind, above.realm, name);
  made.bare();
  made.loosen(above);
  return made.object;
}

/** Says what a new Document is, and answers its object. */
export function wrapDocument(session, number, its) {
  session.documents.set(number, its);
  session.realm ??= its.realm;
  const made = make(session, number, DOCUMENT, its.realm);
  made.know();
  return made.object;
}

/** A node's number for a call of a session, which knows its own nodes alone. */
export function numberIn(session, node) {
  const its = itsOf(node);
  if (its.session !== session) throw new Refusal(native.HP_NOT_SUPPORTED_ERROR, "the node belongs to another session: import a copy of it");
  return its.number;
}

export const numberInOrNone = (session, node) => (node === null ? NONE : numberIn(session, node));

// ---- What a change has moved.

/** A node came into a parent ahead of a child, or at the end. */
export function arrived(node, parent, child) {
  if (node !== child) itsOf(node).cameInto(itsOf(parent), child === null ? null : itsOf(child));
}

/** A node left its parent; its Document is that of the tree that it was in. */
export function departed(node) {
  const its = itsOf(node);
  its.wentFrom(its.document());
}

/** A node came into the place of a child. */
export function replaced(node, parent, child) {
  if (node !== child) itsOf(node).tookPlaceOf(itsOf(parent), itsOf(child));
}

/** Puts a wrapper where the core says that its node stands. Links are not mended: `renewed` of the session has to be said. */
export function settle(node) {
  const session = sessionOf(node);
  check(native.hp_links(session.index, numberOf(node)));
  const document = out[1];
  const parent = out[2];
  if (parent !== NONE) itsOf(node).place(itsOf(wrap(session, parent)));
  else itsOf(node).loosen(kindOf(node) === DOCUMENT ? null : itsOf(wrap(session, document)));
}

/** Makes roots of wrappers that have left their parents; where they came is said afterwards, by `settle`. */
export function detach(nodes, document) {
  for (const it of nodes) {
    itsOf(it).loosen(itsOf(document));
    itsOf(it).know();
  }
}

/** A wrapper and all wrappers below it. */
export function wrappedBelow(node) {
  const found = [node];
  for (const it of found) childrenOf(it).forEach((child) => found.push(child));
  return found;
}

/** Moves all wrappers of a session to the positions of their nodes in the core. A wrapper whose node is gone has no parent and no children. */
export function settleAll(session) {
  const all = new Set();
  for (const root of session.everyKnown()) for (const it of wrappedBelow(root)) all.add(it);
  for (const it of all) {
    itsOf(it).clear();
    itsOf(it).know();
  }
  for (const it of all) if (native.hp_root(session.index, numberOf(it)) === OK) settle(it);
}

/** The wrapped children of a node. */
export const childrenOf = (node) => itsOf(node).wrapped().map(objectOf);

export const isOfParents = (node) => mayHaveChildren(kindOf(node));

// ---- Objects that are no nodes.

export let thingOf, isThing;

/** An object of an interface that is no node, with its state. */
export class Thing {
  #its;

  constructor(its) {
    this.#its = its;
  }

  static makerOf(Between) {
    return Between;
  }

  static {
    isThing = (it) => #its in it;
    // (the class itself is compared, since a search through prototypes takes longer than most calls)
    thingOf = (it, kind) => {
      if (typeof it !== "object" || it === null || !(#its in it)) return undefined;
      const its = it.#its;
      return its.constructor === kind ? its : undefined;
    };
  }
}

/** Makes an object that is no node. Its state is an instance of a class, which is its brand. */
export const makeThing = (realm, name, its) => new realm.makers[name](its);
