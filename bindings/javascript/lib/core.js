/**
 * Sessions of the core. They are opened and closed here, free unused objects, count changes, and have observers notified.
 *
 * The rules for documents are not here: each question goes to the module, which returns a status. A refusal is thrown as a Refusal, which is no
 * Error. An interface's method turns it into an exception of its own realm.
 */
import { beforeChange, has, native, out, STUCK, textFrom, TOO_LONG, words } from "./native.js";

export { beforeChange, has, native, out, STUCK, textFrom, TOO_LONG, words };

export const NONE = native.HP_NONE;
export const OK = native.HP_OK;

/** The standard's numbers of the kinds of nodes. */
export const ELEMENT = 1;
export const ATTRIBUTE = 2;
export const TEXT = 3;
export const INSTRUCTION = 7;
export const COMMENT = 8;
export const DOCUMENT = 9;
export const DOCTYPE = 10;
export const FRAGMENT = 11;

/** Why a call was refused: the library's status, and words where the status does not say it. */
export class Refusal {
  constructor(status, message = "") {
    this.status = status;
    this.message = message;
  }
}

/** Refuses what the status refuses. */
export function check(status) {
  if (status !== OK) throw new Refusal(status);
}

/** A text that a call lends, or null where it is not there. */
export function lent(answer) {
  if (typeof answer === "string") return answer;
  if (answer === native.HP_NOT_THERE) return null;
  throw new Refusal(answer);
}

/** The words of an answer of many parts: a view, which holds until the next call. */
export function wordsOf(status) {
  check(status);
  const from = out[0] >>> 2;
  return words.subarray(from, from + out[1]);
}

const NO_BYTES = new Uint8Array(0);
const NO_NUMBERS = new Uint32Array(0);
const ROOT_DOCUMENT = 0;
const CLOSED = NONE;
const ALL = 0xffffffff;
const MOST_NUMBERS = 4294967295;
const LONGEST_LINE = 4294967295;

/** The moves of a walker, by the library's numbers. */
export const MOVES = { parentNode: 0, firstChild: 1, lastChild: 2, previousSibling: 3, nextSibling: 4, previousNode: 5, nextNode: 6 };

const encoder = new TextEncoder();

// A session that nothing points at any more is closed.
const sessions = new FinalizationRegistry((index) => native.close(index));

// ---- Turns of the event loop.

/** Does something once the program waits. Node does not stay up for it. */
export const soon = globalThis.setImmediate ? (does) => void globalThis.setImmediate(does).unref?.() : (does) => void setTimeout(does);

function limit(value, most, what) {
  const number = typeof value === "bigint" || typeof value === "symbol" ? NaN : Number(value);
  if (number >= 1 && number <= most) return Math.floor(number);
  throw new Refusal(native.HP_TYPE_ERROR, `${what} has to be a number from 1 to ${most}, not ${String(value)}`);
}

/** Which numbers have had a wrapper, one bit for each: where the bit is down there is none to look for. */
class Marks {
  #bits = new Uint32Array(64);

  has(number) {
    return (this.#bits[number >>> 5] & (1 << (number & 31))) !== 0;
  }

  add(number) {
    const at = number >>> 5;
    if (at >= this.#bits.length) {
      const longer = new Uint32Array(Math.max(2 * this.#bits.length, at + 1));
      longer.set(this.#bits);
      this.#bits = longer;
    }
    this.#bits[at] |= 1 << (number & 31);
  }
}

export class Session {
  /** The module's index, where it is open. */
  index;
  /** One count for each kind of change, to detect stale caches: of the tree's structure, of attributes, and of classes alone. */
  structure = 0;
  attributes = 0;
  classes = 0;
  /** The lists that follow edits until the program waits (see following.js). */
  lists = [];
  /** Grows where the wrappers' own links (see wrappers.js) may have become wrong, so that they are read anew. */
  links = 0;
  /** Which numbers have had wrappers. */
  marks = new Marks();
  /** What the facade knows of each Document: its type, its content type, its realm; and the realm of the first. */
  documents = new Map();
  realm = null;
  /** What marks and names mean (see names.js). */
  elementNames = new Map();
  htmlNames = new Map();
  attributeNames = new Map();
  byNumber = [];
  attributesByNumber = [];
  namespaces = [];
  hasMarkedAttributes = false;
  hasPrefixedAttributes = false;
  /** The elements of each id (see ids.js), by number if there is one alone; and whether these are all, which is not known after a line. */
  ids = new Map();
  knowsIds = true;
  /** Whether an element was ever given contents of its own, as a template of HTML is. */
  hasContents = false;
  /** The observers by the number that the core has, held weakly, and whether any was ever asked to watch. */
  observers = new Map();
  isWatched = false;

  // The wrappers that can be found by number, held weakly: roots, and nodes that were looked up by number. A new root is held until the program waits.
  #known = new Map();
  #young = [];
  #found = [];
  #wrappers = new FinalizationRegistry((number) => this.#lose(number));
  #releases = new Map();
  #walker = NONE;
  #probe = NONE;
  #leaving = new Set();
  #isSweeping = false;
  #isTelling = false;
  #notify;

  constructor({ numbers = MOST_NUMBERS, line = 1048576 } = {}) {
    check(native.open(limit(numbers, MOST_NUMBERS, "how many numbers there are"), limit(line, LONGEST_LINE, "the length of a line")));
    this.index = out[0];
    sessions.register(this, this.index, this);
  }

  /** Closes the session; its objects are refused from then on. */
  close() {
    if (this.index === CLOSED) return;
    sessions.unregister(this);
    native.close(this.index);
    this.index = CLOSED;
    this.links++;
  }

  /** Answers a line of JSON, as bytes or as a string, with the line of its reply. */
  line(line) {
    const bytes = typeof line === "string" ? encoder.encode(line) : line;
    if (!(bytes instanceof Uint8Array)) throw new Refusal(native.HP_TYPE_ERROR, `expected a line as a string or a Uint8Array, not ${typeof bytes}`);
    const status = native.hp_line(this.index, bytes);
    if (status === STUCK) check(status);
    this.knowsIds = false;
    Session.forgetRecent();
    this.renewed();
    this.attributes++;
    this.classes++;
    // (a line that is refused memory has no reply: the core still lends the one before)
    if (status === native.HP_OUT_OF_MEMORY) check(status);
    // (another refusal is in the reply)
    return lent(native.hp_reply_line(this.index));
  }

  /** How many objects of each kind the core has, those with them that the facade makes for itself: a walker, and an observer. */
  inUse() {
    check(native.hp_in_use(this.index));
    const [nodes, ranges, staticRanges, iterators, walkers, observers, registrations] = out;
    return { nodes, ranges, staticRanges, iterators, walkers, observers, registrations };
  }

  // ---- Changes: each calls one of these methods, and observers are notified once the program is done.

  changed() {
    if (this.isWatched && !this.#isTelling) this.#tellSoon();
  }

  #tellSoon() {
    this.#isTelling = true;
    queueMicrotask(() => {
      this.#isTelling = false;
      this.#notify(this);
    });
  }

  /** Nodes came, went or moved, and the wrappers' links have followed; lists have to be read anew. */
  moved() {
    this.structure++;
    if (this.lists.length > 0) this.dropLists();
    this.changed();
  }

  /** The same of one node, which left a parent and came into another, null for none: what its object knows, which has followed. */
  movedOne(its, from, to) {
    const { structure, classes } = this;
    this.structure++;
    if (this.lists.length > 0) Session.listsMoved(this, its, from, to, { structure, classes });
    this.changed();
  }

  /** Nodes that are no elements were inserted, removed or moved. */
  movedTexts() {
    this.movedOne(null, null, null);
  }

  /** The classes of an element have changed. */
  reclassed(its) {
    const { structure, classes } = this;
    this.classes++;
    if (this.lists.length > 0) Session.listsReclassed(this, its, { structure, classes });
  }

  /** Has a list follow edits until the program waits. */
  follow(list) {
    list.isFollowed = true;
    this.lists.push(list);
    if (this.lists.length === 1) soon(() => this.dropLists());
  }

  dropLists() {
    for (const it of this.lists) it.isFollowed = false;
    this.lists = [];
  }

  /** How lists follow (following.js says it). */
  static listsMoved;
  static listsReclassed;

  /** Nodes came, went or moved. */
  renewed() {
    this.links++;
    this.moved();
  }

  /** Attributes were set or removed. */
  altered() {
    this.attributes++;
    this.changed();
  }

  /** Sets the function that notifies observers; they are notified of changes from now on. */
  watch(notify) {
    this.#notify = notify;
    this.isWatched = true;
  }

  // ---- A walker and an observer of the facade's own.

  /** The number of the node where a walker over all nodes comes from a node, or NONE. It stands on the first Document when it is not asked. */
  step(number, move) {
    if (this.#walker === NONE) {
      check(native.hp_create_walker(this.index, ROOT_DOCUMENT, ALL, NO_BYTES, NO_NUMBERS, NO_BYTES));
      this.#walker = out[0];
    }
    check(native.step(this.index, this.#walker, number, MOVES[move]));
    return out[0];
  }

  /** Returns the number of an observer that is never notified. */
  probe() {
    if (this.#probe === NONE) {
      check(native.hp_create_observer(this.index));
      this.#probe = out[0];
    }
    return this.#probe;
  }

  // ---- Wrappers by number.

  /** Holds the wrapper of a new root until the program waits. */
  hold(wrapper) {
    this.#young.push(wrapper);
    if (this.#young.length === 1) soon(() => this.settleYoung());
  }

  /** Registers a wrapper, weakly, under its number. Its tree is freed once the wrapper is collected. */
  know(wrapper, number) {
    this.#known.set(number, new WeakRef(wrapper));
    this.#wrappers.register(wrapper, number);
  }

  /** Has those that are held be kept weakly: `isRoot` answers whether one still has to be found. */
  settleYoung() {
    const young = this.#young;
    this.#young = [];
    for (const it of young) Session.settle(it);
  }

  /** Drops the cached result of an id once the program waits, so that the cache holds no node for longer. */
  keepFound(holders) {
    this.#found.push(holders);
    if (this.#found.length > 1) return;
    soon(() => {
      for (const it of this.#found) it.forget();
      this.#found = [];
    });
  }

  /** How a wrapper that was held is kept, and how those that were found last are forgotten (wrappers.js says it). */
  static settle;
  static forgetRecent;

  /** The wrapper that is kept under a number, or undefined. */
  known(number) {
    const found = this.#known.get(number)?.deref();
    if (found !== undefined || this.#young.length === 0) return found;
    this.settleYoung();
    return this.#known.get(number)?.deref();
  }

  /** All wrappers that are kept. */
  *everyKnown() {
    this.settleYoung();
    for (const it of [...this.#known.values()]) {
      const wrapper = it.deref();
      if (wrapper) yield wrapper;
    }
  }

  // ---- Objects that are freed.

  /** Calls the library to release an object by its number once its wrapper is gone. */
  releaseWith(call, wrapper, number) {
    if (!this.#releases.has(call)) this.#releases.set(call, new FinalizationRegistry((its) => this.#release(call, its)));
    this.#releases.get(call).register(wrapper, number);
  }

  #release(call, number) {
    native[call](this.index, number);
    this.#sweepSoon();
  }

  /** Releases an observer that nothing points at. */
  loseObserver(number) {
    this.observers.delete(number);
    native.hp_release_observer(this.index, number);
    this.#sweepSoon();
  }

  #lose(number) {
    const found = this.#known.get(number);
    if (found === undefined || found.deref() !== undefined) return;
    this.#known.delete(number);
    this.leave(number);
  }

  /** Has a node's tree be discarded where nothing holds it. */
  leave(number) {
    this.#leaving.add(number);
    this.#sweepSoon();
  }

  #sweepSoon() {
    if (this.#isSweeping || this.#leaving.size === 0) return;
    this.#isSweeping = true;
    soon(() => {
      this.#isSweeping = false;
      this.sweep();
    });
  }

  /** Discards each tree whose root has no wrapper any more. A tree that is still in use waits for the next sweep. */
  sweep() {
    this.settleYoung();
    for (let before = -1; this.#leaving.size > 0 && this.#leaving.size !== before; ) {
      before = this.#leaving.size;
      for (const number of [...this.#leaving]) this.#discard(number);
    }
  }

  /** Discards the tree of a node, where its root has no wrapper. */
  #discard(number) {
    const root = native.hp_root(this.index, number) === OK ? out[0] : NONE;
    this.#leaving.delete(number);
    if (root === NONE || root === ROOT_DOCUMENT || this.#known.get(root)?.deref() !== undefined) return;
    const ids = this.ids.size > 0 ? Session.idsBelow(this, root) : [];
    if (native.hp_discard(this.index, root) === OK) {
      Session.forgetIds(this, ids);
      this.documents.delete(root);
    } else {
      // One number stands for all of a tree that is in use. It may be found again, so its ids stay.
      this.#leaving.add(root);
    }
  }

  /** How the ids of a tree are read, and forgotten (ids.js says it). */
  static idsBelow;
  static forgetIds;
}
