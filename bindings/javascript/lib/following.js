/**
 * Lists that follow edits by place: what came or went is put into them or taken out of them, so that they need not be read anew.
 *
 * The session knows the lists that were read in this turn. After an edit that is not told here they are old, and are read when they are next asked.
 */
import { ELEMENT, native, out, Session } from "./core.js";

/** How many edits a list follows that nobody asks meanwhile, and how many nodes below an edit are looked at. */
const MOST_EDITS = 16;
const MOST_NODES = 64;
const FOLLOWING = 4;

/** A list of the numbers of elements in tree order, below a node. */
export class FollowingIs {
  #structure = -1;
  #classes = -1;
  #unasked = 0;
  #numbers = [];
  isFollowed = false;

  /** `read` answers the numbers; `fits` says of an element below the root whether it is one of them, and may look at its place and its classes alone. */
  constructor(root, read, fits, { areChildren = false, isByClasses = false } = {}) {
    this.root = root;
    this.read = read;
    this.fits = fits;
    this.areChildren = areChildren;
    this.isByClasses = isByClasses;
  }

  get isOld() {
    const { structure, classes } = this.root.session;
    return this.#structure !== structure || (this.isByClasses && this.#classes !== classes);
  }

  get numbers() {
    this.#unasked = 0;
    if (this.isOld) {
      this.#numbers = this.read();
      this.#isNow();
    }
    if (!this.isFollowed) this.root.session.follow(this);
    return this.#numbers;
  }

  #isNow() {
    const { structure, classes } = this.root.session;
    this.#structure = structure;
    this.#classes = classes;
  }

  /** Whether it is asked often enough to be worth it; where it follows no longer it has nothing. */
  #isDue(structure, classes) {
    return this.#structure === structure && (!this.isByClasses || this.#classes === classes) && ++this.#unasked <= MOST_EDITS;
  }

  /** A node left a parent (null for none) and came into another (null for none); the counts are those of before. Answers whether it has followed. */
  moved(its, from, to, { structure, classes }) {
    if (!this.#isDue(structure, classes)) return false;
    const isFrom = from !== null && this.#has(from);
    const isTo = to !== null && this.#has(to);
    const found = isFrom || isTo ? this.#among(its) : [];
    if (found === null) return false;
    if (found.length > 0 && isFrom) this.#takeOut(found);
    if (found.length > 0 && isTo) this.#putIn(found);
    this.#isNow();
    return true;
  }

  /** The classes of an element have changed. */
  reclassed(its, { structure, classes }) {
    if (!this.isByClasses) return true;
    if (!this.#isDue(structure, classes)) return false;
    const at = this.#numbers.indexOf(its.number);
    const isIn = its !== this.root && this.#has(its) && this.fits(its);
    if (at >= 0 && !isIn) this.#numbers.splice(at, 1);
    if (at < 0 && isIn) this.#putIn([its.number]);
    this.#isNow();
    return true;
  }

  /** Whether children of a node may be in the list. */
  #has(parent) {
    if (this.areChildren) return parent === this.root;
    for (let it = parent; it !== null; it = it.parent()) if (it === this.root) return true;
    return false;
  }

  /** Returns the numbers of the fitting elements among a node and its descendants, in tree order; null if there are too many nodes. */
  #among(top) {
    const found = [];
    let count = 0;
    for (let it = top; it !== null; it = this.areChildren ? null : after(it, top)) {
      if (++count > MOST_NODES) return null;
      if (it.kind === ELEMENT && this.fits(it)) found.push(it.number);
    }
    return found;
  }

  /** Those of one tree stand behind one another. */
  #takeOut(found) {
    const at = this.#numbers.indexOf(found[0]);
    if (at >= 0) this.#numbers.splice(at, found.length);
  }

  #putIn(found) {
    const numbers = this.#numbers;
    const at = this.#placeOf(found[0]);
    if (at === numbers.length) numbers.push(...found);
    else numbers.splice(at, 0, ...found);
  }

  /** Where a node belongs: behind the last that comes before it in tree order. */
  #placeOf(number) {
    const numbers = this.#numbers;
    const { index } = this.root.session;
    const isBehind = (at) => native.hp_compare_position(index, numbers[at], number) === 0 && (out[0] & FOLLOWING) !== 0;
    if (numbers.length === 0 || isBehind(numbers.length - 1)) return numbers.length;
    let low = 0;
    for (let high = numbers.length - 1; low < high; ) {
      const middle = (low + high) >>> 1;
      if (isBehind(middle)) low = middle + 1;
      else high = middle;
    }
    return low;
  }
}

/** Returns the node behind another one in tree order, below a root. */
export function after(it, top) {
  const first = it.firstChild();
  if (first !== null) return first;
  for (let at = it; at !== top; at = at.parent()) {
    const next = at.nextSibling();
    if (next !== null) return next;
  }
  return null;
}

/** Has the lists of a session follow; those that do not are followed no longer. */
function follow(session, does) {
  const left = session.lists.filter((list) => {
    list.isFollowed = does(list);
    return list.isFollowed;
  });
  session.lists = left;
}

Session.listsMoved = (session, its, from, to, before) => follow(session, (list) => list.moved(its, from, to, before));
Session.listsReclassed = (session, its, before) => follow(session, (list) => list.reclassed(its, before));
