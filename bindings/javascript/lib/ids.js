/** Elements by their ids: which elements of a session have which id, kept by what changes tell. */
import { check, native, OK, out, Session, textFrom, words } from "./core.js";
import { attributeName } from "./names.js";
import { itsOf, numberOf, recall, sessionOf, wrap } from "./wrappers.js";

const ID = "id";

/** Asks the module for the elements of a tree that have an attribute; returns the status. */
const askFor = (session, root, name) => native.holders(session.index, root, attributeName(session, name).number);

/** Returns the elements of a tree that have an attribute, each with its value. */
export function holdersOf(session, root, name) {
  check(askFor(session, root, name));
  return holdersRead();
}

function holdersRead() {
  const found = [];
  for (let at = out[0] >>> 2, end = at + out[1]; at < end; ) {
    const length = words[at + 1];
    found.push([words[at], textFrom(4 * (at + 2), length)]);
    at += 2 + ((length + 1) >>> 1);
  }
  return found;
}

/** The elements of a session that share an id: their numbers, and, until the program waits, the last result. */
class Holders {
  #numbers;
  root = null;
  structure = -1;
  answer = null;

  constructor(...numbers) {
    this.#numbers = new Set(numbers);
  }

  add(number) {
    this.#numbers.add(number);
    this.forget();
  }

  delete(number) {
    this.#numbers.delete(number);
    this.forget();
  }

  /** The number of the only one, or null if there are more. */
  only() {
    const [one] = this.#numbers;
    return this.#numbers.size === 1 ? one : null;
  }

  forget() {
    this.root = this.answer = null;
  }

  #first(root) {
    const { session } = root;
    let first = null;
    for (const number of this.#numbers) {
      const it = found(root, number);
      if (it !== null) first = first === null ? it : earlier(session, first, it);
    }
    return first;
  }

  /** What the object of the first of them below a root knows, or null. */
  firstBelow(root) {
    const { structure } = root.session;
    if (this.root === root && this.structure === structure) return this.answer;
    if (this.root === null) root.session.keepFound(this);
    this.answer = this.#first(root);
    this.root = root;
    this.structure = structure;
    return this.answer;
  }
}

const within = (it, root) => (it !== root && it.root() === root ? it : null);

/** What the object of a number knows where it stands below a root, else null: of the trees of other roots no object is made. */
function found(root, number) {
  const { session } = root;
  const known = recall(session, number);
  if (known !== undefined) return within(known, root);
  return native.hp_root(session.index, number) === OK && out[0] === root.number ? within(itsOf(wrap(session, number)), root) : null;
}

/** Notes that an element has an id in place of another one; null is none. */
export const noteId = (its, before, after) => note(its.session, its.number, before, after);

function note(session, number, before, after) {
  if (before === after) return;
  if (before !== null) forget(session, number, before);
  if (after === null || after === "") return;
  const there = session.ids.get(after);
  if (there === undefined) session.ids.set(after, number);
  else if (typeof there !== "number") there.add(number);
  else if (there !== number) session.ids.set(after, new Holders(there, number));
}

function forget(session, number, id) {
  const there = session.ids.get(id);
  if (there === number) session.ids.delete(id);
  if (there === undefined || typeof there === "number") return;
  there.delete(number);
  const only = there.only();
  if (only !== null) session.ids.set(id, only);
}

/** Notes the ids of a tree that has just been made. If out of memory, ids are read from the trees from then on. */
export function noteIdsBelow(session, root) {
  if (session.ids.size === 0) return;
  session.knowsIds &&= askFor(session, root, ID) === OK;
  if (session.knowsIds) for (const [number, id] of holdersRead()) note(session, number, null, id);
}

// (if out of memory, the ids stay: they find nothing once the tree is gone)
Session.idsBelow = (session, root) => (askFor(session, root, ID) === OK ? holdersRead() : []);

Session.forgetIds = (session, held) => {
  for (const [number, id] of held) forget(session, number, id);
};

/** Which of two nodes of a tree comes first. */
function earlier(session, one, other) {
  native.hp_compare_position(session.index, one.number, other.number);
  return out[0] & 4 ? one : other;
}

/** What the object of the only element of an id knows if it stands below a root, else null; undefined if several share the id. */
export function onlyBelow(root, id) {
  const there = root.session.ids.get(id);
  if (there === undefined) return null;
  return typeof there === "number" ? found(root, there) : undefined;
}

/** The first element below a root that has an id, or null. */
export function elementById(root, id) {
  const its = itsOf(root);
  const { session } = its;
  if (!session.knowsIds) return readById(root, id);
  const only = onlyBelow(its, id);
  const first = only === undefined ? session.ids.get(id).firstBelow(its) : only;
  return first && first.object;
}

/** The same if the session does not know its ids. */
function readById(root, id) {
  const session = sessionOf(root);
  const found = id === "" ? undefined : holdersOf(session, numberOf(root), ID).find(([, its]) => its === id);
  return found ? wrap(session, found[0]) : null;
}
