/** NodeList and HTMLCollection: lists of nodes by index, live ones and those of a moment. */
import { check, native, out } from "./core.js";
import { FollowingIs } from "./following.js";
import { HTML } from "./names.js";
import { guardTraps, known } from "./webidl.js";
import { firstChildOf, isKnownEmpty, isOfParents, itsOf, knownChildAt, nextOf, numberOf, realmOf, sessionOf, wrap, wrapChild, wrapNext } from "./wrappers.js";

/** Where the last question to a list by an index ended, of all lists: the next one goes on from there, where nothing has moved meanwhile. */
const cursor = { list: null, structure: -1, index: -1, node: null };

function keepCursor(list, index, node) {
  cursor.list = list;
  cursor.structure = list.session.structure;
  cursor.index = index;
  cursor.node = node;
  return node;
}

const isAtCursor = (list, index) => cursor.list === list && cursor.index === index && cursor.structure === list.session.structure;

/** What lists of a node have in common: how the element at an index is found by its number. */
class LiveIs {
  constructor(node) {
    this.node = node;
    this.session = sessionOf(node);
  }

  get length() {
    return this.numbers.length;
  }

  at(index) {
    if (isAtCursor(this, index) && !this.isOld) return cursor.node;
    const { numbers } = this;
    if (index >= numbers.length) return null;
    return keepCursor(this, index, this.wrapped(numbers[index]));
  }

  /** The object of a number; it often stands beside the one that was asked for before. */
  wrapped(number) {
    return cursor.list === this ? wrapNext(cursor.node, this.session, number) : wrap(this.session, number);
  }
}

/** A list below a node whose numbers are read anew where places or attributes have changed. */
class ReadIs extends LiveIs {
  #read;
  #structure = -1;
  #attributes = -1;
  #numbers = [];

  constructor(node, read) {
    super(node);
    this.#read = read;
  }

  get isOld() {
    const { structure, attributes } = this.session;
    return this.#structure !== structure || this.#attributes !== attributes;
  }

  get numbers() {
    if (this.isOld) {
      this.#numbers = this.#read();
      this.#structure = this.session.structure;
      this.#attributes = this.session.attributes;
    }
    return this.#numbers;
  }
}

/** A list of elements below a node that follows edits. */
class FollowedIs extends LiveIs {
  #following;

  constructor(node, read, fits, options) {
    super(node);
    this.#following = new FollowingIs(itsOf(node), read, fits, options);
  }

  get isOld() {
    return this.#following.isOld;
  }

  get numbers() {
    return this.#following.numbers;
  }

  wrapped(number) {
    return this.#following.areChildren ? wrapChild(this.node, number) : super.wrapped(number);
  }
}

/** So far from the first child an index is looked for by links that are known already. */
const NEAR = 16;

/** The children of a node. How many there are is asked without reading all, and one index after another goes from child to child. */
class ChildrenIs extends LiveIs {
  #read;
  #structure = -1;
  #numbers = [];

  constructor(node, read) {
    super(node);
    this.#read = read;
  }

  get isOld() {
    return this.#structure !== this.session.structure;
  }

  get numbers() {
    if (this.isOld) {
      this.#numbers = this.#read();
      this.#structure = this.session.structure;
    }
    return this.#numbers;
  }

  get length() {
    if (!this.isOld) return this.numbers.length;
    if (!isOfParents(this.node) || isKnownEmpty(this.node)) return 0;
    check(native.hp_length(this.session.index, numberOf(this.node)));
    return out[0];
  }

  at(index) {
    if (index === 0) return keepCursor(this, 0, firstChildOf(this.node));
    if (isAtCursor(this, index)) return cursor.node;
    if (isAtCursor(this, index - 1)) return keepCursor(this, index, cursor.node && nextOf(cursor.node));
    return this.isOld ? keepCursor(this, index, this.#asked(index)) : super.at(index);
  }

  wrapped(number) {
    return wrapChild(this.node, number);
  }

  /** The child at an index, which the core finds from where it was last asked. */
  #asked(index) {
    if (!isOfParents(this.node)) return null;
    const known = index < NEAR ? knownChildAt(this.node, index) : undefined;
    if (known !== undefined) return known;
    const status = native.hp_child_at(this.session.index, numberOf(this.node), index);
    return status === native.HP_OK && out[0] !== native.HP_NONE ? wrapChild(this.node, out[0]) : null;
  }
}

/** Nodes of a moment. */
class StillIs {
  constructor(nodes) {
    this.nodes = nodes;
  }

  get length() {
    return this.nodes.length;
  }

  at(index) {
    return this.nodes[index] ?? null;
  }
}

const PAST = 4294967295;

/** The index that a property's name is, or -1. */
function indexOf(key) {
  if (typeof key !== "string") return -1;
  const first = key.charCodeAt(0);
  if (!(first >= 48 && first <= 57)) return -1;
  const index = key >>> 0;
  return index !== PAST && String(index) === key ? index : -1;
}

/** What a list of a realm does where its properties are indices. */
class Indexed {
  #its;

  constructor(its, realm) {
    this.#its = its;
    this.realm = realm;
  }

  get(target, key, receiver) {
    if (key === "length") return this.#its.length;
    const index = indexOf(key);
    if (index < 0) return Reflect.get(target, key, receiver);
    return this.#its.at(index) ?? undefined;
  }

  has(target, key) {
    const index = indexOf(key);
    return index < 0 ? Reflect.has(target, key) : index < this.#its.length;
  }

  set(target, key, value, receiver) {
    return indexOf(key) < 0 && Reflect.set(target, key, value, receiver);
  }

  defineProperty(target, key, descriptor) {
    return indexOf(key) < 0 && Reflect.defineProperty(target, key, descriptor);
  }

  deleteProperty(target, key) {
    const index = indexOf(key);
    return index < 0 ? Reflect.deleteProperty(target, key) : index >= this.#its.length;
  }

  ownKeys(target) {
    return [...Array(this.#its.length).keys()].map(String).concat(Reflect.ownKeys(target));
  }

  getOwnPropertyDescriptor(target, key) {
    const index = indexOf(key);
    if (index < 0) return Reflect.getOwnPropertyDescriptor(target, key);
    const value = this.#its.at(index);
    return value === null ? undefined : { value, writable: false, enumerable: true, configurable: true };
  }

  preventExtensions() {
    return false;
  }
}

/** The names that an element has in a collection: its id, and its name where it is one of HTML. */
function namesOf(element) {
  const name = element.namespaceURI === HTML ? element.getAttribute("name") : null;
  return [element.getAttribute("id"), name].filter(Boolean);
}

function namedIn(its, name) {
  if (name === "") return null;
  for (let at = 0, { length } = its; at < length; at++) {
    const element = its.at(at);
    if (namesOf(element).includes(name)) return element;
  }
  return null;
}

/** A list whose properties are names too, as far as its prototypes have none of them. */
class Named extends Indexed {
  #its;

  constructor(its, realm) {
    super(its, realm);
    this.#its = its;
  }

  /** The element that a property's name stands for, or null. */
  #named(target, key) {
    return typeof key !== "string" || indexOf(key) >= 0 || Reflect.has(target, key) ? null : namedIn(this.#its, key);
  }

  get(target, key, receiver) {
    if (key === "length") return this.#its.length;
    const index = indexOf(key);
    if (index >= 0) return this.#its.at(index) ?? undefined;
    return typeof key !== "string" || Reflect.has(target, key) ? Reflect.get(target, key, receiver) : (namedIn(this.#its, key) ?? undefined);
  }

  has(target, key) {
    return super.has(target, key) || this.#named(target, key) !== null;
  }

  set(target, key, value, receiver) {
    return this.#named(target, key) === null && super.set(target, key, value, receiver);
  }

  defineProperty(target, key, descriptor) {
    return this.#named(target, key) === null && super.defineProperty(target, key, descriptor);
  }

  deleteProperty(target, key) {
    return this.#named(target, key) === null && super.deleteProperty(target, key);
  }

  ownKeys(target) {
    const elements = Array.from({ length: this.#its.length }, (_, at) => this.#its.at(at));
    const names = [...new Set(elements.flatMap(namesOf))].filter((name) => indexOf(name) < 0 && !Reflect.has(target, name));
    return [...elements.map((_, at) => `${at}`), ...names, ...Reflect.ownKeys(target)];
  }

  getOwnPropertyDescriptor(target, key) {
    const value = this.#named(target, key);
    return value === null ? super.getOwnPropertyDescriptor(target, key) : { value, writable: false, enumerable: false, configurable: true };
  }
}

guardTraps(Indexed);
guardTraps(Named);

const nodeLists = new WeakMap();
const collections = new WeakMap();

function listed(realm, name, known, its, Handler = Indexed) {
  const made = new Proxy(Object.create(realm.interfaces[name].prototype), new Handler(its, realm));
  known.set(made, its);
  return made;
}

/** The live list of a node's children. */
export const liveNodeList = (node, read) => listed(realmOf(node), "NodeList", nodeLists, new ChildrenIs(node, read));

/** A list of nodes that does not change. */
export const stillNodeList = (realm, nodes) => listed(realm, "NodeList", nodeLists, new StillIs(nodes));

/** A live list of elements below a node, by a function that reads their numbers where places or attributes have changed. */
export const htmlCollection = (node, read) => listed(realmOf(node), "HTMLCollection", collections, new ReadIs(node, read), Named);

/** One that follows edits: `fits` says of what an element's object knows whether it is in the list (see following.js). */
export const followingCollection = (node, read, fits, options) =>
  listed(realmOf(node), "HTMLCollection", collections, new FollowedIs(node, read, fits, options), Named);

/** The numbers of the elements that are in a collection now. */
export const numbersIn = (list) => collections.get(list).numbers;

function borrow(realm, prototype, names) {
  for (const name of names) {
    const value = realm.global.Array.prototype[name];
    Object.defineProperty(prototype, name, { value, enumerable: typeof name === "string", writable: true, configurable: true });
  }
}

export const NodeList = known({
  name: "NodeList",
  is: (it) => nodeLists.has(it),
  attributes: { length: (list) => nodeLists.get(list).length },
  operations: { item: [["unsigned long"], (list, index) => nodeLists.get(list).at(index)] },
  finish: (realm, made) => borrow(realm, made.prototype, ["entries", "forEach", "keys", "values", Symbol.iterator]),
});

const namedItem = (list, name) => namedIn(collections.get(list), name);

export const HTMLCollection = known({
  name: "HTMLCollection",
  is: (it) => collections.has(it),
  attributes: { length: (list) => collections.get(list).length },
  operations: {
    item: [["unsigned long"], (list, index) => collections.get(list).at(index)],
    namedItem: [["DOMString"], namedItem],
  },
  finish: (realm, made) => borrow(realm, made.prototype, [Symbol.iterator]),
});
