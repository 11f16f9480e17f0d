/** Objects whose properties are indices and names (Web IDL's legacy platform objects). Each access is delegated to their state. */
import { guardTraps } from "./core.js";

const PAST = 4294967295;

function indexOf(key) {
  if (typeof key !== "string") return -1;
  const first = key.charCodeAt(0);
  if (!(first >= 48 && first <= 57)) return -1;
  const index = key >>> 0;
  return index !== PAST && String(index) === key ? index : -1;
}

/**
 * The traps of such an object. Its state has:
 *
 * - `length` and `at(index)` if the object has indices;
 * - `names()` and `named(name)` if it has names, and `setNamed` and `deleteNamed` if these can be written;
 * - `isOverriding` if its names take precedence over the members of the interface.
 *
 * The realm is that of the exceptions.
 */
export class Traps {
  #its;
  /** The object, which is made after its traps. */
  made = null;

  constructor(its, realm = null) {
    this.#its = its;
    this.realm = realm;
  }

  #visible(target, key) {
    const its = this.#its;
    if (typeof key !== "string" || !its.named) return undefined;
    if (!its.isOverriding && key in target) return undefined;
    return its.named(key) ?? undefined;
  }

  #at(key) {
    const index = this.#its.at ? indexOf(key) : -1;
    return index < 0 ? undefined : { value: this.#its.at(index) ?? undefined };
  }

  get(target, key, receiver) {
    const its = this.#its;
    const index = its.at ? indexOf(key) : -1;
    if (index >= 0) return its.at(index) ?? undefined;
    if (key === "length" && its.at && !its.isOverriding) return its.length;
    const named = this.#visible(target, key);
    return named === undefined ? Reflect.get(target, key, receiver) : named;
  }

  has(target, key) {
    const found = this.#at(key);
    if (found) return found.value !== undefined;
    return this.#visible(target, key) !== undefined || Reflect.has(target, key);
  }

  set(target, key, value, receiver) {
    const its = this.#its;
    const index = its.at ? indexOf(key) : -1;
    if (index >= 0) return its.setAt ? its.setAt(index, value) : false;
    if (its.setNamed && typeof key === "string") return its.setNamed(key, value);
    return Reflect.set(target, key, value, receiver);
  }

  defineProperty(target, key, descriptor) {
    const its = this.#its;
    if (its.at && indexOf(key) >= 0) return its.setAt && "value" in descriptor ? its.setAt(indexOf(key), descriptor.value) : false;
    if (its.setNamed && typeof key === "string") return "value" in descriptor && its.setNamed(key, descriptor.value);
    return Reflect.defineProperty(target, key, descriptor);
  }

  deleteProperty(target, key) {
    const its = this.#its;
    const found = this.#at(key);
    if (found) return found.value === undefined;
    if (its.deleteNamed && typeof key === "string" && this.#visible(target, key) !== undefined) return its.deleteNamed(key);
    return Reflect.deleteProperty(target, key);
  }

  ownKeys(target) {
    const its = this.#its;
    const indices = its.at ? Array.from({ length: its.length }, (_, at) => String(at)) : [];
    const names = its.named ? its.names().filter((name) => its.isOverriding || !(name in target)) : [];
    return [...new Set([...indices, ...names, ...Reflect.ownKeys(target)])];
  }

  getOwnPropertyDescriptor(target, key) {
    const its = this.#its;
    const found = this.#at(key);
    const value = found ? found.value : this.#visible(target, key);
    if (value === undefined) return found ? undefined : Reflect.getOwnPropertyDescriptor(target, key);
    const [writable, enumerable] = [found ? its.setAt : its.setNamed, found || its.areNamesShown].map(Boolean);
    return { value, writable, enumerable, configurable: true };
  }

  preventExtensions() {
    return false;
  }

  /** Also makes the state known (see `asked`). */
  isExtensible(target) {
    if (this.made !== null) known.set(this.made, this.#its);
    return Reflect.isExtensible(target);
  }
}

guardTraps(Traps);

/** The states of objects whose methods were called. An entry takes longer than the object, and most objects are only read through their traps. */
const known = new WeakMap();

/** Has the trap of such an object enter its state. */
function asked(it) {
  try {
    Reflect.isExtensible(it);
  } catch {
    // (a proxy of a program's own)
  }
  return known.get(it);
}

/** Returns the state of such an object if it is of a class. */
export function knownOf(it, Kind) {
  const its = typeof it === "object" && it !== null ? (known.get(it) ?? asked(it)) : undefined;
  return its instanceof Kind ? its : undefined;
}

/** Makes an object of an interface of a realm, with a state. */
export function makeLegacy(realm, name, its) {
  const traps = new Traps(its, realm);
  traps.made = new Proxy(Object.create(realm.interfaces[name].prototype), traps);
  return traps.made;
}

/** Gives a prototype what arrays have for going through. */
export function borrow(realm, prototype, names) {
  for (const name of names) {
    const value = realm.global.Array.prototype[name];
    Object.defineProperty(prototype, name, { value, enumerable: typeof name === "string", writable: true, configurable: true });
  }
}
