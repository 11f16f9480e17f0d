/** MutationObserver and MutationRecord. The core queues records; here they become objects, and callbacks are called. */
import { check, lent, native, OK, out, wordsOf } from "./core.js";
import { stillNodeList } from "./lists.js";
import { attributeName } from "./names.js";
import { converted, convertible, known } from "./webidl.js";
import { keptOf, makeThing, numberOf, sessionOf, thingOf, wrap, wrapOrNull } from "./wrappers.js";

const TYPES = ["attributes", "characterData", "childList"];
const ATTRIBUTES = TYPES.indexOf("attributes");
const CHILD_LIST = TYPES.indexOf("childList");
const HEAD = 6;
/** The notice that has the records of one observer. */
const NOTICE = 0;

// ---- Reading: first all records as numbers, since the result is borrowed only until the next call; then the objects.

/** The records of the last answer as plain objects of numbers and texts. */
function read(session) {
  check(native.hp_count(session.index));
  const told = wordsOf(native.records(session.index, NOTICE, out[0])).slice();
  const found = [];
  for (let at = 0; at < told.length; ) {
    const type = told[at];
    const target = told[at + 1];
    const added = told[at + 2];
    const removed = told[at + 3];
    const previous = told[at + 4];
    const next = told[at + 5];
    at += HEAD;
    const record = { type, target, previous, next, added: told.subarray(at, at + added), removed: told.subarray(at + added, at + added + removed) };
    at += added + removed;
    if (type !== CHILD_LIST) record.oldValue = lent(native.hp_record_old_value(session.index, NOTICE, found.length));
    if (type === ATTRIBUTES) record.name = lent(native.hp_record_name(session.index, NOTICE, found.length));
    found.push(record);
  }
  return found;
}

/** Nodes that are held from now on, and made a list of when that is asked for. */
class Held {
  #realm;
  #nodes;
  #list;

  constructor(realm, session, numbers) {
    this.#realm = realm;
    this.#nodes = Array.from(numbers, (number) => wrap(session, number));
  }

  get list() {
    return (this.#list ??= stillNodeList(this.#realm, this.#nodes));
  }
}

class RecordIs {
  #added;
  #removed;

  constructor(realm, session, told) {
    const name = told.name === undefined ? null : attributeName(session, told.name);
    this.type = TYPES[told.type];
    this.target = wrap(session, told.target);
    this.#added = new Held(realm, session, told.added);
    this.#removed = new Held(realm, session, told.removed);
    this.previousSibling = wrapOrNull(session, told.previous);
    this.nextSibling = wrapOrNull(session, told.next);
    this.attributeName = name && name.local;
    this.attributeNamespace = name && name.namespace;
    this.oldValue = told.oldValue ?? null;
  }

  get addedNodes() {
    return this.#added.list;
  }

  get removedNodes() {
    return this.#removed.list;
  }
}

const recordOf = (it) => thingOf(it, RecordIs);

const recordsOf = (realm, session, told) =>
  realm.array(told.map((it) => makeThing(realm, "MutationRecord", new RecordIs(realm, session, it))));

const MEMBERS = "type target addedNodes removedNodes previousSibling nextSibling attributeName attributeNamespace oldValue".split(" ");

export const MutationRecord = known({
  name: "MutationRecord",
  is: (it) => recordOf(it) !== undefined,
  attributes: Object.fromEntries(MEMBERS.map((name) => [name, (record) => recordOf(record)[name]])),
});

// ---- Observers: one number in each session in which a node is observed.

class ObserverIs {
  numbers = new Map();
  // The observed nodes, which hold the observer; it holds them weakly.
  nodes = [];

  constructor(realm, callback) {
    this.realm = realm;
    this.callback = callback;
  }
}

const observerOf = (it) => thingOf(it, ObserverIs);
const lost = new FinalizationRegistry(({ session, number }) => session.loseObserver(number));

/** The observer's number in a session. */
function numberFor(observer, session) {
  const { numbers } = observerOf(observer);
  if (!numbers.has(session)) {
    check(native.hp_create_observer(session.index));
    const number = out[0];
    numbers.set(session, number);
    session.observers.set(number, new WeakRef(observer));
    session.watch(notify);
    lost.register(observer, { session, number });
  }
  return numbers.get(session);
}

const SWITCHES = ["childList", "attributes", "characterData", "subtree", "attributeOldValue", "characterDataOldValue"];
const ABSENT = 2;
const encoder = new TextEncoder();

function observe(observer, target, options) {
  const session = sessionOf(target);
  const number = numberFor(observer, session);
  const { switches, names } = options;
  const bytes = names.map((name) => encoder.encode(name));
  const lengths = Uint32Array.from(bytes, (it) => it.length);
  check(native.hp_observe(session.index, number, numberOf(target), switches, Uint8Array.from(bytes.flatMap((it) => [...it])), lengths));
  (keptOf(target).observers ??= new Set()).add(observer);
  observerOf(observer).nodes.push(new WeakRef(target));
}

/** The options of an observer as the core takes them; members are read in the order of their names. */
function optionsOf(value) {
  const from = converted("dictionary", value);
  const given = {};
  for (const name of ["attributeFilter", ...SWITCHES].sort()) {
    const its = from[name];
    if (its !== undefined) given[name] = converted(name === "attributeFilter" ? "sequence<DOMString>" : "boolean", its);
  }
  const switches = Uint8Array.of(...SWITCHES.map((name) => (name in given ? Number(given[name]) : ABSENT)), "attributeFilter" in given ? 1 : 0);
  return { switches, names: given.attributeFilter ?? [] };
}

convertible("MutationObserverInit", optionsOf);

function disconnect(observer) {
  const its = observerOf(observer);
  for (const node of its.nodes) {
    const target = node.deref();
    if (target) keptOf(target).observers.delete(observer);
  }
  its.nodes = [];
  for (const [session, number] of its.numbers) check(native.hp_disconnect(session.index, number));
}

function takeRecords(observer) {
  const { numbers, realm } = observerOf(observer);
  const found = [];
  for (const [session, number] of numbers) {
    check(native.hp_take_records(session.index, number));
    found.push(...recordsOf(realm, session, read(session)));
  }
  return realm.array(found);
}

/** Returns the records of an observer in its turn; none if it was released. */
const toldInTurn = (session, number) => (native.hp_tell_observer(session.index, number) === OK ? read(session) : []);

/** Notifies the observers of a session of their pending records. Changes that an earlier callback makes to a later observer count. */
function notify(session) {
  if (native.hp_take_pending(session.index) !== OK) return;
  for (const number of wordsOf(native.listed(session.index)).slice()) {
    const told = toldInTurn(session, number);
    const observer = session.observers.get(number)?.deref();
    if (observer && told.length > 0) call(observer, recordsOf(observerOf(observer).realm, session, told));
  }
}

function call(observer, records) {
  const { callback, realm } = observerOf(observer);
  try {
    callback.call(observer, records, observer);
  } catch (fault) {
    realm.report(fault);
  }
}

export const MutationObserver = known({
  name: "MutationObserver",
  is: (it) => observerOf(it) !== undefined,
  construct: [["Function"], (realm, callback) => makeThing(realm, "MutationObserver", new ObserverIs(realm, callback))],
  operations: {
    observe: [["Node or other", "MutationObserverInit = {}"], observe],
    disconnect: [[], disconnect],
    takeRecords: [[], takeRecords],
  },
});
