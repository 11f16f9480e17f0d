/** A realm: interfaces of its own, the exceptions that they throw, and the Document that constructors belong to. */
import { refuseAbsent } from "./absent.js";
import { Refusal, Session } from "./core.js";
import { CharacterData, Comment, ProcessingInstruction, Text } from "./data.js";
import { Document, DocumentFragment, DocumentType, DOMImplementation, XMLDocument, xmlIs } from "./documents.js";
import { Element } from "./elements.js";
import { DOMException, exceptionFor } from "./exceptions.js";
import { HTMLCollection, NodeList } from "./lists.js";
import { lookups } from "./lookups.js";
import { Node } from "./nodes.js";
import { MutationObserver, MutationRecord } from "./observers.js";
import { AbstractRange, Range, StaticRange } from "./ranges.js";
import { FILTER_CONSTANTS, NodeIterator, TreeWalker } from "./traversal.js";
import { makeInterface } from "./webidl.js";
import { Thing, wrapDocument, Wrapper } from "./wrappers.js";

/** The interfaces, each behind the one that it inherits from. */
const TABLES = [
  ...[DOMException, NodeList, HTMLCollection, Node, Document, XMLDocument, DOMImplementation, DocumentType, DocumentFragment, Element],
  ...[CharacterData, Text, Comment, ProcessingInstruction, AbstractRange, Range, StaticRange],
  ...[NodeIterator, TreeWalker, MutationObserver, MutationRecord],
];

Object.assign(Node.operations, lookups);

/** Whether an interface is Node or inherits from it. */
const isOfNodes = (table) => table !== undefined && (table === Node || isOfNodes(TABLES.find((it) => it.name === table.parent)));

/** NodeFilter has constants alone. */
function nodeFilter(realm) {
  const made = realm.global.Object.create(realm.global.Object.prototype);
  for (const [name, value] of Object.entries(FILTER_CONSTANTS)) Object.defineProperty(made, name, { value, enumerable: true });
  return made;
}

const later = (fault) =>
  queueMicrotask(() => {
    throw fault;
  });

/** The interface of each kind of node, by the standard's number. */
const KINDS = {
  1: "Element",
  3: "Text",
  7: "ProcessingInstruction",
  8: "Comment",
  9: "Document",
  10: "DocumentType",
  11: "DocumentFragment",
};

export class Realm {
  interfaces = {};
  /** What makes objects: of each interface by its name, and of nodes by their kinds. */
  makers = {};
  kinds = [];
  /** Which of these makes an element of a name (null: the one of its kind). */
  elementMaker = null;
  #document = null;

  /**
   * `global` has the constructors of the language (an own context's, or this one's); `report` takes what a callback throws; `refuses` says whether names of
   * the standard that are not there refuse.
   */
  constructor({ global = globalThis, report = later, refuses = true } = {}) {
    this.global = global;
    this.report = report;
    for (const table of TABLES) this.interfaces[table.name] = makeInterface(this, table, isOfNodes(table) ? Wrapper : Thing);
    for (const [kind, name] of Object.entries(KINDS)) this.kinds[kind] = this.makers[name];
    this.interfaces.NodeFilter = nodeFilter(this);
    if (refuses) refuseAbsent(this);
  }

  /** The Document that new nodes of constructors belong to: the window's, or one that is made when it is first asked for. */
  get document() {
    this.#document ??= firstDocument(this, new Session(), xmlIs(this));
    return this.#document;
  }

  set document(document) {
    this.#document = document;
  }

  /** Returns the exception to throw for a fault: the realm's own for a refusal, any other fault as it is. */
  thrown(fault) {
    return fault instanceof Refusal ? exceptionFor(this, fault) : fault;
  }

  /** Does something whose refusal is the realm's exception. */
  guarded(does) {
    try {
      return does();
    } catch (fault) {
      throw this.thrown(fault);
    }
  }

  wrongThis() {
    return new this.global.TypeError("Illegal invocation");
  }

  tooFew(required, given) {
    return new this.global.TypeError(`${required} argument${required === 1 ? " is" : "s are"} required, not ${given}`);
  }

  /** A list as an array of the realm. */
  array(list) {
    return this.global === globalThis ? list : this.global.Array.from(list);
  }

  /** An object that a constructor made, of the class that was called. */
  constructed(target, made) {
    if (Object.getPrototypeOf(made) !== target.prototype) Object.setPrototypeOf(made, target.prototype);
    return made;
  }
}

/** The Document that a session begins with. */
export const firstDocument = (realm, session, its) => wrapDocument(session, 0, its);
