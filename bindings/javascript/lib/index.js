/** The package: the standard's interfaces over the core, Documents, windows, and Documents in and out. */
import { has, native, Session as Core } from "./core.js";
import { furnish, htmlIs, newDocument, xmlIs } from "./documents.js";
import { globalOf } from "./host.js";
import { provide } from "./libraries.js";
import { readFragment, readHTML, readXML, treeAdapter as adapterOf } from "./parsing.js";
import { firstDocument, Realm } from "./realm.js";
import { serialize as written, serializeXML as writtenXML } from "./serializing.js";
import { describe, refuseOther } from "./webidl.js";
import { isNode, numberIn, sessionOf, settleAll, wrap } from "./wrappers.js";

const realm = new Realm();

export const {
  AbstractRange,
  CharacterData,
  Comment,
  Document,
  DocumentFragment,
  DocumentType,
  DOMException,
  DOMImplementation,
  Element,
  HTMLCollection,
  MutationObserver,
  MutationRecord,
  Node,
  NodeFilter,
  NodeIterator,
  NodeList,
  ProcessingInstruction,
  Range,
  StaticRange,
  Text,
  TreeWalker,
  XMLDocument,
} = realm.interfaces;

export { has, provide };

/** The memory of the module, which all sessions share. */
export const memory = Object.freeze({
  /** The bytes that there are; they are never given back, and used again. */
  get size() {
    return native.size();
  },
  /** The bytes that sessions hold of it. */
  get held() {
    return native.held();
  },
  /**
   * Grows the memory until `bytes` more bytes are free, so that sessions can take them without a growth of the memory. Throws a RangeError if out of
   * memory, which ends no session.
   */
  reserve(bytes) {
    if (!(bytes >= 0 && bytes <= 4294967295)) throw new RangeError(`expected a number of bytes from 0 to 4294967295, not ${String(bytes)}`);
    if (!native.reserve(bytes)) throw new RangeError(`out of memory: ${bytes} more bytes were refused`);
  },
  /** Keeps the memory from growing past `bytes` bytes; 0 removes the limit. A call that runs out of memory ends its session, and throws a RangeError. */
  limit(bytes) {
    if (!(bytes >= 0 && bytes <= 4294967295)) throw new RangeError(`expected a number of bytes from 0 to 4294967295, not ${String(bytes)}`);
    native.bound(bytes);
  },
});

/** A session with its first Document, for a program that speaks in lines too. */
export class Session {
  #core;
  #document;

  constructor(limits) {
    this.#core = realm.guarded(() => new Core(limits));
    this.#document = firstDocument(realm, this.#core, htmlIs(realm));
  }

  get document() {
    return this.#document;
  }

  /** Answers a line of JSON, as a string or as bytes, with the line of its reply. Lines and objects may be mixed. */
  line(line) {
    return realm.guarded(() => {
      const reply = this.#core.line(line);
      settleAll(this.#core);
      return reply;
    });
  }

  /** The node of a number, as lines have it. */
  node(number) {
    return realm.guarded(() => wrap(this.#core, number));
  }

  /** The number of a node. */
  number(node) {
    return realm.guarded(() => numberIn(this.#core, nodeOf(node)));
  }

  /** How many objects of each kind the core has. */
  inUse() {
    return realm.guarded(() => this.#core.inUse());
  }

  close() {
    this.#core.close();
  }
}

/** Returns a given node, and refuses any other value. */
function nodeOf(given) {
  if (!isNode(given)) refuseOther("a node", given);
  return given;
}

const isFor = (its, isXml) => (isXml ? { ...xmlIs(its), isXMLDocument: true } : htmlIs(its));

/**
 * A new Document: in a session of its own, or in that of a Document that is given, whose nodes it may then adopt. It is one of HTML, or of XML where
 * `xml` is true.
 */
export function createDocument({ beside, xml = false } = {}) {
  return realm.guarded(() =>
    beside ? newDocument(sessionOf(nodeOf(beside)), isFor(realm, xml)) : firstDocument(realm, new Core(), isFor(realm, xml)),
  );
}

/** The global object of a context, which has the constructors of the language. */
function contextGlobal(given) {
  const found = globalOf(given);
  if (typeof found.Function !== "function") throw new TypeError(`expected the global object of a context (node's vm.createContext) as \`global\`, not ${describe(given)}`);
  return found;
}

/** What a window's Document is, by the options of the window. */
function documentOptions(its, { xml = false, url = "about:blank", contentType = "application/xhtml+xml" }) {
  return { ...(xml ? xmlIs(its, contentType) : htmlIs(its)), url };
}

/**
 * Creates a window: an object that has all interfaces, of a realm of its own, and a `document`, of HTML with a head and a body. Its options are:
 *
 * - `global`: a context's global object, which becomes the window; exceptions and arrays are then made by its constructors;
 * - `beside`: a window or a Document whose session the window shares, so that nodes can move between the two;
 * - `report`: a function that takes exceptions of observers' callbacks;
 * - `empty`: leaves the Document without an element;
 * - `xml`: makes the Document one of XML, without an element, whose `contentType` may be given;
 * - `refuses`: if false, names of the standard that the package lacks do not refuse, for a program that defines them itself.
 */
export function createWindow({ global: given, beside, report, refuses, empty = false, ...options } = {}) {
  const global = given && contextGlobal(given);
  const its = new Realm({ global, report, refuses });
  const neighbour = beside?.document ?? beside;
  its.document = its.guarded(() => {
    const made = documentOptions(its, options);
    const document = neighbour ? newDocument(sessionOf(nodeOf(neighbour)), made) : firstDocument(its, new Core(), made);
    return empty || options.xml ? document : furnish(document);
  });
  const window = global ?? {};
  for (const [name, value] of Object.entries({ ...its.interfaces, document: its.document })) {
    Object.defineProperty(window, name, { value, writable: true, configurable: true });
  }
  return window;
}

/** A Document of a page of HTML: a new one of a session of its own, or `document`, which has no child yet. Needs parse5. */
export function parse(html, { document = createDocument() } = {}) {
  return realm.guarded(() => readHTML(nodeOf(document), `${html}`));
}

/** A fragment of a piece of HTML, as the content of an element or of a Document. Needs parse5. */
export function parseFragment(html, context = createDocument()) {
  return realm.guarded(() => readFragment(nodeOf(context), `${html}`));
}

/** A Document of a text of XML, as `parse` makes it of HTML. Needs saxes. */
export function parseXML(xml, { document = createDocument({ xml: true }) } = {}) {
  return realm.guarded(() => readXML(nodeOf(document), `${xml}`));
}

/** A tree adapter for parse5, for a program that drives the parser itself: how a Document's tree is built and read. */
export function treeAdapter(document) {
  const guarded = ([name, does]) => [name, (...given) => realm.guarded(() => does(...given))];
  return Object.fromEntries(Object.entries(adapterOf(document)).map(guarded));
}

/** Returns a node with its content as HTML; for a Document or a fragment, its content alone. */
export const serialize = (node) => realm.guarded(() => written(node));

/** Returns a node with its content as XML. Needs w3c-xmlserializer. */
export const serializeXML = (node, options) => realm.guarded(() => writtenXML(node, options));
