/**
 * What the page takes of the package beside the standard's interfaces: how an interface is made of a table, what an object is, a Document's address,
 * and the names of attributes. Everything else is asked of the interfaces.
 */
import { Refusal } from "../core.js";
import { documentIs, isNode, kindOf, numberOf, realmOf, sessionOf } from "../wrappers.js";

export { attributesKept, hasWord, isBlank, namesKept, valueKept, wordsKept } from "../attributes.js";
export { ATTRIBUTE, DOCUMENT, ELEMENT, TEXT } from "../core.js";
export {
  Element,
  getElementsByClassName as elementsOfClass,
  getElementsByTagNameNS as elementsOfName,
  isElement,
  names as attributeNames,
  setPlain,
} from "../elements.js";
export { DocumentFragment, Document, newDocument, xmlIs } from "../documents.js";
export { after } from "../following.js";
export { HTML, small, SVG, XML, XMLNS } from "../names.js";
export { Missing, wanted } from "../libraries.js";
export { adoptNode, contentsOf, createComment, dataOf, documentOf, emptyContents, nameKnown, nameOf, Node, parentOf } from "../nodes.js";
export { onlyBelow } from "../ids.js";
export { htmlCollection, numbersIn, stillNodeList } from "../lists.js";
export { serializeInner } from "../serializing.js";
export { addMembers, convertible, converted, guardTraps, known, makeInterface, otherNodes, refuseOther, refuseType } from "../webidl.js";
export { isNode, isThing, itsOf, keptOf, kindOf, makeThing, numberOf, realmOf, rootOf, sessionOf, stateOf, Thing, thingOf, wrap, Wrapper } from "../wrappers.js";

/** The standard's codes of the exceptions that the page throws. */
const CODES = {
  IndexSizeError: 1,
  HierarchyRequestError: 3,
  InvalidCharacterError: 5,
  NoModificationAllowedError: 7,
  NotFoundError: 8,
  NotSupportedError: 9,
  InUseAttributeError: 10,
  InvalidStateError: 11,
  SyntaxError: 12,
  SecurityError: 18,
  InvalidNodeTypeError: 24,
};

/** Refuses by the exception of a name. */
export function refuse(name, message) {
  throw new Refusal(CODES[name], message);
}

/** What the package knows of a Document: its address, its type. */
export const documentKnown = (document) => documentIs(sessionOf(document), numberOf(document));

// ---- The page that a window is, by what belongs to it.

const pages = new WeakMap();

/** Says which page a realm has. */
export const setPage = (realm, page) => pages.set(realm, page);

export const pageOfRealm = (realm) => pages.get(realm);

/** The page of a node. */
export const pageOf = (node) => pages.get(realmOf(node));

/** Says that what the page keeps of a node has changed, so that lists that stand on it are read anew. */
export const touched = (node) => sessionOf(node).altered();

/** Whether an object is a node of a kind. */
export const isOfKind = (it, kind) => isNode(it) && kindOf(it) === kind;
