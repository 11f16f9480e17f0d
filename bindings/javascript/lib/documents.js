/** Document, DocumentType, DocumentFragment and DOMImplementation. */
import { keepNone } from "./attributes.js";
import { check, DOCTYPE, DOCUMENT, ELEMENT, FRAGMENT, native, out, Refusal } from "./core.js";
import { byId, elementsBelow, isElement } from "./elements.js";
import { elementName, extractedElement, HTML, markedElement, small, SVG } from "./names.js";
import {
  adoptNode,
  appendChild,
  childNode,
  createComment,
  createDoctype,
  createElementMarked,
  createElementNamed,
  createFragment,
  createInstruction,
  createText,
  firstChildOf,
  importNode,
  namePart,
  nextOf,
  parentNode,
} from "./nodes.js";
import { createRange } from "./ranges.js";
import { createNodeIterator, createTreeWalker } from "./traversal.js";
import { known } from "./webidl.js";
import { documentIs, isNode, itsOf, keptOf, kindOf, makeThing, numberOf, realmOf, sessionOf, thingOf, wrapDocument } from "./wrappers.js";

// ---- New Documents.

const XML_TYPE = "application/xml";
const XHTML_TYPE = "application/xhtml+xml";
/** The content types of Documents that DOMImplementation makes, by the namespace. */
const TYPES = new Map([[HTML, XHTML_TYPE], [SVG, "image/svg+xml"]]);

/** What the facade knows of a Document of HTML, or of XML. */
export const htmlIs = (realm) => ({ realm, isHtml: true, contentType: "text/html", url: "about:blank" });
export const xmlIs = (realm, contentType = XML_TYPE) => ({ realm, isHtml: false, contentType, url: "about:blank" });

/** A further Document of a session. */
export function newDocument(session, its) {
  check(native.hp_new_document(session.index));
  return wrapDocument(session, out[0], its);
}

const isOf = (document) => documentIs(sessionOf(document), numberOf(document));

const nameIn = (session, namespace, local) => elementName(session, markedElement(session, { namespace, local }));

/** The name of an element of HTML as a program gives it, in a Document of HTML; it is kept as it was given. */
function htmlName(session, given) {
  const name = nameIn(session, HTML, small(given));
  session.htmlNames.set(given, name);
  return name;
}

function createElement(document, name) {
  const session = sessionOf(document);
  const { isHtml, contentType } = isOf(document);
  if (isHtml) return made(createElementNamed(document, session.htmlNames.get(name) ?? htmlName(session, name)));
  return made(createElementNamed(document, nameIn(session, contentType === XHTML_TYPE ? HTML : null, name)));
}

/** An element that a program has made, which has no attribute. */
function made(element) {
  keepNone(itsOf(element));
  return element;
}

export function createElementNS(document, namespace, qualified) {
  const session = sessionOf(document);
  return made(createElementMarked(document, markedElement(session, extractedElement(session, namespace, qualified))));
}

function createCDATASection() {
  throw new Refusal(native.HP_NOT_SUPPORTED_ERROR, "there are no CDATA sections: use a Text");
}

function childOfKind(node, kind) {
  let found = firstChildOf(node);
  while (found && kindOf(found) !== kind) found = nextOf(found);
  return found;
}

/** The first child of the root element with one of some names. */
function inRoot(document, ...wanted) {
  const root = document.documentElement;
  for (let it = root && firstChildOf(root); it; it = nextOf(it)) {
    if (isElement(it) && it.namespaceURI === HTML && wanted.includes(it.localName)) return it;
  }
  return null;
}

// ---- The implementation of a Document.

class ImplementationIs {
  constructor(document) {
    this.document = document;
  }
}

const implementationOf = (it) => thingOf(it, ImplementationIs);

const implementation = (document) =>
  (keptOf(document).implementation ??= makeThing(realmOf(document), "DOMImplementation", new ImplementationIs(document)));

function createDocument(it, namespace, qualified, doctype) {
  const { document } = implementationOf(it);
  const made = newDocument(sessionOf(document), { ...xmlIs(realmOf(document), TYPES.get(namespace)), isXMLDocument: true });
  const element = qualified === "" ? null : createElementNS(made, namespace, qualified);
  if (doctype) appendChild(made, doctype);
  if (element) appendChild(made, element);
  return made;
}

/** The elements that a Document of HTML begins with. */
export function furnish(document, title) {
  appendChild(document, createDoctype(document, "html", "", ""));
  const html = appendChild(document, createElement(document, "html"));
  const head = appendChild(html, createElement(document, "head"));
  if (title !== undefined) appendChild(appendChild(head, createElement(document, "title")), createText(document, title));
  appendChild(html, createElement(document, "body"));
  return document;
}

function createHTMLDocument(it, title) {
  const { document } = implementationOf(it);
  return furnish(newDocument(sessionOf(document), htmlIs(realmOf(document))), title);
}

export const DOMImplementation = known({
  name: "DOMImplementation",
  is: (it) => implementationOf(it) !== undefined,
  operations: {
    createDocumentType: [["DOMString", "DOMString", "DOMString"], (it, ...words) => createDoctype(implementationOf(it).document, ...words)],
    createDocument: [["DOMString?", "DOMString or empty", "DocumentType? = null"], createDocument],
    createHTMLDocument: [["DOMString = undefined"], createHTMLDocument],
    hasFeature: [[], () => true],
  },
});

// ---- The interfaces.

export const DocumentType = known({
  name: "DocumentType",
  parent: "Node",
  is: (it) => isNode(it) && kindOf(it) === DOCTYPE,
  attributes: {
    name: (doctype) => namePart(doctype, 0),
    publicId: (doctype) => namePart(doctype, 1),
    systemId: (doctype) => namePart(doctype, 2),
  },
  operations: childNode.operations,
  hidden: childNode.hidden,
});

export const DocumentFragment = known({
  name: "DocumentFragment",
  parent: "Node",
  is: (it) => isNode(it) && kindOf(it) === FRAGMENT,
  construct: [[], (realm) => createFragment(realm.document)],
  attributes: parentNode.attributes,
  operations: { ...byId, ...parentNode.operations },
  hidden: parentNode.hidden,
});

const encoding = () => "UTF-8";
const SHOW = ["Node or other", "unsigned long = 4294967295", "NodeFilter? = null"];

export const Document = known({
  name: "Document",
  parent: "Node",
  is: (it) => isNode(it) && kindOf(it) === DOCUMENT,
  construct: [[], (realm) => newDocument(sessionOf(realm.document), xmlIs(realm))],
  attributes: {
    implementation,
    URL: (document) => isOf(document).url,
    documentURI: (document) => isOf(document).url,
    compatMode: (document) => (isOf(document).isQuirky ? "BackCompat" : "CSS1Compat"),
    characterSet: encoding,
    charset: encoding,
    inputEncoding: encoding,
    contentType: (document) => isOf(document).contentType,
    doctype: (document) => childOfKind(document, DOCTYPE),
    documentElement: (document) => childOfKind(document, ELEMENT),
    head: (document) => inRoot(document, "head"),
    body: (document) => inRoot(document, "body", "frameset"),
    ...parentNode.attributes,
  },
  operations: {
    ...elementsBelow,
    ...byId,
    createElement: [["DOMString", "any = undefined"], createElement],
    createElementNS: [["DOMString?", "DOMString", "any = undefined"], createElementNS],
    createDocumentFragment: [[], createFragment],
    createTextNode: [["DOMString"], createText],
    createCDATASection: [["DOMString"], createCDATASection],
    createComment: [["DOMString"], createComment],
    createProcessingInstruction: [["DOMString", "DOMString"], createInstruction],
    importNode: [["Node", "boolean = false"], importNode],
    adoptNode: [["Node"], adoptNode],
    createRange: [[], createRange],
    createNodeIterator: [SHOW, createNodeIterator],
    createTreeWalker: [SHOW, createTreeWalker],
    ...parentNode.operations,
  },
  hidden: parentNode.hidden,
});

/** What DOMImplementation makes of XML. */
export const XMLDocument = known({
  name: "XMLDocument",
  parent: "Document",
  is: (it) => Document.is(it) && isOf(it).isXMLDocument === true,
});
