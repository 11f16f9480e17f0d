/** Documents in: HTML by parse5, and XML by saxes. */
import { COMMENT, DOCTYPE, ELEMENT, native, Refusal, TEXT } from "./core.js";
import { attributesOf, isElement, setAttributeMarked } from "./elements.js";
import { withoutEntities } from "./entities.js";
import { wanted } from "./libraries.js";
import { markedAttribute, markedElement } from "./names.js";
import {
  appendChild,
  childNumbers,
  contentsOf,
  createComment,
  createDoctype,
  createElementMarked,
  createFragment,
  createInstruction,
  createText,
  dataChanged,
  dataOf,
  documentOf,
  firstChildOf,
  insertBefore,
  lastChildOf,
  nameOf,
  namePart,
  parentOf,
  previousOf,
  remove,
  setTemplateContents,
} from "./nodes.js";
import { documentIs, kindOf, numberOf, sessionOf, wrapChild } from "./wrappers.js";

const isText = (node) => node !== null && kindOf(node) === TEXT;

function appendData(text, data) {
  const session = sessionOf(text);
  native.hp_append_data(session.index, numberOf(text), data);
  dataChanged(text);
  session.changed();
}

/** An attribute of the parser's on an element. A name that the core does not take is left out. */
function addAttribute(element, { name, value, namespace = null, prefix }) {
  const core = markedAttribute(sessionOf(element), { namespace, prefix: prefix || null, local: name });
  try {
    setAttributeMarked(element, core, value);
  } catch (fault) {
    if (!(fault instanceof Refusal) || fault.status !== native.HP_INVALID_CHARACTER_ERROR) throw fault;
  }
}

function createElement(document, name, namespace, attributes) {
  const element = createElementMarked(document, markedElement(sessionOf(document), { namespace, local: name }));
  for (const it of attributes) addAttribute(element, it);
  return element;
}

function insertText(parent, data, child = null) {
  const before = child ? previousOf(child) : lastChildOf(parent);
  if (isText(before)) appendData(before, data);
  else insertBefore(parent, createText(documentOf(parent), data), child);
}

function adoptAttributes(element, attributes) {
  const there = attributesOf(element);
  for (const it of attributes) if (!there.some((its) => its.local === it.name)) addAttribute(element, it);
}

const parserAttribute = ({ local, value, namespace, prefix }) => ({ name: local, value, namespace: namespace ?? undefined, prefix: prefix ?? undefined });

function setDocumentMode(document, mode) {
  documentIs(sessionOf(document), numberOf(document)).isQuirky = mode === "quirks";
}

/** How parse5 builds and reads a tree of a Document: its tree adapter. */
export function treeAdapter(document) {
  return {
    createDocument: () => document,
    createDocumentFragment: () => createFragment(document),
    createElement: (name, namespace, attributes) => createElement(document, name, namespace, attributes),
    createCommentNode: (data) => createComment(document, data),
    appendChild,
    insertBefore,
    insertText,
    insertTextBefore: insertText,
    detachNode: remove,
    adoptAttributes,
    setDocumentType: (its, ...words) => void appendChild(its, createDoctype(its, ...words)),
    setDocumentMode,
    getDocumentMode: (its) => (its.compatMode === "BackCompat" ? "quirks" : "no-quirks"),
    setTemplateContent: setTemplateContents,
    getTemplateContent: (element) => contentsOf(element) ?? createFragment(documentOf(element)),
    getFirstChild: firstChildOf,
    getChildNodes: (node) => childNumbers(node).map((number) => wrapChild(node, number)),
    getParentNode: parentOf,
    getAttrList: (element) => attributesOf(element).map(parserAttribute),
    // (it is asked of a Document too, above a form)
    getTagName: (node) => (isElement(node) ? nameOf(node).qualified : ""),
    getNamespaceURI: (node) => (isElement(node) ? nameOf(node).namespace : null),
    getTextNodeContent: dataOf,
    getCommentNodeContent: dataOf,
    getDocumentTypeNodeName: (doctype) => namePart(doctype, 0),
    getDocumentTypeNodePublicId: (doctype) => namePart(doctype, 1),
    getDocumentTypeNodeSystemId: (doctype) => namePart(doctype, 2),
    isTextNode: isText,
    isCommentNode: (node) => kindOf(node) === COMMENT,
    isElementNode: (node) => kindOf(node) === ELEMENT,
    isDocumentTypeNode: (node) => kindOf(node) === DOCTYPE,
    getNodeSourceCodeLocation: () => null,
    setNodeSourceCodeLocation() {},
    updateNodeSourceCodeLocation() {},
  };
}

/** Reads a page of HTML into a Document that has no child yet. */
export function readHTML(document, html) {
  wanted("parse5", "parsing HTML").parse(html, { treeAdapter: treeAdapter(document), scriptingEnabled: false });
  return document;
}

/** Reads a piece of HTML as the content of an element, into a fragment of its Document. */
export function readFragment(context, html) {
  const document = documentOf(context);
  const within = isElement(context) ? context : null;
  return wanted("parse5", "parsing HTML").parseFragment(within, html, { treeAdapter: treeAdapter(document), scriptingEnabled: false });
}

// ---- XML.

const DOCTYPE_FORM = /^\s*([^\s[]+)(?:\s+PUBLIC\s+(?:"([^"]*)"|'([^']*)')(?:\s+(?:"([^"]*)"|'([^']*)'))?|\s+SYSTEM\s+(?:"([^"]*)"|'([^']*)'))?/;

function doctypeOf(document, text) {
  const [, name, ...ids] = DOCTYPE_FORM.exec(text);
  const publicId = ids[0] ?? ids[1] ?? "";
  const systemId = ids.slice(2).find((it) => it !== undefined) ?? "";
  return createDoctype(document, name, publicId, systemId);
}

// (saxes says an attribute of no prefix has the namespace of none, but for xmlns)
const xmlAttribute = ({ local, prefix, uri, value }) => ({ name: local || prefix, value, prefix: local && prefix, namespace: uri || null });

/** Builds a Document of what saxes tells. */
class Builder {
  constructor(document) {
    this.document = document;
    this.parent = document;
  }

  opentag({ local, prefix, uri, attributes }) {
    const name = { namespace: uri || null, prefix: prefix || null, local };
    const element = createElementMarked(this.document, markedElement(sessionOf(this.document), name));
    for (const it of Object.values(attributes)) addAttribute(element, xmlAttribute(it));
    this.parent = appendChild(this.parent, element);
  }

  closetag() {
    this.parent = parentOf(this.parent);
  }

  text(data) {
    if (this.parent !== this.document) insertText(this.parent, data);
  }

  cdata(data) {
    insertText(this.parent, data);
  }

  comment(data) {
    appendChild(this.parent, createComment(this.document, data));
  }

  processinginstruction({ target, body }) {
    appendChild(this.parent, createInstruction(this.document, target, body));
  }

  doctype(text) {
    appendChild(this.document, doctypeOf(this.document, text));
  }
}

const EVENTS = ["opentag", "closetag", "text", "cdata", "comment", "processinginstruction", "doctype"];

/** Reads a text of XML into a Document that has no child yet. Throws a SyntaxError if the text is not well-formed. */
export function readXML(document, xml) {
  const { SaxesParser } = wanted("saxes", "parsing XML");
  const builder = new Builder(document);
  const parser = new SaxesParser({ xmlns: true });
  for (const name of EVENTS) parser.on(name, (told) => builder[name](told));
  parser.on("error", (fault) => {
    throw new SyntaxError(fault.message, { cause: fault });
  });
  parser.write(withoutEntities(xml)).close();
  return document;
}
