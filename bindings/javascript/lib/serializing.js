/** Documents out: nodes as HTML, which the module writes by the standard's steps, and as XML, by w3c-xmlserializer. */
import { check, DOCUMENT, ELEMENT, FRAGMENT, native, out, Refusal, textFrom, TOO_LONG, wordsOf } from "./core.js";
import { wanted } from "./libraries.js";
import { attributeByNumber, elementByNumber, HTML, MATHML, SVG, XLINK, XML, XMLNS } from "./names.js";
import { contentsOf } from "./nodes.js";
import { Rows } from "./rows.js";
import { describe } from "./webidl.js";
import { isNode, numberOf, sessionOf, wrap } from "./wrappers.js";

const setOf = (names) => new Set(names.split(" "));
/** Elements of HTML that have no end tag, and those whose text is written as it is. */
const VOID = setOf("area base br col embed hr img input link meta source track wbr basefont bgsound frame keygen param");
const RAW = setOf("style script xmp iframe noembed noframes plaintext");

/** How an attribute is named: by its prefix where its namespace has one that HTML knows, and else by its qualified name. */
function attributeName({ namespace, local, qualified }) {
  if (namespace === null) return local;
  if (namespace === XML) return `xml:${local}`;
  if (namespace === XMLNS) return local === "xmlns" ? local : `xmlns:${local}`;
  return namespace === XLINK ? `xlink:${local}` : qualified;
}

/** How a tag is named: elements of HTML, MathML and SVG have no prefix there. */
const tagOf = ({ namespace, local, qualified }) => (namespace === HTML || namespace === MATHML || namespace === SVG ? local : qualified);

// ---- HTML: the module writes a tree by one call (see html.h there). The marks of each name and its written form are passed to the module once.

/** The module's status if it met names whose form it does not know; the kinds of names, and the marks of elements. */
const UNTOLD = 253;
const OF_ELEMENT = 0;
const OF_ATTRIBUTE = 1;
const IS_VOID = 1;
const IS_RAW = 2;
const IS_TEMPLATE = 4;

const marksOf = (tag) => (VOID.has(tag) ? IS_VOID : 0) | (RAW.has(tag) ? IS_RAW : 0) | (tag === "template" ? IS_TEMPLATE : 0);

function tellTag(name) {
  const tag = tagOf(name);
  const marks = name.namespace === HTML ? marksOf(tag) : 0;
  return native.tellForm(name.number, OF_ELEMENT, marks, `<${tag}`, marks & IS_VOID ? "" : `</${tag}>`);
}

const tellAttribute = (name) => native.tellForm(name.number, OF_ATTRIBUTE, 0, ` ${attributeName(name)}="`, "");

/** Tells the module of the names that it asks for. */
function tellForms(session) {
  const asked = Array.from(wordsOf(0));
  for (let at = 0; at < asked.length; at += 2) {
    const [number, kind] = asked.slice(at, at + 2);
    check(kind === OF_ELEMENT ? tellTag(elementByNumber(session, number)) : tellAttribute(attributeByNumber(session, number)));
  }
}

/** Returns a node with its content, or its content alone, as HTML. */
function written(node, isInner) {
  const session = sessionOf(node);
  const ask = () => native.html(session.index, numberOf(node), Number(isInner), Number(session.hasContents));
  let status = ask();
  for (; status === UNTOLD; status = ask()) tellForms(session);
  check(status);
  const text = textFrom(out[2], out[3]);
  if (text === TOO_LONG) throw new Refusal(TOO_LONG);
  return out[1] === 0 ? text : filled(session, text, Array.from(wordsOf(0)));
}

/** A text with the contents of its templates, which have none but their children where they were given none. */
function filled(session, text, templates) {
  let whole = "";
  let from = 0;
  for (let at = 0; at < templates.length; at += 2) {
    const [number, to] = templates.slice(at, at + 2);
    whole += text.slice(from, to) + serializeInner(wrap(session, number));
    from = to;
  }
  return whole + text.slice(from);
}

/** Returns the content of a node as HTML; for a template, its contents. */
export function serializeInner(node) {
  const contents = sessionOf(node).hasContents ? contentsOf(node) : null;
  return written(contents ?? node, true);
}

/** Returns a node with its content as HTML; for a Document or a fragment, its content alone. */
export function serialize(node) {
  if (!isNode(node)) throw new TypeError(`expected a node, not ${describe(node)}`);
  return written(node, false);
}

// ---- XML: w3c-xmlserializer reads objects that have the members of nodes.

function attributesOf({ attributes }) {
  const found = [];
  for (let at = 0; at < attributes.length; at += 2) {
    const { namespace, prefix, local, qualified } = attributes[at];
    found.push({ namespaceURI: namespace, prefix, localName: local, name: qualified, value: attributes[at + 1] });
  }
  return found;
}

function shown(row, ownerDocument) {
  const { kind, name, data, publicId, systemId } = row;
  const its = { nodeType: kind, childNodes: [], ownerDocument };
  if (kind !== ELEMENT) return { ...its, data, name, target: name, publicId, systemId };
  return { ...its, number: row.number, namespaceURI: name.namespace, prefix: name.prefix, localName: name.local, attributes: attributesOf(row) };
}

/** The contents of a template, as a fragment: its own, or its children. */
function contentOf(session, it) {
  const contents = session.hasContents ? contentsOf(wrap(session, it.number)) : null;
  return contents ? objectsOf(contents) : { nodeType: FRAGMENT, childNodes: it.childNodes };
}

/** A node as such objects, read at once. */
function objectsOf(node) {
  const rows = new Rows(node);
  const path = [];
  const templates = [];
  while (rows.next()) {
    path.length = Math.min(path.length, rows.depth);
    const made = shown(rows, path[0]);
    path.at(-1)?.childNodes.push(made);
    path.push(made);
    if (made.localName === "template") templates.push(made);
  }
  for (const it of templates) it.content = contentOf(sessionOf(node), it);
  const [top] = path;
  if (top.nodeType === DOCUMENT) top.documentElement = top.childNodes.find((it) => it.nodeType === ELEMENT) ?? null;
  return top;
}

/**
 * Returns a node with its content as XML. Needs w3c-xmlserializer. If `isStrict` is true, content that XML can't express, such as a comment with two hyphens,
 * is an error.
 */
export function serializeXML(node, { isStrict = false } = {}) {
  if (!isNode(node)) throw new TypeError(`expected a node, not ${describe(node)}`);
  const serializer = wanted("w3c-xmlserializer", "serializing XML");
  return (serializer.default ?? serializer)(objectsOf(node), { requireWellFormed: isStrict });
}
