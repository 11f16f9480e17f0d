/** Markup in and out: `innerHTML` and similar members, templates, DOMParser, XMLSerializer (HTML Standard, section 8.5). The package parses and serializes. */
import { parse, parseFragment, parseXML, serialize, serializeXML } from "../index.js";
import {
  attributeNames,
  contentsOf,
  DOCUMENT,
  documentKnown,
  documentOf,
  emptyContents,
  HTML,
  isElement,
  isNode,
  isOfKind,
  known,
  makeThing,
  newDocument,
  parentOf,
  realmOf,
  refuse,
  refuseType,
  serializeInner,
  sessionOf,
  thingOf,
  xmlIs,
  XMLNS,
} from "./core.js";

const isOfHtml = (node) => documentKnown(documentOf(node)).isHtml;

// ---- Templates.

const isTemplate = (node) => isElement(node) && node.localName === "template" && node.namespaceURI === HTML;

/** The contents of a template; one that had none has an empty fragment from now on. */
export const contentOf = (template) => contentsOf(template) ?? emptyContents(template);

/** Where the markup of an element goes: a template's into its contents. */
const insideOf = (element) => (isTemplate(element) ? contentOf(element) : element);

// ---- HTML and XML as text.

const XML_FAULT = "the text is not well-formed";

/** The declarations of namespaces that hold at an element, as attributes of a start tag. */
function declarations(element) {
  const found = new Map();
  for (let it = element; it && isElement(it); it = parentOf(it)) {
    const declared = attributeNames(it).filter(({ namespace, qualified }) => namespace === XMLNS && !found.has(qualified));
    for (const { qualified } of declared) found.set(qualified, it.getAttribute(qualified));
  }
  if (!found.has("xmlns") && element.namespaceURI !== null && element.prefix === null) found.set("xmlns", element.namespaceURI);
  return [...found].map(([name, value]) => ` ${name}="${value.replace(/&/g, "&amp;").replace(/"/g, "&quot;").replace(/</g, "&lt;")}"`).join("");
}

function fragmentOfXML(element, text) {
  const whole = `<a:a xmlns:a="urn:a"><b${declarations(element)}>${text}</b></a:a>`;
  let parsed;
  try {
    parsed = parseXML(whole, { document: newDocument(sessionOf(element), xmlIs(realmOf(element))) });
  } catch (fault) {
    refuse("SyntaxError", `${XML_FAULT}: ${fault.message}`);
  }
  const fragment = documentOf(element).createDocumentFragment();
  const from = parsed.documentElement.firstChild;
  while (from.firstChild) fragment.appendChild(from.firstChild);
  return fragment;
}

/** A fragment of a text, as the content of an element. */
const fragmentOf = (context, text) => (isOfHtml(context) ? parseFragment(text, context) : fragmentOfXML(context, text));

const outer = (element) => (isOfHtml(element) ? serialize(element) : serializeXML(element));

const inner = (element) => (isOfHtml(element) ? serializeInner(element) : [...element.childNodes].map((it) => serializeXML(it)).join(""));

function setInner(element, text) {
  const inside = insideOf(element);
  if (text === "") inside.replaceChildren();
  else inside.replaceChildren(fragmentOf(element, text));
}

/** The element that stands for a context which is none: markup beside it is read as in a body. */
const contextOf = (document, it) => (it === null || !isElement(it) || (isOfHtml(it) && it.localName === "html" && it.namespaceURI === HTML) ? document.createElement("body") : it);

function setOuter(element, text) {
  const parent = parentOf(element);
  if (parent === null) return;
  if (isOfKind(parent, DOCUMENT)) refuse("NoModificationAllowedError", "the root element cannot be replaced by outerHTML");
  parent.replaceChild(fragmentOf(isElement(parent) ? parent : documentOf(element).createElement("body"), text), element);
}

/** By the word for the position: whether the text is content of the element's parent, and how the parsed nodes are inserted. */
const PLACES = {
  beforebegin: { isOutside: true, put: (element, fragment) => parentOf(element).insertBefore(fragment, element) },
  afterbegin: { put: (element, fragment) => element.insertBefore(fragment, element.firstChild) },
  beforeend: { put: (element, fragment) => element.appendChild(fragment) },
  afterend: { isOutside: true, put: (element, fragment) => parentOf(element).insertBefore(fragment, element.nextSibling) },
};

function insertAdjacentHTML(element, where, text) {
  const place = PLACES[where.toLowerCase()];
  if (!place) refuse("SyntaxError", `'${where}' is not one of ${Object.keys(PLACES).join(", ")}`);
  const context = place.isOutside ? parentOf(element) : element;
  if (context === null || isOfKind(context, DOCUMENT)) refuse("NoModificationAllowedError", "the element has no parent, or is the root element: nothing can be inserted beside it");
  place.put(element, fragmentOf(contextOf(documentOf(element), context), text));
}

const string = "DOMString or empty";

/** What elements have of markup. */
export const inElements = {
  attributes: {
    innerHTML: { type: string, get: (element) => inner(element), set: setInner },
    outerHTML: { type: string, get: outer, set: setOuter },
  },
  operations: { insertAdjacentHTML: [["DOMString", "DOMString"], insertAdjacentHTML] },
};

/** What ranges have of it. */
export const inRanges = {
  createContextualFragment: [
    ["DOMString"],
    (range, text) => {
      const { startContainer: node } = range;
      const element = isElement(node) ? node : node.parentElement;
      return fragmentOf(contextOf(documentOf(node), element), text);
    },
  ],
};

// ---- Documents of text.

class ParserIs {
  constructor(realm) {
    this.realm = realm;
  }
}

const parserOf = (it) => thingOf(it, ParserIs);
const XML_TYPES = ["text/xml", "application/xml", "application/xhtml+xml", "image/svg+xml"];
const FAULT_NAMESPACE = "http://www.mozilla.org/newlayout/xml/parsererror.xml";

function emptied(document) {
  document.replaceChildren();
  return document;
}

function ofXML(realm, text, type) {
  const made = newDocument(sessionOf(realm.document), { ...xmlIs(realm, type), url: realm.document.URL, isXMLDocument: true });
  try {
    return parseXML(text, { document: made });
  } catch (fault) {
    const root = emptied(made).appendChild(made.createElementNS(FAULT_NAMESPACE, "parsererror"));
    root.textContent = fault.message;
    return made;
  }
}

function parseFromString({ realm }, text, type) {
  if (XML_TYPES.includes(type)) return ofXML(realm, text, type);
  if (type !== "text/html") refuseType(`there is no parser of '${type}': only of 'text/html'`);
  const made = emptied(realm.document.implementation.createHTMLDocument(""));
  documentKnown(made).url = realm.document.URL;
  return parse(text, { document: made });
}

export const DOMParser = known({
  name: "DOMParser",
  is: (it) => parserOf(it) !== undefined,
  construct: [[], (realm) => makeThing(realm, "DOMParser", new ParserIs(realm))],
  operations: { parseFromString: [["DOMString", "DOMString"], (parser, ...words) => parseFromString(parserOf(parser), ...words)] },
});

class SerializerIs {}

export const XMLSerializer = known({
  name: "XMLSerializer",
  is: (it) => thingOf(it, SerializerIs) !== undefined,
  construct: [[], (realm) => makeThing(realm, "XMLSerializer", new SerializerIs())],
  operations: { serializeToString: [["Node or Attr"], (serializer, node) => (isNode(node) ? serializeXML(node) : "")] },
});
