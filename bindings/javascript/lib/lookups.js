/** Which namespace a prefix stands for at a node, and which prefix a namespace has there, by the attributes that declare them. */
import { DOCTYPE, DOCUMENT, ELEMENT, FRAGMENT } from "./core.js";
import { attributesOf } from "./elements.js";
import { XML, XMLNS } from "./names.js";
import { nameOf, parentOf } from "./nodes.js";
import { kindOf } from "./wrappers.js";

const orNull = (text) => (text === "" ? null : text);
const isElement = (node) => node !== null && kindOf(node) === ELEMENT;

/** The element at which a lookup begins, or null. */
function start(node) {
  if (kindOf(node) === DOCUMENT) return node.documentElement;
  if (kindOf(node) === DOCTYPE || kindOf(node) === FRAGMENT) return null;
  return isElement(node) ? node : elementAbove(node);
}

function elementAbove(node) {
  const parent = parentOf(node);
  return isElement(parent) ? parent : null;
}

/** What the first element says, from a node upwards, that says something: undefined is nothing. */
function said(node, says) {
  for (let element = start(node); element; element = elementAbove(element)) {
    const found = says(nameOf(element), attributesOf(element));
    if (found !== undefined) return found;
  }
  return null;
}

function namespaceOf(node, prefix) {
  return said(node, (name, attributes) => {
    if (prefix === "xml") return XML;
    if (prefix === "xmlns") return XMLNS;
    if (name.namespace !== null && name.prefix === prefix) return name.namespace;
    const declares = (it) => (prefix === null ? it.prefix === null && it.local === "xmlns" : it.prefix === "xmlns" && it.local === prefix);
    const found = attributes.find((it) => it.namespace === XMLNS && declares(it));
    return found && orNull(found.value);
  });
}

function prefixOf(node, namespace) {
  if (namespace === null) return null;
  return said(node, (name, attributes) => {
    if (name.namespace === namespace && name.prefix !== null) return name.prefix;
    return attributes.find((it) => it.prefix === "xmlns" && it.value === namespace)?.local;
  });
}

/** The operations of Node. */
export const lookups = {
  lookupPrefix: [["DOMString?"], (node, namespace) => prefixOf(node, orNull(namespace))],
  lookupNamespaceURI: [["DOMString?"], (node, prefix) => namespaceOf(node, orNull(prefix))],
  isDefaultNamespace: [["DOMString?"], (node, namespace) => namespaceOf(node, null) === orNull(namespace)],
};
