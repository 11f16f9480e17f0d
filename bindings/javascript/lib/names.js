/**
 * Namespaces, which the core does not know: a name that has one is handed to it as its local part with a mark behind it. The mark is a character that
 * stands for nothing in any text, the number of the namespace in the session, and the prefix behind a colon where there is one.
 *
 * Names without a mark are elements of HTML and attributes of no namespace.
 */
import { check, native, OK, out, Refusal } from "./core.js";

export const HTML = "http://www.w3.org/1999/xhtml";
export const SVG = "http://www.w3.org/2000/svg";
export const MATHML = "http://www.w3.org/1998/Math/MathML";
export const XLINK = "http://www.w3.org/1999/xlink";
export const XML = "http://www.w3.org/XML/1998/namespace";
export const XMLNS = "http://www.w3.org/2000/xmlns/";

const MARK = "\uFDD0";
const MARKED = /^(.*)\uFDD0(\d+)(?::(.*))?$/su;
const NAMESPACE_ERROR = 14;

const lowered = (text) => text.replace(/[A-Z]+/g, (letters) => letters.toLowerCase());
const raised = (text) => text.replace(/[a-z]+/g, (letters) => letters.toUpperCase());

/** A text whose letters of ASCII are small. */
export const small = (text) => (/[A-Z]/.test(text) ? lowered(text) : text);

/** A text whose letters of ASCII are capitals. */
export const capital = (text) => (/[a-z]/.test(text) ? raised(text) : text);

/** The namespaces that have the same number in each session, since the form of a name as HTML depends on them. The others have higher numbers. */
const EVERYWHERE = [HTML, SVG, MATHML, XML, XMLNS, XLINK];

function numberOfNamespace(session, namespace) {
  const everywhere = EVERYWHERE.indexOf(namespace);
  if (everywhere >= 0) return everywhere;
  const found = session.namespaces.indexOf(namespace);
  return EVERYWHERE.length + (found < 0 ? session.namespaces.push(namespace) - 1 : found);
}

const namespaceOf = (session, number) => (number < EVERYWHERE.length ? EVERYWHERE[number] : session.namespaces[number - EVERYWHERE.length]);

/** What a name of the core says; without a mark its namespace is the plain one. Its number is that of the module. */
function read(session, given, plain) {
  const number = native.nameNumber(given);
  if (number === native.HP_NONE) throw new Refusal(native.HP_OUT_OF_MEMORY);
  // (as the core has it: a surrogate that stands alone is another character there)
  const core = native.nameOf(number);
  const found = core.includes(MARK) ? MARKED.exec(core) : null;
  const [, local = core, namespace, prefix = null] = found ?? [];
  const qualified = prefix === null ? local : `${prefix}:${local}`;
  return { core, number, namespace: found ? namespaceOf(session, Number(namespace)) : plain, prefix, local, qualified, capital: capital(qualified) };
}

function known(session, names, core, plain) {
  let found = names.get(core);
  if (found === undefined) {
    found = read(session, core, plain);
    names.set(core, found);
  }
  return found;
}

export const elementName = (session, core) => known(session, session.elementNames, core, HTML);
export const attributeName = (session, core) => known(session, session.attributeNames, core, null);

/** The name of an attribute by the module's number. */
export const attributeByNumber = (session, number) => (session.attributesByNumber[number] ??= attributeName(session, native.nameOf(number)));

/** The name of an element by the module's number. */
export const elementByNumber = (session, number) => (session.byNumber[number] ??= elementName(session, native.nameOf(number)));

function marked(session, { namespace, prefix = null, local }, plain) {
  // A mark would make a name of an empty one, which the core refuses.
  if (local === "" || (namespace === plain && prefix === null && !local.includes(MARK))) return local;
  return `${local}${MARK}${numberOfNamespace(session, namespace)}${prefix === null ? "" : `:${prefix}`}`;
}

/** The name that the core has of an element. */
export const markedElement = (session, name) => marked(session, name, HTML);

/** The name that the core has of an attribute. */
export function markedAttribute(session, name) {
  const core = marked(session, name, null);
  session.hasMarkedAttributes ||= core !== name.local;
  session.hasPrefixedAttributes ||= (name.prefix ?? null) !== null;
  return core;
}

/** The name that the core has of an attribute of no namespace. */
export const plainAttribute = (session, local) => (local.includes(MARK) ? markedAttribute(session, { namespace: null, local }) : local);

// ---- Namespaces and qualified names that come together.

const PREFIX = /^[^\t\n\f\r \0/>]+$/u;

function parted(qualified) {
  const at = qualified.indexOf(":");
  return at < 0 ? { prefix: null, local: qualified } : { prefix: qualified.slice(0, at), local: qualified.slice(at + 1) };
}

function fits(namespace, prefix, qualified) {
  if (prefix !== null && namespace === null) return false;
  if (prefix === "xml" && namespace !== XML) return false;
  return (qualified === "xmlns" || prefix === "xmlns") === (namespace === XMLNS);
}

/** A namespace and a qualified name; the core is asked whether a name may be so only where it does not fit its namespace, which is refused after it. */
function extracted(namespace, qualified, tryName) {
  const { prefix, local } = parted(qualified);
  const its = { namespace: namespace === "" ? null : namespace, prefix, local };
  if (prefix !== null && !PREFIX.test(prefix)) throw new Refusal(native.HP_INVALID_CHARACTER_ERROR, `'${prefix}' is not a valid prefix`);
  if (fits(its.namespace, prefix, qualified)) return its;
  tryName(local);
  throw new Refusal(NAMESPACE_ERROR, `the name '${qualified}' does not fit the namespace ${its.namespace === null ? "null" : `'${its.namespace}'`}`);
}

/** Tries a call on a new element, which is discarded at once, and refuses if the call does. */
function trial(session, name, does) {
  check(native.hp_create_element(session.index, 0, name));
  const element = out[0];
  const status = does(element);
  native.hp_discard(session.index, element);
  check(status);
}

/** The name of an element by its namespace and its qualified name. */
export const extractedElement = (session, namespace, qualified) => extracted(namespace, qualified, (local) => trial(session, local, () => OK));

/** The name of an attribute by its namespace and its qualified name. */
export const extractedAttribute = (session, namespace, qualified) =>
  extracted(namespace, qualified, (local) => trial(session, "a", (element) => native.hp_set_attribute(session.index, element, local, "")));
