/** Attributes that stand for properties (HTML Standard, section 2.6.1), each as a table's attribute. */
import { Element, refuse } from "../core.js";

// (what an attribute says is asked of the core's element by its own operations: nothing has to be converted)
const [, valueOf] = Element.operations.getAttribute;
const [, has] = Element.operations.hasAttribute;

export const text = (name) => ({
  type: "DOMString",
  get: (element) => valueOf(element, name) ?? "",
  set: (element, value) => element.setAttribute(name, value),
});

/** A text that may be absent. */
export const textOrNull = (name) => ({
  type: "DOMString?",
  get: (element) => valueOf(element, name),
  set: (element, value) => (value === null ? element.removeAttribute(name) : element.setAttribute(name, value)),
});

const flag = (name) => ({
  type: "boolean",
  get: (element) => has(element, name),
  set: (element, value) => void element.toggleAttribute(name, value),
});

const WHOLE = /^[\t\n\f\r ]*([+-]?\d+)/;

/** A whole number as a text begins with it, or null. */
function wholeIn(written) {
  const found = written === null ? null : WHOLE.exec(written);
  return found ? Number(found[1]) : null;
}

/** A whole number; `least` is the smallest valid one. A smaller one in the attribute counts as absent, and may not be set. */
export const whole = (name, absent = 0, least = -Infinity) => ({
  type: "long",
  get(element) {
    const found = wholeIn(valueOf(element, name));
    return found === null || found < least ? absent : found;
  },
  set(element, value) {
    if (value < least) refuse("IndexSizeError", `${name} has to be at least ${least}, not ${value}`);
    element.setAttribute(name, `${value}`);
  },
});

/** An address as the base of its Document resolves it; where it is none, as it is written. */
export function resolved(element, written) {
  try {
    return new URL(written, element.baseURI).href;
  } catch {
    return written;
  }
}

export const url = (name) => ({
  type: "DOMString",
  get(element) {
    const written = valueOf(element, name);
    return written === null ? "" : resolved(element, written);
  },
  set: (element, value) => element.setAttribute(name, value),
});

/** A word out of some; the first stands for an absent attribute where nothing else is said, and `invalid` for any other word. */
export const oneOf = (name, words, absent = words[0], invalid = absent) => ({
  type: "DOMString",
  get(element) {
    const written = valueOf(element, name);
    if (written === null) return absent;
    const word = written.toLowerCase();
    return words.includes(word) ? word : invalid;
  },
  set: (element, value) => element.setAttribute(name, value),
});

/** A whole number that is held within bounds; any that is set is written, or the absent one if it is below the least. */
export const within = (name, absent, least, most) => ({
  type: "unsigned long",
  get(element) {
    const found = wholeIn(valueOf(element, name));
    return found === null || found < 0 ? absent : Math.min(Math.max(found, least), most);
  },
  set: (element, value) => element.setAttribute(name, `${value}`),
});

/** The same for columns and rows of a text area, where zero is set as the absent number. */
export const positive = (name, absent) => ({
  type: "unsigned long",
  get(element) {
    const found = wholeIn(valueOf(element, name));
    return found === null || found < 1 ? absent : found;
  },
  set: (element, value) => element.setAttribute(name, `${value === 0 ? absent : value}`),
});

/** Words that any element's properties take from attributes of the same name, if they are among these. */
const WORDS = {
  referrerPolicy: `no-referrer no-referrer-when-downgrade same-origin origin strict-origin origin-when-cross-origin strict-origin-when-cross-origin unsafe-url`,
  inputMode: "none text tel url email numeric decimal search",
  enterKeyHint: "enter done go next previous search send",
  as: "fetch audio document embed font image manifest object report script sharedworker style track video worker xslt",
  scope: "row col rowgroup colgroup",
};

/** Properties that are one of some words, and empty for any other: `words("inputMode")`. */
export const words = (...names) => Object.fromEntries(names.map((name) => [name, oneOf(name.toLowerCase(), WORDS[name].split(" "), "")]));

/** How a button sends its form, where it says so itself. */
export const sending = {
  formEnctype: oneOf("formenctype", ["application/x-www-form-urlencoded", "multipart/form-data", "text/plain"], "", "application/x-www-form-urlencoded"),
  formMethod: oneOf("formmethod", ["get", "post", "dialog"], "", "get"),
  formTarget: text("formtarget"),
  formAction: { ...url("formaction"), get: (element) => (element.getAttribute("formaction") ? url("formaction").get(element) : element.ownerDocument.URL) },
};

/** Many of a kind, where attribute and property have the same name in another case: `texts("accessKey", "title")`. */
const several = (make) => (...names) => Object.fromEntries(names.map((name) => [name, make(name.toLowerCase())]));

export const texts = several(text);
export const flags = several(flag);
export const urls = several(url);
