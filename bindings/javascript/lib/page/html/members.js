/** What all elements have of a page, and those of HTML, SVG and MathML (DOM, CSSOM View, HTML): rectangles are zero, for there is no layout. */
import { keptOf, known, makeThing, pageOf, realmOf, refuse, thingOf } from "../core.js";
import { handlerAttributes } from "../handlers.js";
import { isShown, styleAttribute } from "../styles.js";
import { dataset, tokens } from "../tokens.js";
import { flags, oneOf, text, textOrNull, texts, whole, words } from "./reflect.js";
import { isDisabled, isNamed } from "./states.js";

// ---- Rectangles.

class RectIs {
  constructor(x, y, width, height) {
    Object.assign(this, { x, y, width, height });
  }
}

const rectOf = (it) => thingOf(it, RectIs);
const SIDES = {
  x: ({ x }) => x,
  y: ({ y }) => y,
  width: ({ width }) => width,
  height: ({ height }) => height,
  top: ({ y, height }) => Math.min(y, y + height),
  right: ({ x, width }) => Math.max(x, x + width),
  bottom: ({ y, height }) => Math.max(y, y + height),
  left: ({ x, width }) => Math.min(x, x + width),
};

const side = ([name, get]) => [name, (it) => get(rectOf(it))];
const NUMBERS = ["double = 0", "double = 0", "double = 0", "double = 0"];
const toJSON = (it) => Object.fromEntries(Object.entries(SIDES).map(([name, get]) => [name, get(rectOf(it))]));

export const DOMRectReadOnly = known({
  name: "DOMRectReadOnly",
  is: (it) => rectOf(it) !== undefined,
  construct: [NUMBERS, (realm, ...its) => makeThing(realm, "DOMRectReadOnly", new RectIs(...its))],
  attributes: Object.fromEntries(Object.entries(SIDES).map(side)),
  operations: { toJSON: [[], toJSON] },
});

const settable = (name) => [name, { type: "double", get: (it) => rectOf(it)[name], set: (it, value) => void (rectOf(it)[name] = value) }];

export const DOMRect = known({
  name: "DOMRect",
  parent: "DOMRectReadOnly",
  is: (it) => rectOf(it) !== undefined,
  construct: [NUMBERS, (realm, ...its) => makeThing(realm, "DOMRect", new RectIs(...its))],
  attributes: Object.fromEntries(["x", "y", "width", "height"].map(settable)),
});

/** The rectangle of anything. */
const zeroRect = (node) => makeThing(realmOf(node), "DOMRect", new RectIs(0, 0, 0, 0));

// ---- Scrolling, which moves nothing and stores the values that are set.

const scrolls = new WeakMap();

const scroll = (name) => ({
  type: "double",
  get: (element) => scrolls.get(element)?.[name] ?? 0,
  set: (element, value) => void scrolls.set(element, { ...scrolls.get(element), [name]: value }),
});

const nothing = [["any = undefined", "any = undefined"], () => undefined];
const zero = () => 0;
const zeros = (...names) => Object.fromEntries(names.map((name) => [name, zero]));

const ARIA = `atomic autoComplete brailleLabel brailleRoleDescription busy checked colCount colIndex colIndexText colSpan current description disabled expanded hasPopup hidden
invalid keyShortcuts label level live modal multiLine multiSelectable orientation placeholder posInSet pressed readOnly relevant required
roleDescription rowCount rowIndex rowIndexText rowSpan selected setSize sort valueMax valueMin valueNow valueText`.split(/\s+/);

const aria = (name) => [`aria${name[0].toUpperCase()}${name.slice(1)}`, textOrNull(`aria-${name.toLowerCase()}`)];

/** What each element has. */
const every = {
  attributes: {
    classList: tokens("class"),
    part: tokens("part"),
    slot: text("slot"),
    role: textOrNull("role"),
    shadowRoot: () => null,
    assignedSlot: () => null,
    ...Object.fromEntries(ARIA.map(aria)),
    scrollTop: scroll("top"),
    scrollLeft: scroll("left"),
    ...zeros("scrollWidth", "scrollHeight", "clientTop", "clientLeft", "clientWidth", "clientHeight"),
  },
  operations: {
    getBoundingClientRect: [[], zeroRect],
    getClientRects: [[], (element) => realmOf(element).array([])],
    scroll: nothing,
    scrollTo: nothing,
    scrollBy: nothing,
    scrollIntoView: nothing,
  },
};

/** What ranges have of rectangles. */
export const inRanges = {
  getBoundingClientRect: [[], (range) => zeroRect(range.startContainer)],
  getClientRects: [[], (range) => realmOf(range.startContainer).array([])],
};

// ---- Focus.

const FOCUSABLE = ["button", "iframe", "select", "textarea"];

function canFocus(element) {
  if (!element.isConnected || !isShown(isNamed(element, "area") ? element.parentElement : element)) return false;
  if (isNamed(element, "button", "input", "select", "textarea") && isDisabled(element)) return false;
  if (isNamed(element, "input")) return element.type !== "hidden";
  if (isNamed(element, ...FOCUSABLE) || element.hasAttribute("tabindex")) return true;
  if (isNamed(element, "a", "area")) return element.hasAttribute("href");
  if (isSummary(element)) return true;
  return isEditingHost(element);
}

const isSummary = (element) => isNamed(element, "summary") && isNamed(element.parentNode, "details");
const isEditingHost = (element) => ["", "true", "plaintext-only"].includes(element.getAttribute("contenteditable")?.toLowerCase());

const focus = (element) => canFocus(element) && pageOf(element).focus(element);

function blur(element) {
  const page = pageOf(element);
  if (page.focused(element.ownerDocument) === element) page.focus(null);
}

const focusing = { operations: { focus: [["any = undefined"], (element) => void focus(element)], blur: [[], blur] } };

function tabIndex(element) {
  const isSo = isNamed(element, "a", "area", "button", "frame", "iframe", "input", "object", "select", "textarea") || isSummary(element);
  return whole("tabindex", isSo ? 0 : -1).get(element);
}

const tabbing = { tabIndex: { type: "long", get: tabIndex, set: (element, value) => element.setAttribute("tabindex", `${value}`) } };

// ---- Editing: whether something may be edited, as it is written.

function isContentEditable(element) {
  for (let it = element; it; it = it.parentElement) {
    if (isEditingHost(it)) return true;
    if (it.getAttribute("contenteditable")?.toLowerCase() === "false") return false;
  }
  return false;
}

const contentEditable = {
  type: "DOMString",
  get(element) {
    const word = element.getAttribute("contenteditable")?.toLowerCase();
    if (word === "") return "true";
    return ["true", "false", "plaintext-only"].includes(word) ? word : "inherit";
  },
  set(element, value) {
    const word = value.toLowerCase();
    if (word === "inherit") return element.removeAttribute("contenteditable");
    if (!["true", "false", "plaintext-only"].includes(word)) refuse("SyntaxError", `'${value}' is not one of true, false, plaintext-only, inherit`);
    return element.setAttribute("contenteditable", word);
  },
};

/** An attribute that says true or false by a word. */
const worded = (name, absent) => ({
  type: "boolean",
  get: (element) => (element.hasAttribute(name) ? element.getAttribute(name).toLowerCase() !== "false" : absent),
  set: (element, value) => element.setAttribute(name, `${value}`),
});

const isDraggable = (element) => isNamed(element, "img") || (isNamed(element, "a") && element.hasAttribute("href"));

function click(element) {
  if (isNamed(element, "button", "input", "select", "textarea") && isDisabled(element)) return;
  pageOf(element).click(element);
}

// ---- Texts as they are shown. Nothing is rendered here, so the getters return the text content, as the standard says.

function renderedText(element, value) {
  const document = element.ownerDocument;
  const fragment = document.createDocumentFragment();
  value.split(/\r\n|\n|\r/).forEach((line, at) => {
    if (at > 0) fragment.append(document.createElement("br"));
    if (line !== "") fragment.append(line);
  });
  return fragment;
}

function setOuterText(element, value) {
  const { previousSibling: previous, nextSibling: next, parentNode } = element;
  if (!parentNode) refuse("NoModificationAllowedError", "the element has no parent, in which it could be replaced");
  const fragment = renderedText(element, value);
  if (!fragment.firstChild) fragment.append("");
  element.replaceWith(fragment);
  mergeText(next?.previousSibling);
  mergeText(previous);
}

/** Joins a Text with the Text behind it. */
function mergeText(text) {
  const next = text?.nextSibling;
  if (text?.nodeType !== TEXT || next?.nodeType !== TEXT) return;
  text.appendData(next.data);
  next.remove();
}

const TEXT = 3;
const textContent = (element) => element.textContent;
const innerText = { type: "DOMString or empty", get: textContent, set: (element, value) => element.replaceChildren(renderedText(element, value)) };
const outerText = { type: "DOMString or empty", get: textContent, set: setOuterText };

/** A nonce that is set stays out of the attribute, so that styles can't read it. */
const nonce = {
  type: "DOMString",
  get: (element) => keptOf(element).nonce ?? element.getAttribute("nonce") ?? "",
  set: (element, value) => void (keptOf(element).nonce = value),
};

const shared = { ...handlerAttributes, ...styleAttribute, ...tabbing, dataset, nonce, autofocus: flags("autofocus").autofocus };

const html = {
  attributes: {
    ...shared,
    ...texts("title", "lang", "accessKey"),
    ...words("inputMode", "enterKeyHint"),
    ...flags("hidden", "inert"),
    dir: oneOf("dir", ["ltr", "rtl", "auto"], ""),
    translate: {
      type: "boolean",
      get: (element) => (element.getAttribute("translate") ?? "yes").toLowerCase() !== "no",
      set: (element, value) => element.setAttribute("translate", value ? "yes" : "no"),
    },
    spellcheck: worded("spellcheck", true),
    draggable: { ...worded("draggable", false), get: (element) => worded("draggable", isDraggable(element)).get(element) },
    contentEditable,
    isContentEditable,
    autocapitalize: oneOf("autocapitalize", ["none", "sentences", "words", "characters"], "", "sentences"),
    innerText,
    outerText,
    offsetParent: () => null,
    ...zeros("offsetTop", "offsetLeft", "offsetWidth", "offsetHeight"),
  },
  operations: { ...focusing.operations, click: [[], click] },
};

const svg = {
  attributes: {
    ...shared,
    ownerSVGElement: (element) => element.parentElement?.closest("svg") ?? null,
    viewportElement: (element) => element.parentElement?.closest("svg") ?? null,
  },
  operations: focusing.operations,
};

export const elementMembers = { every, html, svg, math: { attributes: shared, operations: focusing.operations } };
