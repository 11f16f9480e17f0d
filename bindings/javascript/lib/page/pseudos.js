/** Pseudo-classes that an element's state says (Selectors 4; HTML Standard, section 4.16.3). */
import { documentOf, HTML, pageOf, SVG, XML } from "./core.js";
import { controlsOf, formOf, isDisabled, isNamed } from "./html/states.js";
import { isValid, isWithin } from "./html/validity.js";

const isFocused = (element) => pageOf(element)?.focused(documentOf(element)) === element;

const CONTROLS = ["button", "fieldset", "input", "optgroup", "option", "select", "textarea"];

function isOff(element) {
  if (!isNamed(element, "option")) return isDisabled(element);
  return element.hasAttribute("disabled") || (isNamed(element.parentNode, "optgroup") && element.parentNode.hasAttribute("disabled"));
}

const isTickable = (element) => isNamed(element, "input") && ["checkbox", "radio"].includes(element.type);

const TEXTS = ["text", "search", "url", "tel", "email", "password", "number"];
const WRITTEN = [...TEXTS, "date", "month", "week", "time", "datetime-local"];
const isOfTypes = (element, types) => isNamed(element, "textarea") || (isNamed(element, "input") && types.includes(element.type));

function isWritable(element) {
  if (isOfTypes(element, WRITTEN)) return !element.hasAttribute("readonly") && !isDisabled(element);
  return element.isContentEditable === true;
}

const showsPlaceholder = (element) => isOfTypes(element, TEXTS) && element.hasAttribute("placeholder") && element.value === "";
const isSubmitting = (element) => isNamed(element, "button", "input") && ["submit", "image"].includes(element.type);

/** Whether an element is what a form begins with: a choice that the page has made, or the button that sends. */
function isDefault(element) {
  if (isNamed(element, "option")) return element.hasAttribute("selected");
  if (isNamed(element, "input") && ["checkbox", "radio"].includes(element.type)) return element.hasAttribute("checked");
  return isSubmitting(element) && formOf(element) !== null && controlsOf(formOf(element)).find(isSubmitting) === element;
}

const isLink = (element) => (isNamed(element, "a", "area") || (element.namespaceURI === SVG && element.localName === "a")) && element.hasAttribute("href");

const isAsked = (element) => isNamed(element, "input", "select", "textarea");

/** Names with a hyphen that no custom element may have; any other such name is that of an element that nobody has defined. */
const NO_CUSTOM = ["annotation-xml", "color-profile", "font-face", "font-face-src", "font-face-uri", "font-face-format", "font-face-name", "missing-glyph"];
const isDefined = (element) => element.namespaceURI !== HTML || !element.localName.includes("-") || NO_CUSTOM.includes(element.localName);

/** Whether a language is within a range, by extended filtering (RFC 4647, section 3.3.2). */
function isWithinRange(language, range) {
  if (range === "" || language === "") return range === language;
  const [first, ...wanted] = range.toLowerCase().split("-");
  const [primary, ...parts] = language.toLowerCase().split("-");
  if (first !== "*" && first !== primary) return false;
  let at = 0;
  for (const part of wanted.filter((it) => it !== "*")) {
    while (at < parts.length && parts[at] !== part && parts[at].length > 1) at++;
    if (parts[at++] !== part) return false;
  }
  return true;
}

const languageOf = (element) => element.getAttributeNS(XML, "lang") ?? (element.namespaceURI === HTML ? element.getAttribute("lang") : null);

function isIn(element, ranges) {
  let said = null;
  for (let it = element; it && said === null; it = it.parentElement) said = languageOf(it);
  return said !== null && [...ranges].some((range) => isWithinRange(said, range));
}

const STRONG = /[\p{Script=Hebrew}\p{Script=Arabic}\p{Script=Syriac}\p{Script=Thaana}\p{Script=Nko}]|\p{L}/u;
const TO_THE_LEFT = /[\p{Script=Hebrew}\p{Script=Arabic}\p{Script=Syriac}\p{Script=Thaana}\p{Script=Nko}]/u;

/** The direction that the first letter of a text says. */
function directionOfText(text) {
  const letter = STRONG.exec(text)?.[0];
  return letter !== undefined && TO_THE_LEFT.test(letter) ? "rtl" : "ltr";
}

/** The direction that an element says itself, or null. */
function directionSaid(element) {
  const said = element.namespaceURI === HTML ? (element.getAttribute("dir") ?? "").toLowerCase() : "";
  if (said === "ltr" || said === "rtl") return said;
  if (said === "auto" || isNamed(element, "bdi")) return directionOfText(isAsked(element) ? element.value : element.textContent);
  return isNamed(element, "input") && element.type === "tel" ? "ltr" : null;
}

function isTowards(element, direction) {
  let said = null;
  for (let it = element; it && said === null; it = it.parentElement) said = directionSaid(it);
  return (said ?? "ltr") === direction;
}

function isTarget(element) {
  const { hash } = new URL(element.ownerDocument.URL);
  return element.id !== "" && hash !== "" && (hash === `#${element.id}` || decoded(hash.slice(1)) === element.id);
}

function decoded(text) {
  try {
    return decodeURIComponent(text);
  } catch {
    return text;
  }
}

/** By their names; those that are not here are true of no element. */
export const pseudos = {
  "any-link": isLink,
  link: isLink,
  required: (element) => isAsked(element) && element.hasAttribute("required"),
  optional: (element) => isAsked(element) && !element.hasAttribute("required"),
  checked: (element) => (isNamed(element, "option") ? element.selected : isTickable(element) && element.checked) === true,
  disabled: (element) => isNamed(element, ...CONTROLS) && isOff(element),
  enabled: (element) => isNamed(element, ...CONTROLS) && !isOff(element),
  valid: (element) => isValid(element) === true,
  invalid: (element) => isValid(element) === false,
  "in-range": (element) => isWithin(element) === true,
  "out-of-range": (element) => isWithin(element) === false,
  "read-write": isWritable,
  "read-only": (element) => !isWritable(element),
  "placeholder-shown": showsPlaceholder,
  default: isDefault,
  indeterminate: (element) => element.indeterminate === true,
  focus: isFocused,
  "focus-visible": isFocused,
  "focus-within": (element) => element.contains(pageOf(element)?.focused(documentOf(element)) ?? null),
  target: isTarget,
  open: (element) => isNamed(element, "details", "dialog") && element.hasAttribute("open"),
  lang: isIn,
  dir: isTowards,
  defined: isDefined,
};
