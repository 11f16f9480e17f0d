/** Constraint validation (HTML Standard, section 4.10.21): which constraints the value of a control does not meet. */
import { known, makeThing, pageOf, realmOf, thingOf } from "../core.js";
import { controlsOf, isDisabled, isNamed, stateOf } from "./states.js";
import { boundsOf, isBesideSteps, numberOf } from "./steps.js";

const EMAIL = /^[\w.!#$%&'*+/=?^`{|}~-]+@[a-zA-Z\d](?:[a-zA-Z\d-]{0,61}[a-zA-Z\d])?(?:\.[a-zA-Z\d](?:[a-zA-Z\d-]{0,61}[a-zA-Z\d])?)*$/;

function isAddress(text) {
  try {
    return Boolean(new URL(text));
  } catch {
    return false;
  }
}

const BARRED = ["hidden", "reset", "button"];

/** Whether a control is checked at all. */
function willValidate(control) {
  if (!isNamed(control, "input", "select", "textarea", "button")) return false;
  if (isDisabled(control) || control.closest("datalist")) return false;
  if (BARRED.includes(control.type)) return false;
  return !control.hasAttribute("readonly") || !isNamed(control, "input", "textarea");
}

function isMissing(control) {
  if (!control.hasAttribute("required") || isNamed(control, "button")) return false;
  if (control.type === "checkbox") return !control.checked;
  if (control.type !== "radio") return control.value === "";
  const name = control.getAttribute("name");
  const group = [...(control.form ?? control.getRootNode()).querySelectorAll("input[type=radio]")].filter((it) => it.getAttribute("name") === name);
  return !control.checked && !(name && group.some((it) => it.checked));
}

function isMistyped({ type, value }) {
  if (value === "") return false;
  if (type === "email") return !EMAIL.test(value);
  return type === "url" && !isAddress(value);
}

const PATTERNED = ["text", "search", "url", "tel", "email", "password"];

function isOffPattern(control) {
  const pattern = control.getAttribute("pattern");
  if (pattern === null || control.value === "" || !PATTERNED.includes(control.type)) return false;
  try {
    return !new RegExp(`^(?:${pattern})$`, "v").test(control.value);
  } catch {
    return false;
  }
}

const isBelow = (control) => isNamed(control, "input") && numberOf(control) < boundsOf(control).least;
const isAbove = (control) => isNamed(control, "input") && numberOf(control) > boundsOf(control).most;

const FAULTS = {
  valueMissing: isMissing,
  typeMismatch: isMistyped,
  patternMismatch: isOffPattern,
  tooLong: () => false,
  tooShort: () => false,
  rangeUnderflow: isBelow,
  rangeOverflow: isAbove,
  stepMismatch: (control) => isNamed(control, "input") && isBesideSteps(control),
  badInput: () => false,
  customError: (control) => stateOf(control).fault !== "",
};

const MESSAGES = { valueMissing: "Please fill out this field.", customError: null };

const faultsOf = (control) => Object.keys(FAULTS).filter((name) => FAULTS[name](control));

/** Returns whether a control meets its constraints; if not, dispatches an event `invalid` to it. */
export function checkValidity(control) {
  if (!willValidate(control) || faultsOf(control).length === 0) return true;
  pageOf(control).tell(control, "Event", "invalid", { cancelable: true });
  return false;
}

/** Returns, for selectors, whether a control meets its constraints, or all controls of a form or fieldset do; null for an element that is never checked. */
export function isValid(element) {
  if (isNamed(element, "form")) return controlsOf(element).every((it) => isValid(it) !== false);
  if (isNamed(element, "fieldset")) return [...element.elements].every((it) => isValid(it) !== false);
  return willValidate(element) ? faultsOf(element).length === 0 : null;
}

/** Whether a number is within the bounds that an input has; null where it has none. */
export function isWithin(element) {
  if (!isNamed(element, "input") || !willValidate(element) || !["number", "range"].includes(element.type)) return null;
  const { least, most } = boundsOf(element);
  return least === -Infinity && most === Infinity ? null : !(isBelow(element) || isAbove(element));
}

class ValidityIs {
  constructor(control) {
    this.control = control;
  }
}

const controlOf = (it) => thingOf(it, ValidityIs)?.control;

export const ValidityState = known({
  name: "ValidityState",
  is: (it) => controlOf(it) !== undefined,
  attributes: {
    ...Object.fromEntries(Object.entries(FAULTS).map(([name, is]) => [name, (it) => is(controlOf(it))])),
    valid: (it) => faultsOf(controlOf(it)).length === 0,
  },
});

function message(control) {
  const [first] = willValidate(control) ? faultsOf(control) : [];
  if (!first) return "";
  return stateOf(control).fault || (MESSAGES[first] ?? "Please match the requested format.");
}

const objects = new WeakMap();

function validity(control) {
  if (!objects.has(control)) objects.set(control, makeThing(realmOf(control), "ValidityState", new ValidityIs(control)));
  return objects.get(control);
}

/** What controls have of it. */
export const validation = {
  attributes: { willValidate, validity, validationMessage: message },
  operations: {
    checkValidity: [[], checkValidity],
    reportValidity: [[], checkValidity],
    setCustomValidity: [["DOMString"], (control, text) => void (stateOf(control).fault = text)],
  },
};
