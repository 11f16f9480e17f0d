/** What controls of forms know beside their attributes: values that were typed, boxes that were ticked (HTML Standard, section 4.10). */
import { HTML, isElement, keptOf, nameOf } from "../core.js";

class State {
  /** The value, where it was set; and whether the box is ticked, or the option selected, where that was set. */
  value = null;
  isOn = null;
  indeterminate = false;
  fault = "";
  files = null;
  selection = { start: 0, end: 0, direction: "none" };
}

export const stateOf = (control) => (keptOf(control).state ??= new State());

/** Has a control be as its attributes say. */
export const reset = (control) => void (keptOf(control).state = undefined);

/** Gives a copy what its original knows. */
export function copyState(from, to) {
  const its = keptOf(from).state;
  if (its) keptOf(to).state = Object.assign(new State(), its, { selection: { ...its.selection } });
}

/** Whether something is an element of HTML that has one of some names. */
export function isNamed(it, ...names) {
  if (!isElement(it)) return false;
  const { namespace, local } = nameOf(it);
  return namespace === HTML && names.includes(local);
}

/** The form that a control belongs to: by its attribute, or the nearest above it. */
export function formOf(control) {
  const id = control.getAttribute("form");
  if (id !== null && control.isConnected) {
    const named = control.ownerDocument.getElementById(id);
    return isNamed(named, "form") ? named : null;
  }
  return control.closest("form");
}

/** Whether a control is disabled, by itself or by a fieldset that it does not stand in the legend of. */
export function isDisabled(control) {
  if (control.hasAttribute("disabled")) return true;
  for (let it = control.parentElement, from = control; it; from = it, it = it.parentElement) {
    if (isNamed(it, "fieldset") && it.hasAttribute("disabled") && from !== [...it.children].find((child) => isNamed(child, "legend"))) return true;
  }
  return false;
}

const CONTROLS = ["button", "fieldset", "input", "object", "output", "select", "textarea"];

/** The controls of a form, in tree order. */
export function controlsOf(form) {
  const root = form.getRootNode();
  const all = form.isConnected && form.id !== "" ? root.querySelectorAll(CONTROLS.join()) : form.querySelectorAll(CONTROLS.join());
  return [...all].filter((it) => formOf(it) === form && !(it.localName === "input" && it.type === "image"));
}
