/** Forms, and what else belongs to them (HTML Standard, section 4.10): sending and resetting, as far as events go, for there is no network. */
import { pageOf, refuse } from "../core.js";
import { listOfControls } from "./collections.js";
import { textSelection } from "./inputs.js";
import { flags, oneOf, positive, sending, text, texts, url, whole } from "./reflect.js";
import { resetOptions, sentOf } from "./selects.js";
import { controlsOf, formOf, isDisabled, isNamed, reset as resetState, stateOf } from "./states.js";
import { checkValidity } from "./validity.js";

// ---- Labels.

const LABELABLE = ["button", "input", "meter", "output", "progress", "select", "textarea"];
const isLabelable = (it) => isNamed(it, ...LABELABLE) && !(it.localName === "input" && it.type === "hidden");

/** The control that a label means. */
export function controlOf(label) {
  const id = label.getAttribute("for");
  const root = label.getRootNode();
  const found = id === null ? [...label.querySelectorAll(LABELABLE.join())].find(isLabelable) : root.getElementById?.(id);
  return isLabelable(found) ? found : null;
}

/** The labels of a control. */
export const labels = (control) => listOfLabels(control);

function listOfLabels(control) {
  if (!isLabelable(control)) return null;
  return pageOf(control).still([...control.getRootNode().querySelectorAll("label")].filter((it) => controlOf(it) === control));
}

export const labelMembers = {
  attributes: { htmlFor: text("for"), control: controlOf, form: (label) => (controlOf(label) ? formOf(controlOf(label)) : null) },
};

/** A click on a label is one on its control, unless it came from something within that is clicked for itself. */
export const labelClick = {
  after(label, event) {
    const control = controlOf(label);
    if (control && !control.contains(event.target) && !isDisabled(control)) control.click();
  },
};

// ---- Sending and resetting.

/** The names and values that a form sends. */
export function entriesOf(form, submitter = null) {
  return controlsOf(form).flatMap((it) => (isDisabled(it) || !it.getAttribute("name") ? [] : valuesOf(it, submitter).map((value) => [it.getAttribute("name"), value])));
}

const NOT_SENT = ["image", "reset", "button", "file"];

function valuesOf(control, submitter) {
  if (isNamed(control, "select")) return sentOf(control);
  if (isNamed(control, "textarea")) return [control.value];
  const isButton = isNamed(control, "button") || control.type === "submit";
  if (isButton) return control === submitter ? [control.value] : [];
  if (!isNamed(control, "input") || NOT_SENT.includes(control.type)) return [];
  if (["checkbox", "radio"].includes(control.type)) return control.checked ? [control.value] : [];
  return [control.value];
}

/** Asks to send a form: it is checked, and told; going where it leads is what a page without a network can't. */
function requestSubmit(form, submitter = null) {
  if (!form.isConnected) return;
  const isUnchecked = form.hasAttribute("novalidate") || submitter?.hasAttribute("formnovalidate");
  if (!isUnchecked && !checkForm(form)) return;
  pageOf(form).tell(form, "SubmitEvent", "submit", { bubbles: true, cancelable: true, submitter });
}

const checkForm = (form) => controlsOf(form).filter((it) => !checkValidity(it)).length === 0;

function reset(form) {
  if (!pageOf(form).tell(form, "Event", "reset", { bubbles: true, cancelable: true })) return;
  for (const it of controlsOf(form)) {
    resetState(it);
    if (isNamed(it, "select")) resetOptions(it);
  }
}

/** What a button does. */
export const buttonClick = {
  isFor: (button) => !isDisabled(button) && ["submit", "reset", "image"].includes(button.type),
  after(button) {
    const form = formOf(button);
    if (!form) return;
    if (button.type === "reset") reset(form);
    else requestSubmit(form, button);
  },
};

const elements = (form) => listOfControls(form, () => controlsOf(form));
const METHODS = ["get", "post", "dialog"];
const ENCODINGS = ["application/x-www-form-urlencoded", "multipart/form-data", "text/plain"];

function requestOf(form, submitter) {
  if (submitter !== null && formOf(submitter) !== form) refuse("NotFoundError", "the button does not belong to this form");
  requestSubmit(form, submitter);
}

export const formMembers = {
  attributes: {
    ...texts("name", "target", "rel"),
    autocomplete: oneOf("autocomplete", ["on", "off"]),
    acceptCharset: text("accept-charset"),
    action: { ...url("action"), get: (form) => (form.getAttribute("action") ? url("action").get(form) : form.ownerDocument.URL) },
    method: oneOf("method", METHODS),
    enctype: oneOf("enctype", ENCODINGS),
    encoding: oneOf("enctype", ENCODINGS),
    noValidate: flags("noValidate").noValidate,
    elements,
    length: (form) => controlsOf(form).length,
  },
  operations: {
    submit: [[], () => refuse("NotSupportedError", "there is no network to send a form to")],
    requestSubmit: [["any = null"], requestOf],
    reset: [[], reset],
    checkValidity: [[], checkForm],
    reportValidity: [[], checkForm],
  },
};

// ---- Buttons, texts, fieldsets.

export const buttonMembers = {
  attributes: {
    ...texts("name", "value"),
    ...flags("autofocus", "disabled", "formNoValidate"),
    ...sending,
    type: oneOf("type", ["submit", "reset", "button"]),
    form: formOf,
    labels,
  },
};

const newlines = (value) => value.replace(/\r\n?/g, "\n");

function setText(area, value) {
  const state = stateOf(area);
  const before = area.value;
  state.value = newlines(value);
  if (state.value !== before) state.selection = { start: state.value.length, end: state.value.length, direction: "none" };
}

export const textareaMembers = {
  attributes: {
    ...texts("autocomplete", "dirName", "name", "placeholder", "wrap"),
    ...flags("autofocus", "disabled", "readOnly", "required"),
    cols: positive("cols", 20),
    rows: positive("rows", 2),
    maxLength: whole("maxlength", -1, 0),
    minLength: whole("minlength", -1, 0),
    type: () => "textarea",
    defaultValue: { type: "DOMString", get: (area) => area.textContent, set: (area, value) => void (area.textContent = value) },
    value: { type: "DOMString or empty", get: (area) => stateOf(area).value ?? newlines(area.textContent), set: setText },
    textLength: (area) => area.value.length,
    form: formOf,
    labels,
    ...textSelection.attributes,
  },
  operations: textSelection.operations,
};

export const fieldsetMembers = {
  attributes: {
    ...texts("name"),
    ...flags("disabled"),
    type: () => "fieldset",
    form: formOf,
    elements: (fieldset) => listOfControls(fieldset, () => [...fieldset.querySelectorAll("button,fieldset,input,object,output,select,textarea")]),
  },
};

export const outputMembers = {
  attributes: {
    ...texts("name"),
    type: () => "output",
    form: formOf,
    labels,
    defaultValue: { type: "DOMString", get: (output) => stateOf(output).value ?? output.textContent, set: (output, value) => void (output.textContent = value) },
    value: { type: "DOMString", get: (output) => output.textContent, set: (output, value) => void (output.textContent = value) },
  },
};
