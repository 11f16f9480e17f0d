/** Inputs (HTML Standard, section 4.10.5): values by their types, boxes, and selections of a text. */
import { convertible, pageOf, realmOf, refuse, refuseOther, refuseType } from "../core.js";
import { dateNumber, hasDate, setDateNumber, valueAsDate } from "./dates.js";
import { flags, oneOf, sending, text, texts, url, whole } from "./reflect.js";
import { formOf, isNamed, stateOf } from "./states.js";
import { boundsOf, isNumber, isNumeric, numberOf, step } from "./steps.js";

const TYPES = [
  ...["text", "hidden", "search", "tel", "url", "email", "password", "date", "month", "week", "time", "datetime-local", "number", "range", "color"],
  ...["checkbox", "radio", "file", "submit", "image", "reset", "button"],
];

const type = oneOf("type", TYPES);
const typeOf = type.get;

/** How a type's value stands to the attribute. */
const MODES = { hidden: "default", submit: "default", image: "default", reset: "default", button: "default", checkbox: "on", radio: "on", file: "file" };
const modeOf = (input) => MODES[typeOf(input)] ?? "value";

// ---- What a value is made to be.

const oneLine = (value) => value.replace(/[\n\r]/g, "");
const trimmed = (value) => oneLine(value).replace(/^[\t\n\f\r ]+|[\t\n\f\r ]+$/g, "");
const TIME = /^(?:[01]\d|2[0-3]):[0-5]\d(?::[0-5]\d(?:\.\d{1,3})?)?$/;

/** Whether a text is a day that there is. */
function isDay(text) {
  const [, year, month, day] = (/^(\d{4,6})-(0[1-9]|1[0-2])-(0[1-9]|[12]\d|3[01])$/.exec(text) ?? []).map(Number);
  return year > 0 && day <= new Date(Date.UTC(year, month, 0)).getUTCDate();
}

const fitting = (form) => (value) => (form.test(value) ? value : "");

function inRange(value, input) {
  const { least, most } = boundsOf(input);
  const number = isNumber(value) ? Number(value) : least + Math.max(0, most - least) / 2;
  return `${Math.max(least, Math.min(number, Math.max(least, most)))}`;
}

const SANITIZED = {
  text: oneLine,
  search: oneLine,
  tel: oneLine,
  password: oneLine,
  url: trimmed,
  email: trimmed,
  date: (value) => (isDay(value) ? value : ""),
  month: fitting(/^\d{4,}-(?:0[1-9]|1[0-2])$/),
  week: fitting(/^\d{4,}-W(?:0[1-9]|[1-4]\d|5[0-3])$/),
  time: fitting(TIME),
  "datetime-local": (value) => {
    const [day, time] = value.split(/[ T]/);
    return isDay(day) && TIME.test(time) ? `${day}T${time}` : "";
  },
  number: (value) => (isNumber(value) ? value : ""),
  color: (value) => (/^#[\da-f]{6}$/i.test(value) ? value.toLowerCase() : "#000000"),
  range: inRange,
};

const sanitized = (input, value) => SANITIZED[typeOf(input)]?.(value, input) ?? value;

const VALUES = {
  value: {
    get: (input) => sanitized(input, stateOf(input).value ?? input.getAttribute("value") ?? ""),
    set(input, value) {
      const before = VALUES.value.get(input);
      const state = stateOf(input);
      state.value = sanitized(input, value);
      if (state.value !== before) state.selection = { start: state.value.length, end: state.value.length, direction: "none" };
    },
  },
  default: { get: (input) => input.getAttribute("value") ?? "", set: (input, value) => input.setAttribute("value", value) },
  on: { get: (input) => input.getAttribute("value") ?? "on", set: (input, value) => input.setAttribute("value", value) },
  file: {
    get: () => "",
    set: (input, value) => void (value === "" || refuse("InvalidStateError", "the value of an input of type 'file' can only be set to ''")),
  },
};

const value = { type: "DOMString or empty", get: (input) => VALUES[modeOf(input)].get(input), set: (input, its) => VALUES[modeOf(input)].set(input, its) };

/** Follows a change of the type: if a value is an attribute from now on, the typed text becomes that attribute. */
export function typeChanged(input) {
  const state = stateOf(input);
  const { value: typed } = state;
  if (typed === null || modeOf(input) === "value") return;
  state.value = null;
  if (typed !== "" && modeOf(input) !== "file") input.setAttribute("value", typed);
}

// ---- Boxes.

function groupOf(radio) {
  const name = radio.getAttribute("name");
  if (!name) return [];
  const form = formOf(radio);
  const among = (form ?? radio.getRootNode()).querySelectorAll("input");
  return [...among].filter((it) => it !== radio && typeOf(it) === "radio" && it.getAttribute("name") === name && formOf(it) === form);
}

/** Whether a box is ticked: of radios that nobody touched, the last one of a group that says so. */
function isChecked(input) {
  const { isOn } = stateOf(input);
  if (isOn !== null) return isOn;
  if (!input.hasAttribute("checked")) return false;
  if (typeOf(input) !== "radio") return true;
  const others = groupOf(input).filter((it) => stateOf(it).isOn ?? it.hasAttribute("checked"));
  return !others.some((it) => stateOf(it).isOn || input.compareDocumentPosition(it) & 4);
}

function check(input, isOn) {
  stateOf(input).isOn = isOn;
  if (isOn && typeOf(input) === "radio") for (const it of groupOf(input)) stateOf(it).isOn = false;
}

const isBox = (input) => ["checkbox", "radio"].includes(typeOf(input));

/** What a click does to a box ahead of all listeners, and how it is undone. */
export const boxes = {
  isFor: isBox,
  before(input) {
    const group = typeOf(input) === "radio" ? [input, ...groupOf(input)] : [input];
    const before = group.map((it) => [it, stateOf(it).isOn, isChecked(it), stateOf(it).indeterminate]);
    check(input, typeOf(input) === "radio" || !isChecked(input));
    stateOf(input).indeterminate = false;
    return before;
  },
  undo: (input, before) => before.forEach(([it, isOn, , indeterminate]) => Object.assign(stateOf(it), { isOn, indeterminate })),
  after(input, [[, , wasChecked]]) {
    if (!input.isConnected || (typeOf(input) === "radio" && wasChecked)) return;
    const page = pageOf(input);
    page.tell(input, "Event", "input", { bubbles: true, composed: true });
    page.tell(input, "Event", "change", { bubbles: true });
  },
};

// ---- Selections of a text.

const SELECTABLE = ["text", "search", "url", "tel", "password"];
const canSelect = (control) => isNamed(control, "textarea") || SELECTABLE.includes(typeOf(control));
const lengthOf = (control) => control.value.length;

function selectionOf(control) {
  const { selection } = stateOf(control);
  const length = lengthOf(control);
  return { ...selection, start: Math.min(selection.start, length), end: Math.min(selection.end, length) };
}

/** Selects a part of a text, and tells of it later, where it is another one than before. */
function choose(control, start, end, direction) {
  const before = selectionOf(control);
  const to = Math.min(end ?? 0, lengthOf(control));
  const its = { start: Math.min(start ?? 0, to), end: to, direction: ["forward", "backward"].includes(direction) ? direction : "none" };
  stateOf(control).selection = its;
  if (its.start === before.start && its.end === before.end && its.direction === before.direction) return;
  pageOf(control).later(() => pageOf(control).tell(control, "Event", "select", { bubbles: true }));
}

function setSelectionRange(control, start, end, direction) {
  if (!canSelect(control)) refuse("InvalidStateError", `an input of type '${control.type}' has no selection`);
  choose(control, start, end, direction);
}

const selected = (name, set, type = "unsigned long") => ({
  type,
  get: (control) => (canSelect(control) ? selectionOf(control)[name] : null),
  set: (control, its) => set(control, its, selectionOf(control)),
});

/** Returns the offset of an end of the selection after a part of the text was replaced; an end within the part moves to `within`. */
function moved(at, { from, to, newTo }, within) {
  if (at > to) return at + newTo - to;
  return at > from ? within : at;
}

/** The start and end of the selection after a part of a text was replaced, by the given mode. */
const SELECTED_AFTER = {
  select: (its, { from, newTo }) => [from, newTo],
  start: (its, { from }) => [from, from],
  end: (its, { newTo }) => [newTo, newTo],
  preserve: ({ start, end }, part) => [moved(start, part, part.from), moved(end, part, part.newTo)],
};

convertible("SelectionMode", (word) => (Object.hasOwn(SELECTED_AFTER, `${word}`) ? `${word}` : refuseType(`'${String(word)}' is not one of ${Object.keys(SELECTED_AFTER).join(", ")}`)));

function setRangeText(control, replacement, ...[start, end, mode]) {
  if (!canSelect(control)) refuse("InvalidStateError", `an input of type '${control.type}' has no selection`);
  const its = selectionOf(control);
  if (start > end) refuse("IndexSizeError", `the start ${start} is after the end ${end}`);
  const [from, to] = [start ?? its.start, end ?? its.end].map((at) => Math.min(at, lengthOf(control)));
  const before = control.value;
  control.value = before.slice(0, from) + replacement + before.slice(to);
  choose(control, ...SELECTED_AFTER[mode ?? "preserve"](its, { from, to, newTo: from + replacement.length }), "none");
}

/** What inputs of a text and textareas have. */
export const textSelection = {
  attributes: {
    selectionStart: selected("start", (control, start, { end, direction }) => setSelectionRange(control, start, Math.max(start, end), direction)),
    selectionEnd: selected("end", (control, end, { start, direction }) => setSelectionRange(control, start, end, direction)),
    selectionDirection: selected("direction", (control, direction, { start, end }) => setSelectionRange(control, start, end, direction), "DOMString?"),
  },
  operations: {
    select: [[], (control) => canSelect(control) && setSelectionRange(control, 0, lengthOf(control), "none")],
    setSelectionRange: [["unsigned long", "unsigned long", "DOMString = undefined"], setSelectionRange],
    setRangeText: [["DOMString", "unsigned long = undefined", "unsigned long = undefined", "SelectionMode = undefined"], setRangeText],
  },
};

/** Puts files there that a program has: a list of any kind. */
function setFiles(input, files) {
  if (files === null || files === undefined) return;
  if (typeof files !== "object") refuseOther("a list of files", files);
  if (input.type === "file") stateOf(input).files = files;
}

convertible("unrestricted double", Number);

const asNumber = (input) => (hasDate(input) ? dateNumber(input) : numberOf(input));

function setNumber(input, number) {
  if (hasDate(input)) return setDateNumber(input, number);
  if (!isNumeric(input)) refuse("InvalidStateError", `an input of type ${input.type} has no number`);
  if (Math.abs(number) === Infinity) refuseType(`${number} is not a finite number`);
  return value.set(input, Number.isNaN(number) ? "" : `${number}`);
}

/** The files that were chosen: none, unless a program put them there. */
const filesOf = (input) => (input.type === "file" ? (stateOf(input).files ??= Object.freeze(realmOf(input).array([]))) : null);

export const inputMembers = {
  attributes: {
    ...texts("accept", "align", "alt", "autocomplete", "dirName", "max", "min", "name", "pattern", "placeholder", "step", "useMap", "capture"),
    ...flags("autofocus", "disabled", "formNoValidate", "multiple", "readOnly", "required", "webkitdirectory"),
    ...sending,
    src: url("src"),
    height: { ...whole("height"), get: () => 0 },
    width: { ...whole("width"), get: () => 0 },
    maxLength: whole("maxlength", -1, 0),
    minLength: whole("minlength", -1, 0),
    size: whole("size", 20, 1),
    type,
    value,
    defaultValue: text("value"),
    defaultChecked: { type: "boolean", get: (input) => input.hasAttribute("checked"), set: (input, its) => void input.toggleAttribute("checked", its) },
    checked: { type: "boolean", get: isChecked, set: check },
    indeterminate: {
      type: "boolean",
      get: (input) => stateOf(input).indeterminate,
      set: (input, its) => void (stateOf(input).indeterminate = its),
    },
    files: { type: "any", get: filesOf, set: setFiles },
    valueAsDate,
    valueAsNumber: { type: "unrestricted double", get: asNumber, set: setNumber },
    form: formOf,
    list: (input) => {
      const found = input.hasAttribute("list") ? input.ownerDocument.getElementById(input.getAttribute("list")) : null;
      return isNamed(found, "datalist") ? found : null;
    },
    ...textSelection.attributes,
  },
  operations: {
    stepUp: [["long = 1"], step(1)],
    stepDown: [["long = 1"], step(-1)],
    ...textSelection.operations,
  },
};
