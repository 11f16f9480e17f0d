/** Selects and options (HTML Standard, sections 4.10.7 and 4.10.10): which options are selected. */
import { touched } from "../core.js";
import { listOf, listOfKind } from "./collections.js";
import { flags, texts, whole } from "./reflect.js";
import { formOf, isNamed, stateOf } from "./states.js";

const optionsOf = (select) => [...select.querySelectorAll("option")].filter((it) => selectOf(it) === select);

function selectOf(option) {
  const parent = option.parentElement;
  const above = isNamed(parent, "optgroup") ? parent.parentElement : parent;
  return isNamed(above, "select") ? above : null;
}

const isSet = (option) => stateOf(option).isOn ?? option.hasAttribute("selected");
const isOff = (option) => option.hasAttribute("disabled") || (isNamed(option.parentElement, "optgroup") && option.parentElement.hasAttribute("disabled"));
const isMultiple = (select) => select.hasAttribute("multiple");
const showsOne = (select) => !isMultiple(select) && whole("size", 0).get(select) <= 1;

/** The options that are selected: of a select that shows one, the last that says so, or the first that can be. */
function selectedOf(select) {
  const options = optionsOf(select);
  const set = options.filter(isSet);
  if (isMultiple(select)) return set;
  if (set.length) return [set.at(-1)];
  const isEmptied = options.some((it) => stateOf(it).isEmptied);
  const first = showsOne(select) && !isEmptied ? options.find((it) => !isOff(it)) : undefined;
  return first ? [first] : [];
}

function isSelected(option) {
  const select = selectOf(option);
  return select ? selectedOf(select).includes(option) : isSet(option);
}

function setSelected(option, isOn) {
  const select = selectOf(option);
  if (select && isOn && !isMultiple(select)) for (const it of optionsOf(select)) Object.assign(stateOf(it), { isOn: false, isEmptied: false });
  Object.assign(stateOf(option), { isOn, isEmptied: false });
  touched(option);
}

/** Selects these alone; where there is none, none. */
function selectOnly(select, chosen) {
  for (const it of optionsOf(select)) Object.assign(stateOf(it), { isOn: chosen.includes(it), isEmptied: chosen.length === 0 });
  touched(select);
}

const stripped = (text) => text.replace(/[\t\n\f\r ]+/g, " ").trim();
const textOf = (option) => stripped(option.textContent);
const valueOf = (option) => option.getAttribute("value") ?? textOf(option);

function add(select, option, before) {
  const at = typeof before === "number" ? (optionsOf(select)[before] ?? null) : before;
  (at?.parentNode ?? select).insertBefore(option, at);
}

function resize(select) {
  return (length) => {
    const options = optionsOf(select);
    for (const it of options.slice(length)) it.remove();
    for (let count = options.length; count < length; count++) select.appendChild(select.ownerDocument.createElement("option"));
    return true;
  };
}

function setAt(select) {
  return (index, option) => {
    const there = optionsOf(select)[index];
    if (option === null) there?.remove();
    else if (there) there.parentNode.replaceChild(option, there);
    else {
      resize(select)(index);
      select.appendChild(option);
    }
    return true;
  };
}

const options = (select) => listOfKind("HTMLOptionsCollection", select, "options", () => optionsOf(select), { resize: resize(select), setAt: setAt(select) });

export const selectMembers = {
  attributes: {
    ...texts("autocomplete", "name"),
    ...flags("autofocus", "disabled", "multiple", "required"),
    size: whole("size", 0, 0),
    type: (select) => (isMultiple(select) ? "select-multiple" : "select-one"),
    form: formOf,
    options,
    selectedOptions: (select) => listOf(select, "selectedOptions", () => selectedOf(select)),
    length: { type: "unsigned long", get: (select) => optionsOf(select).length, set: (select, length) => void resize(select)(length) },
    selectedIndex: {
      type: "long",
      get: (select) => optionsOf(select).indexOf(selectedOf(select)[0]),
      set: (select, index) => selectOnly(select, optionsOf(select).slice(Math.max(0, index), index + 1)),
    },
    value: {
      type: "DOMString",
      get: (select) => (selectedOf(select)[0] ? valueOf(selectedOf(select)[0]) : ""),
      set: (select, value) => selectOnly(select, optionsOf(select).filter((it) => valueOf(it) === value).slice(0, 1)),
    },
  },
  operations: {
    item: [["unsigned long"], (select, index) => optionsOf(select)[index] ?? null],
    namedItem: [["DOMString"], (select, name) => options(select).namedItem(name)],
    add: [["any", "any = null"], add],
    remove: [["any = undefined"], (select, index) => (index === undefined ? select.parentNode?.removeChild(select) : optionsOf(select)[index]?.remove())],
  },
};

export const optionMembers = {
  attributes: {
    ...flags("disabled"),
    label: {
      type: "DOMString",
      get: (option) => option.getAttribute("label") || textOf(option),
      set: (option, label) => option.setAttribute("label", label),
    },
    defaultSelected: {
      type: "boolean",
      get: (option) => option.hasAttribute("selected"),
      set: (option, its) => void option.toggleAttribute("selected", its),
    },
    selected: { type: "boolean", get: isSelected, set: setSelected },
    value: { type: "DOMString", get: valueOf, set: (option, value) => option.setAttribute("value", value) },
    text: { type: "DOMString", get: textOf, set: (option, text) => void (option.textContent = text) },
    index: (option) => (selectOf(option) ? optionsOf(selectOf(option)).indexOf(option) : 0),
    form: (option) => (selectOf(option) ? formOf(selectOf(option)) : null),
  },
};

/** The values of a select that a form sends. */
export const sentOf = (select) => selectedOf(select).filter((it) => !isOff(it)).map(valueOf);

/** Has a select be as its attributes say. */
export function resetOptions(select) {
  for (const it of optionsOf(select)) Object.assign(stateOf(it), { isOn: null, isEmptied: false });
}
