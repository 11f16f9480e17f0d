/** Event and the events that libraries make (DOM Standard, section 2; UI Events; HTML). */
import { convertible, converted, known, makeThing, refuse, refuseType, thingOf } from "./core.js";

export const NONE = 0;
export const CAPTURING_PHASE = 1;
export const AT_TARGET = 2;
export const BUBBLING_PHASE = 3;

/** What an event knows: its flags are the standard's. */
class EventIs {
  target = null;
  currentTarget = null;
  phase = NONE;
  path = [];
  isStopped = false;
  isStoppedNow = false;
  isCanceled = false;
  isInPassive = false;
  isDispatched = false;
  isTrusted = false;
  timeStamp = performance.now();

  constructor(type, init, members) {
    this.type = type;
    this.bubbles = init.bubbles;
    this.cancelable = init.cancelable;
    this.composed = init.composed;
    this.members = members;
    this.isInitialized = true;
  }

  cancel() {
    if (this.cancelable && !this.isInPassive) this.isCanceled = true;
  }

  /** Begins anew, as the standard's "initialize" does. */
  initialize(type, bubbles, cancelable) {
    this.isInitialized = true;
    this.isStopped = this.isStoppedNow = this.isCanceled = this.isTrusted = false;
    this.target = null;
    Object.assign(this, { type, bubbles, cancelable });
  }
}

export const eventOf = (it) => thingOf(it, EventIs);

convertible("long", (value) => converted("unsigned long", value) | 0);
convertible("double", (value) => {
  const number = Number(value);
  return Number.isFinite(number) ? number : refuseType(`${number} is not a finite number`);
});

// ---- The members of each event, with their types and what they are where a dictionary has none.

const MODIFIERS = Object.fromEntries(["ctrlKey", "shiftKey", "altKey", "metaKey"].map((name) => [name, ["boolean", false]]));
const target = ["EventTarget?", null];
const text = ["DOMString", ""];
const whole = ["long", 0];
const real = ["double", 0];
const no = ["boolean", false];
const any = ["any", null];
const none = ["any", Object.freeze([])];

const PLACE = { screenX: real, screenY: real, clientX: real, clientY: real, movementX: real, movementY: real };

/** Each event behind the one that it inherits from: its parent, its members, its constants. */
const EVENTS = {
  CustomEvent: ["Event", { detail: any }],
  UIEvent: ["Event", { view: ["Window?", null], detail: whole, which: ["unsigned long", 0] }],
  FocusEvent: ["UIEvent", { relatedTarget: target }],
  MouseEvent: ["UIEvent", { ...MODIFIERS, ...PLACE, button: ["short", 0], buttons: ["unsigned short", 0], relatedTarget: target }],
  WheelEvent: [
    "MouseEvent",
    { deltaX: real, deltaY: real, deltaZ: real, deltaMode: ["unsigned long", 0] },
    { DOM_DELTA_PIXEL: 0, DOM_DELTA_LINE: 1, DOM_DELTA_PAGE: 2 },
  ],
  PointerEvent: [
    "MouseEvent",
    { pointerId: whole, width: ["double", 1], height: ["double", 1], pressure: real, tiltX: whole, tiltY: whole, pointerType: text, isPrimary: no },
  ],
  TouchEvent: ["UIEvent", { ...MODIFIERS, touches: none, targetTouches: none, changedTouches: none }],
  DragEvent: ["MouseEvent", { dataTransfer: any }],
  KeyboardEvent: [
    "UIEvent",
    { ...MODIFIERS, key: text, code: text, location: ["unsigned long", 0], repeat: no, isComposing: no, charCode: ["unsigned long", 0], keyCode: ["unsigned long", 0] },
    { DOM_KEY_LOCATION_STANDARD: 0, DOM_KEY_LOCATION_LEFT: 1, DOM_KEY_LOCATION_RIGHT: 2, DOM_KEY_LOCATION_NUMPAD: 3 },
  ],
  InputEvent: ["UIEvent", { data: ["DOMString?", null], isComposing: no, inputType: text, dataTransfer: any }],
  CompositionEvent: ["UIEvent", { data: text }],
  ClipboardEvent: ["Event", { clipboardData: any }],
  ToggleEvent: ["Event", { oldState: text, newState: text }],
  BeforeUnloadEvent: ["Event", {}],
  DeviceMotionEvent: ["Event", { acceleration: any, accelerationIncludingGravity: any, rotationRate: any, interval: real }],
  DeviceOrientationEvent: ["Event", { alpha: ["double?", null], beta: ["double?", null], gamma: ["double?", null], absolute: no }],
  TextEvent: ["UIEvent", { data: text }],
  StorageEvent: ["Event", { key: ["DOMString?", null], oldValue: ["DOMString?", null], newValue: ["DOMString?", null], url: text, storageArea: any }],
  SubmitEvent: ["Event", { submitter: any }],
  ErrorEvent: ["Event", { message: text, filename: text, lineno: ["unsigned long", 0], colno: ["unsigned long", 0], error: ["any", undefined] }],
  MessageEvent: ["Event", { data: any, origin: text, lastEventId: text, source: any, ports: none }],
  HashChangeEvent: ["Event", { oldURL: text, newURL: text }],
  PopStateEvent: ["Event", { state: any }],
  PageTransitionEvent: ["Event", { persisted: no }],
  ProgressEvent: ["Event", { lengthComputable: no, loaded: real, total: real }],
  TransitionEvent: ["Event", { propertyName: text, elapsedTime: real, pseudoElement: text }],
  AnimationEvent: ["Event", { animationName: text, elapsedTime: real, pseudoElement: text }],
};

convertible("double?", (value) => (value === null || value === undefined ? null : converted("double", value)));
convertible("short", (value) => (converted("unsigned short", value) << 16) >> 16);

const BASE = { bubbles: no, cancelable: no, composed: no };

/** All members of an event with those that it inherits, the inherited first, and each interface's by their names' order, as Web IDL reads a dictionary. */
function readMembers(name) {
  if (name === "Event") return [];
  const [parent, members] = EVENTS[name];
  return [...membersOf(parent), ...Object.entries(members).sort(([one], [other]) => (one < other ? -1 : 1))];
}

const membersByName = new Map();

function membersOf(name) {
  if (!membersByName.has(name)) membersByName.set(name, readMembers(name));
  return membersByName.get(name);
}

function readInto(to, init, members) {
  for (const [name, [type, absent]] of members) {
    const given = init[name];
    to[name] = given === undefined ? absent : converted(type, given);
  }
  return to;
}

const BASE_MEMBERS = Object.entries(BASE);
const NO_INIT = { bubbles: false, cancelable: false, composed: false };

function made(realm, name, its) {
  const event = makeThing(realm, name, its);
  Object.defineProperty(event, "isTrusted", realm.isTrusted);
  return event;
}

function construct(name) {
  const members = membersOf(name);
  const types = ["DOMString", "dictionary = {}"];
  return [types, (realm, type, init) => made(realm, name, new EventIs(type, readInto({}, init, BASE_MEMBERS), readInto({}, init, members)))];
}

/** An event of the page's own. */
export function createOwn(realm, name, type, { bubbles = false, cancelable = false, composed = false, isTrusted = true, ...given } = {}) {
  const its = new EventIs(type, { bubbles, cancelable, composed }, readInto({}, given, membersOf(name)));
  its.isTrusted = isTrusted;
  return made(realm, name, its);
}

// ---- createEvent, and what initializes what it makes.

const CREATED = {
  beforeunloadevent: "BeforeUnloadEvent", compositionevent: "CompositionEvent", customevent: "CustomEvent", devicemotionevent: "DeviceMotionEvent",
  deviceorientationevent: "DeviceOrientationEvent", dragevent: "DragEvent", event: "Event", events: "Event", focusevent: "FocusEvent",
  hashchangeevent: "HashChangeEvent", htmlevents: "Event", keyboardevent: "KeyboardEvent", messageevent: "MessageEvent", mouseevent: "MouseEvent",
  mouseevents: "MouseEvent", storageevent: "StorageEvent", svgevents: "Event", textevent: "TextEvent", uievent: "UIEvent", uievents: "UIEvent",
};

export function createEvent(realm, word) {
  const name = CREATED[word.toLowerCase()];
  if (!name) refuse("NotSupportedError", `createEvent cannot make an event '${word}': use its constructor`);
  const its = new EventIs("", NO_INIT, readInto({}, {}, membersOf(name)));
  its.isInitialized = false;
  return made(realm, name, its);
}

/** An operation that initializes an event of its members, which are given in an order. */
function initializing(...names) {
  return (event, type, bubbles, cancelable, ...values) => {
    const its = eventOf(event);
    if (its.isDispatched) return;
    its.initialize(type, bubbles, cancelable);
    names.forEach((name, at) => void (its.members[name] = values[at]));
  };
}

const INIT = ["DOMString", "boolean = false", "boolean = false"];
const INIT_UI = [...INIT, "Window? = null", "long = 0"];
const KEYS = ["boolean = false", "boolean = false", "boolean = false", "boolean = false"];

const INITIALIZERS = {
  Event: { initEvent: [INIT, initializing()] },
  CustomEvent: { initCustomEvent: [[...INIT, "any = null"], initializing("detail")] },
  UIEvent: { initUIEvent: [INIT_UI, initializing("view", "detail")] },
  MouseEvent: {
    initMouseEvent: [
      [...INIT_UI, "long = 0", "long = 0", "long = 0", "long = 0", ...KEYS, "short = 0", "EventTarget? = null"],
      initializing("view", "detail", "screenX", "screenY", "clientX", "clientY", "ctrlKey", "altKey", "shiftKey", "metaKey", "button", "relatedTarget"),
    ],
  },
  KeyboardEvent: {
    initKeyboardEvent: [
      [...INIT, "Window? = null", 'DOMString = ""', "unsigned long = 0", ...KEYS],
      initializing("view", "key", "location", "ctrlKey", "altKey", "shiftKey", "metaKey"),
    ],
  },
  CompositionEvent: { initCompositionEvent: [[...INIT, "Window? = null", 'DOMString = ""'], initializing("view", "data")] },
  TextEvent: { initTextEvent: [[...INIT, "Window? = null", 'DOMString = "undefined"'], initializing("view", "data")] },
  StorageEvent: {
    initStorageEvent: [
      [...INIT, "DOMString? = null", "DOMString? = null", "DOMString? = null", 'DOMString = ""', "any = null"],
      initializing("key", "oldValue", "newValue", "url", "storageArea"),
    ],
  },
  MessageEvent: { initMessageEvent: [[...INIT, "any = null", 'DOMString = ""', 'DOMString = ""', "any = null"], initializing("data", "origin", "lastEventId", "source")] },
};

// ---- The interfaces.

function composedPath(event) {
  const { path, currentTarget } = eventOf(event);
  return currentTarget === null ? [] : [...path];
}

const got = (name) => (event) => eventOf(event)[name];

export const Event = known({
  name: "Event",
  is: (it) => eventOf(it) !== undefined,
  construct: construct("Event"),
  constants: { NONE, CAPTURING_PHASE, AT_TARGET, BUBBLING_PHASE },
  attributes: {
    type: got("type"),
    target: got("target"),
    srcElement: got("target"),
    currentTarget: got("currentTarget"),
    eventPhase: got("phase"),
    bubbles: got("bubbles"),
    cancelable: got("cancelable"),
    composed: got("composed"),
    defaultPrevented: got("isCanceled"),
    timeStamp: got("timeStamp"),
    cancelBubble: {
      type: "boolean",
      get: got("isStopped"),
      set: (event, value) => {
        if (value) eventOf(event).isStopped = true;
      },
    },
    returnValue: {
      type: "boolean",
      get: (event) => !eventOf(event).isCanceled,
      set: (event, value) => {
        if (!value) eventOf(event).cancel();
      },
    },
  },
  operations: {
    composedPath: [[], composedPath],
    stopPropagation: [[], (event) => void (eventOf(event).isStopped = true)],
    stopImmediatePropagation: [[], (event) => void (eventOf(event).isStopped = eventOf(event).isStoppedNow = true)],
    preventDefault: [[], (event) => eventOf(event).cancel()],
    ...INITIALIZERS.Event,
  },
  finish(realm) {
    const get = function () {
      return eventOf(this).isTrusted;
    };
    realm.isTrusted = { get, enumerable: true, configurable: false };
  },
});

/** Names that a mouse event has a second time. */
const AGAIN = { MouseEvent: { x: "clientX", y: "clientY", pageX: "clientX", pageY: "clientY", offsetX: "clientX", offsetY: "clientY" } };

/** Whether a modifier was held, by its name. */
const getModifierState = [["DOMString"], (event, key) => Boolean(eventOf(event).members[{ Control: "ctrlKey", Shift: "shiftKey", Alt: "altKey", Meta: "metaKey" }[key]])];

function tableOf([name, [parent, members, constants]]) {
  const names = new Set(membersOf(name).map(([it]) => it));
  const own = [...Object.keys(members).map((it) => [it, it]), ...Object.entries(AGAIN[name] ?? {})];
  const hasModifiers = "ctrlKey" in members;
  return known({
    name,
    parent,
    is: (it) => [...names].every((member) => member in (eventOf(it)?.members ?? {})),
    construct: construct(name),
    constants,
    attributes: Object.fromEntries(own.map(([shown, member]) => [shown, (event) => eventOf(event).members[member]])),
    operations: { ...INITIALIZERS[name], ...(hasModifiers && { getModifierState }) },
  });
}

export const EVENT_TABLES = [Event, ...Object.entries(EVENTS).map(tableOf)];
