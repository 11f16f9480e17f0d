/** The members of a window: itself, timers of the host, its address, listeners, and results that need no layout. */
import { entriesOf } from "./html/forms.js";
import { cloned } from "./cloning.js";
import { known } from "./core.js";
import { defineHandlers } from "./handlers.js";
import { placeOf } from "./places.js";
import { getSelection } from "./selection.js";
import { computedStyle } from "./styles.js";
import { isWindow, operations, setWindow } from "./targets.js";

export const Window = known({ name: "Window", parent: "EventTarget", is: isWindow });

const own = (value) => ({ value, writable: true, enumerable: true, configurable: true });
const got = (get) => ({ get, enumerable: true, configurable: true });

/** A property that a program may put another in the place of (Web IDL's Replaceable). */
function replaceable(name, get) {
  return {
    get,
    set(value) {
      Object.defineProperty(this, name, own(value));
    },
    enumerable: true,
    configurable: true,
  };
}

const SIZES = { innerWidth: 1024, innerHeight: 768, outerWidth: 1024, outerHeight: 768, devicePixelRatio: 1 };
const ZEROS = ["scrollX", "scrollY", "pageXOffset", "pageYOffset", "screenX", "screenY", "screenLeft", "screenTop"];
const screen = Object.freeze({ width: 1024, height: 768, availWidth: 1024, availHeight: 768, colorDepth: 24, pixelDepth: 24 });

function itself(page) {
  const { window } = page;
  const names = ["window", "self", "frames", "parent", "top"];
  return {
    ...Object.fromEntries(names.map((name) => [name, own(window)])),
    opener: own(null),
    frameElement: own(null),
    length: own(0),
    closed: own(false),
    name: own(""),
    event: replaceable("event", () => page.event),
    origin: replaceable("origin", () => page.places.url.origin),
    isSecureContext: own(false),
  };
}

function places(page) {
  page.location = placeOf(page, "Location");
  const location = page.location;
  return {
    location: { get: () => location, set: (text) => void (location.href = `${text}`), enumerable: true, configurable: true },
    history: own(placeOf(page, "History")),
    navigator: own(placeOf(page, "Navigator")),
    clientInformation: got(() => page.window.navigator),
    screen: own(screen),
  };
}

function sizes() {
  const numbers = { ...SIZES, ...Object.fromEntries(ZEROS.map((name) => [name, 0])) };
  return Object.fromEntries(Object.entries(numbers).map(([name, value]) => [name, replaceable(name, () => value)]));
}

// ---- Timers of the host; what they throw is reported.

const FRAME = 16;

function timers(page) {
  const running = new Set();
  const guarded = (handler, values) => () => {
    try {
      handler.apply(page.window, values);
    } catch (fault) {
      page.report(fault);
    }
  };
  const start = (begin, isOnce) => (handler, wait = 0, ...values) => {
    if (typeof handler !== "function") throw new page.realm.global.TypeError(`expected a function as the timer's handler, not ${typeof handler}`);
    const does = guarded(handler, values);
    const timer = begin(isOnce ? () => void (running.delete(Number(timer)), does()) : does, wait);
    running.add(Number(timer));
    return Number(timer);
  };
  const end = (timer) => {
    running.delete(Number(timer));
    clearTimeout(timer);
  };
  const frame = start(setTimeout, true);
  page.stop = () => [...running].forEach(end);
  return {
    setTimeout: own(start(setTimeout, true)),
    setInterval: own(start(setInterval, false)),
    clearTimeout: own(end),
    clearInterval: own(end),
    requestAnimationFrame: own((handler) => frame(() => handler(performance.now()), FRAME)),
    cancelAnimationFrame: own(end),
    queueMicrotask: own((handler) => queueMicrotask(guarded(handler, []))),
  };
}

// ---- Listeners, which a program may call without saying of what.

function listening(page) {
  const { window, realm } = page;
  const { prototype } = realm.interfaces.EventTarget;
  const bound = (name) =>
    own(function (...given) {
      return prototype[name].apply(this ?? window, given);
    });
  return Object.fromEntries(Object.keys(operations).map((name) => [name, bound(name)]));
}

function computing(page) {
  return {
    getComputedStyle: own((element) => page.realm.guarded(() => computedStyle(element))),
    getSelection: own(() => getSelection(page.document)),
    scroll: own(() => undefined),
    scrollTo: own(() => undefined),
    scrollBy: own(() => undefined),
    focus: own(() => undefined),
    blur: own(() => undefined),
    close: own(() => page.stop()),
    reportError: own((fault) => page.report(fault)),
    structuredClone: own((value, options) => cloned(page.realm, value, options)),
    atob: own(atob),
    btoa: own(btoa),
    performance: own(performance),
    console: own(console),
    crypto: own(globalThis.crypto),
  };
}

/** What the language itself has: a window that is no context's global object has it too, so that a test finds `window.Promise` or `window.TypeError`. */
const OF_LANGUAGE = `Object Function Array Number Boolean String Symbol BigInt Date Promise RegExp JSON Math Intl Reflect Proxy Map Set WeakMap WeakSet WeakRef
  FinalizationRegistry Error AggregateError EvalError RangeError ReferenceError SyntaxError TypeError URIError ArrayBuffer SharedArrayBuffer Atomics DataView
  Int8Array Uint8Array Uint8ClampedArray Int16Array Uint16Array Int32Array Uint32Array Float32Array Float64Array BigInt64Array BigUint64Array WebAssembly
  parseFloat parseInt isFinite isNaN decodeURI decodeURIComponent encodeURI encodeURIComponent escape unescape`.split(/\s+/);

/** Interfaces of the host's that a page has as they are. */
const OF_HOST = ["AbortController", "AbortSignal", "URL", "URLSearchParams", "Blob", "TextEncoder", "TextDecoder", "MessageChannel", "MessagePort", "Headers"];

/** FormData of the host, which takes a form too. */
function formData() {
  return class FormData extends globalThis.FormData {
    constructor(form, submitter) {
      super();
      for (const [name, value] of form ? entriesOf(form, submitter) : []) this.append(name, value);
    }
  };
}

/** `new Image(width, height)` and `new Option(text, value, defaultSelected, selected)`. */
function constructors(page) {
  const { document, realm } = page;
  const { HTMLImageElement, HTMLOptionElement } = realm.interfaces;
  function Image(width, height) {
    const made = document.createElement("img");
    if (width !== undefined) made.width = width;
    if (height !== undefined) made.height = height;
    return made;
  }
  function Option(text = "", value, isDefault = false, isSelected = false) {
    const made = document.createElement("option");
    if (text !== "") made.append(text);
    if (value !== undefined) made.value = value;
    made.defaultSelected = isDefault;
    made.selected = isSelected;
    return made;
  }
  Image.prototype = HTMLImageElement.prototype;
  Option.prototype = HTMLOptionElement.prototype;
  return { Image: own(Image), Option: own(Option), FormData: own(formData()) };
}

/** Puts all of it on a window. */
export function completeWindow(page) {
  const { window, handlers } = page;
  setWindow(window, page);
  const all = { ...itself(page), ...places(page), ...sizes(), ...timers(page), ...listening(page), ...computing(page), ...constructors(page) };
  Object.defineProperties(window, all);
  const isContext = page.realm.global !== globalThis;
  const names = [...OF_HOST, ...(isContext ? [] : OF_LANGUAGE)].filter((name) => name in globalThis);
  Object.defineProperties(window, Object.fromEntries(names.map((name) => [name, { ...own(globalThis[name]), enumerable: false }])));
  if (!isContext) Object.defineProperty(window, "globalThis", { ...own(window), enumerable: false });
  defineHandlers(window, handlers);
}
