/** EventTarget: listeners, and dispatch as the standard's algorithm goes (DOM Standard, section 2.9), without shadow trees. */
import { convertible, documentOf, DOCUMENT, isNode, keptOf, kindOf, known, makeThing, pageOf, pageOfRealm, parentOf, refuse, refuseOther, thingOf } from "./core.js";
import { activationOf } from "./activation.js";
import { AT_TARGET, BUBBLING_PHASE, CAPTURING_PHASE, eventOf, NONE } from "./events.js";

class TargetIs {
  constructor(realm) {
    this.realm = realm;
  }
}

const windows = new WeakMap();

/** Says that an object is a window, of a page. */
export const setWindow = (window, page) => windows.set(window, page);

export const isWindow = (it) => typeof it === "object" && it !== null && windows.has(it);

/** Objects of other interfaces that are targets, by a test of each. */
const others = [];
export const alsoTarget = (is) => others.push(is);

const isTarget = (it) => isNode(it) || isWindow(it) || thingOf(it, TargetIs) !== undefined || others.some((is) => is(it));

function orNull(is, name) {
  return (value) => (value === null || value === undefined ? null : is(value) ? value : refuseOther(`an object ${name}`, value));
}

convertible("EventTarget?", orNull(isTarget, "EventTarget"));
convertible("Window?", orNull(isWindow, "Window"));

function pageOfTarget(target) {
  if (isNode(target)) return pageOf(target);
  return windows.get(target) ?? pageOfRealm(thingOf(target, TargetIs)?.realm);
}

// ---- Listeners.

/** A listener: whether it was removed is asked while it waits in a list that is gone through. */
class Listener {
  isRemoved = false;
  forget = null;

  constructor(callback, { capture, once, passive }) {
    this.callback = callback;
    this.capture = capture;
    this.once = once;
    this.passive = passive;
  }
}

/** The listeners of one type at one target. A list that is gone through is not changed: the next change makes another. */
class Listeners {
  list = [];
  #users = 0;

  constructor(type) {
    this.type = type;
  }

  /** Gives the list out for a while. */
  lend() {
    this.#users++;
    return this.list;
  }

  giveBack(list) {
    if (list === this.list) this.#users--;
  }

  #own() {
    if (this.#users === 0) return this.list;
    this.#users = 0;
    return (this.list = [...this.list]);
  }

  find(callback, capture) {
    return this.list.find((it) => it.callback === callback && it.capture === capture);
  }

  add(listener) {
    this.#own().push(listener);
  }

  remove(listener) {
    listener.isRemoved = true;
    listener.forget?.();
    const own = this.#own();
    const at = own.indexOf(listener);
    if (at >= 0) own.splice(at, 1);
  }
}

/** What targets that are no nodes have; a node keeps its own. */
const ofOthers = new WeakMap();

/** The listeners of all types of a target, or undefined. */
const allOf = (target) => (isNode(target) ? keptOf(target).listeners : ofOthers.get(target));

function allToAdd(target) {
  if (isNode(target)) return (keptOf(target).listeners ??= []);
  if (!ofOthers.has(target)) ofOthers.set(target, []);
  return ofOthers.get(target);
}

const ofType = (all, type) => all?.find((it) => it.type === type);
const listenersOf = (target, type) => ofType(allOf(target), type);

function listenersToAdd(target, type) {
  const all = allToAdd(target);
  const found = ofType(all, type);
  if (found) return found;
  const made = new Listeners(type);
  all.push(made);
  return made;
}

const isObject = (value) => (typeof value === "object" && value !== null) || typeof value === "function";

convertible("EventListener?", (value) => (value === null || value === undefined ? null : isObject(value) ? value : refuseOther("a listener as a function or an object", value)));

const captureOf = (options) => (isObject(options) ? Boolean(options.capture) : Boolean(options));

function signalOf(options) {
  const { signal } = options;
  if (signal === undefined) return null;
  if (!isObject(signal) || typeof signal.aborted !== "boolean") refuseOther("an AbortSignal", signal);
  return signal;
}

function moreOf(options) {
  const capture = captureOf(options);
  if (!isObject(options)) return { capture, once: false, passive: null, signal: null };
  const { once, passive } = options;
  return { capture, once: Boolean(once), passive: passive === undefined ? null : Boolean(passive), signal: signalOf(options) };
}

const PASSIVE = new Set(["touchstart", "touchmove", "wheel", "mousewheel"]);

/** Whether listeners of a type at a target are passive where nothing says so. */
function isPassive(type, target) {
  if (!PASSIVE.has(type)) return false;
  if (!isNode(target)) return isWindow(target);
  const document = documentOf(target);
  return target === document || target === document.documentElement || target === document.body;
}

/** What ends with each signal. */
const followed = new WeakMap();

function endsWith(signal) {
  let ends = followed.get(signal);
  if (!ends) {
    followed.set(signal, (ends = new Set()));
    signal.addEventListener("abort", () => ends.forEach((end) => end()), { once: true });
  }
  return ends;
}

function followSignal(listener, listeners, signal) {
  const ends = endsWith(signal);
  const end = () => listeners.remove(listener);
  ends.add(end);
  listener.forget = () => ends.delete(end);
}

export function addListener(target, type, callback, options) {
  const more = moreOf(options);
  if (callback === null || more.signal?.aborted) return;
  const handlers = pageOfTarget(target)?.handlers;
  if (handlers?.compile) handlers.wake(target, type);
  const listeners = listenersToAdd(target, type);
  if (listeners.find(callback, more.capture)) return;
  more.passive ??= isPassive(type, target);
  const listener = new Listener(callback, more);
  listeners.add(listener);
  if (more.signal) followSignal(listener, listeners, more.signal);
}

export function removeListener(target, type, callback, options) {
  const listeners = listenersOf(target, type);
  const found = listeners?.find(callback, captureOf(options));
  if (found) listeners.remove(found);
}

// ---- Dispatch.

/** Returns the target above another one on an event's path, or null. */
function above(target, type) {
  if (!isNode(target)) return null;
  if (kindOf(target) !== DOCUMENT) return parentOf(target);
  return type === "load" ? null : (pageOf(target)?.windowOf(target) ?? null);
}

function pathOf(target, type) {
  const path = [];
  for (let it = target; it; it = above(it, type)) path.push(it);
  return path;
}

/** Calls one listener; what it throws is reported. */
function call(listener, event, its, page) {
  const { callback } = listener;
  const window = page?.window;
  const before = page?.event;
  if (page) page.event = event;
  its.isInPassive = listener.passive;
  try {
    if (typeof callback === "function") callback.call(its.currentTarget, event);
    else callHandler(callback, event, window);
  } catch (fault) {
    report(page, fault);
  } finally {
    its.isInPassive = false;
    if (page) page.event = before;
  }
}

function callHandler(callback, event) {
  const { handleEvent } = callback;
  if (typeof handleEvent !== "function") throw new TypeError("the listener has no handleEvent");
  handleEvent.call(callback, event);
}

function report(page, fault) {
  if (page) page.report(fault);
  else queueMicrotask(() => { throw fault; });
}

function invoke(target, event, its, isCapturing) {
  if (its.isStopped) return;
  const page = pageOfTarget(target);
  if (page?.handlers.compile) page.handlers.wake(target, its.type);
  const listeners = listenersOf(target, its.type);
  if (!listeners || listeners.list.length === 0) return;
  its.currentTarget = target;
  const list = listeners.lend();
  for (const listener of list) {
    if (listener.isRemoved || listener.capture !== isCapturing) continue;
    if (listener.once) listeners.remove(listener);
    call(listener, event, its, page);
    if (its.isStoppedNow) break;
  }
  listeners.giveBack(list);
}

function goDown(path, event, its) {
  for (let at = path.length - 1; at >= 0; at--) {
    its.phase = at === 0 ? AT_TARGET : CAPTURING_PHASE;
    invoke(path[at], event, its, true);
  }
}

function goUp(path, event, its) {
  const end = its.bubbles ? path.length : 1;
  for (let at = 0; at < end; at++) {
    its.phase = at === 0 ? AT_TARGET : BUBBLING_PHASE;
    invoke(path[at], event, its, false);
  }
}

/** What on a path does something by a click: the target, or the nearest above it where the event bubbles. */
function activatedOn(path, event, its) {
  if (its.type !== "click" || !("button" in its.members)) return null;
  const end = its.bubbles ? path.length : 1;
  for (let at = 0; at < end; at++) {
    const activation = isNode(path[at]) ? activationOf(path[at]) : null;
    if (activation) return { ...activation, element: path[at] };
  }
  return null;
}

function ended(its) {
  its.phase = NONE;
  its.currentTarget = null;
  its.path = [];
  its.isDispatched = its.isStopped = its.isStoppedNow = false;
}

/** Dispatches an event; answers whether nobody canceled it. */
export function dispatch(target, event) {
  const its = eventOf(event);
  its.isDispatched = true;
  const path = pathOf(target, its.type);
  its.target = target;
  its.path = path;
  const activated = activatedOn(path, event, its);
  const before = activated?.before?.(activated.element);
  goDown(path, event, its);
  goUp(path, event, its);
  ended(its);
  if (activated && !its.isCanceled) activated.after?.(activated.element, event, before);
  else if (activated) activated.undo?.(activated.element, before);
  return !its.isCanceled;
}

/** Dispatches an event of a program's. */
function dispatchGiven(target, event) {
  const its = eventOf(event);
  if (its.isDispatched || !its.isInitialized) refuse("InvalidStateError", "the event is being dispatched, or was not initialized");
  its.isTrusted = false;
  return dispatch(target, event);
}

const LISTEN = ["DOMString", "EventListener?", "any = undefined"];

export const operations = {
  addEventListener: [LISTEN, addListener],
  removeEventListener: [LISTEN, removeListener],
  dispatchEvent: [["Event"], dispatchGiven],
};

export const EventTarget = known({
  name: "EventTarget",
  is: isTarget,
  construct: [[], (realm) => makeThing(realm, "EventTarget", new TargetIs(realm))],
  operations,
});
