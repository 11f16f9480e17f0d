/** Event handlers, such as `onclick`: by property, and by attribute where the page compiles them (HTML Standard, section 8.1.8). */
import { documentOf, HTML, isElement, isNode, keptOf, nameOf, pageOf } from "./core.js";
import { eventOf } from "./events.js";
import { addListener, isWindow, removeListener } from "./targets.js";

const words = (text) => text.trim().split(/\s+/);

/** What elements, Documents and windows have. */
const GLOBAL = words(`abort auxclick beforeinput beforematch beforetoggle blur cancel canplay canplaythrough change click close command contextlost contextmenu
  contextrestored copy cuechange cut dblclick drag dragend dragenter dragleave dragover dragstart drop durationchange emptied ended error focus formdata
  input invalid keydown keypress keyup load loadeddata loadedmetadata loadstart mousedown mouseenter mouseleave mousemove mouseout mouseover mouseup paste
  pause play playing progress ratechange reset resize scroll scrollend securitypolicyviolation seeked seeking select slotchange stalled submit suspend
  timeupdate toggle volumechange waiting wheel gotpointercapture lostpointercapture pointercancel pointerdown pointerenter pointerleave pointermove
  pointerout pointerover pointerup selectstart selectionchange animationcancel animationend animationiteration animationstart transitioncancel
  transitionend transitionrun transitionstart`);

const OF_WINDOWS = words(`afterprint beforeprint beforeunload hashchange languagechange message messageerror offline online pagehide pageshow popstate
  rejectionhandled storage unhandledrejection unload`);

/** What a body's handlers mean at the window. */
const OF_BODIES = new Set([...OF_WINDOWS, "blur", "error", "focus", "load", "resize", "scroll"]);

/** The handler of one name at one target, which listens by itself. */
class Handler {
  value = null;
  isActive = false;

  constructor(target, type) {
    this.target = target;
    this.type = type;
  }

  handleEvent(event) {
    const its = eventOf(event);
    const { value, target, type } = this;
    if (typeof value !== "function") return;
    if (type === "error" && isWindow(target) && "lineno" in its.members) {
      const { message, filename, lineno, colno, error } = its.members;
      if (value.call(target, message, filename, lineno, colno, error) === true) its.cancel();
      return;
    }
    if (value.call(target, event) === false) its.cancel();
  }

  set(value) {
    this.value = value;
    if (value !== null && !this.isActive) addListener(this.target, this.type, this);
    if (value === null && this.isActive) removeListener(this.target, this.type, this);
    this.isActive = value !== null;
  }
}

/** The handlers of a page. `compile` makes a function of an attribute's text; without it such texts are texts. */
export class Handlers {
  #ofWindow = [];
  #read = new WeakMap();

  constructor(compile) {
    this.compile = compile;
  }

  #all(target) {
    return isNode(target) ? (keptOf(target).handlers ??= []) : this.#ofWindow;
  }

  #found(target, type) {
    return this.#all(target).find((it) => it.type === type);
  }

  of(target, type) {
    const found = this.#found(target, type);
    if (found) return found;
    const made = new Handler(target, type);
    this.#all(target).push(made);
    return made;
  }

  get(target, type) {
    this.wake(target, type);
    return this.#found(target, type)?.value ?? null;
  }

  set(target, type, value) {
    this.wake(target, type);
    this.of(target, type).set(value);
  }

  /** Reads the attribute of a handler that was there before anybody asked. */
  wake(target, type) {
    if (!this.compile || !isElement(target)) return;
    let types = this.#read.get(target);
    if (!types) this.#read.set(target, (types = new Set()));
    if (types.has(type)) return;
    types.add(type);
    const text = target.getAttribute(`on${type}`);
    if (text !== null) this.#write(target, type, text);
  }

  #write(element, type, text) {
    this.of(atOf(element, type), type).set(text === null ? null : this.compile(text, element, type));
  }

  /** Follows a change of an attribute `on...`. */
  changed(element, name) {
    if (!this.compile || !name.startsWith("on")) return;
    const type = name.slice(2);
    this.wake(element, type);
    this.#write(element, type, element.getAttribute(name));
  }
}

/** Where a handler of an element stands: a body's may be the window's. */
function atOf(target, type) {
  if (!OF_BODIES.has(type) || !isElement(target)) return target;
  const { namespace, local } = nameOf(target);
  const isBody = namespace === HTML && (local === "body" || local === "frameset");
  return (isBody && pageOf(target)?.windowOf(documentOf(target))) || target;
}

const isFunction = (value) => typeof value === "function" || (typeof value === "object" && value !== null);

function accessor(type) {
  return {
    type: "any",
    get: (it) => pageOf(it)?.handlers.get(atOf(it, type), type) ?? null,
    set: (it, value) => pageOf(it)?.handlers.set(atOf(it, type), type, isFunction(value) ? value : null),
  };
}

const accessors = (types) => Object.fromEntries(types.map((type) => [`on${type}`, accessor(type)]));

/** The attributes of elements and of Documents. */
export const handlerAttributes = accessors(GLOBAL);
/** Those that a body has besides. */
export const bodyHandlers = accessors(OF_WINDOWS);

/** The properties of a window. */
export function defineHandlers(window, handlers) {
  for (const type of new Set([...GLOBAL, ...OF_WINDOWS])) {
    Object.defineProperty(window, `on${type}`, {
      get: () => handlers.get(window, type),
      set: (value) => handlers.set(window, type, isFunction(value) ? value : null),
      enumerable: true,
      configurable: true,
    });
  }
}
