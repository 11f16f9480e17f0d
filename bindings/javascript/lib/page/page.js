/** A page: a window, and its state beside its Document: the focus, the reports, the address. */
import { setPage, stillNodeList } from "./core.js";
import { createOwn } from "./events.js";
import { Handlers } from "./handlers.js";
import { Places } from "./places.js";
import { dispatch } from "./targets.js";

export class Page {
  /** The event that is on its way: `window.event`. */
  event = undefined;
  selection = null;
  readyState = "loading";
  #focused = null;
  #isReporting = false;

  constructor(window, realm, { url, report, compile }) {
    this.window = window;
    this.realm = realm;
    this.document = realm.document;
    this.handlers = new Handlers(compile);
    this.places = new Places(this, url);
    this.reportLast = report;
    setPage(realm, this);
  }

  /** The window of a Document, which only the page's own has. */
  windowOf(document) {
    return document === this.document ? this.window : null;
  }

  /** A list of nodes of a moment. */
  still(nodes) {
    return stillNodeList(this.realm, nodes);
  }

  /** Does something in a turn of its own. */
  later(does) {
    setTimeout(does).unref?.();
  }

  /** Dispatches an event of the page's own; answers whether nobody canceled it. */
  tell(target, name, type, members) {
    return dispatch(target, createOwn(this.realm, name, type, members));
  }

  /** Reports what a listener has thrown: first to the window, then, where nobody took it, to whoever made the page. */
  report(fault) {
    if (this.#isReporting) return this.reportLast(fault);
    this.#isReporting = true;
    try {
      const message = fault instanceof Error || fault?.message ? `Uncaught ${fault.name ?? "Error"}: ${fault.message}` : `Uncaught ${String(fault)}`;
      if (this.tell(this.window, "ErrorEvent", "error", { message, error: fault, cancelable: true })) this.reportLast(fault);
    } finally {
      this.#isReporting = false;
    }
    return undefined;
  }

  // ---- Focus.

  /** The element of a Document that has the focus, or null. */
  focused(document) {
    const element = this.#focused;
    if (document !== this.document || !element?.isConnected || element.ownerDocument !== document) return null;
    return element;
  }

  /** Gives the focus to an element, or to none. */
  focus(element) {
    const before = this.focused(this.document);
    if (before === element) return;
    this.#focused = null;
    if (before) this.#tellFocus(before, ["blur", "focusout"], element);
    if (!element) return;
    this.#focused = element;
    this.#tellFocus(element, ["focus", "focusin"], before);
  }

  #tellFocus(target, [plain, bubbling], relatedTarget) {
    const members = { relatedTarget, view: this.window, composed: true };
    this.tell(target, "FocusEvent", plain, members);
    this.tell(target, "FocusEvent", bubbling, { ...members, bubbles: true });
  }

  // ---- Clicks that a program makes.

  #clicking = new Set();

  click(element) {
    if (this.#clicking.has(element)) return;
    this.#clicking.add(element);
    try {
      this.tell(element, "PointerEvent", "click", { bubbles: true, cancelable: true, composed: true, isTrusted: false, view: this.window, pointerId: -1 });
    } finally {
      this.#clicking.delete(element);
    }
  }
}
