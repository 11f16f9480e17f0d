// A page of a test: a window whose document is filled by parsing a file, and whose scripts run in order while it is parsed.
import { sayWhatIsAbsent } from "./reasons.js";
import { completeDocuments } from "./document.js";
import { Frames } from "./frames.js";
import { nameInterfaces } from "./interfaces.js";
import { parseHTML, parseXML } from "./parsing.js";
import { completeWindow } from "./window.js";

const ORIGIN = "http://page.test";

export class Page {
  // `host` has the checkout, a function that opens windows, the text of the report, and callbacks for missing files and for results.
  constructor(host, address, parent = null) {
    this.host = host;
    this.parent = parent;
    this.url = new URL(address, ORIGIN);
    const { global, evaluate } = host.open(this.url, (error) => this.tellError(error));
    this.global = global;
    this.evaluate = evaluate;
    this.document = global.document;
    this.readyState = "loading";
    this.frames = new Frames(this);
    completeWindow(this);
    completeDocuments(this);
    nameInterfaces(global);
    sayWhatIsAbsent(global);
  }

  // What a reference in this page names, as a path below the checkout.
  path(reference) {
    return decodeURIComponent(new URL(reference, this.url).pathname.slice(1));
  }

  // The text of a file that the page names, or nothing.
  text(path) {
    if (path === "resources/testharnessreport.js") return this.host.report;
    if (this.host.checkout.has(path)) return this.host.checkout.read(path);
    this.host.missing(path);
    return undefined;
  }

  runScript(element) {
    const type = element.getAttribute("type");
    if (type && !/^(?:text|application)\/(?:java|ecma)script$/.test(type)) return;
    this.step();
    const source = element.getAttribute("src");
    const path = source === null ? this.url.pathname.slice(1) : this.path(source);
    const text = source === null ? element.textContent : this.text(path);
    if (text !== undefined) this.run(() => this.evaluate(text, path));
    this.step();
  }

  // Runs a function of the page; reports its exception to the page.
  run(action) {
    try {
      action();
    } catch (error) {
      this.tellError(error);
    }
  }

  tellError(error) {
    this.fire("error", { error, message: `Uncaught ${error}`, filename: this.url.pathname, lineno: 0, colno: 0 });
  }

  // What a browser does between two scripts: frames that have come are opened, ids are names of the window.
  step() {
    this.frames.open();
    this.nameIds();
  }

  async parse() {
    if (this.url.protocol === "about:") return parseHTML(this.document, "", () => {});
    const path = this.path(this.url.href);
    const text = /\.(?:any|window)\.js$/.test(path) ? this.host.checkout.page(path) : this.text(path) ?? "";
    const parse = /\.(?:xhtml|xml)$/.test(path) ? parseXML : parseHTML;
    return parse(this.document, text, (script) => this.runScript(script));
  }

  // Opens the page, and ends once it is loaded with all its frames.
  async load() {
    await this.parse().catch((error) => this.tellError(error));
    this.readyState = "interactive";
    this.fire("DOMContentLoaded", {});
    await this.frames.loaded();
    this.readyState = "complete";
    this.adoptHandlers(this.document.body ?? null);
    this.fire("load", {});
    this.step();
  }

  // The handler that an attribute of the body gives to the window.
  adoptHandlers(body) {
    const handler = body?.getAttribute("onload");
    if (handler) this.global.onload = this.handler(handler);
  }

  handler(text) {
    return this.evaluate(`(function (event) { ${text}\n})`, this.url.pathname);
  }

  fire(type, members) {
    const event = Object.assign({ type, target: this.global }, members);
    for (const listener of this.listeners?.get(type) ?? []) this.run(() => listener.call(this.global, event));
    const handler = this.global[`on${type}`];
    if (typeof handler !== "function") return;
    this.run(() => (type === "error" ? handler.call(this.global, event.message, "", 0, 0, event.error) : handler.call(this.global, event)));
  }

  // The names of frames are names of the window, for their windows; then so is each id, for its element. A name that the window has stays.
  nameIds() {
    for (const name of this.frames.names()) this.nameFor(name, () => this.frames.named(name));
    for (const id of this.ids()) this.nameFor(id, () => this.document.getElementById(id) ?? undefined);
  }

  nameFor(name, get) {
    if (!name || name in this.global) return;
    const set = (value) => Object.defineProperty(this.global, name, { value, configurable: true, writable: true, enumerable: true });
    Object.defineProperty(this.global, name, { configurable: true, get, set });
  }

  ids() {
    return [...this.document.getElementsByTagName("*")].map((element) => element.getAttribute("id"));
  }
}
