// The frames of a page: a page of its own for each iframe in the document, opened when the iframe was inserted or was given another source.
import { Page } from "./page.js";

export class Frames {
  constructor(page) {
    this.page = page;
    this.pages = new Map();
    this.waiting = [];
  }

  elements() {
    return [...this.page.document.getElementsByTagName("iframe")];
  }

  // The frames whose pages are due: those that are new, or were sent elsewhere.
  due() {
    return this.elements().filter((element) => !this.pages.has(element) || this.pages.get(element).isLeft);
  }

  open() {
    for (const element of this.due()) this.navigate(element);
  }

  navigate(element) {
    const source = element.getAttribute("src");
    const address = source === null || source === "" || source === "about:blank" ? "about:blank" : new URL(source, this.page.url).href;
    const page = new Page(this.page.host, address, this.page);
    page.element = element;
    this.pages.set(element, page);
    const loading = page.load().then(() => this.tellLoaded(element, page));
    this.waiting.push(loading);
  }

  tellLoaded(element, page) {
    if (this.pages.get(element) !== page || page.isLeft) return;
    const written = element.getAttribute("onload");
    const handler = element.onload ?? (written && this.page.handler(written));
    if (typeof handler === "function") this.page.run(() => handler.call(element, { type: "load", target: element }));
    this.page.step();
  }

  // The page of an element, opened if it is due; none where the element is not in the document.
  of(element) {
    if (!this.pages.has(element) && this.elements().includes(element)) this.navigate(element);
    return this.elements().includes(element) ? this.pages.get(element) : undefined;
  }

  leave(element) {
    const page = this.pages.get(element);
    if (page) page.isLeft = true;
  }

  names() {
    return this.elements().map((element) => element.getAttribute("name"));
  }

  // The window of the first frame of a name, where there is one.
  named(name) {
    const element = this.elements().find((it) => it.getAttribute("name") === name);
    return element && this.of(element)?.global;
  }

  windows() {
    return this.elements().map((element) => this.of(element).global);
  }

  // Ends once all frames are loaded, also those that came meanwhile.
  async loaded() {
    while (this.waiting.length) await this.waiting.shift();
  }
}
