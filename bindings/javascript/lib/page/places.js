/** Location, History and Navigator, as a page without a network has them: only the fragment of an address can be gone to. */
import { cloned } from "./cloning.js";
import { documentKnown, known, makeThing, refuse, thingOf } from "./core.js";

/** Where a page is, and the entries that it can go back to. */
export class Places {
  #entries;
  #at = 0;

  constructor(page, url) {
    this.page = page;
    this.#entries = [{ url: new URL(url), state: null }];
  }

  get url() {
    return this.#entries[this.#at].url;
  }

  get state() {
    return this.#entries[this.#at].state;
  }

  get length() {
    return this.#entries.length;
  }

  #settle() {
    documentKnown(this.page.document).url = this.url.href;
  }

  /** Replaces the current entry, or inserts one after it and removes the later ones. */
  put(entry, isReplacing) {
    if (isReplacing) this.#entries[this.#at] = entry;
    else this.#entries.splice(++this.#at, Infinity, entry);
    this.#settle();
  }

  /** Goes to another fragment of the address. */
  goToFragment(url, isReplacing) {
    const before = this.url.href;
    if (url.href === before) return;
    this.put({ url, state: null }, isReplacing);
    this.#tellFragment(before);
  }

  #tellFragment(oldURL) {
    const newURL = this.url.href;
    this.page.later(() => this.page.tell(this.page.window, "HashChangeEvent", "hashchange", { oldURL, newURL }));
  }

  navigate(text, isReplacing = false) {
    const url = parsedURL(text, this.page.document.baseURI);
    const isHere = url.hash !== "" && withoutFragment(url) === withoutFragment(this.url);
    if (isHere) return this.goToFragment(url, isReplacing);
    return refuse("NotSupportedError", `there is no network to go to ${url.href}`);
  }

  /** Goes back or forward by a number of entries, in a later turn. */
  go(steps) {
    this.page.later(() => {
      const to = this.#at + steps;
      if (steps === 0 || to < 0 || to >= this.#entries.length) return;
      const before = this.url;
      this.#at = to;
      this.#settle();
      this.page.tell(this.page.window, "PopStateEvent", "popstate", { state: this.state });
      if (before.hash !== this.url.hash) this.page.tell(this.page.window, "HashChangeEvent", "hashchange", { oldURL: before.href, newURL: this.url.href });
    });
  }
}

const withoutFragment = ({ href }) => href.split("#")[0];

function parsedURL(text, base) {
  try {
    return new URL(text, base);
  } catch {
    return refuse("SyntaxError", `'${text}' is not a valid URL`);
  }
}

class PlaceOf {
  constructor(page) {
    this.page = page;
  }
}

const placesOf = (it) => thingOf(it, PlaceOf)?.page.places;
const isPlace = (it) => placesOf(it) !== undefined;

/** A part of the address; setting one goes there. */
const part = (name) => ({
  type: "DOMString",
  get: (it) => placesOf(it).url[name],
  set(it, value) {
    const url = new URL(placesOf(it).url);
    url[name] = value;
    if (name === "hash" && url.hash === "") url.hash = "#";
    placesOf(it).navigate(url.href);
  },
});

const PARTS = ["protocol", "host", "hostname", "port", "pathname", "search", "hash"];
const href = { type: "DOMString", get: (it) => placesOf(it).url.href, set: (it, text) => placesOf(it).navigate(text) };

export const Location = known({
  name: "Location",
  is: isPlace,
  attributes: {
    href,
    origin: (it) => placesOf(it).url.origin,
    ...Object.fromEntries(PARTS.map((name) => [name, part(name)])),
  },
  operations: {
    assign: [["DOMString"], (it, text) => placesOf(it).navigate(text)],
    replace: [["DOMString"], (it, text) => placesOf(it).navigate(text, true)],
    reload: [[], () => refuse("NotSupportedError", "there is no network to load the page from")],
    toString: [[], href.get],
  },
});

function put(isReplacing) {
  return (it, state, unused, text) => {
    const places = placesOf(it);
    const url = text === null ? places.url : parsedURL(text, places.page.document.baseURI);
    if (url.origin !== places.url.origin) refuse("SecurityError", `${url.href} is of another origin than ${places.url.origin}`);
    places.put({ url, state: cloned(places.page.realm, state) }, isReplacing);
  };
}

const PUT = ["any", "DOMString", "DOMString? = null"];

export const History = known({
  name: "History",
  is: isPlace,
  attributes: {
    length: (it) => placesOf(it).length,
    state: (it) => placesOf(it).state,
    scrollRestoration: () => "auto",
  },
  operations: {
    go: [["long = 0"], (it, steps) => placesOf(it).go(steps)],
    back: [[], (it) => placesOf(it).go(-1)],
    forward: [[], (it) => placesOf(it).go(1)],
    pushState: [PUT, put(false)],
    replaceState: [PUT, put(true)],
  },
});

const PLATFORMS = { linux: "Linux", darwin: "MacIntel", win32: "Win32" };
const platform = globalThis.process ? (PLATFORMS[globalThis.process.platform] ?? "") : (globalThis.navigator?.platform ?? "");

/** What the standard has of a browser of WebKit's kind (HTML Standard, section 8.10.1). */
const NAVIGATOR = {
  userAgent: `Mozilla/5.0 (${platform}) AppleWebKit/537.36 (KHTML, like Gecko) huckleport`,
  appCodeName: "Mozilla",
  appName: "Netscape",
  appVersion: `4.0 (${platform})`,
  product: "Gecko",
  productSub: "20030107",
  platform,
  vendor: "Apple Computer, Inc.",
  vendorSub: "",
  language: "en-US",
  languages: Object.freeze(["en-US", "en"]),
  onLine: false,
  cookieEnabled: false,
  hardwareConcurrency: 1,
  maxTouchPoints: 0,
  pdfViewerEnabled: false,
};

export const Navigator = known({
  name: "Navigator",
  is: isPlace,
  attributes: Object.fromEntries(Object.entries(NAVIGATOR).map(([name, value]) => [name, () => value])),
  operations: { javaEnabled: [[], () => false] },
});

/** The object of one of these interfaces, of a page. */
export const placeOf = (page, name) => makeThing(page.realm, name, new PlaceOf(page));
