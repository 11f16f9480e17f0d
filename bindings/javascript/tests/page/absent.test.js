// Without a page, names of the standards that are not there refuse, and none becomes a property that a program keeps; with a page, they are absent.
import assert from "node:assert/strict";
import test from "node:test";

import { createDocument, createWindow } from "../../lib/index.js";
import { NEEDED, skipWithout, WINDOWS } from "./players.js";

const skip = skipWithout(...NEEDED);

/** How reading and setting a name are refused. */
function refusals(target, name) {
  return [() => target[name], () => void (target[name] = 1)].map((does) => {
    try {
      does();
      return "done";
    } catch (fault) {
      return `${fault.name}: ${fault.message}`;
    }
  });
}

function refuses(target, name, words) {
  for (const said of refusals(target, name)) assert.match(said, words);
  assert.equal(Object.getOwnPropertyDescriptor(target, name)?.value, undefined);
}

test("without a page, a page's names refuse, and say which feature is left out", () => {
  const document = createDocument();
  const element = document.createElement("p");
  refuses(element, "attributes", /^NotSupportedError: Element\.attributes is not there: Attr nodes are left out$/);
  refuses(element, "innerHTML", /Element\.innerHTML is not there: markup is left out/);
  refuses(element, "onclick", /events are left out/);
  refuses(element, "classList", /DOMTokenList/);
  refuses(element, "style", /styles are left out/);
  refuses(element, "addEventListener", /Node\.addEventListener is not there: events are left out/);
  refuses(document, "querySelector", /selectors are left out/);
  refuses(document, "createAttribute", /Attr nodes/);
  refuses(document, "cookie", /the page is left out/);
  refuses(document.createTextNode(""), "dispatchEvent", /events/);
  refuses(document.createRange(), "getClientRects", /layout is left out/);
  assert.throws(() => element.attachShadow({ mode: "open" }), { name: "NotSupportedError" });
});

test("a name that no standard has may be kept on a node", () => {
  const element = createDocument().createElement("p");
  element.own = 1;
  assert.equal(element.own, 1);
  assert.equal(element.nosuch, undefined);
});

test("a window that says so leaves names to its program", () => {
  const { document } = createWindow({ refuses: false });
  assert.equal(document.createElement("p").attributes, undefined);
});

test("exceptions are of the window's own realm", () => {
  const window = createWindow();
  assert.throws(() => window.document.createElement("p").attributes, window.DOMException);
});

// ---- A page: what it lacks is not there.

/** Feature tests as libraries write them, and what they give where the feature is not there. */
const FEATURES = {
  "window.matchMedia && matchMedia('(min-width: 1px)')": undefined,
  "'matchMedia' in window": false,
  "typeof window.requestIdleCallback": "undefined",
  "window.requestIdleCallback ?? 'later'": "later",
  "window.customElements?.define": undefined,
  "typeof window.localStorage": "undefined",
  "typeof window.sessionStorage": "undefined",
  "window.indexedDB || null": null,
  "!!window.IntersectionObserver": false,
  "!!window.ResizeObserver": false,
  "window.trustedTypes?.createPolicy": undefined,
  "window.visualViewport?.height": undefined,
  "'ontouchstart' in window": false,
  "'onfullscreenchange' in document": false,
  "window.postMessage && !window.importScripts": undefined,
  "typeof window.alert": "undefined",
  "'ShadowRoot' in window": false,
  "navigator.clipboard?.writeText": undefined,
  "'serviceWorker' in navigator": false,
  "navigator.sendBeacon && 1": undefined,
  "navigator.userActivation?.isActive": undefined,
  "element.animate ? 'moves' : 'stands'": "stands",
  "element.attachShadow?.({ mode: 'open' })": undefined,
  "element.getAnimations?.().length": undefined,
  "typeof element.requestFullscreen": "undefined",
  "element.setPointerCapture?.(1)": undefined,
  "'popover' in element": false,
  "'moveBefore' in element": false,
  "element.attachInternals?.()": undefined,
  "element.checkVisibility?.() ?? true": true,
  "'computedStyleMap' in element": false,
  "'all' in document": false,
  "document.all": undefined,
  "document.fonts?.ready": undefined,
  "'adoptedStyleSheets' in window.Document.prototype": false,
  "document.startViewTransition ? 1 : 0": 0,
  "document.queryCommandSupported && document.queryCommandSupported('copy')": undefined,
  "document.elementFromPoint?.(1, 1)": undefined,
  "document.evaluate && 1": undefined,
  "document.exitFullscreen || document.webkitExitFullscreen": undefined,
  "canvas.getContext && canvas.getContext('2d')": undefined,
  "video.requestPictureInPicture?.()": undefined,
  "input.showPicker?.()": undefined,
  "dialog.showModal ? 'native' : 'own'": "own",
  "'assignedNodes' in window.HTMLSlotElement.prototype": false,
  "window.Selection.prototype.modify": undefined,
};

/** What a page has no more of than this: values that mislead nobody, since a browser gives them too where there is nothing of the kind. */
const HARMLESS = {
  "document.cookie": "",
  "(document.cookie = 'a=b', document.cookie)": "",
  "document.domain": "page.test",
  "/^\\d\\d\\/\\d\\d\\/\\d{4} \\d\\d:\\d\\d:\\d\\d$/.test(document.lastModified)": true,
  "element.innerText || element.textContent": "text",
  "element.shadowRoot": null,
  "video.canPlayType && video.canPlayType('video/mp4')": "",
  "video.pause()": undefined,
  "input.files": null,
  "frame.contentWindow": null,
  "frame.contentDocument": null,
  "link.sheet": null,
  "link.relList.supports('preload')": false,
  "element.getClientRects().length": 0,
};

/** What refuses when it is called or set, since a program would else go on as if it had been done. */
const REFUSED = {
  "form.submit()": "NotSupportedError",
  "window.location.assign('/other')": "NotSupportedError",
  "void (window.location.href = '/other')": "NotSupportedError",
  "window.location.reload()": "NotSupportedError",
  "void (document.domain = 'other.test')": "SecurityError",
  "void (input.valueAsDate = new Date())": "InvalidStateError",
  "document.createCDATASection('')": "NotSupportedError",
};

const NAMES = { element: "p", canvas: "canvas", video: "video", input: "input", dialog: "dialog", frame: "iframe", link: "link", form: "form" };

async function evaluator() {
  const window = await WINDOWS.page();
  const { document, navigator } = window;
  const elements = Object.fromEntries(Object.entries(NAMES).map(([name, its]) => [name, document.createElement(its)]));
  elements.element.append("text");
  const given = { window, document, navigator, ...elements };
  return (text) => new Function(...Object.keys(given), `return ${text};`)(...Object.values(given));
}

test("feature tests find that a page lacks a feature", { skip }, async () => {
  const value = await evaluator();
  for (const [text, due] of Object.entries(FEATURES)) assert.equal(value(text), due, text);
});

test("a few names have values that mislead nobody", { skip }, async () => {
  const value = await evaluator();
  for (const [text, due] of Object.entries(HARMLESS)) assert.equal(value(text), due, text);
});

test("a few refuse, since a program would trust them", { skip }, async () => {
  const value = await evaluator();
  for (const [text, name] of Object.entries(REFUSED)) assert.throws(() => value(text), { name }, text);
  await assert.rejects(value("video.play()"), { name: "NotSupportedError" });
});

test("the names of a window are copied to another object", { skip }, async () => {
  const window = await WINDOWS.page();
  const copy = {};
  for (const name of Object.getOwnPropertyNames(window)) copy[name] = window[name];
  assert.equal(copy.document, window.document);
});

const ELEMENTS = `a area article audio base blockquote body br button canvas caption col colgroup data datalist del details dialog dir div dl embed fieldset font
  form frame frameset h1 head hr html iframe img input ins label legend li link map marquee menu meta meter object ol optgroup option output p param
  picture pre progress q script select slot source span style table tbody td template textarea th thead time title tr track ul unknown video x-y`;

/** Every property that an object has by its prototypes. */
function* namesOf(target) {
  for (let it = target; it; it = Object.getPrototypeOf(it)) yield* Object.getOwnPropertyNames(it);
}

test("no property throws when it is read", { skip }, async () => {
  const window = await WINDOWS.page();
  const { document } = window;
  const made = ELEMENTS.trim().split(/\s+/).map((name) => document.createElement(name));
  const others = [window, document, document.createTextNode(""), document.createComment(""), document.createRange(), document.createDocumentFragment(), window.getSelection(), window.navigator, new window.Event("x")];
  const svg = document.createElementNS("http://www.w3.org/2000/svg", "svg");
  for (const target of [...made, ...others, svg]) for (const name of namesOf(target)) assert.doesNotThrow(() => target[name], `${target}.${name}`);
});

test("a program may put its own names on a page", { skip }, async () => {
  const window = await WINDOWS.page();
  window.matchMedia = () => 7;
  assert.equal(window.matchMedia(), 7);
});
