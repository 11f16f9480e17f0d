// The windows that cases and libraries run over: the page's, jsdom's, and those of browsers that are there.
import { createRequire } from "node:module";

import { Browser, missing as missingChromium } from "../../examples/playground/browser.js";
import { Firefox, missing as missingFirefox } from "../../examples/playground/firefox.js";

/** Each browser: why it is left out, if it is, and how it is opened, with focus. */
export const BROWSERS = {
  Chromium: { missing: missingChromium, open: openChromium },
  Firefox: { missing: missingFirefox, open: () => Firefox.open() },
};

async function openChromium() {
  const browser = await Browser.open();
  await browser.call("Emulation.setFocusEmulationEnabled", { enabled: true });
  return browser;
}

export const EMPTY = "<!DOCTYPE html><html><head></head><body></body></html>";
export const ADDRESS = "http://page.test/";

/** The package of a name, or null. */
export function installed(name) {
  try {
    return createRequire(import.meta.url)(name);
  } catch (fault) {
    if (fault.code !== "MODULE_NOT_FOUND") throw fault;
    return null;
  }
}

/** Why something is left out where packages are missing; false where none is. */
export function skipWithout(...names) {
  const absent = names.filter((name) => !installed(name));
  return absent.length ? `${absent.join(" and ")} ${absent.length === 1 ? "is" : "are"} not installed` : false;
}

/** The packages that a page needs for all that it does. */
export const NEEDED = ["parse5", "saxes", "cssstyle", "w3c-xmlserializer", "css-select"];

export const WINDOWS = {
  page: async (html = EMPTY) => (await import("../../lib/page/index.js")).createPage(html, { url: ADDRESS }),
  jsdom: async (html = EMPTY) => forEditors(new (installed("jsdom").JSDOM)(html, { url: ADDRESS, pretendToBeVisual: true }).window),
};

/** jsdom's ranges have no rectangles, and its elements no contentEditable, which editors use. */
function forEditors(window) {
  const { Range, HTMLElement, document } = window;
  Range.prototype.getClientRects = () => [];
  Range.prototype.getBoundingClientRect = () => document.documentElement.getBoundingClientRect();
  Object.defineProperty(HTMLElement.prototype, "contentEditable", {
    get() {
      return this.getAttribute("contenteditable") ?? "inherit";
    },
    set(value) {
      this.setAttribute("contenteditable", value);
    },
  });
  return window;
}

/** Runs cases in a browser, each in a frame of its own; returns what each returns, as JSON has it. */
export async function inBrowser(name, cases) {
  const browser = await BROWSERS[name].open();
  try {
    const answers = [];
    for (const does of cases) answers.push(await browser.value(`(${inFrame})(${asFunction(does)}, ${JSON.stringify(EMPTY)})`));
    return answers;
  } finally {
    await browser.close();
  }
}

/** The text of a method as a function's. */
const asFunction = (does) => `({ ${does} })[${JSON.stringify(does.name)}]`;

/* eslint-disable no-undef */
async function inFrame(does, html) {
  const frame = document.createElement("iframe");
  document.body.append(frame);
  frame.contentDocument.open();
  frame.contentDocument.write(html);
  frame.contentDocument.close();
  frame.contentWindow.focus();
  try {
    return JSON.stringify(await does(frame.contentWindow));
  } catch (fault) {
    return JSON.stringify(`threw ${fault}`);
  } finally {
    frame.remove();
  }
}
