// The package under test: each window is a realm of its own with the package's interfaces, and all windows of a page share a session.
import { constants, createContext, runInContext, Script } from "node:vm";

import { createWindow } from "../../lib/index.js";
import { Page } from "../page/page.js";

// What a window's document is, by the end of the page's name.
const KINDS = { xhtml: { xml: true, contentType: "application/xhtml+xml" }, xml: { xml: true, contentType: "application/xml" } };

// Opens windows: at an address, with what a callback of an observer throws told to the page.
function windows() {
  let first;
  return function open({ href, pathname }, report) {
    const context = createContext(constants?.DONT_CONTEXTIFY ?? {});
    const global = runInContext("globalThis", context);
    createWindow({ global, beside: first, report, refuses: false, empty: true, url: href, ...KINDS[pathname.split(".").at(-1)] });
    first ??= global;
    return { global, evaluate: (source, filename) => new Script(source, { filename }).runInContext(context) };
  };
}

export async function open(host, path) {
  const page = new Page({ ...host, open: windows() }, `/${path}`);
  for (const event of ["uncaughtException", "unhandledRejection"]) process.on(event, (error) => page.tellError(error));
  await page.load();
}
