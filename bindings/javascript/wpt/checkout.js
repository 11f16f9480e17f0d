// The folder of a Web Platform Tests checkout: its files by their paths, which of them are tests, and which tests are left out and why.
import { existsSync, readdirSync, readFileSync, statSync } from "node:fs";
import { join } from "node:path";

// Where the tests of the core's sections are in a checkout.
const SECTIONS = ["dom/nodes", "dom/ranges", "dom/traversal"];

// Folders that hold no tests: what tests load, and other kinds of tests.
const NO_TESTS = new Set(["resources", "support", "reference", "crashtests", "tentative", "tools", "node_modules"]);

// A test that does one of these is left out, since nothing of it can run: the reason, and its sign in the code of the file, without
// comments. A test that asks for an absent name gets the reason when it runs (page/reasons.js).
const LEFT_OUT = [
  ["events", /\bdispatchEvent\b|\bcreateEvent\b|new \w*Event\(|addEventListener\(\s*['"](?!load|DOMContentLoaded|error|message)/],
  ["layout or styles", /getComputedStyle|getBoundingClientRect|getClientRects|elementFromPoint|\.(?:offset|client|scroll)(?:Width|Height|Top|Left)\b|styleSheets|document\.fonts/],
  ["editing", /execCommand|designMode/],
  ["browsing: windows, navigation, workers, requests", /window\.open\(|new (?:Shared)?Worker\(|XMLHttpRequest|\bfetch\(|createObjectURL|srcdoc|document\.(?:open|write|domain)\b|ServiceWorker|location\.(?:assign|replace)\(|location\.href\s*=(?!=)/],
  ["workers", /^\/\/ META: global=(?!.*\bwindow\b)/m],
  ["a driver of a browser", /testdriver\.js/],
  ["the interfaces' own description", /idlharness\.js/],
  ["moving without removal", /\bmoveBefore\b/],
  ["modules", /<script[^>]*type=["']?module/],
  ["a server that answers by a program", /\.py\b|[?&]pipe=/],
];

// Tests that are left out by their names.
const LEFT_OUT_BY_NAME = [
  ["selectors", /quer(?:y|ies)|matches|closest|NodeList-static/i],
  ["scripts that run when they are inserted", /insertion-removing-steps/],
  ["moving without removal", /moveBefore/],
  ["Attr nodes", /\/attributes[\w-]*\./],
  ["attributes that are reflected", /\/aria-/],
  ["CDATA sections", /CDATASection/],
  ["documents of other types, as a browser loads them", /contentType|namespace-tests/],
];

// A script or a page without its comments.
const code = (text) => text.replace(/<!--[^]*?-->|\/\*[^]*?\*\//g, "").replace(/(^|\s)\/\/(?! META:).*$/gm, "$1");

// The end of a name that tells a file which is not a test that runs by itself.
const OTHER_KINDS = /(?:-manual|-ref|-crash|\.tentative|\.sub|\.https|\.worker)\.\w+$/;

export class Checkout {
  constructor(folder) {
    this.folder = folder;
  }

  has(path) {
    const file = join(this.folder, path);
    return existsSync(file) && statSync(file).isFile();
  }

  read(path) {
    return readFileSync(join(this.folder, path), "utf8");
  }

  // The paths of all files, in order.
  *files(below = "") {
    const entries = readdirSync(join(this.folder, below), { withFileTypes: true });
    for (const entry of entries.sort((a, b) => (a.name < b.name ? -1 : 1))) {
      const path = below ? `${below}/${entry.name}` : entry.name;
      if (entry.isDirectory() && !NO_TESTS.has(entry.name) && !entry.name.startsWith(".")) yield* this.files(path);
      if (entry.isFile()) yield path;
    }
  }

  isTest(path) {
    if (OTHER_KINDS.test(path)) return false;
    if (/\.(?:any|window)\.js$/.test(path)) return true;
    return /\.x?html?$/.test(path) && /testharness\.js/.test(this.read(path));
  }

  // Why a test is left out, or nothing.
  leftOut(path) {
    const text = code(this.read(path));
    const found = LEFT_OUT_BY_NAME.find(([, sign]) => sign.test(path)) ?? LEFT_OUT.find(([, sign]) => sign.test(text));
    return found?.[0];
  }

  // The tests of the core's sections; of a folder that has none of these, all.
  tests() {
    const sections = SECTIONS.filter((section) => existsSync(join(this.folder, section)));
    const files = sections.length ? sections.flatMap((section) => [...this.files(section)]) : [...this.files()];
    return files.filter((path) => this.isTest(path)).map((path) => ({ path, leftOut: this.leftOut(path) }));
  }

  // The text of a page: that of the file, or for a script alone the page that runs it.
  page(path) {
    return /\.(?:any|window)\.js$/.test(path) ? pageAround(path, this.read(path)) : this.read(path);
  }
}

// The page that runs a script by the convention of .any.js and .window.js files: comments at its head name a title and further scripts.
function pageAround(path, text) {
  const meta = [...text.matchAll(/^\/\/ META: (\w+)=(.*)$/gm)];
  const title = meta.find(([, key]) => key === "title")?.[2] ?? path;
  const scripts = meta.filter(([, key]) => key === "script").map(([, , source]) => source);
  const tags = ["/resources/testharness.js", "/resources/testharnessreport.js", ...scripts].map((source) => `<script src="${source}"></script>`);
  return `<!doctype html>\n<meta charset=utf-8>\n<title>${title}</title>\n${tags.join("\n")}\n<div id=log></div>\n<script src="/${path}"></script>\n`;
}
