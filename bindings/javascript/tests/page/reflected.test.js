// Properties of HTML's elements that are texts, numbers or booleans: what they are at first, and once they are set, as in Chromium.
import assert from "node:assert/strict";
import test from "node:test";
import { fileURLToPath } from "node:url";

import { Browser, missing } from "../../examples/playground/browser.js";
import { createPage } from "../../lib/page/index.js";
import { serve } from "../served.js";
import { NEEDED, skipWithout } from "./players.js";

const NAMES = `a abbr area article audio base blockquote body br button canvas caption col colgroup data datalist del details dialog dir div dl embed fieldset
  font form frame frameset h1 head hr html iframe img input ins label legend li link map marquee menu meta meter object ol optgroup option output p param
  picture pre progress q script select slot source span style table tbody td template textarea th thead time title tr track ul video`.split(/\s+/);
const VALUES = ["x", "7", true, 3, "auto"];

// Properties that are not what Chromium has, and why.
const DIFFERENT = {
  loading: "Chromium has a word of its own for an absent attribute, which the standard has not",
  autocomplete: "the words that describe a field are not tested here",
  selectionDirection: "the standard leaves it to the platform",
  tabIndex: "whether media can be focused differs from browser to browser",
  async: "a script that is made is never run",
  capture: "Chromium has it on telephones alone",
};

const isOther = (name) => name in DIFFERENT || /^(?:on|(?:inner|outer)(?:HTML|Text)$|textContent$|nodeValue$|contentEditable$|scroll)/.test(name);

/* What runs in both, as text. */
function valuesOf(document, names) {
  const isPlain = (value) => value === null || ["string", "number", "boolean"].includes(typeof value);
  const found = {};
  for (const name of names) {
    const element = document.createElement(name);
    for (const key in element) if (isPlain(element[key])) found[`${name}.${key}`] = String(element[key]);
  }
  return found;
}

function set(document, path, value) {
  const [name, key] = path.split(".");
  const element = document.createElement(name);
  try {
    Reflect.set(element, key, value);
    return `${element[key]} ${[...element.attributes].map((it) => `${it.name}=${it.value}`)}`;
  } catch (fault) {
    return `threw ${fault.name}`;
  }
}

const settings = (document, paths, values, does) => paths.flatMap((path) => values.map((value) => [path, value, does(document, path, value)]));

test("properties reflect as in Chromium", { skip: skipWithout(...NEEDED) || (missing() ?? false) }, async () => {
  const server = await serve({ support: fileURLToPath(new URL("../../wpt/tests/pages/support", import.meta.url)) });
  const url = `${server.address}/support/frame.html`;
  const { document } = createPage("", { url });
  const browser = await Browser.open();
  try {
    await browser.call("Page.navigate", { url });
    await browser.until(`location.href === ${JSON.stringify(url)} && document.readyState === "complete"`);
    const ours = valuesOf(document, NAMES);
    const theirs = await browser.value(`(${valuesOf})(document, ${JSON.stringify(NAMES)})`);
    const paths = Object.keys(ours).filter((path) => !isOther(path.split(".")[1]));
    assert.ok(paths.length > 4000, `${paths.length}`);
    assert.deepEqual(paths.filter((path) => ours[path] !== theirs[path]).map((path) => [path, ours[path], theirs[path]]), []);
    // (element by element, so that no message is too long for the socket)
    for (const name of NAMES) {
      const its = paths.filter((path) => path.startsWith(`${name}.`));
      const due = await browser.value(`(${settings})(document, ${JSON.stringify(its)}, ${JSON.stringify(VALUES)}, ${set})`);
      const said = settings(document, its, VALUES, set);
      assert.deepEqual(said.map((it, at) => [it, due[at]]).filter(([one, other]) => String(one) !== String(other)), []);
    }
  } finally {
    await browser.close();
    await server.close();
  }
});
