// A page gives the answers that are written down, and so do Chromium and Firefox if they are there.
import assert from "node:assert/strict";
import { runInContext, createContext } from "node:vm";
import test from "node:test";

import { createPage } from "../../lib/page/index.js";
import { sessionOf } from "../../lib/wrappers.js";
import { ANSWERS, caught } from "./as_browsers.js";
import { DIFFERENCES } from "./differences.js";
import { BROWSERS, inBrowser, NEEDED, skipWithout, WINDOWS } from "./players.js";

const skip = skipWithout(...NEEDED);

for (const [name, [does, due]] of Object.entries(ANSWERS)) {
  test(name, { skip }, async () => {
    assert.deepEqual(JSON.parse(JSON.stringify(does(await WINDOWS.page(), caught))), due);
  });
}

/** A case as a browser runs it: a method, with what it calls in its own text. */
const asMethod = (does, at) => {
  const text = `case${at}(window) { const attempt = ${caught}; return (${does})(window, attempt); }`;
  return { name: `case${at}`, toString: () => text };
};

for (const [browser, { missing }] of Object.entries(BROWSERS)) {
  test(`${browser} gives the same answers`, { skip: missing() ?? false }, async (t) => {
    const said = await inBrowser(browser, Object.values(ANSWERS).map(([does], at) => asMethod(does, at)));
    for (const [at, [name, [, due]]] of Object.entries(ANSWERS).entries()) {
      const reason = DIFFERENCES[browser][name];
      const compare = reason ? assert.notDeepEqual : assert.deepEqual;
      await t.test(reason ? `${name}, where it differs: ${reason}` : name, () => compare(JSON.parse(said[at]), due));
    }
  });
}

test("a page is put on what vm.createContext answers", { skip }, () => {
  const context = createContext({});
  const window = createPage("<p>x</p>", { global: context });
  assert.equal(runInContext("document.body.innerHTML", context), "<p>x</p>");
  assert.equal(runInContext("window === globalThis && document.querySelectorAll('p') instanceof NodeList", context), true);
  assert.equal(window, runInContext("window", context));
  assert.throws(() => createPage("", { global: {} }), { name: "TypeError", message: /vm\.createContext/ });
});

test("faults in a context are of its own realm", { skip }, () => {
  const context = createContext({});
  createPage("", { global: context });
  const isOwn = (text) => runInContext(`(() => { try { ${text} } catch (fault) { return fault instanceof TypeError; } })()`, context);
  assert.equal(isOwn('document.body.classList.supports("x")'), true);
  assert.equal(isOwn("const { proxy, revoke } = Proxy.revocable({}, {}); revoke(); document.createTreeWalker(document, 1, proxy).firstChild();"), true);
  assert.equal(isOwn("const { proxy, revoke } = Proxy.revocable(() => 1, {}); revoke(); document.createNodeIterator(document, 1, proxy).nextNode();"), true);
});

test("views of an element refuse by exceptions of their realm once the session is closed", { skip }, () => {
  const { document, DOMException } = createPage("<form><input name=a></form>", { global: createContext({}) });
  const [form] = document.forms;
  const { dataset } = form;
  sessionOf(document).close();
  const isOwn = (fault) => fault instanceof DOMException && fault.name === "InvalidStateError";
  assert.throws(() => void (dataset.a = "b"), isOwn);
  assert.throws(() => form.a, isOwn);
  assert.throws(() => Object.keys(form), isOwn);
});

test("an Attr has no XML, as DOM Parsing and Serialization says", { skip }, async () => {
  const { document, XMLSerializer } = await WINDOWS.page();
  document.body.id = "x";
  assert.equal(new XMLSerializer().serializeToString(document.body.getAttributeNode("id")), "");
});
