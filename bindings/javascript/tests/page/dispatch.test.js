// Dispatch where much is listened to, faults that are reported, and handlers that attributes have.
import assert from "node:assert/strict";
import { createContext, runInContext } from "node:vm";
import test from "node:test";

import { createPage } from "../../lib/page/index.js";
import { NEEDED, skipWithout, WINDOWS } from "./players.js";

const skip = skipWithout(...NEEDED);
const DEPTH = 100;
const EACH = 100;

/** Returns a path of DEPTH elements from the body down, the innermost last. */
function pathIn({ document }) {
  const path = [document.body];
  while (path.length < DEPTH) path.push(path.at(-1).appendChild(document.createElement("p")));
  return path;
}

/** Listens so often at each element of a path, half of it on the way down; each says where and which it is. */
function listen(path, said) {
  path.forEach((element, at) => {
    for (let which = 0; which < EACH; which++) element.addEventListener("x", () => said.push(`${at} ${which}`), which % 2 === 0);
  });
}

const numbers = (isDown) => Array.from({ length: EACH }, (_, which) => which).filter((which) => (which % 2 === 0) === isDown);
const due = () => [
  ...Array.from({ length: DEPTH }, (_, at) => at).flatMap((at) => numbers(true).map((which) => `${at} ${which}`)),
  ...Array.from({ length: DEPTH }, (_, at) => DEPTH - 1 - at).flatMap((at) => numbers(false).map((which) => `${at} ${which}`)),
];

test("10,000 listeners on a path of 100 are called in the standard's order", { skip }, async (t) => {
  const window = await WINDOWS.page();
  const path = pathIn(window);
  const said = [];
  listen(path, said);
  const before = performance.now();
  path.at(-1).dispatchEvent(new window.Event("x", { bubbles: true }));
  t.diagnostic(`one dispatch: ${(performance.now() - before).toFixed(1)} ms`);
  assert.deepEqual(said, due());
});

/** Adds and removes listeners while a dispatch runs. An added one is called if its element is still ahead; a removed one is not called. */
function changing(window) {
  const path = pathIn(window);
  const said = [];
  const at = (name) => () => said.push(name);
  const late = at("late");
  const gone = at("gone");
  path.forEach((element, index) => {
    element.addEventListener("x", () => {
      said.push(`${index}`);
      element.addEventListener("x", late);
      path[index - 1]?.addEventListener("x", late, { once: true });
      element.removeEventListener("x", gone);
      path[index - 1]?.removeEventListener("x", gone);
    });
    element.addEventListener("x", gone);
    for (let which = 0; which < EACH; which++) element.addEventListener("x", at("n"), which % 2 === 0);
  });
  for (let time = 0; time < 2; time++) path.at(-1).dispatchEvent(new window.Event("x", { bubbles: true }));
  return said;
}

test("listeners that come and go while it runs are called as over jsdom", { skip: skip || skipWithout("jsdom") }, async () => {
  assert.deepEqual(changing(await WINDOWS.page()), changing(await WINDOWS.jsdom()));
});

/** Dispatches with listeners that come, go, are called once, and end by a signal. */
function turn(window, path) {
  const control = new AbortController();
  const listeners = path.map((element) => {
    const own = () => element.removeEventListener("x", own);
    element.addEventListener("x", own);
    element.addEventListener("x", () => element.addEventListener("y", () => {}, { once: true }), { signal: control.signal, once: true });
    element.addEventListener("x", () => {}, { signal: control.signal });
    return own;
  });
  path.at(-1).dispatchEvent(new window.Event("x", { bubbles: true }));
  path.at(-1).dispatchEvent(new window.Event("y", { bubbles: true }));
  control.abort();
  return listeners;
}

const used = () => {
  globalThis.gc();
  return process.memoryUsage().heapUsed;
};

test("memory is level where listeners come and go", { skip: skip || (globalThis.gc ? false : "node runs without --expose-gc") }, async (t) => {
  const window = await WINDOWS.page();
  const path = pathIn(window);
  const rounds = async (count) => {
    for (let round = 0; round < count; round++) {
      for (let time = 0; time < 20; time++) turn(window, path);
      await new Promise((ready) => setImmediate(ready));
    }
  };
  await rounds(10);
  const before = used();
  await rounds(40);
  const grown = used() - before;
  t.diagnostic(`${grown} bytes after 80,000 listeners came and went 3 times each`);
  assert.ok(grown < 2 ** 20, `${grown}`);
});

/** Dispatches once along 10,000 listeners. Each removes itself while it runs, and adds and removes another one. */
function crowd(window, path) {
  let called = 0;
  for (const element of path) {
    for (let which = 0; which < EACH; which++) {
      const isDown = which % 2 === 0;
      const other = () => assert.fail("it has gone before");
      const own = () => {
        called++;
        element.removeEventListener("x", own, isDown);
        element.addEventListener("x", other, isDown);
        element.removeEventListener("x", other, isDown);
      };
      element.addEventListener("x", own, isDown);
    }
  }
  path.at(-1).dispatchEvent(new window.Event("x", { bubbles: true }));
  assert.equal(called, DEPTH * EACH);
}

test("memory is level where 10,000 listeners go while a dispatch runs", { skip: skip || (globalThis.gc ? false : "node runs without --expose-gc") }, async (t) => {
  const window = await WINDOWS.page();
  const path = pathIn(window);
  for (let time = 0; time < 5; time++) crowd(window, path);
  const before = used();
  for (let time = 0; time < 20; time++) crowd(window, path);
  const grown = used() - before;
  t.diagnostic(`${grown} bytes after 20 dispatches`);
  assert.ok(grown < 2 ** 20, `${grown}`);
});

test("what a listener throws is reported, and the others are called", { skip }, () => {
  const reported = [];
  const window = createPage("", { report: (fault) => reported.push(fault) });
  const said = [];
  const fault = new Error("meant");
  window.document.body.addEventListener("x", () => {
    throw fault;
  });
  window.document.body.addEventListener("x", () => said.push("called"));
  assert.equal(window.document.body.dispatchEvent(new window.Event("x")), true);
  assert.deepEqual([said, reported], [["called"], [fault]]);
  window.onerror = (message, file, line, column, error) => {
    said.push(message, error === fault);
    return true;
  };
  window.document.body.dispatchEvent(new window.Event("x"));
  assert.deepEqual(said.slice(1), ["Uncaught Error: meant", true, "called"]);
  assert.equal(reported.length, 1);
});

test("what an observer throws is reported too", { skip }, async () => {
  const reported = [];
  const window = createPage("<p>x", { report: (fault) => reported.push(fault.message) });
  new window.MutationObserver(() => {
    throw new Error("meant");
  }).observe(window.document.body, { childList: true });
  window.document.body.append("y");
  await new Promise((ready) => setTimeout(ready));
  assert.deepEqual(reported, ["meant"]);
});

test("a handler's attribute is a text, where the page was not asked to run it", { skip }, () => {
  const window = createPage("<p onclick='throw 1'>x</p>");
  const element = window.document.querySelector("p");
  element.click();
  assert.equal(element.onclick, null);
  assert.equal(element.getAttribute("onclick"), "throw 1");
});

test("handlers by attribute, where the page runs them", { skip }, () => {
  const window = createPage("<p onclick='said.push(this.localName, event.type); return false'>x</p>", { handlers: true });
  const said = (globalThis.said = []);
  const element = window.document.querySelector("p");
  element.addEventListener("click", () => said.push("listener"));
  const event = new window.MouseEvent("click", { cancelable: true });
  element.dispatchEvent(event);
  assert.deepEqual([said.splice(0), event.defaultPrevented], [["p", "click", "listener"], true]);
  element.setAttribute("onclick", "said.push('other')");
  element.click();
  assert.deepEqual(said.splice(0), ["other", "listener"]);
  element.removeAttribute("onclick");
  element.click();
  assert.deepEqual([said.splice(0), element.onclick], [["listener"], null]);
  delete globalThis.said;
});

test("a page on a context's global object", { skip }, () => {
  const context = createContext({});
  const global = runInContext("globalThis", context);
  createPage("<p>x", { global });
  const said = runInContext(
    `const said = [document.querySelector("p").textContent, window === globalThis, document.body instanceof HTMLElement];
    addEventListener("x", () => said.push("told"));
    dispatchEvent(new Event("x"));
    try { document.querySelector("["); } catch (fault) { said.push(fault instanceof DOMException); }
    try { document.body.appendChild(1); } catch (fault) { said.push(fault instanceof TypeError); }
    said`,
    context,
  );
  assert.deepEqual([...said], ["x", true, true, "told", true, true]);
});
