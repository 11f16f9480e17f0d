// Where a page is: addresses, history, and what a page without a network answers.
import assert from "node:assert/strict";
import { spawnSync } from "node:child_process";
import { fileURLToPath } from "node:url";
import test from "node:test";

import { createPage } from "../../lib/page/index.js";
import { ADDRESS, NEEDED, skipWithout } from "./players.js";

const skip = skipWithout(...NEEDED);
const PACKAGE = fileURLToPath(new URL("../..", import.meta.url));
const soon = (wait = 20) => new Promise((ready) => setTimeout(ready, wait));

test("a page is where it was said to be", { skip }, () => {
  const { location, document, origin } = createPage("", { url: "http://page.test:81/a/b?c#d" });
  assert.deepEqual(
    [location.href, location.host, location.pathname, location.search, location.hash, location.origin, `${location}`, document.URL, document.baseURI, origin],
    ["http://page.test:81/a/b?c#d", "page.test:81", "/a/b", "?c", "#d", "http://page.test:81", "http://page.test:81/a/b?c#d", "http://page.test:81/a/b?c#d", "http://page.test:81/a/b?c#d", "http://page.test:81"],
  );
  assert.equal(document.location, location);
});

test("fragments are gone to, and told", { skip }, async () => {
  const window = createPage("<a href='#there'>x</a>", { url: ADDRESS });
  const said = [];
  window.addEventListener("hashchange", (event) => said.push(event.oldURL, event.newURL));
  window.location.hash = "one";
  await soon();
  window.document.querySelector("a").click();
  await soon();
  assert.deepEqual(said, [ADDRESS, `${ADDRESS}#one`, `${ADDRESS}#one`, `${ADDRESS}#there`]);
  assert.deepEqual([window.history.length, window.document.URL], [3, `${ADDRESS}#there`]);
});

test("another address can't be gone to, and says so", { skip }, () => {
  const { location } = createPage("", { url: ADDRESS });
  assert.throws(() => location.assign("/other"), { name: "NotSupportedError", message: /no network/ });
  assert.throws(() => location.reload(), { name: "NotSupportedError" });
  assert.throws(() => void (location.href = "http://"), { name: "SyntaxError" });
  assert.equal(location.href, ADDRESS);
});

test("history goes back and forth", { skip }, async () => {
  const window = createPage("", { url: ADDRESS });
  const { history } = window;
  const said = [];
  window.onpopstate = (event) => said.push(event.state);
  const given = { a: 1 };
  history.pushState(given, "", "/one");
  history.pushState({ a: 2 }, "", "two?x");
  given.a = 3;
  assert.deepEqual([window.location.pathname, history.length, history.state], ["/two", 3, { a: 2 }]);
  history.back();
  await soon();
  history.go(-1);
  await soon();
  history.forward();
  await soon();
  history.replaceState(null, "", "#r");
  assert.deepEqual([said, window.location.href, history.state], [[{ a: 1 }, null, { a: 1 }], `${ADDRESS}one#r`, null]);
  assert.throws(() => history.pushState(1, "", "http://other.test/"), { name: "SecurityError" });
});

test("timers are the host's, and what they throw is reported", { skip }, async () => {
  const reported = [];
  const window = createPage("", { report: (fault) => reported.push(fault.message) });
  const said = [];
  window.setTimeout((word) => said.push(word), 1, "later");
  window.clearTimeout(window.setTimeout(() => said.push("never"), 1));
  window.setTimeout(() => {
    throw new Error("meant");
  });
  window.requestAnimationFrame((time) => said.push(typeof time));
  await soon(60);
  assert.deepEqual([said, reported], [["later", "number"], ["meant"]]);
  window.setInterval(() => said.push("again"), 5);
  window.close();
  await soon();
  assert.deepEqual(said, ["later", "number"]);
});

test("selectionchange is dispatched once for all changes before it", { skip }, async () => {
  const window = createPage("<p>abc</p>");
  let told = 0;
  window.document.addEventListener("selectionchange", () => told++);
  window.getSelection().selectAllChildren(window.document.body);
  window.getSelection().collapseToEnd();
  await soon();
  assert.equal(told, 1);
});

test("two pages beside each other share nodes", { skip }, () => {
  const one = createPage("<p>one</p>");
  const other = createPage("<p>other</p>", { beside: one });
  other.document.body.append(one.document.querySelector("p"));
  assert.equal(other.document.body.innerHTML, "<p>other</p><p>one</p>");
  assert.throws(() => createPage().document.body.append(one.document.body), { name: "NotSupportedError" });
});

test("where a package is missing, the fault names it", () => {
  const program = `
    import { createPage } from "./lib/page/index.js";
    try { createPage("<p>"); console.log("made"); } catch (fault) { console.log(fault.message); }`;
  const ran = spawnSync(process.execPath, ["--input-type=module", "-e", program], { cwd: PACKAGE, encoding: "utf8", env: { ...process.env, NODE_PATH: "/nowhere" } });
  assert.match(ran.stdout, /made|needs the package parse5, which was not found/);
});
