// Selectors beside what browsers all do alike (selector_answers.js): what the standard says further, and which of them need a library.
import assert from "node:assert/strict";
import { spawnSync } from "node:child_process";
import { fileURLToPath } from "node:url";
import test from "node:test";
import { setImmediate as turn } from "node:timers/promises";

import { createPage } from "../../lib/page/index.js";
import { installed, NEEDED, skipWithout } from "./players.js";

const skip = skipWithout(...NEEDED);
const PAGE = fileURLToPath(new URL("../../lib/page/index.js", import.meta.url));

test("a value is compared with its capitals where a selector says so (Selectors 4, section 6.3)", { skip }, () => {
  const { document } = createPage("<input type=TEXT>");
  assert.deepEqual(["[type=text]", "[type=text s]", "[type=TEXT s]"].map((text) => document.querySelectorAll(text).length), [1, 0, 1]);
});

test("languages are found by lists, strings and extended ranges (Selectors 4, section 7.2)", { skip }, () => {
  const { document } = createPage("<section lang=de-Latn-CH><p>1</p><p lang=''>2</p></section><p lang=en>3</p>");
  const count = (text) => document.querySelectorAll(text).length;
  assert.deepEqual(["p:lang('*-CH')", "p:lang(de-ch)", "p:lang(fr, en)", "p:lang('')", "p:lang(de-DE)"].map(count), [1, 1, 1, 1, 0]);
});

const GC = skip || (globalThis.gc ? false : "node runs without --expose-gc");

test("an id is found in a tree to which only a range has led", { skip: GC }, async () => {
  const { document } = createPage("");
  const range = document.createRange();
  (() => {
    const root = document.createElement("div");
    root.innerHTML = "<b id=x></b>text";
    range.selectNodeContents(root.lastChild);
    root.lastChild.remove();
  })();
  for (let time = 0; time < 4; time++) {
    globalThis.gc();
    await turn();
    await turn();
  }
  const root = document.body.appendChild(range.startContainer);
  assert.deepEqual([...document.querySelectorAll("#x")], [root.firstChild]);
  assert.equal(document.querySelector("div > #x"), root.firstChild);
});

test("names, ids and classes need no library; another selector names the package that it needs", { skip: skipWithout("parse5") }, () => {
  const program = `
    const { Module } = await import("node:module");
    const { _load } = Module;
    Module._load = (name, ...rest) => {
      if (/css|nth/.test(name)) throw new Error(name);
      return _load(name, ...rest);
    };
    const { createPage } = await import(${JSON.stringify(PAGE)});
    const { document } = createPage("<p class=a>1</p><b id=x>2</b><!--c-->");
    const texts = ["b", " B ", "#x", ".a", "p.a"];
    for (const text of texts) {
      try {
        console.log(document.querySelector(text).textContent, document.querySelectorAll(text).length, document.body.firstChild.matches(text));
      } catch ({ name, message }) {
        console.log(name, message.match(/npm install [\\w-]+/)[0]);
      }
    }`;
  const ran = spawnSync(process.execPath, ["--input-type=module", "-e", program], { encoding: "utf8" });
  assert.equal(`${ran.stdout}${ran.stderr}`, "2 1 false\n2 1 false\n2 1 false\n1 1 true\nNotSupportedError npm install css-what\n");
});

test("another library finds elements over a page, by its own tests of features", { skip: skip || skipWithout("nwsapi") }, () => {
  const { document, DOMException } = createPage("<p id=a>1</p><b class='c d'>2</b><ul><li>3</li><li>4</li></ul>");
  const finder = installed("nwsapi")({ document, DOMException });
  const found = (text) => finder.select(text, document).map((it) => it.textContent).join();
  assert.deepEqual(["#a", "b.c", "ul > li:nth-child(2)", "li", "p, b"].map(found), ["1", "2", "4", "3,4", "1,2"]);
  assert.equal(finder.match("b.d", document.querySelector("b")), true);
});

test("a selector that nests deeply, and one of many parts", { skip }, () => {
  const { document } = createPage("<p>1</p>");
  const nested = (depth) => `${":not(".repeat(depth)}b${")".repeat(depth)}`;
  assert.equal(document.querySelectorAll(`p${nested(101)}`).length, 1);
  assert.equal(document.querySelectorAll(Array(2000).fill("b").concat("p").join()).length, 1);
});

test("a part that is no selector is forgiven where lists are (Selectors 4, section 18)", { skip }, () => {
  const { document } = createPage("<p class=x>1</p><p>2<b></b></p>");
  const count = (text) => document.querySelectorAll(text).length;
  assert.deepEqual([":is(1a, p)", ":is((a), p)", ":is({p, p}, b)", ":is([p,p], b)", ":where(], b)", ":is(:has(:has(b)), b)", ":is()"].map(count), [2, 2, 1, 1, 1, 1, 0]);
  assert.deepEqual(["./**/x", "p:/**/first-child", "p::before:hover", ":has(:is(:has(b), b))", ":nth-child(2 of.x, p)"].map(count), [1, 1, 0, 3, 1]);
  for (const text of ["::before:first-child", "::before::after", ":not(::before)", ":alength", ":nth-of-type(1 of p)", ":nth-child(2n1)", ":host(a, b)", "::constructor(x)"]) {
    assert.throws(() => count(text), { name: "SyntaxError" }, text);
  }
});

test("positions are counted by a type's namespace too (Selectors 4, section 13.4)", { skip }, () => {
  const { document } = createPage("");
  for (const namespace of ["urn:one", "urn:two", "urn:one"]) document.body.append(document.createElementNS(namespace, "a"));
  const found = (text) => [...document.body.querySelectorAll(text)].map((it) => it.namespaceURI.slice(4)).join();
  assert.deepEqual([":first-of-type", ":last-of-type", ":only-of-type", ":nth-of-type(2)", ":nth-last-of-type(2)"].map(found), ["one,two", "two,one", "two", "one", "one"]);
});

test("an element is found by its id in its own tree alone", { skip }, () => {
  const { document } = createPage("<p id=a>1</p>");
  const others = Array.from({ length: 3 }, () => {
    const other = document.implementation.createHTMLDocument("");
    other.body.innerHTML = "<b id=a>x</b>";
    return other;
  });
  assert.equal(document.querySelector("#a"), document.body.firstChild);
  assert.equal(document.getElementById("a"), document.body.firstChild);
  others[1].body.append(document.body.firstChild);
  assert.equal(document.querySelector("#a"), null);
  assert.deepEqual(others.map((it) => it.querySelectorAll("#a").length), [1, 2, 1]);
  assert.deepEqual(others.map((it) => it.getElementById("a").localName), ["b", "b", "b"]);
});
