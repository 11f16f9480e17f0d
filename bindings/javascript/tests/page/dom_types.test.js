// lib/dom.d.ts: the names that it says are not there are those of TypeScript's library "dom" that a page lacks, no more and no less.
import assert from "node:assert/strict";
import { readFileSync } from "node:fs";
import { createRequire } from "node:module";
import { dirname, join } from "node:path";
import test from "node:test";

import { installed, NEEDED, skipWithout, WINDOWS } from "./players.js";

const skip = skipWithout(...NEEDED, "typescript");
const typescript = skip ? null : installed("typescript");

function sourceOf(path) {
  return typescript.createSourceFile(path, readFileSync(path, "utf8"), typescript.ScriptTarget.ES2022, true);
}

/** The interfaces of a source by name: their members' names, and what they extend. */
function interfacesOf(source) {
  const found = {};
  for (const it of source.statements.filter(typescript.isInterfaceDeclaration)) {
    const its = (found[it.name.text] ??= { members: [], parents: [] });
    its.members.push(...it.members.filter(({ name }) => name && !typescript.isComputedPropertyName(name)).map(({ name }) => name.getText(source)));
    its.parents.push(...(it.heritageClauses ?? []).flatMap(({ types }) => types.map(({ expression }) => expression.getText(source))));
  }
  return found;
}

const membersOf = (all, name) => [...(all[name]?.members ?? []), ...(all[name]?.parents ?? []).flatMap((it) => membersOf(all, it))];
const unionOf = (node, source) => [...node.getText(source).matchAll(/"([^"]+)"/g)].map((it) => it[1]).sort();

test("what the types leave out is what a page lacks", { skip }, async () => {
  const library = interfacesOf(sourceOf(join(dirname(createRequire(import.meta.url).resolve("typescript")), "lib.dom.d.ts")));
  const own = sourceOf(new URL("../../lib/dom.d.ts", import.meta.url).pathname);
  const window = await WINDOWS.page();
  const { document } = window;
  const absent = (name, target) => [...new Set(membersOf(library, name))].filter((it) => !(it in target)).sort();
  const types = Object.fromEntries(own.statements.filter(typescript.isTypeAliasDeclaration).map((it) => [it.name.text, it]));
  assert.deepEqual(unionOf(types.AbsentOfWindow, own), absent("Window", window));
  assert.deepEqual(unionOf(types.AbsentOfDocument, own), absent("Document", document));
  const ofAll = absent("HTMLElement", document.createElement("p"));
  assert.deepEqual(unionOf(types.AbsentOfElement, own), ofAll);
  const tags = own.statements.find((it) => typescript.isInterfaceDeclaration(it) && it.name.text === "AbsentByTag").members;
  for (const it of tags) {
    const element = document.createElement(it.name.text);
    const name = Object.prototype.toString.call(element).slice(8, -1);
    assert.deepEqual(unionOf(it, own), absent(name, element).filter((its) => !ofAll.includes(its)), name);
  }
});
