// docs/javascript.md and README.md: their programs print the output beside them. The table of docs/javascript-reference.md lists all names that there are,
// and no others.
import assert from "node:assert/strict";
import { spawnSync } from "node:child_process";
import { readFileSync } from "node:fs";
import test from "node:test";
import { fileURLToPath } from "node:url";

import { isRefused } from "../lib/absent.js";
import * as huckleport from "../lib/index.js";

const PACKAGE = fileURLToPath(new URL("..", import.meta.url));
const page = readFileSync(new URL("../../../docs/javascript.md", import.meta.url), "utf8");
const reference = readFileSync(new URL("../../../docs/javascript-reference.md", import.meta.url), "utf8");
const rows = /^## All of it\n(.*?)^## /msu.exec(reference)[1].split("\n").filter((line) => line.startsWith("| `") || line.startsWith("| the module"));

/** Names that the table says in words. */
const IN_WORDS = new Set(["constructor", "toString"]);
const isConstant = (name) => /^[A-Z_]+$/u.test(name) && name !== "URL";

const namesIn = (text) => [...text.matchAll(/`(\w+)`/gu)].map((it) => it[1]);

test("the ten lines print the output below them", () => {
  const [, program, due] = /```js\n(.*?)```\n\n```text\n(.*?)```/su.exec(page);
  const ran = spawnSync(process.execPath, ["--input-type=module", "-e", program], { cwd: PACKAGE, encoding: "utf8" });
  assert.equal(ran.stdout, due, ran.stderr);
});

test("the lines of the README print the output beside them", () => {
  const [, program] = /```js\n(.*?)```/su.exec(readFileSync(new URL("../README.md", import.meta.url), "utf8"));
  const ran = spawnSync(process.execPath, ["--input-type=module", "-e", program], { cwd: PACKAGE, encoding: "utf8" });
  assert.equal(ran.stdout, / \/\/ (.*\n)/u.exec(program)[1], ran.stderr);
});

test("each name that the table has is there", () => {
  const interfaces = Object.values(huckleport).filter((it) => typeof it === "function" && it.prototype);
  const known = new Set([...Object.keys(huckleport), ...interfaces.flatMap((it) => Object.getOwnPropertyNames(it.prototype))]);
  const listed = rows.flatMap(namesIn);
  assert.ok(listed.length > 150, `${listed.length}`);
  assert.deepEqual(listed.filter((name) => !known.has(name) && !known.has(name.replace(/^NodeFilter$/u, "NodeIterator"))), []);
});

test("each member of an interface is listed in its row", () => {
  for (const [name, its] of Object.entries(huckleport)) {
    if (typeof its !== "function" || !its.prototype) continue;
    const words = new Set(rows.filter((row) => row.split("|")[1].includes(`\`${name}\``)).flatMap((row) => namesIn(row.slice(row.indexOf("|", 2)))));
    const members = Object.getOwnPropertyNames(its.prototype).filter((it) => !IN_WORDS.has(it) && !isConstant(it) && !isRefused(its.prototype, it));
    assert.deepEqual(members.filter((it) => !words.has(it)), [], name);
  }
});

test("the module exports what the table has", () => {
  const listed = new Set(rows.flatMap(namesIn));
  assert.deepEqual(Object.keys(huckleport).filter((name) => !listed.has(name)), []);
});
