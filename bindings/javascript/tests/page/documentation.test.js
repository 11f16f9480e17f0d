// docs/javascript.md of a page: its program prints the output below it, and the names in the reference's table are there.
import assert from "node:assert/strict";
import { spawnSync } from "node:child_process";
import { readFileSync } from "node:fs";
import test from "node:test";
import { fileURLToPath } from "node:url";

import { NEEDED, skipWithout, WINDOWS } from "./players.js";

const PACKAGE = fileURLToPath(new URL("../..", import.meta.url));
const textOf = (name) => readFileSync(new URL(`../../../../docs/${name}.md`, import.meta.url), "utf8");
const page = textOf("javascript");
const own = /^## A page for tests\n(.*?)^## /msu.exec(page)[1];
const skip = skipWithout(...NEEDED);

test("the program prints the output below it", { skip }, () => {
  const [, program, due] = /```js\n(.*?)```\n\n```text\n(.*?)```/su.exec(own);
  const ran = spawnSync(process.execPath, ["--input-type=module", "-e", program], { cwd: PACKAGE, encoding: "utf8" });
  assert.equal(ran.stdout, due, ran.stderr);
});

test("each name in the table is there", { skip }, async () => {
  const window = await WINDOWS.page();
  const { document } = window;
  const places = [window, ...["a", "template", "form", "input"].map((name) => document.createElement(name)), document, document.createRange()];
  const table = /^## A page\n(.*?)^## /msu.exec(textOf("javascript-reference"))[1];
  const names = [...table.matchAll(/`(\w+)`/gu)].map((it) => it[1]);
  assert.ok(names.length > 50, `${names.length}`);
  assert.deepEqual(names.filter((name) => !places.some((it) => name in it)), []);
});

test("the packages that the page names are those that it asks for", () => {
  const table = /^## Getting it\n(.*?)^## /msu.exec(page)[1];
  const named = [...table.matchAll(/^\| ([\w-]+) \d/gmu)].map((it) => it[1]);
  assert.deepEqual(named.sort(), [...NEEDED].sort());
});
