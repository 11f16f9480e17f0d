// Cases of what a page answers: a browser's answers decide, where Chromium is there; jsdom's have to be the same. A case that is known to differ has to.
import assert from "node:assert/strict";
import test from "node:test";

import { CASES } from "./cases.js";
import { DIFFERENCES } from "./differences.js";
import { missing } from "../../examples/playground/browser.js";
import { inBrowser, NEEDED, skipWithout, WINDOWS } from "./players.js";

const all = Object.values(CASES).flatMap((group) => Object.entries(group));

/** What a case answers over a window, as JSON has it. */
async function answer(does, window) {
  try {
    return JSON.stringify(await does(window));
  } catch (fault) {
    return `threw ${fault?.stack ?? fault}`;
  }
}

const skip = skipWithout(...NEEDED);

/** Tests a case: both answers have to be the same, or to differ if there is a reason. */
function compared(t, name, reason, does, due) {
  return t.test(reason ? `${name}, where it differs: ${reason}` : name, async () => {
    const [ours, theirs] = [await answer(does, await WINDOWS.page()), await due()];
    if (reason) assert.notEqual(ours, theirs);
    else assert.equal(ours, theirs);
  });
}

test("a page answers as jsdom does", { skip: skip || skipWithout("jsdom") }, async (t) => {
  for (const [name, does] of all) {
    await compared(t, name, DIFFERENCES.jsdom[name], does, async () => answer(does, await WINDOWS.jsdom()));
  }
});

test("a page answers as Chromium does", { skip: skip || (missing() ?? false) }, async (t) => {
  const due = await inBrowser("Chromium", all.map(([, does]) => does));
  for (const [at, [name, does]] of all.entries()) {
    await compared(t, name, DIFFERENCES.Chromium[name], does, () => due[at]);
  }
});
