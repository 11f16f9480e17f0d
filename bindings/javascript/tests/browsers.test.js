// The package in pages of Chromium and Firefox: tests that run in node too, each dialogue, and memory after a million nodes.
import assert from "node:assert/strict";
import { existsSync, mkdtempSync, rmSync, writeFileSync } from "node:fs";
import { tmpdir } from "node:os";
import { join } from "node:path";
import test, { after, before, describe } from "node:test";
import { fileURLToPath, pathToFileURL } from "node:url";

import { Browser, missing as missingChromium } from "../examples/playground/browser.js";
import { all, replies } from "../examples/playground/dialogues.js";
import { Firefox, missing as missingFirefox } from "../examples/playground/firefox.js";
import { bundled, given, hasBundler, MODULE } from "../examples/playground/make.js";

const place = (path) => fileURLToPath(new URL(path, import.meta.url));

function whyLeftOut() {
  if (!existsSync(MODULE)) return "there is no module";
  return hasBundler() ? false : "there is no esbuild";
}

/** The page: one file, with the module, the tests and the dialogues in it. */
function page() {
  const words = ["--ignore-annotations", `--alias:node:test=${place("browsers/test.js")}`, `--alias:node:assert/strict=${place("browsers/assert.js")}`];
  const dialogues = Object.fromEntries(Object.entries(all()).map(([name, it]) => [name, { ...it, replies: replies(name).toString("base64") }]));
  const script = bundled(place("browsers/page.js"), words);
  return `<!doctype html><meta charset="utf-8"><title>tests</title><script>${given({ dialogues })}</script><script type="module">${script}</script>`;
}

const BROWSERS = {
  chromium: [missingChromium, () => Browser.open({ words: ["--js-flags=--expose-gc"] })],
  firefox: [missingFirefox, () => Firefox.open()],
};

describe("in a page", { skip: whyLeftOut() }, () => {
  let folder, address;
  before(() => {
    folder = mkdtempSync(join(tmpdir(), "huckleport-tests-"));
    writeFileSync(join(folder, "index.html"), page());
    address = `${pathToFileURL(join(folder, "index.html"))}`;
  });
  after(() => rmSync(folder, { recursive: true }));

  for (const [name, [missing, open]] of Object.entries(BROWSERS)) {
    describe(`of ${name}`, { skip: missing() ?? false }, () => {
      let browser;
      before(async () => {
        browser = await open();
        await browser.goTo(address);
      });
      after(() => browser?.close());

      test("tests of the package pass", async () => {
        const { count, failures } = await browser.value("runAll()");
        assert.deepEqual(failures, []);
        assert.ok(count > 30, `${count}`);
      });

      test("the replies to each dialogue are those of the program", async () => {
        assert.deepEqual(await browser.value("wrongDialogues()"), []);
        assert.ok((await browser.value("Object.keys(dialogues).length")) > 80);
      });

      // (a page can ask for a collection in Chromium alone)
      if (name !== "chromium") return;
      test("a million nodes made and dropped leave memory level", async () => {
        const levels = await browser.value("levels(10, 100000)");
        assert.ok(Math.max(...levels.slice(3)) < 2 * levels[2] + 1e6, `${levels}`);
      });
    });
  }
});
