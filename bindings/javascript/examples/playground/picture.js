#!/usr/bin/env node
// Draws docs/playground.png: the page as Chromium shows it, after a dialogue to which an observer and two edits were typed.
import { mkdtempSync, rmSync, writeFileSync } from "node:fs";
import { tmpdir } from "node:os";
import { join } from "node:path";
import { pathToFileURL } from "node:url";
import { parseArgs } from "node:util";

import { Browser, missing } from "./browser.js";
import { make } from "./make.js";

const HELP = `usage: node bindings/javascript/examples/playground/picture.js [FILE]

Draws the page into FILE, a picture of 1200 by 800 points (docs/playground.png). It needs the module, esbuild, Chromium and a WebSocket.

  --help  this text
`;
const PICTURE = new URL("../../../../docs/playground.png", import.meta.url);

// The lines that are typed after the dialogue's eleventh line, when its ranges are set.
const DIALOGUE = "ranges/ends_after_split";
const SET = 11;
const TYPED = [
  '["setAttribute",1,"class","verse"]',
  '["createObserver"]',
  '["observe",0,1,{"childList":true,"characterDataOldValue":true,"subtree":true}]',
  '["createComment",0,"so far"]',
  '["insertBefore",1,4,2]',
  '["splitText",2,2]',
];

async function type(browser, line) {
  const lines = await browser.value('document.querySelectorAll(".line").length');
  const at = await browser.value('document.querySelectorAll(".line:not(.later)").length');
  await browser.click("#command");
  await browser.type(line);
  await browser.press("Enter");
  await browser.until(`document.querySelectorAll(".line").length === ${Math.min(lines, at) + 1} && document.querySelector("#command").value === ""`);
}

async function draw(file) {
  const folder = mkdtempSync(join(tmpdir(), "huckleport-page-"));
  const address = `${pathToFileURL(make(folder))}`;
  const browser = await Browser.open();
  try {
    await browser.goTo(`${address}#dialogue=${DIALOGUE}&step=${SET}`);
    for (const line of TYPED) await type(browser, line);
    await browser.value("document.activeElement.blur()");
    writeFileSync(file, await browser.picture());
  } finally {
    await browser.close();
    rmSync(folder, { recursive: true });
  }
}

const { values, positionals } = parseArgs({ options: { help: { type: "boolean", default: false } }, allowPositionals: true });
if (values.help) {
  process.stdout.write(HELP);
} else if (missing()) {
  process.stderr.write(`${missing()}\n`);
  process.exitCode = 1;
} else {
  await draw(positionals[0] ?? PICTURE);
}
