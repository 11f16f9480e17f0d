// Each way to import the package: by node as modules and by require, in pages without a bundler, and in one file that a bundler made.
import assert from "node:assert/strict";
import { spawnSync } from "node:child_process";
import { existsSync, mkdirSync, mkdtempSync, readFileSync, rmSync, symlinkSync, writeFileSync } from "node:fs";
import { createRequire } from "node:module";
import { tmpdir } from "node:os";
import { dirname, join } from "node:path";
import test, { after, before, describe } from "node:test";
import { fileURLToPath, pathToFileURL } from "node:url";

import { Browser, missing as missingChromium } from "../examples/playground/browser.js";
import { Firefox, missing as missingFirefox } from "../examples/playground/firefox.js";
import { hasBundler } from "../examples/playground/make.js";
import { serve } from "./served.js";

const PACKAGE = fileURLToPath(new URL("..", import.meta.url));
const manifest = JSON.parse(readFileSync(join(PACKAGE, "package.json"), "utf8"));
const DUE = "<p>some text</p> <form><input name=\"word\"></form> word";

// A program over both entries: what it shows is the same wherever it runs.
const PROGRAM = `
const { document } = createPage('<form><input name=word></form>', { url: "http://page.test/" });
const paragraph = createDocument().createElement("p");
paragraph.append("some text");
const shown = [serialize(paragraph), document.body.innerHTML, document.getElementsByTagName("input")[0].name].join(" ");
`;

function folderOf(name) {
  try {
    return dirname(createRequire(import.meta.url).resolve(`${name}/package.json`));
  } catch {
    const found = ["/usr/share/nodejs", "/usr/lib/nodejs"].map((it) => join(it, name)).find((it) => existsSync(join(it, "package.json")));
    return found ?? null;
  }
}

const parse5 = folderOf("parse5");
const entities = folderOf("entities");
const withoutParser = parse5 && entities ? false : "parse5 is not installed";

let folder;
before(() => {
  folder = mkdtempSync(join(tmpdir(), "huckleport-imports-"));
  mkdirSync(join(folder, "node_modules"));
  symlinkSync(PACKAGE, join(folder, "node_modules/huckleport"));
});
after(() => rmSync(folder, { recursive: true }));

const env = { ...process.env, NODE_PATH: [process.env.NODE_PATH, "/usr/share/nodejs"].filter(Boolean).join(":") };

function written(name, text) {
  writeFileSync(join(folder, name), text);
  return join(folder, name);
}

function ran(file) {
  const { stdout, stderr, status } = spawnSync(process.execPath, [file], { cwd: folder, encoding: "utf8", env });
  assert.equal(status, 0, stderr);
  assert.equal(stderr, "");
  return stdout.trim();
}

const IMPORTS = 'import { createDocument, provide, serialize } from "huckleport";\nimport { createPage } from "huckleport/page";\n';

describe("in node", () => {
  test("both entries are imported by name", { skip: withoutParser }, () => {
    assert.equal(ran(written("program.mjs", `${IMPORTS}${PROGRAM}console.log(shown);`)), DUE);
  });

  test("both are required by a program of CommonJS", { skip: process.features.require_module ? withoutParser : "node requires no modules" }, () => {
    const lines = 'const { createDocument, serialize } = require("huckleport");\nconst { createPage } = require("huckleport/page");\n';
    assert.equal(ran(written("program.cjs", `${lines}${PROGRAM}console.log(shown);`)), DUE);
  });

  test("a bundler makes one file for node, beside which the module is named", { skip: hasBundler() ? withoutParser : "there is no esbuild" }, () => {
    const to = bundle(written("server.mjs", `${IMPORTS}${PROGRAM}console.log(shown);`), ["--platform=node", "--format=esm", "--outfile=bundled.mjs"]);
    assert.equal(spawnSync(process.execPath, [to], { encoding: "utf8", env: { ...env, HUCKLEPORT_MODULE: join(PACKAGE, "out/huckleport.wasm") } }).stdout.trim(), DUE);
  });
});

function bundle(entry, words) {
  const ran = spawnSync("esbuild", [entry, "--bundle", "--log-level=warning", ...words], { cwd: folder, encoding: "utf8", env, maxBuffer: 1 << 28 });
  assert.equal(ran.status, 0, ran.stderr);
  assert.equal(ran.stderr, "");
  return join(folder, words.at(-1).replace("--outfile=", ""));
}

const TOLD = "document.title = shown; document.documentElement.dataset.ready = true;";
const IN_PAGE = `${IMPORTS}import * as parse5 from "parse5";\nprovide({ parse5 });\n${PROGRAM.replace("{ document }", "{ document: its }").replaceAll("document.body", "its.body").replace("document.getEl", "its.getEl")}${TOLD}`;

/** A page without a bundler: the import map names the files as they lie in the packages. */
const mapped = () => `<!doctype html><meta charset=utf-8><script type=importmap>${JSON.stringify({
  imports: {
    huckleport: `/huckleport/${manifest.exports["."].default}`,
    "huckleport/page": `/huckleport/${manifest.exports["./page"].default}`,
    parse5: "/parse5/dist/index.js",
    "entities/lib/": "/entities/lib/esm/",
  },
})}</script><script type=module>${IN_PAGE}</script>`;

const BROWSERS = { Chromium: [missingChromium, Browser], Firefox: [missingFirefox, Firefox] };

for (const [name, [missing, Kind]] of Object.entries(BROWSERS)) {
  describe(`in ${name}`, { skip: missing() ?? withoutParser }, () => {
    let browser;
    before(async () => (browser = await Kind.open()));
    after(() => browser?.close());

    test("a page imports both by an import map, with no bundler", async () => {
      written("index.html", mapped());
      const server = await serve({ huckleport: PACKAGE, parse5, entities, page: folder });
      try {
        await browser.goTo(`${server.address}/page/index.html`);
        assert.equal(await browser.value("document.title"), DUE);
      } finally {
        await server.close();
      }
    });

    test("a page from disk has all in one file that a bundler made", { skip: hasBundler() ? false : "there is no esbuild" }, async () => {
      bundle(written("page.mjs", IN_PAGE), ["--format=iife", "--outfile=page.js"]);
      const file = written("bundled.html", "<!doctype html><meta charset=utf-8><body><script src=page.js></script>");
      await browser.goTo(`${pathToFileURL(file)}`);
      assert.equal(await browser.value("document.title"), DUE);
    });
  });
}

test("a process imports the package in at most 120 ms of its processor time", () => {
  const lines = 'const before = process.cpuUsage();\nawait import("huckleport");\nconst { user, system } = process.cpuUsage(before);\nconsole.log((user + system) / 1000);';
  const file = written("time.mjs", lines);
  const times = Array.from({ length: 5 }, () => Number(ran(file)));
  assert.ok(Math.min(...times) < 120, `${times}`);
});

test("the fields of package.json name what a registry shows, and files that are there", () => {
  for (const name of ["author", "homepage", "repository", "license", "description", "sideEffects"]) assert.ok(manifest[name], name);
  const paths = Object.values(manifest.exports).flatMap((it) => (typeof it === "string" ? [it] : Object.values(it)));
  assert.deepEqual(paths.filter((it) => !existsSync(join(PACKAGE, it))), []);
});

test("the package is loaded without waiting, so that require and service workers take it", async () => {
  const files = spawnSync("grep", ["-rlE", "^(?:const .*= )?await ", join(PACKAGE, "lib")], { encoding: "utf8" }).stdout;
  assert.equal(files, "");
});
