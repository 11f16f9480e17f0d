// Makes the page: one file, with all that it needs in it, so that it is opened from disk or from any host. It is bundled by esbuild.
import { spawnSync } from "node:child_process";
import { mkdirSync, readFileSync, writeFileSync } from "node:fs";
import { join } from "node:path";
import { fileURLToPath } from "node:url";

import { groups } from "./commands.js";
import { all } from "./dialogues.js";

const place = (path) => fileURLToPath(new URL(path, import.meta.url));
export const MODULE = place("../../out/huckleport.wasm");

export const hasBundler = () => spawnSync("esbuild", ["--version"]).status === 0;

// A script with all that it imports, as one text.
export function bundled(entry, words = []) {
  const ran = spawnSync("esbuild", [entry, "--bundle", "--format=esm", "--target=es2022", "--log-level=error", "--charset=utf8", ...words], { maxBuffer: 1 << 28 });
  if (ran.error) throw new Error("there is no esbuild here (Debian has a package of that name)");
  if (ran.status !== 0) throw new Error(`${ran.stderr}`);
  return `${ran.stdout}`;
}

// (within a script of a page no end tag may stand)
const inScript = (value) => JSON.stringify(value).replaceAll("<", "\\u003c");

// The script that hands the module and other values to a page.
export function given(values) {
  const bytes = readFileSync(MODULE).toString("base64");
  const lines = Object.entries(values).map(([name, value]) => `globalThis.${name} = ${inScript(value)};`);
  return [`globalThis.huckleportModule = Uint8Array.from(atob("${bytes}"), (it) => it.charCodeAt(0));`, ...lines].join("\n");
}

// The text of the page.
export function page() {
  const style = readFileSync(place("page/style.css"), "utf8");
  const script = bundled(place("page/page.js"));
  return readFileSync(place("page/index.html"), "utf8")
    .replace('<link rel="stylesheet" href="style.css">', () => `<style>\n${style}</style>`)
    .replace('<script type="module" src="page.js"></script>', () => `<script>\n${given({ dialogues: all(), groups: groups() })}\n</script>\n<script type="module">\n${script}</script>`);
}

// Writes the page into a folder, and returns its path.
export function make(folder) {
  mkdirSync(folder, { recursive: true });
  const file = join(folder, "index.html");
  writeFileSync(file, page());
  return file;
}
