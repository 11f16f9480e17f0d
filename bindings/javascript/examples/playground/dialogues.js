// The dialogues of the repository: their lines as bytes, and the options that the program has for them.
import { existsSync, readdirSync, readFileSync } from "node:fs";
import { fileURLToPath } from "node:url";
import { parseArgs } from "node:util";

import { linesOf } from "./page/dialogues.js";

export { linesOf };

const FOLDER = new URL("../../../../dialogues/", import.meta.url);
const NAME = /^[a-z_]+\/[a-z0-9_]+$/;

// The names, by their subjects.
export function names() {
  const folder = fileURLToPath(FOLDER);
  const subjects = readdirSync(folder, { withFileTypes: true }).filter((it) => it.isDirectory()).map((it) => it.name).sort();
  const of = (subject) => readdirSync(`${folder}/${subject}`).filter((it) => it.endsWith(".in")).map((it) => `${subject}/${it.slice(0, -3)}`);
  return subjects.flatMap((subject) => of(subject).sort());
}

function optionsOf(place) {
  if (!existsSync(place)) return {};
  const args = readFileSync(place, "utf8").split(/\s+/).filter(Boolean);
  const { values } = parseArgs({ args, options: { line: { type: "string" }, numbers: { type: "string" } } });
  return Object.fromEntries(Object.entries(values).map(([name, value]) => [name, Number(value)]));
}

const at = (name, end) => new URL(`${name}.${end}`, FOLDER);

// A dialogue by its name, or nothing where there is none.
export function dialogue(name) {
  if (!NAME.test(name) || !existsSync(at(name, "in"))) return undefined;
  return { lines: linesOf(readFileSync(at(name, "in"))), options: optionsOf(at(name, "opts")) };
}

// All dialogues by their names, as a page has them: the bytes of their lines in base64, and their options.
export function all() {
  return Object.fromEntries(names().map((name) => [name, { lines: readFileSync(at(name, "in")).toString("base64"), options: optionsOf(at(name, "opts")) }]));
}

// What the program answers to a dialogue, as bytes.
export const replies = (name) => readFileSync(at(name, "out"));

