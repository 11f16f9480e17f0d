// Runs blocks of a page, each by itself. In node it reads a JSON list of texts and prints a list of their outputs. A page calls `printed` itself.
"use strict";

// Returns the lines that a text prints, also those of its callbacks and timers.
async function printed(text, require) {
  const found = [];
  const log = (...told) => found.push(told.map(String).join(" "));
  try {
    new Function("require", "console", text)(require, { log });
    await new Promise((resolve) => setTimeout(resolve, 5));
  } catch (thrown) {
    log(thrown);
  }
  return found;
}

async function main() {
  const told = [];
  for (const text of JSON.parse(require("fs").readFileSync(0, "utf8"))) told.push(await printed(text, require));
  console.log(JSON.stringify(told));
  process.exit(0);
}

if (typeof module !== "undefined") main();
