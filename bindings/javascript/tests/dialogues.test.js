// Each dialogue of the repository by lines, byte for byte.
import assert from "node:assert/strict";
import { existsSync, readdirSync, readFileSync } from "node:fs";
import test from "node:test";

import { Session } from "../lib/index.js";

const FOLDER = new URL("../../../dialogues/", import.meta.url);

function* dialogues() {
  for (const group of readdirSync(FOLDER).sort()) {
    for (const file of readdirSync(new URL(`${group}/`, FOLDER)).sort()) {
      if (file.endsWith(".in")) yield `${group}/${file.slice(0, -3)}`;
    }
  }
}

const content = (name) => readFileSync(new URL(name, FOLDER));

/** The limits that a dialogue's file of options gives, as --line 60 --numbers 5. */
function limits(name) {
  if (!existsSync(new URL(`${name}.opts`, FOLDER))) return {};
  const words = content(`${name}.opts`).toString().split(/\s+/).filter(Boolean);
  return Object.fromEntries(words.flatMap((word, at) => (word.startsWith("--") ? [[word.slice(2), Number(words[at + 1])]] : [])));
}

/** The lines as the program cuts them: a last piece that is not empty is a line too. */
function linesOf(bytes) {
  const lines = [];
  for (let from = 0; from < bytes.length; ) {
    const end = bytes.indexOf(10, from);
    lines.push(bytes.subarray(from, end < 0 ? bytes.length : end));
    from = end < 0 ? bytes.length : end + 1;
  }
  return lines;
}

test("the replies to each dialogue are those of the program, byte for byte", () => {
  let count = 0;
  for (const name of dialogues()) {
    const session = new Session(limits(name));
    const replies = linesOf(content(`${name}.in`)).map((line) => session.line(line));
    assert.equal(replies.join(""), content(`${name}.out`).toString(), name);
    assert.deepEqual(Buffer.from(replies.join("")), content(`${name}.out`), name);
    session.close();
    count++;
  }
  assert.ok(count > 80, `${count} dialogues`);
});
