// What runs in a page: tests of the package, each dialogue, and nodes that are made and dropped.
import { createDocument, memory, Session } from "../../lib/index.js";
import { linesOf } from "../../examples/playground/page/dialogues.js";
import { runAll } from "./test.js";

import "../interfaces.test.js";
import "../observers.test.js";
import "../faults.test.js";

const bytesOf = (text) => Uint8Array.from(atob(text), (it) => it.charCodeAt(0));

/** The names of the dialogues whose replies are not those of the program. */
function wrongDialogues() {
  const decoder = new TextDecoder();
  const isRight = ({ lines, options, replies }) => {
    const session = new Session(options);
    const said = linesOf(bytesOf(lines)).map((line) => session.line(line));
    session.close();
    return said.join("") === decoder.decode(bytesOf(replies));
  };
  return Object.entries(globalThis.dialogues).filter(([, it]) => !isRight(it)).map(([name]) => name);
}

const turn = () => new Promise((ready) => setTimeout(ready));

/** Returns the bytes that are held after each round. A round makes and drops `count` nodes. */
async function levels(rounds, count) {
  const document = createDocument();
  const found = [];
  for (let round = 0; round < rounds; round++) {
    for (let part = 0; part < 20; part++) {
      const root = document.createElement("ul");
      for (let at = 0; at < count / 40; at++) root.appendChild(document.createElement("li")).appendChild(document.createTextNode("some text"));
      await turn();
    }
    for (let at = 0; at < 4; at++) {
      globalThis.gc?.();
      await turn();
    }
    found.push(memory.held);
  }
  return found;
}

globalThis.runAll = runAll;
globalThis.wrongDialogues = wrongDialogues;
globalThis.levels = levels;
document.documentElement.dataset.ready = "true";
