// Plays command lines in a session of their own, and asks for the session's state after each. Each reply is the core's; this file has no rules of commands.
import { Session } from "../../../lib/index.js";
import { tokenText } from "./token_text.js";

// What a question is answered that is about no object, or that is longer than the session's lines may be.
const NO_ANSWER = new Set(["no-such-object", "line-too-long"]);

// The longest question: a line limit below it leaves trees unseen.
const LONGEST_QUESTION = '["staticRange",4294967295]'.length;

const decoder = new TextDecoder();
const shown = (line) => (typeof line === "string" ? line : decoder.decode(line));

class Asking {
  constructor(options) {
    this.session = new Session(options);
    this.isSilent = options.line < LONGEST_QUESTION;
    this.known = { root: 0, range: 0, staticRange: 0, iterator: 0, walker: 0 };
  }

  // (the library ends a reply with a newline)
  reply(line) {
    return this.session.line(line).replace(/\n$/, "");
  }

  // The answer to a question, or undefined where there is none.
  ask(...question) {
    const told = JSON.parse(this.reply(JSON.stringify(question)));
    if (told.error && !NO_ANSWER.has(told.error)) throw new Error(`${JSON.stringify(question)} can't be asked here: ${told.error}`);
    return told.ok;
  }

  // The answers about each object of a kind, by its number; numbers that were given out once may be gone.
  allOf(question) {
    const found = [];
    let number = 0;
    for (let answer = this.ask(question, 0); answer !== undefined || number < this.known[question]; answer = this.ask(question, number)) {
      if (answer !== undefined) found.push([number, answer]);
      number += 1;
    }
    this.known[question] = number;
    return found;
  }

  // Returns the session's state.
  state() {
    const ranges = this.allOf("range");
    const roots = this.allOf("root").filter(([node, root]) => node === root).map(([node]) => node);
    const trees = roots.map((root) => ({ root, rows: this.ask("tree", root) }));
    return {
      isSilent: this.isSilent,
      trees: trees.map((it) => ({ ...it, tokens: tokenText(it.rows, ranges) })),
      ranges,
      staticRanges: this.allOf("staticRange"),
      iterators: this.allOf("iterator"),
      walkers: this.allOf("walker"),
    };
  }

  close() {
    this.session.close();
  }
}

// The records that wait for each observer after these lines: they are taken in a session of their own, since taking them is a change.
function waiting(lines, options) {
  const asking = new Asking(options);
  try {
    for (const line of lines) asking.reply(line);
    return recordsOf(asking);
  } finally {
    asking.close();
  }
}

function recordsOf(asking) {
  const found = [];
  for (let records = asking.ask("takeRecords", 0); records !== undefined; records = asking.ask("takeRecords", found.length)) found.push(records);
  return found;
}

// What each line leaves, the first entry being the session before any line.
export function play(lines, options = {}) {
  const asking = new Asking(options);
  try {
    const before = { line: null, reply: null, ...asking.state(), observers: [] };
    const after = lines.map((line) => ({ line: shown(line), reply: asking.reply(line), ...asking.state() }));
    return [before, ...after.map((step, at) => ({ ...step, observers: waiting(lines.slice(0, at + 1), options) }))];
  } finally {
    asking.close();
  }
}
