// Answers lines by a DOM of node: `node referee/players/node.js MODULE NAME`. `openerOf` has the exports that a module needs. Lines are read one by one,
// so that nothing runs in between. Each reply is written at once, so that a line without a reply is known.
"use strict";

const { readSync, writeSync } = require("fs");
const { pathToFileURL } = require("url");
const { answering } = require("./answers.js");

async function loaded(name) {
  try {
    return require(name);
  } catch (fault) {
    // (a node that reads modules by require has the second code for a module with a top-level await)
    if (!["ERR_REQUIRE_ESM", "ERR_REQUIRE_ASYNC_MODULE"].includes(fault.code)) throw fault;
    return import(pathToFileURL(require.resolve(name)));
  }
}

// Returns the maker of a module's windows, and its users' code for one. In that code MODULE is the module that `require` returns. The
// module's exports have a maker of windows or of documents, a window, or an object with a `document`.
function openerOf(found) {
  if (found.JSDOM) return [() => new found.JSDOM("").window, 'new (MODULE.JSDOM)("").window'];
  if (found.createWindow) return [() => found.createWindow(), "MODULE.createWindow()"];
  if (found.parseHTML) return [() => found.parseHTML("<html></html>"), 'MODULE.parseHTML("<html></html>")'];
  if (found.Window) return [() => new found.Window(), "new (MODULE.Window)()"];
  if (found.DOMImplementation) {
    const made = "{ document: new (MODULE.DOMImplementation)().createDocument(null, null) }";
    return [() => ({ document: new found.DOMImplementation().createDocument(null, null) }), made];
  }
  const window = found.window ?? found.document?.defaultView ?? found;
  if (!window.document?.implementation) throw new Error("the module gives no window, and nothing that makes one");
  const member = found.window ? ".window" : found.document?.defaultView ? ".document.defaultView" : "";
  return [() => window, `MODULE${member}`];
}

function versionOf(name) {
  try {
    return require(name + "/package.json").version;
  } catch {
    return "";
  }
}

const piece = Buffer.alloc(65536);

// Returns the next bytes of the input; none at its end.
function read() {
  try {
    return piece.subarray(0, readSync(0, piece));
  } catch (fault) {
    if (fault.code === "EOF") return piece.subarray(0, 0);
    throw fault;
  }
}

function write(reply) {
  for (let rest = Buffer.from(JSON.stringify(reply) + "\n"); rest.length; rest = rest.subarray(writeSync(1, rest)));
}

async function serve(answer) {
  let kept = Buffer.alloc(0);
  for (let bytes = read(); bytes.length; bytes = read()) {
    const whole = Buffer.concat([kept, bytes]);
    const end = whole.lastIndexOf(10) + 1;
    kept = Buffer.from(whole.subarray(end));
    for (const line of whole.subarray(0, end).toString().split("\n")) {
      if (!line) continue;
      const found = answer(line);
      write(found instanceof Promise ? await found : found);
    }
  }
}

async function main(module, name) {
  let answer;
  try {
    const [open, code] = openerOf(await loaded(module));
    const opened = code.replace("MODULE", `require(${JSON.stringify(module)})`);
    answer = answering(open, { name, version: versionOf(module), opened });
  } catch (fault) {
    answer = () => ({ error: fault.name, message: fault.message.split("\n")[0] });
  }
  await serve(answer);
}

main(process.argv[2], process.argv[3]);
