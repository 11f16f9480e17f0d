// A line as the call that a program over the DOM makes: `text2.splitText(3)`. What a command is called there, where it is called otherwise than here.

const METHODS = {
  createText: "createTextNode", createPI: "createProcessingInstruction", createFragment: "createDocumentFragment", createDoctype: "implementation.createDocumentType",
  createIterator: "createNodeIterator", createWalker: "createTreeWalker", root: "getRootNode", isEqual: "isEqualNode", comparePosition: "compareDocumentPosition",
  attributeNames: "getAttributeNames", rangeText: "toString",
};

// Commands that read a property, and those that set one.
const READ = { children: "childNodes", data: "data", textContent: "textContent" };
const SET = { setData: "data", setTextContent: "textContent", setCurrent: "currentNode" };

// Of what kind the objects are that arguments and answers number; the rest are nodes.
const KINDS = { range: "range", static: "staticRange", iterator: "iterator", walker: "walker", observer: "observer" };
const MADE = { createRange: "range", cloneRange: "range", createIterator: "iterator", createWalker: "walker", createObserver: "observer" };
const IS_NODE = new Set(["node", "document", "parent", "child", "element", "root"]);
const MAKES_NODE = /^(?:create(?:Element|Text|Comment|PI|Doctype|Fragment)|importNode|cloneNode|splitText|extractContents|cloneContents|newDocument)$/;

const NODES = { 3: () => "text", 7: () => "instruction", 8: () => "comment", 9: () => "document", 10: () => "doctype", 11: () => "fragment" };

// The name of a node of a row: `p1`, `text2`; the first Document is `document`.
const nameOf = (number, kind, name) => (number === 0 ? "document" : `${NODES[kind]?.() ?? (/^\w+$/.test(name) ? name : "element")}${number}`);

// The names of all nodes that some trees have.
export function namesIn(trees) {
  return new Map(trees.flatMap(({ rows }) => rows).map(([, number, kind, name]) => [number, nameOf(number, kind, name)]));
}

const plain = (value) => (Array.isArray(value) ? `"${String.fromCharCode(...value)}"` : JSON.stringify(value));

function shown(names, role, value, command) {
  const word = role.replace("?", "");
  if (value === null || typeof value !== "number") return plain(value);
  if (KINDS[word]) return `${KINDS[word]}${value}`;
  const isNode = IS_NODE.has(word) || (word === "other" && !command.startsWith("compareBoundary"));
  if (isNode) return names.get(value) ?? `node${value}`;
  return word === "other" ? `range${value}` : String(value);
}

function answerOf(command, reply, names) {
  const { ok } = JSON.parse(reply);
  if (typeof ok !== "number") return "";
  if (MADE[command]) return `${MADE[command]}${ok} = `;
  return MAKES_NODE.test(command) ? `${names.get(ok) ?? `node${ok}`} = ` : "";
}

function written(command, [receiver, ...given]) {
  if (command === "newDocument") return "new Document()";
  if (command === "createObserver") return "new MutationObserver(callback)";
  if (command === "walk") return `${receiver}.${JSON.parse(given[0])}()`;
  if (SET[command]) return `${receiver}.${SET[command]} = ${given[0]}`;
  if (READ[command]) return `${receiver}.${READ[command]}`;
  return `${receiver}.${METHODS[command] ?? command}(${given.join(", ")})`;
}

// The call of a line, by the table of commands; nothing for a line that is none.
export function callOf({ line, reply, trees }, groups) {
  try {
    const [command, ...given] = JSON.parse(line);
    const found = Object.values(groups).flat().find((it) => it.split(" ")[0] === command);
    if (!found || reply.startsWith('{"error"')) return "";
    const names = namesIn(trees);
    const roles = found.split(" ").slice(1);
    return answerOf(command, reply, names) + written(command, given.map((value, at) => shown(names, roles[at] ?? "", value, command)));
  } catch {
    return "";
  }
}
